# A crate's contracts, from its sources, lib.rt first: a line for each function that is handed on and has clauses with a name, one for each type with such
# methods, and one for the functions that have none; the crate's own line comes first. Where nothing of a crate, or of a type, has any its line says so, and so
# does a crate's where each has some and none of them has a name. With `list` set a line `CRATE|NAME|CLAUSES` for each of them.
function named(text) { sub(/^ *(pub )?(const )?[a-z]+ /, "", text); sub(/[^A-Za-z0-9_].*/, "", text); return text }
function joined(list, more) { return list == "" ? more : more == "" ? list : list ", " more }
# a method stands with its type
function owned(which) { if (!(which in of)) { of[which] = ""; owners[++owner_count] = which } }
function add(which) { name = which; count++; names[count] = which; traits[count] = which !~ /::/ && is_trait }

FNR == 1 { owner = ""; name = "" }

/^ *#\[/ { next }

# what lib.rt hands on
FNR == NR && /^pub use / { handing = 1 }
handing {
    line = $0
    sub(/^pub use /, "", line)
    gsub(/[^A-Za-z0-9_]+/, " ", line)
    n = split(line, words, " ")
    for (k = 1; k <= n; k++) handed[words[k]] = 1
    if (/;/) handing = 0
    next
}

/^}/ { owner = ""; is_trait = 0 }
/^impl/ {
    is_bare = / for /
    owner = $0
    sub(/ *\{.*/, "", owner)
    sub(/^impl(<[^>]*>)? */, "", owner)
    kind = owner
    sub(/^.* for /, "", owner)
    sub(/[< ].*/, "", owner)
    sub(/( for |<).*/, "", kind)
    if (is_bare && owner in handed && kind !~ /^(From|Model|fmt::Display)$/) {
        if (!(kind in kept)) kinds[++kind_count] = kind
        kept[kind] = joined(kept[kind], "`" owner "`")
    }
}
/^pub trait / { owner = named($0); is_trait = 1; if (owner in handed) add(owner) }
/^(    )?(pub(\(crate\))? )?(const )?fn / {
    is_open = /^pub (const )?fn / ? (named($0) in handed) : (/^    pub (const )?fn / || (is_trait && /^    fn /)) && (owner in handed)
    name = ""
    if (is_open) add((/^ / ? owner "::" : "") named($0))
    inside = 1
}
/^(    )?\{/ { inside = 0 }
inside && name != "" && /^ +(requires|ensures)[ {]/ {
    line = $0
    sub(/^ *(requires|ensures) */, "", line)
    clause = match(line, /^[a-z_0-9]+ \{/) ? substr(line, 1, RLENGTH - 2) : ""
    if ($1 == "ensures") {
        has[count] = 1
        if (clause != "") clauses[count] = joined(clauses[count], clause)
    } else {
        needs[count] = needs[count] == "" ? "requires" : needs[count]
        if (clause != "") needs[count] = needs[count] == "requires" ? "requires " clause : needs[count] ", " clause
    }
}
END {
    none = !kind_count
    for (k = 1; k <= count; k++) {
        if (has[k]) none = 0
        if (needs[k] != "") clauses[k] = clauses[k] == "" ? needs[k] : needs[k] "; " clauses[k]
        if (list) { print crate "|" names[k] "|" clauses[k]; continue }
        if (traits[k]) owned(names[k])
        else if (split(names[k], parts, "::") == 2) {
            owned(parts[1])
            which = "`" parts[2] "`"
            if (has[k]) told[parts[1]] = 1
            if (!has[k]) bare[parts[1]] = joined(bare[parts[1]], which)
            else if (clauses[k] != "") of[parts[1]] = joined(of[parts[1]], which " (" clauses[k] ")")
        }
        else if (!has[k]) safe = joined(safe, "`" names[k] "`")
        else if (clauses[k] != "") rows = rows sprintf("`%s`|%s\n", names[k], clauses[k] ~ /^requires[^;]*$/ ? joined(clauses[k], "result") : clauses[k])
    }
    if (list) exit
    for (k = 1; k <= owner_count; k++) {
        which = owners[k]
        text = of[which]
        if (bare[which] != "") text = (text == "" ? "" : text "; ") (which in told ? "safe: " bare[which] : "safe")
        if (which in kept) text = (text == "" ? "" : text "; ") "for " kept[which]
        if (text != "") rows = rows sprintf("`%s`|%s\n", which, text)
        delete kept[which]
    }
    for (k = 1; k <= kind_count; k++) if (kinds[k] in kept) rows = rows sprintf("`%s`|for %s\n", kinds[k], kept[kinds[k]])
    if (safe != "") rows = rows safe "|safe\n"
    if (none || rows == "") { printf "**`%s`**|%s\n", crate, none ? "safe" : "each without a name"; exit }
    printf "**`%s`**|\n%s", crate, rows
}
