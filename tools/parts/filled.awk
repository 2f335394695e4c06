# A document with its tables of crates made anew. Such a table begins with a line `**CRATE**|HEAD`, the crate between backquotes, and ends before an empty
# line; of each crate that has a line `**CRATE**|` in it there stands what the file MADE/CRATE says, whose first line is that one.
# Ends with status 1, and says so, where a crate of ALL stands in no table.
function fill(crate,    file, line) {
    file = made "/" crate
    while ((getline line < file) > 0) {
        if (starts) line = line head "\n---|---"
        starts = 0
        print line
    }
    close(file)
    delete missing[crate]
}
BEGIN { n = split(all, list, " "); for (k = 1; k <= n; k++) missing[list[k]] = 1 }
/^$/ { inside = 0 }
/^\*\*`[a-z_0-9]+`\*\*\|/ {
    if (!inside) starts = 1
    inside = 1
    split($0, cells, "`")
    fill(cells[2])
}
!inside { print }
END { for (crate in missing) { print FILENAME ": no table has " crate > "/dev/stderr"; status = 1 } exit status }
