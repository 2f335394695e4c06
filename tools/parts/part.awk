# The beginning of a comment, for tables: its first sentence, and of a long one the first part.
function sentence(text) { return match(text, /\. [A-Z`(0-9]/) ? substr(text, 1, RSTART) : text }
# the first part alone of a long one, cut at a comma or the like; two points say that there is more
function part(text,    front, from) {
    text = sentence(text)
    sub(/\.$/, "", text)
    for (from = 24; length(text) > 52 && match(substr(text, from), /[:;,] | (where|as long as|so that) /); from += RSTART) {
        front = substr(text, 1, from + RSTART - 2)
        if (front !~ /( exactly| is| of| as)$/ && gsub(/\(/, "(", front) <= gsub(/\)/, ")", front)) return front " .."
    }
    return text
}
