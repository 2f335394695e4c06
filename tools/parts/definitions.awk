# A line for a file of definitions: its name, and the first part of its first comment (with part.awk).
FNR == 1 && !/^-- / { print FILENAME ": has no comment first" > "/dev/stderr"; exit }
!/^-- / { exit }
{ sub(/^-- /, ""); text = text == "" ? $0 : text " " $0 }
END { sub(/^crates\//, "", FILENAME); printf "`%s`|%s\n", FILENAME, part(text) }
