#!/bin/sh
# Whether CALLING.md, FIELDS.md and the README show the code as it stands. Before each block of its code stands the file that it is taken from,
# alone between backticks; prints each block that isn't in its file line by line, and then the status is 1.
cd "$(dirname "$0")/.." || exit 2

for page in docs/CALLING.md docs/FIELDS.md README.md; do
    awk '
    function fails(what) { print "'$page':" NR ": " what; failed = 1 }
    function whole(file,    line, text) {
        while ((getline line <file) > 0) text = text line "\n"
        close(file)
        return text
    }
    /^`crates\/.*`:?$/ { file = $0; gsub(/[`:]/, "", file); next }
    /^```(rust|antt)$/ { if (file == "") fails("a block without a file"); block = ""; inside = 1; next }
    inside && /^```$/ {
        inside = 0; blocks++
        if (index(whole(file), block) == 0) fails("not in " file)
        file = ""; next
    }
    inside { block = block $0 "\n" }
    END { if (!blocks) { print "'$page' has no block"; failed = 1 } exit failed }
' "$page" || failed=1
done
exit "${failed:-0}"
