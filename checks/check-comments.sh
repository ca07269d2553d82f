#!/bin/sh
# Prints each definition in specs without a comment, as FILE:LINE: NAME. If there is one, the status is 1.
#
# A comment is directly above its definition, or directly above the first of neighbouring definitions without a blank line
# between them. The check covers all definitions of sfv_spec, and the public ones of the other crates of the library.
cd "$(dirname "$0")/.." || exit 2

folders=
for crate in sfv_spec sfv_base sfv_values sfv_tree sfv_writer sfv_serializer sfv sfv_readers; do
    [ -d "crates/$crate/specs" ] || { echo "no crates/$crate/specs" >&2; exit 2; }
    folders="$folders crates/$crate/specs"
done

files=$(find $folders -name '*.antt' ! -path '*/specs/declared/*' | sort)
awk '
    FNR == 1 || /^[ \t]*$/ { commented = 0; level = -1 }
    { match($0, /^ */); indent = RLENGTH }
    # A comment that is indented more than the definition before it is about a part of that definition.
    /^ *--/ { if (level < 0 || indent <= level) commented = 1; next }
    /^ *(pub |unfoldable )*(use|mod|module) / { commented = 0; level = -1; next }
    /^ *((abbrev|unfoldable)( pub)?|(pub )?(record|data)) [^ ={]/ {
        if (level >= 0 && indent > level) next
        for (i = 1; $i ~ /^(abbrev|unfoldable|pub|record|data)$/; i++) { }
        level = indent
        public = / pub / || /^ *pub /
        if (!commented && (public || FILENAME ~ /sfv_spec/)) { print FILENAME ":" FNR ": " $i; failed = 1 }
    }
    END { exit failed }
' $files </dev/null
