#!/bin/sh
# Usage: checks/check-own-repository.sh [FOLDER]
# Creates a repository that uses the library, and checks its crate, the smallest field crate. The nine crates of the
# library are copied without their must-fail edits, with their lines of `crates.txt`. The repository stays in FOLDER,
# which must be absent or empty. Without FOLDER it is in a temporary folder, and removed.
#
# The `out/` folders, where `rt check` keeps its results, are copied too. With them the check takes a minute or two, and
# without them as long as all proofs of the library.
case $# in
0)
    folder=$(mktemp -d) || exit 2
    trap 'rm -rf "$folder"' EXIT
    ;;
1)
    mkdir -p -- "$1" && folder=$(CDPATH='' cd -- "$1" && pwd) || exit 2
    if [ -n "$(ls -A "$folder")" ]; then
        echo "check-own-repository.sh: $1 is not empty" >&2
        exit 2
    fi
    ;;
*)
    echo 'usage: check-own-repository.sh [FOLDER]' >&2
    exit 2
    ;;
esac
cd "$(dirname "$0")/.." || exit 2

for crate in sfv_spec sfv_model sfv_base sfv_values sfv_tree sfv_writer sfv_serializer sfv sfv_readers \
    sfv_first_field; do
    mkdir -p "$folder/crates/$crate" || exit 2
    for part in src specs proofs out; do
        [ ! -d "crates/$crate/$part" ] || cp -a "crates/$crate/$part" "$folder/crates/$crate/" || exit 2
    done
    grep "^$crate:" crates.txt >>"$folder/crates.txt" || exit 2
done
cp HANDLES .gitignore "$folder/" || exit 2
(cd "$folder" && git init -q .) || exit 2

log=$(mktemp) || exit 2
(cd "$folder/crates/sfv_first_field" && rt check) >"$log" 2>&1
status=$?
tail -n 1 "$log"
grep -q '^logic=proved ' "$log" || status=1
rm -f "$log"
exit "$status"
