#!/bin/sh
# Checks that each must-fail edit that WRONG_BODIES.md names exists: in its table, each code with a slash is CRATE/EDIT.
# Prints the edits that do not exist; then the status is 1.
cd "$(dirname "$0")/.." || exit 2
failed=0
named=$(sed -n '/^|/p' docs/WRONG_BODIES.md | grep -oE '`[^`/]*/[^`]*`' | sed -E 's/^`([^/]*)\/(.*)`$/\1\/must-fail\/\2.edit/')
[ -n "$named" ] || { echo "docs/WRONG_BODIES.md names no edit"; exit 1; }
for edit in $named; do
    [ -f "crates/$edit" ] || { echo "docs/WRONG_BODIES.md: no file crates/$edit"; failed=1; }
done
exit "$failed"
