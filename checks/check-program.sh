#!/bin/sh
# Usage: checks/check-program.sh
# Runs sfv_tool with right and wrong arguments, and where the first allocation fails. Prints each run whose output or
# status is another one, and then the status is 1. It is 2 if the program does not run. It needs `rt`, but no C compiler.
cd "$(dirname "$0")/.." || exit 2
room=$(mktemp -d) || exit 2
trap 'rm -rf "$room"' EXIT
trap 'exit 2' HUP INT TERM

# The script takes the proved build if it is current, and otherwise makes one that is not proved. It does not pass wrong
# arguments to the program, so the build itself is run.
printf '1\n' | ./sfv_tool item 9651 >"$room/out" 2>"$room/err" || { cat "$room/err"; exit 2; }
program=out/sfv_tool
[ -x "$program" ] && ! [ crates/sfv_tool/out/sfv_tool -nt "$program" ] || program=crates/sfv_tool/out/sfv_tool

# Runs the program with this input. It has this status, and writes this text and this error.
runs() {
    input=$1 status=$2 text=$3 error=$4
    shift 4
    printf "$input" | "$program" "$@" >"$room/out" 2>"$room/err"
    found=$?
    printf "$text" >"$room/wanted-out"
    printf "$error" >"$room/wanted-err"
    if [ "$found" != "$status" ] || ! cmp -s "$room/out" "$room/wanted-out" || ! cmp -s "$room/err" "$room/wanted-err"; then
        echo "check-program: sfv_tool $* ends with status $found, and writes:"
        cat "$room/out" "$room/err"
        failed=1
    fi
}

usage='usage: sfv_tool item|list|dict 8941|9651 [8941|9651] | priority 8941|9651\n'
runs '007.50;a=?1\n' 0 '7.5;a\n' '' item 9651
runs 'a=1;x, b=2, a=3\n' 0 'a=3, b=2\n' '' dict 9651
runs '1, (2 3)\n' 0 '1, (2 3)\n' '' list 8941 9651
runs 'u=1, i, u=2\n' 0 'u=2, i\n' '' priority 9651
runs 'a,\n' 1 '' 'error: trailing comma at index 1\n' list 9651
runs '@1\n' 1 '' 'error: RFC 8941 does not support dates\n' item 9651 8941
runs '1\n' 2 '' "$usage"
runs '1\n' 2 '' "$usage" item
runs '1\n' 2 '' "$usage" item 9651 9651 9651
runs '1\n' 2 '' "$usage" item '' 9651
runs '1\n' 2 '' "$usage" '' item 9651
runs '1\n' 2 '' "$usage" priority 9651 9651
runs '1\n' 2 '' "$usage" item "$(printf '9651\377')"
runs '1\n' 2 '' "$usage" item 9651 "$(printf '\377')"

(cd crates/sfv_tool && rt try --fail-alloc 1 -- item 9651 </dev/null) >"$room/out" 2>"$room/err"
found=$?
if [ "$found" != 1 ] || ! grep -q '^error: out of memory$' "$room/err"; then
    echo "check-program: where the first allocation fails, sfv_tool ends with status $found, and writes:"
    cat "$room/out" "$room/err"
    failed=1
fi
exit "${failed:-0}"
