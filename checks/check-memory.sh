#!/bin/sh
# Usage: checks/check-memory.sh
# Makes the calls of `sfv_memory` once for each memory request that they make, and fails this request. Prints for each
# call how many of its requests make it run out of memory, and how many requests the calls can do without. The status
# is 1 if a call answers otherwise, faults or hangs, or if the calls make more requests than they need today. It is 2 if
# the program does not run. It needs `rt`, but no C compiler.
cd "$(dirname "$0")/../crates/sfv_memory" || exit 2
if ! command -v rt >/dev/null; then
    echo 'check-memory: there is no rt' >&2
    exit 2
fi
room=$(mktemp -d) || exit 2
trap 'rm -rf "$room"' EXIT
trap 'exit 2' HUP INT TERM

# The program is compiled once. Each case is a run of it: its standard input is the number of the request that fails.
# The last case has to be one in which no request of a call fails.
most=600
mkdir "$room/cases"
for request in $(seq 1 "$most"); do
    printf '%s' "$request" >"$room/cases/$request"
done
rt try --steps 1 --fail-alloc 1000 --cases "$room/cases" </dev/null >"$room/log" 2>&1

# `rt try` prints for each case the program's line, and then how the run ended.
# `needed` and `spared` are the numbers of requests today, and of those that the calls can do without. More of them are a
# needless request in some call.
awk -v most="$most" -v needed=510 -v spared=25 '
    { lines = lines $0 "\n" }
    / is out of memory$/ { answer = "call " $2 }
    / made nevertheless$/ { answer = "usual" }
    /^[0-9]+ made$/ { answer = "no failure"; calls = $1 }
    /^case=/ {
        request = substr($1, 6)
        answers[request] = $2 " " $3 == "run=ended status=0" ? answer : ""
        texts[request] = lines
        answer = lines = ""
        cases++
    }
    END {
        if (!cases) {
            printf "%s", lines
            exit 2
        }
        for (request = 1; request <= most && answers[request] != "no failure"; request++) {
            if (answers[request] == "") {
                printf "where request %d fails, a call answers otherwise, faults or hangs:\n%s", request, texts[request]
                failed = 1
            }
            count[answers[request]]++
        }
        if (request > most) {
            print "the calls make more requests than there are cases"
            exit 1
        }
        for (call = 0; call < calls; call++)
            print "call " call ": " count["call " call] + 0
        print calls " calls make " request - 1 " requests, and can do without " count["usual"] + 0 " of them"
        if (request - 1 > needed || count["usual"] > spared) {
            print "these are more than " needed " requests, or more than " spared " of the latter"
            failed = 1
        }
        exit failed
    }' "$room/log"
