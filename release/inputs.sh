# The inputs of `release/build`: what it checks before it makes anything.

# Stops unless the folder OUT is empty, or can be made.
need_out() {
    if [ -e "$1" ]; then
        [ -d "$1" ] && [ -w "$1" ] || fail "OUT is no folder that can be written: $1"
        [ -z "$(ls -A "$1")" ] || fail "OUT is not empty: $1"
        return
    fi
    parent=$(dirname -- "$1")
    while ! [ -e "$parent" ]; do parent=$(dirname -- "$parent"); done
    probe=$(mktemp -d "$parent/.release-XXXXXX" 2>/dev/null) && rmdir "$probe" ||
        fail "OUT is no folder that can be written: $1"
}

# Stops unless this file of this crate is proved, and of today's sources. COMMAND makes it.
need_proved() {
    crate=$1 made=$2 command=$3
    file=$top/crates/$crate/out/$made
    [ -f "$file" ] || fail "crates/$crate/out/$made is missing: release/prove makes it, by $command"
    [ -f "$file.proof" ] || fail "crates/$crate/out/$made has no record of its proof: release/prove makes it"
    [ "$(value_of sha256 "$file.proof")" = "$(sum_of "$file")" ] ||
        fail "crates/$crate/out/$made is not the file that release/prove recorded: run release/prove"
    set -- $(value_of sources "$file.proof")
    for source in $sources; do
        [ "$1" = "$(git -C "$top" rev-parse "HEAD:$source")" ] ||
            fail "crates/$crate/out/$made is older than $source: run release/prove"
        shift
    done
}

# Prints the value of a name in a record.
value_of() { sed -n "s/^$1: //p" "$2"; }

# Checks the repository and the proved build. Sets `commit`, `library`, `tool`, `lint`, `heap` and `calls`.
read_inputs() {
    commit=$(git -C "$top" rev-parse HEAD 2>/dev/null) || fail "there is no git repository at $top"
    need_proved sfv_c libsfv_c.a '`rt lib`'
    need_proved sfv_tool sfv_tool.o '`rt run`'
    need_proved sfv_lint sfv_lint.o '`rt run`'
    need_committed .
    library=$top/crates/sfv_c/out/libsfv_c.a tool=$top/crates/sfv_tool/out/sfv_tool.o
    lint=$top/crates/sfv_lint/out/sfv_lint.o
    kit=${SFV_KIT:-}
    [ -n "$kit" ] || ! command -v rt >/dev/null || kit=$(dirname "$(rt doc)")
    heap=$kit/c/liblibc_c.a calls=$kit/c/libos_c.a
    [ -f "$heap" ] && [ -f "$calls" ] || fail "the kit's c/liblibc_c.a or c/libos_c.a is missing: SFV_KIT names the kit's folder"
    includes=$("$PYTHON" -c 'import sysconfig; print(sysconfig.get_path("include"))') && [ -f "$includes/Python.h" ] ||
        fail "Python.h of $PYTHON is missing"
}
