#!/bin/sh
# Usage: checks/check-release.sh
# Checks that header, packages, pages and CHANGELOG.md have the version of release/version. Then makes a release in a copy of
# the repository, over stand-ins for the proved build: twice, with the same bytes, and once for each bad input, which gives
# one line and leaves nothing. Prints each check that fails, and then the status is 1. It needs no `rt`, and takes seconds.
cd "$(dirname "$0")/.." || exit 2
room=$(mktemp -d) || exit 2
trap 'rm -rf "$room"' EXIT
trap 'exit 2' HUP INT TERM
failed=0
wrong() {
    echo "check-release: $1"
    failed=1
}

version=$(cat release/version)
upstream=${version%-*} number=${version##*-}

# Checks that this command prints this text.
is() {
    expected=$1
    shift
    found=$("$@" 2>&1) && [ "$found" = "$expected" ] || wrong "$*: \"$found\", not \"$expected\""
}

is "$upstream" sed -n 's/^#define SFV_VERSION "\(.*\)"$/\1/p' include/sfv.h
is "$(echo "$upstream" | tr . '\n')" sed -n 's/^#define SFV_VERSION_[MP][A-Z]* //p' include/sfv.h
is "$upstream.post$number" sed -n 's/^__version__ = "\(.*\)"$/\1/p' bindings/python/sfv/__init__.py
is "$upstream+$number" sed -n 's/^version = "\(.*\)"$/\1/p' bindings/rust/Cargo.toml
is "$version" sh -c "sed -n 's/^## //p' CHANGELOG.md | head -n 1"
[ -n "$(sed "1,/^## /d; /^## /,\$d" CHANGELOG.md | grep '^- ')" ] || wrong "CHANGELOG.md has no change for $version"
grep -ho '0\.16\.0[-+.][a-z]*[0-9][0-9]*' README.md docs/*.md bindings/*/README.md | sort -u >"$room/names"
printf '%s\n' "$version" "$upstream+$number" "$upstream.post$number" | sort | comm -13 - "$room/names" >"$room/other"
[ ! -s "$room/other" ] || wrong "the pages name other releases: $(tr '\n' ' ' <"$room/other")"
for program in sfv_tool sfv_lint; do
    ! command -v groff >/dev/null || is "" groff -man -ww -z -Tutf8 "release/$program.1"
done

# Makes the copy of the repository, and stand-ins: a library whose calls do nothing, two programs, and the kit's archives.
make_copy() {
    copy=$room/copy
    mkdir "$copy" "$room/kit" "$room/kit/c" && git ls-files -z | tar -c --null -T - | tar -x -C "$copy" || return 1
    (cd "$copy" && git init -q . && git config user.name check && git config user.email check@localhost && git add -A -f &&
        git commit -qm copy) || return 1
    mkdir -p "$copy/crates/sfv_c/out" "$copy/crates/sfv_tool/out" "$copy/crates/sfv_lint/out"
    {
        echo '#include <stddef.h>'
        echo '#include <stdint.h>'
        echo 'typedef struct { uint32_t status, kind; size_t index, length, rows; } sfv_answer;'
        sed -n 's/^\(sfv_answer\|uint32_t\) \(sfv_c_[a-z_]*\)(.*/\1 \2(void);\n\1 \2(void) { static \1 none; return none; }/p' \
            include/sfv.h
    } >"$room/library.c"
    echo '#include <stdio.h>
int main(void) { return puts("a=3, b=2") < 0; }' >"$room/tool.c"
    echo '#include <stdio.h>
int main(void) { return puts("Priority: ok  u=1") < 0; }' >"$room/lint.c"
    echo 'int rattle_alloc(void); int rattle_alloc(void) { return 0; }' >"$room/heap.c"
    for name in library tool lint heap; do cc -O1 -fPIC -c "$room/$name.c" -o "$room/$name.o" || return 1; done
    ar rcD "$copy/crates/sfv_c/out/libsfv_c.a" "$room/library.o" && cp "$room/tool.o" "$copy/crates/sfv_tool/out/sfv_tool.o" &&
        cp "$room/lint.o" "$copy/crates/sfv_lint/out/sfv_lint.o" &&
        ar rcD "$room/kit/c/liblibc_c.a" "$room/heap.o" && ar rcD "$room/kit/c/libos_c.a" || return 1
    record sfv_c/out/libsfv_c.a && record sfv_tool/out/sfv_tool.o && record sfv_lint/out/sfv_lint.o
}

# Writes the record of a stand-in, as release/prove does.
record() {
    {
        echo "sources: $(cd "$copy" && git rev-parse HEAD:crates HEAD:crates.txt HEAD:HANDLES | tr '\n' ' ' | sed 's/ $//')"
        echo "kit: none"
        echo "sha256: $(sha256sum <"$copy/crates/$1" | cut -d' ' -f1)"
        echo "proof: a stand-in"
    } >"$copy/crates/$1.proof"
}

build() { SFV_KIT="$room/kit" TMPDIR="$room/tmp" "$copy/release/build" "$@"; }

# Checks that a release with these arguments fails with one line that has this text, and leaves nothing.
fails() {
    text=$1
    shift
    build "$@" >"$room/said" 2>"$room/error" && wrong "a release is made: $text"
    [ "$(wc -l <"$room/error")" = 1 ] && grep -qF -- "$text" "$room/error" && ! [ -s "$room/said" ] || {
        wrong "another message than \"$text\":"
        cat "$room/said" "$room/error"
    }
    [ -z "$(ls -A "$room/tmp")" ] && ! [ -e "$room/out" ] || wrong "something is left: $text"
}

# What each artefact is called.
check_names() {
    cat >"$room/expected" <<END
BUILD
SHA256SUMS
libsfv-dev_${version}_amd64.deb
libsfv1_${version}_amd64.deb
sfv-$version-linux-x86_64.tar.gz
sfv-proved-$upstream+$number.crate
sfv_proved-$upstream.post$number-cp39-abi3-manylinux_2_17_x86_64.manylinux2014_x86_64.whl
END
    ls "$room/first" | sort | cmp -s - "$room/expected" || wrong "other artefacts: $(ls "$room/first" | tr '\n' ' ')"
}

# Whether an artefact contains a path of this machine.
check_paths() {
    mkdir "$room/unpacked" && cd "$room/unpacked" || exit 2
    for artefact in "$room"/first/*.tar.gz "$room"/first/*.crate; do tar -xzf "$artefact" || wrong "$artefact"; done
    for artefact in "$room"/first/*.whl; do python3 -m zipfile -e "$artefact" wheel || wrong "$artefact"; done
    for artefact in "$room"/first/*.deb; do dpkg-deb -R "$artefact" "$(basename "$artefact")" || wrong "$artefact"; done
    ! grep -rlF -e "$room" -e "$HOME/" . || wrong "artefacts contain paths of this machine"
    for file in wheel/sfv_proved-*.dist-info sfv-*-linux-x86_64 sfv-proved-* lib*/usr/share/doc/*/; do
        [ -s "$file/BUILD" ] || [ "$file" = libsfv-dev_*/usr/share/doc/sfv/ ] || wrong "$file has no BUILD"
    done
    cd - >/dev/null
}

# Whether the tarball has each program, which runs, with its manual page of this version, and BUILD names its object.
check_programs() {
    folder=$room/unpacked/sfv-$version-linux-x86_64
    is "$(printf 'sfv_lint\nsfv_tool')" ls "$folder/bin"
    is "$(printf 'sfv_lint.1.gz\nsfv_tool.1.gz')" ls "$folder/share/man/man1"
    is "a=3, b=2" "$folder/bin/sfv_tool"
    is "Priority: ok  u=1" "$folder/bin/sfv_lint"
    for program in sfv_tool sfv_lint; do
        name=$(echo "$program" | tr a-z A-Z)
        is ".TH $name 1 \"\" \"sfv $version\" \"User Commands\"" sh -c "gzip -dc '$folder/share/man/man1/$program.1.gz' | head -n 1"
        is 1 grep -c "^sha256 of $program.o: $(sha256sum <"$copy/crates/$program/out/$program.o" | cut -d' ' -f1)\$" "$folder/BUILD"
    done
}

check_bad_input() {
    library=$copy/crates/sfv_c/out/libsfv_c.a tool=$copy/crates/sfv_tool/out/sfv_tool.o lint=$copy/crates/sfv_lint/out/sfv_lint.o
    for file in "$library" "$tool" "$lint"; do
        mv "$file" "$room/kept" && fails "${file#"$copy"/} is missing" "$room/out"
        mv "$room/kept" "$file"
        mv "$file.proof" "$room/kept" && fails "${file#"$copy"/} has no record" "$room/out"
        mv "$room/kept" "$file.proof"
    done
    cp "$library" "$room/kept" && ar rcD "$library" "$room/tool.o"
    fails "is not the file that release/prove recorded" "$room/out"
    cp "$room/kept" "$library"
    cp "$lint" "$room/kept" && cp "$room/tool.o" "$lint"
    fails "sfv_lint.o is not the file that release/prove recorded" "$room/out"
    record sfv_lint/out/sfv_lint.o
    fails "the static sfv_lint does not run" "$room/out"
    cp "$room/kept" "$lint" && record sfv_lint/out/sfv_lint.o
    echo "# changed" >>"$copy/crates.txt"
    fails "crates.txt is not committed" "$room/out"
    (cd "$copy" && git commit -qam changed)
    fails "libsfv_c.a is older than crates.txt" "$room/out"
    (cd "$copy" && git reset -q --hard HEAD~1 && echo "// changed" >>crates/sfv_tool/src/main.rt && git commit -qam changed)
    fails "libsfv_c.a is older than crates" "$room/out"
    (cd "$copy" && git reset -q --hard HEAD~1)
    : >"$room/file"
    fails "OUT is no folder that can be written" "$room/file"
    fails "OUT is no folder that can be written" "$room/file/out"
    fails "OUT is no folder that can be written" /proc/none/out
    fails "OUT is not empty" "$room/first"
    CC=none fails "none is missing" "$room/out"
    mkdir "$room/parent" && CC=none fails "none is missing" "$room/parent/a/b"
    [ -z "$(ls -A "$room/parent")" ] || wrong "a folder is left above OUT"
    CC=false fails "" "$room/out"
    mv "$room/kit/c" "$room/kit/d" && fails "SFV_KIT names the kit's folder" "$room/out"
    mv "$room/kit/d" "$room/kit/c"
}

missing=
for tool in git cc ld ar objcopy objdump strip tar gzip xz dpkg-deb python3; do
    command -v "$tool" >/dev/null || missing="$missing $tool"
done
[ -f "$(python3 -c 'import sysconfig; print(sysconfig.get_path("include"))')/Python.h" ] || missing="$missing Python.h"
if [ "$missing" ]; then
    echo "check-release: no release is made, since these are missing:$missing"
elif ! { mkdir "$room/tmp" && make_copy; }; then
    wrong "the stand-ins are not made"
else
    build "$room/first" >"$room/said" 2>&1 || { wrong "release/build fails"; cat "$room/said"; }
    (umask 077 && cd / && build "$room/second") >/dev/null 2>&1
    diff -r "$room/first" "$room/second" || wrong "two runs differ"
    (cd "$room/first" && sha256sum --quiet -c SHA256SUMS && [ "$(ls | grep -vx SHA256SUMS | sort)" = "$(cut -c67- SHA256SUMS | sort)" ]) ||
        wrong "SHA256SUMS is wrong, or lacks an artefact"
    check_names
    check_paths
    check_programs
    check_bad_input
fi
exit "$failed"
