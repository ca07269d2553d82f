# The libraries, the programs, BUILD and the tarball.

# Installs the libraries for the tarball into $room/install, by include/install.sh.
make_libraries() {
    SFV_LIBRARY=$library SFV_HEAP=$heap DESTDIR=$room/install PC_PREFIX='${pcfiledir}/../..' "$top/include/install.sh" / \
        >"$room/log" 2>&1 || { cat "$room/log" >&2; fail "include/install.sh fails"; }
    shared=$room/install/lib/libsfv.so.$abi
    needs_glibc "$shared"
}

# Stops if a file needs a newer glibc than that of manylinux2014.
needs_glibc() {
    newest=$(objdump -T "$1" | grep -o 'GLIBC_[0-9.]*' | sort -t_ -k2 -V | tail -n 1)
    [ "$(printf '%s\nGLIBC_2.17\n' "$newest" | sort -t_ -k2 -V | tail -n 1)" = GLIBC_2.17 ] ||
        fail "$(basename "$1") needs $newest, and manylinux2014 has GLIBC_2.17"
}

# Links this program of this object statically, so it runs with any C library.
link_program() {
    "$CC" -static -Wl,-z,relro -Wl,-z,now -Wl,-z,noexecstack "$2" "$calls" "$heap" -o "$room/$1" 2>"$room/log" ||
        { cat "$room/log" >&2; fail "$CC links no static program"; }
    strip "$room/$1"
}

# Stops unless this program with the other arguments prints this text for this input.
need_output() {
    program=$1 input=$2 text=$3
    shift 3
    printf '%s\n' "$input" | "$room/$program" "$@" >"$room/log" 2>&1 && [ "$(cat "$room/log")" = "$text" ] ||
        fail "the static $program does not run"
}

make_programs() {
    link_program sfv_tool "$tool"
    need_output sfv_tool 'a=1;x, b=2, a=3' 'a=3, b=2' dict 9651
    link_program sfv_lint "$lint"
    need_output sfv_lint 'u=1' 'Priority: ok  u=1' --field Priority
}

# Prints what a user can check of this build.
make_build_file() {
    {
        echo "sfv $version"
        echo "commit: $commit"
        echo "kit: $(value_of kit "$library.proof")"
        grep -h '^proof: ' "$library.proof" "$tool.proof" "$lint.proof" | sort -u
        echo "sha256 of libsfv_c.a: $(sum_of "$library")"
        echo "sha256 of sfv_tool.o: $(sum_of "$tool")"
        echo "sha256 of sfv_lint.o: $(sum_of "$lint")"
        echo "C compiler: $("$CC" --version | head -n 1)"
        echo "processor: x86-64-v2"
        echo "glibc: 2.17 for the libraries and the wheel, none for the programs"
        echo "not proved: the definitions, the kit's compiler and its functions over malloc and the system, include/seed.c,"
        echo "not proved: include/processor.c, the inline functions of sfv.h, the bindings, the C compiler and the linker"
        grep -h '^piece: ' "$library.proof" "$tool.proof" "$lint.proof" | sort -u
        echo "piece: functions over malloc and the system (c/liblibc_c.a, c/libos_c.a): no licence in the kit"
        echo "piece: glibc, in bin/sfv_tool and bin/sfv_lint: LGPL-2.1-or-later"
    } >"$room/BUILD"
}

# Packs the folder NAME of $room, with the same bytes each time, to FILE.
pack() {
    tar -C "$room" --sort=name --owner=0 --group=0 --numeric-owner --mtime="@$SOURCE_DATE_EPOCH" --format=gnu -cf - "$1" |
        gzip -9n >"$2" || fail "$(basename "$2") is not packed"
}

make_tarball() {
    name=sfv-$version-linux-x86_64
    folder=$room/$name
    mkdir "$folder" && cp -R "$room/install/." "$folder/" && mkdir -p "$folder/bin" "$folder/share/man/man1"
    for program in sfv_tool sfv_lint; do
        install -m 755 "$room/$program" "$folder/bin/$program"
        sed "s/@VERSION@/$version/" "$top/release/$program.1" | gzip -9n >"$folder/share/man/man1/$program.1.gz"
    done
    cp "$top/README.md" "$top/CHANGELOG.md" "$top/docs/"*.md "$top/docs/"*.svg "$top/examples/priority.c" "$folder/share/doc/sfv/"
    cp "$top/LICENSE" "$room/BUILD" "$folder/"
    chmod -R u=rwX,go=rX "$folder"
    pack "$name" "$made/$name.tar.gz"
}
