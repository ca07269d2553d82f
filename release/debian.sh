# The Debian packages: the shared library, and the files for development.

triplet=x86_64-linux-gnu
maintainer=${MAINTAINER:-"The maintainers of sfv <sfv@example.org>"}

# Writes the documents of a package.
debian_documents() {
    doc=$root/usr/share/doc/$package
    mkdir -p "$doc" "$root/DEBIAN"
    {
        echo "Format: https://www.debian.org/doc/packaging-manuals/copyright-format/1.0/"
        echo "Upstream-Name: sfv"
        echo
        echo "Files: *"
        echo "Copyright:$(sed -n 's/^Copyright (c)//p' "$top/LICENSE")"
        echo "License: Expat"
        sed '1,/^Copyright/d' "$top/LICENSE" | sed '/./,$!d; s/^$/./; s/^/ /'
    } >"$doc/copyright"
    printf 'sfv (%s) unstable; urgency=medium\n\n  * Release %s (CHANGELOG.md).\n\n -- %s  %s\n' "$version" "$version" \
        "$maintainer" "$(date -R -d "@$SOURCE_DATE_EPOCH")" | gzip -9n >"$doc/changelog.Debian.gz"
    gzip -9nc "$top/CHANGELOG.md" >"$doc/changelog.gz"
    cp "$room/BUILD" "$doc/BUILD"
}

# Packs a package. Its fields follow those of every package. dpkg-deb takes the time from SOURCE_DATE_EPOCH.
debian_pack() {
    (cd "$root" && find usr -type f | sort | xargs md5sum) >"$root/DEBIAN/md5sums"
    {
        printf 'Package: %s\nSource: sfv\nVersion: %s\nArchitecture: amd64\nMulti-Arch: same\n' "$package" "$version"
        printf 'Maintainer: %s\nInstalled-Size: %s\nPriority: optional\n' "$maintainer" "$(debian_size)"
        cat
    } >"$root/DEBIAN/control"
    chmod -R u=rwX,go=rX "$root"
    dpkg-deb --root-owner-group -Zxz --build "$root" "$made/${package}_${version}_amd64.deb" >"$room/log" 2>&1 ||
        { cat "$room/log" >&2; fail "$package is not packed"; }
}

# The kilobytes of the files, which do not depend on the file system.
debian_size() { find "$root/usr" -type f -printf '%s\n' | awk '{ sum += int(($1 + 1023) / 1024) } END { print sum + NR }'; }

make_debian_library() {
    package=libsfv$abi root=$room/debian/libsfv$abi
    debian_documents
    mkdir -p "$root/usr/lib/$triplet"
    install -m 644 "$shared" "$root/usr/lib/$triplet/"
    printf 'libsfv %s %s (>= %s)\n' "$abi" "$package" "$upstream" >"$root/DEBIAN/shlibs"
    {
        echo "libsfv.so.$abi $package #MINVER#"
        echo " SFV_$abi@SFV_$abi $upstream"
        nm -D --defined-only "$shared" | sed -n "s/.* T \\(.*\\)@@SFV_$abi\$/ \\1@SFV_$abi $upstream/p" | sort
    } >"$root/DEBIAN/symbols"
    echo "activate-noawait ldconfig" >"$root/DEBIAN/triggers"
    debian_pack <<END
Depends: libc6 (>= 2.17)
Section: libs
Description: structured field values for HTTP - shared library
 A parser and serializer for the values of HTTP fields by RFC 9651 and the
 older RFC 8941, with machine-checked proofs.
 .
 This package has the shared library. It needs an x86-64-v2 processor.
END
}

make_debian_development() {
    package=libsfv-dev root=$room/debian/libsfv-dev
    debian_documents
    DESTDIR=$root LIBDIR=/usr/lib/$triplet SFV_LIBRARY=$library SFV_HEAP=$heap "$top/include/install.sh" /usr >"$room/log" 2>&1 ||
        { cat "$room/log" >&2; fail "include/install.sh fails"; }
    rm -r "$root/usr/lib/$triplet/libsfv.so.$abi" "$root/usr/share/doc/sfv"
    cp "$top/docs/C.md" "$doc/"
    mkdir "$doc/examples" && cp "$top/examples/priority.c" "$doc/examples/"
    debian_pack <<END
Depends: libsfv$abi (= $version)
Section: libdevel
Description: structured field values for HTTP - development files
 A parser and serializer for the values of HTTP fields by RFC 9651 and the
 older RFC 8941, with machine-checked proofs.
 .
 This package has the headers for C and C++, the static library and the file
 for pkg-config.
END
}

make_debian_packages() {
    make_debian_library
    make_debian_development
}
