#!/bin/sh
# Usage: include/install.sh [uninstall] PREFIX
# Installs the C library into PREFIX: headers for C and C++, a static and a shared library, sfv.pc for pkg-config, and the
# licence. Both libraries contain the kit's functions over malloc. The shared library exports only the names of the header.
# The static one exports nothing from a shared library that it is linked into. `uninstall` removes these files, and the
# folders of PREFIX that are empty then, except those of /usr and /usr/local.
#
# `rt lib` in crates/sfv_c comes first. SFV_LIBRARY and SFV_HEAP name the two archives, if they are elsewhere: libsfv_c.a,
# and liblibc_c.a of the kit. DESTDIR is a folder to use as the root, LIBDIR the folder for the libraries if it is not
# PREFIX/lib, and PC_PREFIX the prefix that sfv.pc states. CC, LD, AR, OBJCOPY and STRIP name the tools.
set -eu
umask 022
usage() { sed -n '2s/^# //p' "$0" >&2; exit 2; }
fail() { echo "install.sh: $1" >&2; exit 1; }
uninstall=
[ "${1:-}" != uninstall ] || { uninstall=1; shift; }
[ $# = 1 ] && [ -n "$1" ] || usage

here=$(cd "$(dirname "$0")" && pwd)
case $1 in
/) prefix= ;;
/*) prefix=${1%/} ;;
*) [ -z "${DESTDIR:-}" ] || fail "with DESTDIR, PREFIX begins with /"
   prefix=$PWD/${1%/} ;;
esac
root=${DESTDIR:-}
libdir=${LIBDIR:-$prefix/lib}
include=$root$prefix/include libraries=$root$libdir pkgconfig=$root$libdir/pkgconfig doc=$root$prefix/share/doc/sfv
version=$(sed -n 's/^#define SFV_VERSION "\(.*\)"$/\1/p' "$here/sfv.h")
abi=$(sed -n 's/^#define SFV_ABI //p' "$here/sfv.h")

if [ "$uninstall" ]; then
    rm -f "$include/sfv.h" "$include/sfv.hpp" "$libraries/libsfv.a" "$libraries/libsfv.so" "$libraries/libsfv.so.$abi" \
        "$pkgconfig/sfv.pc" "$doc/LICENSE"
    rmdir "$doc" 2>/dev/null || true
    case $prefix in
    '' | /usr | /usr/local) ;;
    *) rmdir "$include" "$pkgconfig" "$libraries" "$root$prefix/share/doc" "$root$prefix/share" "$root$prefix" 2>/dev/null || true ;;
    esac
    echo "removed sfv from $root$prefix"
    exit
fi

library=${SFV_LIBRARY:-$here/../crates/sfv_c/out/libsfv_c.a}
heap=${SFV_HEAP:-}
[ -n "$heap" ] || ! command -v rt >/dev/null || heap=$(dirname "$(rt doc)")/c/liblibc_c.a
[ -f "$library" ] && [ -f "$heap" ] || fail "no ${library##*/} or liblibc_c.a: SFV_LIBRARY names the archive \
libsfv_c.a, which \`rt lib\` makes in crates/sfv_c, and SFV_HEAP the archive c/liblibc_c.a of the kit"
library=$(realpath "$library") heap=$(realpath "$heap")
CC=${CC:-cc} LD=${LD:-ld} AR=${AR:-ar} OBJCOPY=${OBJCOPY:-objcopy} STRIP=${STRIP:-strip}

room=$(mktemp -d)
trap 'rm -rf "$room"' EXIT
trap 'exit 2' HUP INT TERM
cd "$room"
# The exported names are the header's declarations.
sed -n 's/^\(sfv_answer\|uint32_t\|uint64_t\|const char\) \**\(sfv_[a-z_]*\)(.*/\2/p' "$here/sfv.h" >names
{ echo "SFV_$abi { global:"; sed 's/$/;/' names; echo "local: *; };"; } >map
sed 's/.*/__asm__(".hidden &");/' names >hidden.c
for source in "$here/seed.c" "$here/processor.c" hidden.c; do
    "$CC" -O2 -fPIC -std=c99 -Wall -Wextra -Werror -x c -c "$source" -o "$(basename "$source" .c).o"
done
"$LD" -r --whole-archive "$library" "$heap" --no-whole-archive seed.o processor.o -o sfv.o
"$OBJCOPY" --keep-global-symbols=names sfv.o
mkdir static
"$LD" -r sfv.o hidden.o -o static/sfv.o
"$AR" rcsD libsfv.a static/sfv.o
"$CC" -shared -Wl,-soname,"libsfv.so.$abi" -Wl,-z,defs -Wl,-z,relro -Wl,-z,now -Wl,--gc-sections \
    -Wl,--version-script=map sfv.o -o "libsfv.so.$abi"
"$STRIP" --strip-unneeded "libsfv.so.$abi"
cat >sfv.pc <<END
prefix=${PC_PREFIX:-$prefix}
libdir=$(case $libdir in "$prefix"/*) echo "\${prefix}${libdir#"$prefix"}" ;; *) echo "$libdir" ;; esac)
includedir=\${prefix}/include

Name: sfv
Description: Structured Field Values for HTTP (RFC 9651)
Version: $version
Cflags: -I\${includedir}
Libs: -L\${libdir} -lsfv
END

mkdir -p "$include" "$pkgconfig" "$doc"
install -m 644 "$here/sfv.h" "$here/../bindings/cpp/sfv.hpp" "$include"
install -m 644 libsfv.a "$libraries"
install -m 755 "libsfv.so.$abi" "$libraries"
ln -sf "libsfv.so.$abi" "$libraries/libsfv.so"
install -m 644 sfv.pc "$pkgconfig"
install -m 644 "$here/../LICENSE" "$doc"
echo "installed sfv $version in $root$prefix"
