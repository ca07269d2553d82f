# What the scripts of this folder share. They set `top`, the repository, and `script`, their name.

# Says why the script stops, in one line, and stops it.
fail() {
    said=1
    echo "$script: $1" >&2
    exit 1
}

# Stops unless these programs exist.
need() {
    for tool in "$@"; do
        command -v "$tool" >/dev/null || fail "$tool is missing"
    done
}

# The numbers of a release: upstream's version, the release's number after it, and both as each ecosystem writes them.
read_version() {
    version=$(cat "$top/release/version")
    upstream=${version%-*} number=${version##*-}
    case $version in
    *[!0-9.-]* | *-*-* | -* | *- ) fail "release/version is no version: $version" ;;
    *.*.*-*) ;;
    *) fail "release/version is no version: $version" ;;
    esac
    python_version=$upstream.post$number cargo_version=$upstream+$number
    abi=$(sed -n 's/^#define SFV_ABI //p' "$top/include/sfv.h")
}

# Stops if a file of the repository, or of these of its folders, is changed and not committed.
need_committed() {
    changed=$(git -C "$top" status --porcelain -uno -- "$@" | head -n 1 | cut -c4-)
    [ -z "$changed" ] || fail "$changed is not committed"
}

# The files of the repository that the proofs read.
sources="crates crates.txt HANDLES"

sum_of() { sha256sum <"$1" | cut -d' ' -f1; }
