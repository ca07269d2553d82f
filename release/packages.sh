# The wheel and the crate.

# Compiles the extension with the static library in it, under the limited API.
make_wheel() {
    "$CC" -std=c99 -O2 -fPIC -fvisibility=hidden -Wall -Wextra -shared -Wl,-z,relro -Wl,-z,now -Wl,--gc-sections \
        -I"$includes" -I"$room/install/include" "$top/bindings/python/sfv/_sfv.c" "$room/install/lib/libsfv.a" \
        -o "$room/_sfv.abi3.so" 2>"$room/log" || { cat "$room/log" >&2; fail "the extension does not compile"; }
    strip --strip-unneeded "$room/_sfv.abi3.so"
    needs_glibc "$room/_sfv.abi3.so"
    "$PYTHON" "$top/release/wheel.py" "$top" "$room/_sfv.abi3.so" "$room/BUILD" "$python_version" "$made" ||
        fail "the wheel is not packed"
}

# Packs the binding for Rust with the static library in it.
make_crate() {
    name=sfv-proved-$cargo_version
    mkdir "$room/$name" "$room/$name/native"
    cp -R "$top/bindings/rust/src" "$top/bindings/rust/build.rs" "$top/bindings/rust/Cargo.toml" "$top/bindings/rust/README.md" \
        "$top/LICENSE" "$room/BUILD" "$room/$name/"
    cp "$room/install/lib/libsfv.a" "$room/$name/native/"
    chmod -R u=rwX,go=rX "$room/$name"
    pack "$name" "$made/$name.crate"
}
