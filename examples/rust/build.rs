//! Links the archives that SFV_LIBRARIES names, as PATH names folders: libsfv_c.a, and the kit's liblibc_c.a.

fn main() {
    println!("cargo:rerun-if-env-changed=SFV_LIBRARIES");
    let archives = std::env::var_os("SFV_LIBRARIES").expect("SFV_LIBRARIES");
    for path in std::env::split_paths(&archives) {
        let stem = path.file_stem().and_then(|stem| stem.to_str()).expect("a file");
        let name = stem.strip_prefix("lib").expect("an archive");
        println!("cargo:rerun-if-changed={}", path.display());
        println!("cargo:rustc-link-search=native={}", path.parent().expect("a folder").display());
        println!("cargo:rustc-link-lib=static={name}");
    }
}
