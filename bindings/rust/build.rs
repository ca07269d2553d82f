//! Links the static library libsfv.a: that of the folder `native`, which a released crate has, or the one that pkg-config
//! finds if there is no such folder or SFV_SYSTEM is set.

use std::env;
use std::path::Path;
use std::process::Command;

fn main() {
    println!("cargo:rerun-if-env-changed=SFV_SYSTEM");
    let native = Path::new(&env::var_os("CARGO_MANIFEST_DIR").expect("cargo sets it")).join("native");
    if env::var_os("SFV_SYSTEM").is_none() && native.exists() {
        link_native(&native);
    } else {
        link_system();
    }
}

fn link_native(native: &Path) {
    let target = env::var("TARGET").expect("cargo sets it");
    let is_built = target == "x86_64-unknown-linux-gnu";
    assert!(is_built, "no library for {target} in the crate: install libsfv, and set SFV_SYSTEM=1");
    println!("cargo:rerun-if-changed={}", native.display());
    println!("cargo:rustc-link-search=native={}", native.display());
    println!("cargo:rustc-link-lib=static=sfv");
}

fn link_system() {
    println!("cargo:rerun-if-env-changed=PKG_CONFIG");
    println!("cargo:rerun-if-env-changed=PKG_CONFIG_PATH");
    let program = env::var_os("PKG_CONFIG").unwrap_or_else(|| "pkg-config".into());
    // Without the variable, pkg-config omits the folders of the system, and rustc needs them for a static library.
    let mut command = Command::new(program);
    command.env("PKG_CONFIG_ALLOW_SYSTEM_LIBS", "1").args(["--libs", "sfv >= 0.16 sfv < 0.17"]);
    let output = command.output().expect("pkg-config finds the library: install libsfv, and pkg-config");
    assert!(output.status.success(), "pkg-config: {}", String::from_utf8_lossy(&output.stderr));
    for word in String::from_utf8_lossy(&output.stdout).split_whitespace() {
        if let Some(folder) = word.strip_prefix("-L") {
            println!("cargo:rustc-link-search=native={folder}");
        } else if let Some(name) = word.strip_prefix("-l") {
            println!("cargo:rustc-link-lib=static={name}");
        }
    }
}
