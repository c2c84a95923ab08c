//! Where the static library lies: the folder in MALLETFROND_LIB, else the one that `tools/build malletfrond_c` writes to.

use std::path::PathBuf;

fn main() {
    println!("cargo:rerun-if-env-changed=MALLETFROND_LIB");
    let folder = std::env::var_os("MALLETFROND_LIB").map(PathBuf::from).unwrap_or_else(|| {
        let here = std::env::var_os("CARGO_MANIFEST_DIR").expect("cargo sets CARGO_MANIFEST_DIR");
        PathBuf::from(here).join("../../target/staticlib")
    });
    println!("cargo:rustc-link-search=native={}", folder.display());
    println!("cargo:rustc-link-lib=static=malletfrond_c");
}
