//! Links libzenfrosta.a: from the folder ZENFROSTA_LIB_DIR, or from this repository's crates/zenfrosta/out, where `rt lib` in crates/zenfrosta writes it.

use std::path::PathBuf;

fn main() {
    println!("cargo:rerun-if-env-changed=ZENFROSTA_LIB_DIR");
    let folder = std::env::var_os("ZENFROSTA_LIB_DIR").map_or_else(
        || PathBuf::from(env!("CARGO_MANIFEST_DIR")).join("../../crates/zenfrosta/out"),
        PathBuf::from,
    );
    let library = folder.join("libzenfrosta.a");
    println!("cargo:rerun-if-changed={}", library.display());
    assert!(library.exists(), "{} is not there: run 'rt lib' in crates/zenfrosta first", library.display());
    println!("cargo:rustc-link-search=native={}", folder.display());
    println!("cargo:rustc-link-lib=static=zenfrosta");
}
