//! Links the unit's static library when the feature `unit` is on, and the one of its inner calls when `inner` is: from the folder ZENFROSTA_LIB_DIR, or
//! from this repository's crates/zenfrosta/out and crates/inner/out. With `linux` also Linux's schedulers, from where linux/build leaves them. Says which library the unit's is, and
//! by which sources cases are drawn, for the states of runs.

#[path = "src/run/sha256.rs"]
mod sha256;

use sha256::sha256;
use std::path::{Path, PathBuf};

fn main() {
    println!("cargo:rerun-if-env-changed=ZENFROSTA_LIB_DIR");
    let folder = |name: &str| {
        std::env::var_os("ZENFROSTA_LIB_DIR").map_or_else(
            || PathBuf::from(env!("CARGO_MANIFEST_DIR")).join("../crates").join(name).join("out"),
            PathBuf::from,
        )
    };
    let linux = PathBuf::from(env!("CARGO_MANIFEST_DIR")).join("target/linux");
    let libraries = [
        ("UNIT", folder("zenfrosta"), "zenfrosta", "'rt lib' in crates/zenfrosta"),
        ("INNER", folder("inner"), "inner", "'rt lib' in crates/inner"),
        ("LINUX", linux, "sched", "linux/build"),
    ];
    let mut linked = "none".to_string();
    for (feature, folder, name, command) in libraries {
        if std::env::var_os(format!("CARGO_FEATURE_{feature}")).is_none() {
            continue;
        }
        let library = folder.join(format!("lib{name}.a"));
        // A library that was built anew is linked anew: else a run would compare the old one.
        println!("cargo:rerun-if-changed={}", library.display());
        assert!(library.exists(), "{} is not there: run {command} first", library.display());
        println!("cargo:rustc-link-search=native={}", folder.display());
        println!("cargo:rustc-link-lib=static={name}");
        if feature == "UNIT" {
            let bytes = std::fs::read(&library).expect("the library can be read");
            linked = format!("{} of {} bytes", sha256(&bytes), bytes.len());
        }
    }
    println!("cargo:rustc-env=COMPARE_LIBRARY={linked}");
    println!("cargo:rerun-if-changed=src");
    let mut sources = vec![];
    read(Path::new("src"), &mut sources);
    println!("cargo:rustc-env=COMPARE_SOURCES={}", sha256(&sources));
}

/// Every file under a folder, in the order of the names.
fn read(folder: &Path, into: &mut Vec<u8>) {
    let entries = std::fs::read_dir(folder).expect("a folder of sources");
    let mut paths: Vec<PathBuf> = entries.map(|entry| entry.expect("an entry").path()).collect();
    paths.sort();
    for path in paths {
        if path.is_dir() {
            read(&path, into);
        } else {
            into.extend(std::fs::read(path).expect("a source"));
        }
    }
}
