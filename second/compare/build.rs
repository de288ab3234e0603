//! Links the library: `libexports.a` and `libroadside.a` as `rt lib` made them, or those of the folder that `DERGVOST_LIB` names.

use std::env;
use std::path::{Path, PathBuf};

/// The crates that export functions.
const CRATES: [&str; 2] = ["exports", "roadside"];

fn main() {
    println!("cargo:rerun-if-env-changed=DERGVOST_LIB");
    let package = env::var_os("CARGO_MANIFEST_DIR").unwrap_or_default();
    let given = env::var_os("DERGVOST_LIB").map(PathBuf::from);
    for name in CRATES {
        let usual = || PathBuf::from(format!("../../crates/{name}/out"));
        let folder = Path::new(&package).join(given.clone().unwrap_or_else(usual));
        println!("cargo:rustc-link-search=native={}", folder.display());
        let archive = folder.join(format!("lib{name}.a"));
        println!("cargo:rerun-if-changed={}", archive.display());
        if !archive.exists() {
            eprintln!(
                "{}: not found; DERGVOST_LIB names its folder",
                archive.display()
            );
            std::process::exit(1);
        }
        println!("cargo:rustc-link-lib=static={name}");
    }
}
