//! Links the proved library's static libraries where they are built.
//!
//! They are looked for in the folder that FJ_STATICLIB names, and otherwise in the repository's
//! target/staticlib, where `tools/build` writes them. Where one is
//! missing the package still builds, and only what needs the library is left out.

use std::env;
use std::path::PathBuf;

const LIBRARIES: [&str; 2] = ["capi", "port"];

fn main() {
    println!("cargo:rustc-check-cfg=cfg(linked)");
    println!("cargo:rerun-if-env-changed=FJ_STATICLIB");
    let folder = env::var_os("FJ_STATICLIB").map(PathBuf::from).unwrap_or_else(|| {
        let package = env::var_os("CARGO_MANIFEST_DIR").expect("cargo names the package's folder");
        PathBuf::from(package).join("../target/staticlib")
    });
    let mut complete = true;
    for name in LIBRARIES {
        let archive = folder.join(format!("lib{name}.a"));
        println!("cargo:rerun-if-changed={}", archive.display());
        complete &= archive.is_file();
    }
    if complete {
        println!("cargo:rustc-cfg=linked");
        println!("cargo:rustc-link-search=native={}", folder.display());
        for name in LIBRARIES {
            println!("cargo:rustc-link-lib=static={name}");
        }
    }
}
