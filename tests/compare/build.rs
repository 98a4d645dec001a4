//! Links the proved library, if it is there; else its calls answer that it is missing.

use std::path::Path;

fn main() {
    let folder = Path::new(env!("CARGO_MANIFEST_DIR")).join("../../target/lib");
    let library = folder.join("libzenkorv.a");
    println!("cargo:rerun-if-changed={}", folder.display());
    println!("cargo:rerun-if-changed={}", library.display());
    println!("cargo:rustc-check-cfg=cfg(library_missing)");
    if library.is_file() {
        println!("cargo:rustc-link-search=native={}", folder.display());
        println!("cargo:rustc-link-lib=static=zenkorv");
    } else {
        println!("cargo:rustc-cfg=library_missing");
    }
}
