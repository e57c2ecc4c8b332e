//! Links target/staticlib/libtiming.a of the repository, which `tools/static-library timing` writes.

use std::path::Path;

fn main() {
    let here = std::env::var("CARGO_MANIFEST_DIR").expect("cargo sets it");
    let folder = Path::new(&here).join("../target/staticlib");
    let library = folder.join("libtiming.a");
    println!("cargo:rerun-if-changed={}", library.display());
    if !library.is_file() {
        eprintln!("The library is missing: {}", library.display());
        eprintln!("Make it with `tools/static-library timing` at the repository's root, which needs the Rattle kit.");
        std::process::exit(1);
    }
    println!("cargo:rustc-link-search=native={}", folder.display());
    println!("cargo:rustc-link-lib=static=timing");
}
