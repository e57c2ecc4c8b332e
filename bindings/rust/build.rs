//! Links target/staticlib/libaxle.a of the repository, which `tools/static-library axle` writes.

use std::path::{Path, PathBuf};

fn main() {
    let folder = repository().join("target/staticlib");
    let library = folder.join("libaxle.a");
    println!("cargo:rerun-if-changed={}", library.display());
    if !library.is_file() {
        stop_without(&library);
    }
    println!("cargo:rustc-link-search=native={}", folder.display());
    println!("cargo:rustc-link-lib=static=axle");
}

fn repository() -> PathBuf {
    let here = std::env::var_os("CARGO_MANIFEST_DIR").expect("cargo sets it");
    let root = Path::new(&here).join("../..");
    root.canonicalize().unwrap_or(root)
}

fn stop_without(library: &Path) -> ! {
    eprintln!("The library is missing: {}", library.display());
    eprintln!(
        "Make it with `tools/static-library axle` at the repository's root, which needs the Rattle kit."
    );
    std::process::exit(1);
}
