//! Links the proved library that `rt lib` makes in crates/host.

use std::path::PathBuf;

fn main() {
    let folder = PathBuf::from(env!("CARGO_MANIFEST_DIR")).join("../../crates/host/out");
    let library = folder.join("libhost.a");
    println!("cargo:rerun-if-changed={}", library.display());
    if !library.exists() {
        eprintln!("crates/host/out/libhost.a is missing: run `rt lib` in crates/host first");
        std::process::exit(1);
    }
    println!("cargo:rustc-link-search=native={}", folder.display());
    println!("cargo:rustc-link-lib=static=host");
}
