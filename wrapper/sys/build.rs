//! Links the proved store's static library.

use std::path::PathBuf;

fn main() {
    let here = std::env::var("CARGO_MANIFEST_DIR").expect("cargo sets CARGO_MANIFEST_DIR");
    let folder = PathBuf::from(here).join("../../crates/store/out");
    let library = folder.join("libstore.a");
    println!("cargo:rerun-if-changed=build.rs");
    println!("cargo:rerun-if-changed={}", library.display());
    if !library.exists() {
        eprintln!("crates/store/out/libstore.a is missing.");
        eprintln!("Make it with 'rt lib' in the folder crates/store.");
        std::process::exit(1);
    }
    println!("cargo:rustc-link-search=native={}", folder.display());
    println!("cargo:rustc-link-lib=static=store");
}
