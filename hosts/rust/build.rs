//! Links the proved library, target/staticlib/libhost.a, which `make archives` writes.

use std::path::PathBuf;

fn main() {
    let top = PathBuf::from(std::env::var("CARGO_MANIFEST_DIR").unwrap()).join("../..");
    println!("cargo:rerun-if-env-changed=JAMBOLIVE_ARCHIVES");
    let folder = top.join(std::env::var("JAMBOLIVE_ARCHIVES").unwrap_or("target/staticlib".to_string()));
    let archive = folder.join("libhost.a");
    println!("cargo:rerun-if-changed={}", archive.display());
    assert!(archive.exists(), "{} is not there: run `make archives` first", archive.display());
    println!("cargo:rustc-link-search=native={}", folder.display());
    println!("cargo:rustc-link-lib=static=host");
}
