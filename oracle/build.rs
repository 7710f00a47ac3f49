//! Links the archives that `make archives` wrote.

use std::path::PathBuf;

fn main() {
    let top = PathBuf::from(std::env::var("CARGO_MANIFEST_DIR").unwrap()).join("..");
    println!("cargo:rerun-if-env-changed=JAMBOLIVE_ARCHIVES");
    let folder = top.join(std::env::var("JAMBOLIVE_ARCHIVES").unwrap_or("target/staticlib".to_string()));
    println!("cargo:rustc-link-search=native={}", folder.display());
    for archive in ["probe", "host"] {
        let path = folder.join(format!("lib{archive}.a"));
        println!("cargo:rerun-if-changed={}", path.display());
        assert!(path.exists(), "{} is not there: run `make archives` first", path.display());
        println!("cargo:rustc-link-lib=static={archive}");
    }
}
