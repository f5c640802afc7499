// Links the archive of crates/exports: from the folder SPOONRIPPLE_ARCHIVE, or from target/staticlib of this repository, where bindings/prepare lays it.
use std::path::Path;

fn main() {
    println!("cargo::rerun-if-env-changed=SPOONRIPPLE_ARCHIVE");
    let here = std::env::var("CARGO_MANIFEST_DIR").expect("cargo names the package's folder");
    let folder = std::env::var("SPOONRIPPLE_ARCHIVE").unwrap_or(format!("{here}/../../target/staticlib"));
    let archive = Path::new(&folder).join("libexports.a");
    if !archive.is_file() {
        println!("cargo::error={} is missing: run bindings/prepare of the repository, or set SPOONRIPPLE_ARCHIVE to the folder of libexports.a", archive.display());
        return;
    }
    println!("cargo::rerun-if-changed={}", archive.display());
    println!("cargo::rustc-link-search=native={folder}");
    println!("cargo::rustc-link-lib=static=exports");
}
