//! Links the proved static library, `libpenkwadar.a`.
//!
//! It is looked for beside its header, in `include` of the repository, or in the directory named by `PENKWADAR_LIB_DIR`.

use std::env;
use std::path::PathBuf;

fn main() {
    println!("cargo::rerun-if-env-changed=PENKWADAR_LIB_DIR");
    let directory = library_directory();
    let archive = directory.join("libpenkwadar.a");
    println!("cargo::rerun-if-changed={}", archive.display());
    if !archive.is_file() {
        println!(
            "cargo::error={} is missing: build it with `./library`, or name its directory in PENKWADAR_LIB_DIR",
            archive.display()
        );
        return;
    }
    println!("cargo::rustc-link-search=native={}", directory.display());
    println!("cargo::rustc-link-lib=static=penkwadar");
}

fn library_directory() -> PathBuf {
    match env::var_os("PENKWADAR_LIB_DIR") {
        Some(directory) => PathBuf::from(directory),
        None => PathBuf::from(env!("CARGO_MANIFEST_DIR")).join("../../include"),
    }
}
