//! Tells where libhostiledisk.a is: in HD_ARCHIVE_DIR, or where `tools/staticlib` puts it in this repository.

use std::path::PathBuf;

fn main() {
    println!("cargo:rerun-if-env-changed=HD_ARCHIVE_DIR");
    let dir = match std::env::var_os("HD_ARCHIVE_DIR") {
        Some(dir) => PathBuf::from(dir),
        None => PathBuf::from(env!("CARGO_MANIFEST_DIR")).join("../../target/staticlib"),
    };
    let archive = dir.join("libhostiledisk.a");
    println!("cargo:rerun-if-changed={}", archive.display());
    if !archive.is_file() {
        eprintln!("no {}: set HD_ARCHIVE_DIR, or build it with tools/staticlib", archive.display());
        std::process::exit(1);
    }
    println!("cargo:rustc-link-search=native={}", dir.display());
}
