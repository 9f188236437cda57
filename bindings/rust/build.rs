//! Finds the archive `libpheasantry.a`, in the folder that `PHEASANTRY_ARCHIVE_DIR` names or else in
//! the repository's `target/staticlib`.
use std::env;
use std::path::{Path, PathBuf};
use std::process::exit;

fn main() {
    println!("cargo:rerun-if-env-changed=PHEASANTRY_ARCHIVE_DIR");
    let os = env::var("CARGO_CFG_TARGET_OS").unwrap_or_default();
    let arch = env::var("CARGO_CFG_TARGET_ARCH").unwrap_or_default();
    if os != "linux" || arch != "x86_64" {
        eprintln!(
            "pheasantry: libpheasantry.a is for x86-64 Linux, and this target is {arch} {os}"
        );
        exit(1);
    }
    let folder = match env::var_os("PHEASANTRY_ARCHIVE_DIR") {
        Some(folder) => PathBuf::from(folder),
        None => Path::new(env!("CARGO_MANIFEST_DIR")).join("../../target/staticlib"),
    };
    let archive = folder.join("libpheasantry.a");
    println!("cargo:rerun-if-changed={}", archive.display());
    if !archive.is_file() {
        eprintln!("pheasantry: there is no {}", archive.display());
        eprintln!("pheasantry: run `make` at the repository's root, which proves and writes it,");
        eprintln!(
            "pheasantry: or set PHEASANTRY_ARCHIVE_DIR to the folder that holds libpheasantry.a"
        );
        exit(1);
    }
    println!("cargo:rustc-link-search=native={}", folder.display());
    println!("cargo:rustc-link-lib=static=pheasantry");
}
