//! Links `libpheasantry.a`, from the folder that `PHEASANTRY_ARCHIVE_DIR` names or else from the
//! repository's `target/staticlib`. With the feature `before` it also links another one, from the folder
//! that `PHEASANTRY_BEFORE_DIR` names, its calls under names of their own.
use std::env;
use std::path::{Path, PathBuf};
use std::process::{exit, Command};

/// A folder's archive, which `make` writes.
fn archive(folder: &Path) -> PathBuf {
    let archive = folder.join("libpheasantry.a");
    if !archive.is_file() {
        eprintln!(
            "there is no {}: `make` writes it into target/staticlib of a repository",
            archive.display()
        );
        exit(1);
    }
    println!("cargo:rerun-if-changed={}", archive.display());
    archive
}

/// The archive's calls, without the `pheasantry_` that their names begin with.
const CALLS: [&str; 7] = [
    "check_vocabulary",
    "check_term",
    "match",
    "part",
    "list",
    "fill",
    "list_book",
];

/// Links a copy of the archive before, in which the calls' names begin with `before_`.
fn link_before() {
    println!("cargo:rerun-if-env-changed=PHEASANTRY_BEFORE_DIR");
    let Some(folder) = env::var_os("PHEASANTRY_BEFORE_DIR") else {
        eprintln!("the feature `before` needs PHEASANTRY_BEFORE_DIR");
        exit(1);
    };
    let out = PathBuf::from(env::var_os("OUT_DIR").unwrap());
    let mut objcopy = Command::new("objcopy");
    for call in CALLS {
        objcopy.arg(format!("--redefine-sym=pheasantry_{call}=before_{call}"));
    }
    let renamed = objcopy
        .arg(archive(Path::new(&folder)))
        .arg(out.join("libbefore.a"))
        .status();
    if !renamed.is_ok_and(|status| status.success()) {
        eprintln!("objcopy could not rename the calls of the archive before");
        exit(1);
    }
    println!("cargo:rustc-link-search=native={}", out.display());
    println!("cargo:rustc-link-lib=static=before");
}

fn main() {
    println!("cargo:rerun-if-env-changed=PHEASANTRY_ARCHIVE_DIR");
    let folder = match env::var_os("PHEASANTRY_ARCHIVE_DIR") {
        Some(folder) => PathBuf::from(folder),
        None => Path::new(env!("CARGO_MANIFEST_DIR")).join("../../target/staticlib"),
    };
    archive(&folder);
    println!("cargo:rustc-link-search=native={}", folder.display());
    println!("cargo:rustc-link-lib=static=pheasantry");
    if env::var_os("CARGO_FEATURE_BEFORE").is_some() {
        link_before();
    }
}
