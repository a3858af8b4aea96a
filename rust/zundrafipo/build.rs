//! Finds the archive that `rt lib` in `crates/capi` writes, for x86-64 Linux, and links it.

use std::env;
use std::path::PathBuf;

fn main() {
    println!("cargo:rerun-if-env-changed=ZUNDRAFIPO_ARCHIVE_DIR");
    let target = ["CARGO_CFG_TARGET_ARCH", "CARGO_CFG_TARGET_OS"].map(|name| env::var(name).expect("cargo names the target"));
    if target != ["x86_64", "linux"] {
        eprintln!("the archive is made for x86-64 Linux, not for {}", target.join(" "));
        std::process::exit(1);
    }
    let dir = match env::var_os("ZUNDRAFIPO_ARCHIVE_DIR") {
        Some(dir) => PathBuf::from(dir),
        None => PathBuf::from(env::var_os("CARGO_MANIFEST_DIR").expect("cargo names the manifest's folder")).join("../../crates/capi/out"),
    };
    let archive = dir.join("libcapi.a");
    println!("cargo:rerun-if-changed={}", archive.display());
    match archive.canonicalize() {
        Ok(found) => {
            println!("cargo:rustc-link-search=native={}", found.parent().expect("a file has a folder").display());
            println!("cargo:rustc-link-lib=static=capi");
        }
        Err(_) => {
            eprintln!(
                "{} is not there: run `rt lib` in the repository's folder crates/capi, or let ZUNDRAFIPO_ARCHIVE_DIR name the archive's folder",
                archive.display()
            );
            std::process::exit(1);
        }
    }
}
