//! Finds `libpavebox.a`: in the folder that `PAVEBOX_LIB_DIR` names, else in the repository's
//! `crates/pavebox/out`, where `rt lib` in `crates/pavebox` puts it.

use std::env;
use std::path::PathBuf;

fn main() {
    let folder = folder();
    let archive = folder.join("libpavebox.a");
    if !archive.is_file() {
        panic!(
            "there is no {}: make it with `rt lib` in crates/pavebox, or name its folder in \
             PAVEBOX_LIB_DIR",
            archive.display()
        );
    }
    println!("cargo:rerun-if-env-changed=PAVEBOX_LIB_DIR");
    println!("cargo:rerun-if-changed={}", archive.display());
    println!("cargo:rustc-link-search=native={}", folder.display());
    println!("cargo:rustc-link-lib=static=pavebox");
}

fn folder() -> PathBuf {
    match env::var_os("PAVEBOX_LIB_DIR") {
        Some(folder) => PathBuf::from(folder),
        // Cargo runs this in the package's folder, but the compiler may run elsewhere.
        None => package_folder().join("../crates/pavebox/out"),
    }
}

fn package_folder() -> PathBuf {
    let folder = env::var_os("CARGO_MANIFEST_DIR");
    PathBuf::from(folder.expect("cargo names the package's folder"))
}
