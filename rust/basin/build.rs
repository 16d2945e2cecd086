//! Links the proved core, `libbasin.a`. It is looked for in the repository's
//! `target/staticlib`, where `install/build basin` writes it, or in the folder
//! that the environment variable `BASIN_LIB_DIR` names (a relative one is
//! taken from this package's own folder).

use std::env;
use std::path::PathBuf;

fn main() {
    println!("cargo::rerun-if-changed=build.rs");
    println!("cargo::rerun-if-env-changed=BASIN_LIB_DIR");

    let architecture = env::var("CARGO_CFG_TARGET_ARCH").expect("cargo sets it");
    assert_eq!(architecture, "x86_64", "libbasin.a is for x86-64 alone");

    let package = env::var_os("CARGO_MANIFEST_DIR").expect("cargo sets it");
    let folder = match env::var_os("BASIN_LIB_DIR") {
        Some(folder) => PathBuf::from(&package).join(folder),
        None => PathBuf::from(&package).join("../../target/staticlib"),
    };
    let archive = folder.join("libbasin.a");
    // Named before it is looked for, so that cargo looks again once it is there.
    println!("cargo::rerun-if-changed={}", archive.display());
    if !archive.is_file() {
        panic!(
            "{} is missing: run `install/build basin` first, \
             or set BASIN_LIB_DIR to the folder that holds libbasin.a",
            archive.display()
        );
    }
    println!("cargo::rustc-link-search=native={}", folder.display());
    println!("cargo::rustc-link-lib=static=basin");
}
