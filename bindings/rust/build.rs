//! Links the archive libkeeper.a, from the folder `KEEPER_LIBRARY` or from the repository's target/staticlib.

use std::env;
use std::path::PathBuf;
use std::process::exit;

/// Says where the archive is, or what to run where it is not.
fn main() {
    let own = PathBuf::from(env::var("CARGO_MANIFEST_DIR").expect("cargo gives the folder"));
    let usual = own.join("../../target/staticlib");
    let folder = env::var("KEEPER_LIBRARY").map_or(usual, PathBuf::from);
    let archive = folder.join("libkeeper.a");
    println!("cargo:rerun-if-env-changed=KEEPER_LIBRARY");
    println!("cargo:rerun-if-changed={}", archive.display());
    if !archive.is_file() {
        eprintln!("There is no archive {}.", archive.display());
        eprintln!("Run `tools/static-library` in the repository's top folder, which proves the library and writes it,");
        eprintln!("or name the folder of an installed libkeeper.a by KEEPER_LIBRARY.");
        exit(1);
    }
    println!("cargo:rustc-link-search=native={}", folder.display());
    println!("cargo:rustc-link-lib=static=keeper");
}
