//! Links the keeper where its archive stands, and says so by `cfg(archive)`: the plain keeper and its tests build without it.

use std::path::Path;

fn main() {
    let folder = Path::new(env!("CARGO_MANIFEST_DIR")).join("../target/staticlib");
    let archive = folder.join("libkeeper.a");
    println!("cargo:rustc-check-cfg=cfg(archive)");
    println!("cargo:rerun-if-changed={}", archive.display());
    if archive.exists() {
        println!("cargo:rustc-link-search=native={}", folder.display());
        println!("cargo:rustc-link-lib=static=keeper");
        println!("cargo:rustc-cfg=archive");
    }
}
