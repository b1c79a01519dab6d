//! Finds libfoamcorbel.a: in the folder that FOAMCORBEL_LIB_DIR names, or where `rt lib` writes it
//! in crates/foamcorbel.
use std::env;
use std::path::PathBuf;

const ARCHIVE: &str = "libfoamcorbel.a";

fn main() {
    println!("cargo:rerun-if-env-changed=FOAMCORBEL_LIB_DIR");
    let folder = match env::var_os("FOAMCORBEL_LIB_DIR") {
        Some(named) => PathBuf::from(named),
        None => PathBuf::from(env!("CARGO_MANIFEST_DIR")).join("../../crates/foamcorbel/out"),
    };
    let archive = folder.join(ARCHIVE);
    if !archive.exists() {
        panic!("no {}: run `rt lib` in crates/foamcorbel, or let FOAMCORBEL_LIB_DIR name its folder", archive.display());
    }
    // Cargo does not look at the archive by itself.
    println!("cargo:rerun-if-changed={}", archive.display());
    println!("cargo:rustc-link-search=native={}", folder.display());
    println!("cargo:rustc-link-lib=static=foamcorbel");
}
