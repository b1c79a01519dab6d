//! Names the folder of libfoamcorbel.a to the linker.
use std::path::Path;
use std::{env, process};

/// Where tests/native-archive writes it, from the root of the repository; FOAMCORBEL_LIB_DIR names another folder.
const DEFAULT: &str = "target/native";

fn main() {
    println!("cargo::rerun-if-changed=build.rs");
    println!("cargo::rerun-if-env-changed=FOAMCORBEL_LIB_DIR");
    let root = Path::new(env!("CARGO_MANIFEST_DIR")).join("../..");
    let folder = root.join(env::var_os("FOAMCORBEL_LIB_DIR").unwrap_or(DEFAULT.into()));
    let archive = folder.join("libfoamcorbel.a");
    println!("cargo::rerun-if-changed={}", archive.display());
    if !archive.exists() {
        println!("cargo::error={} is not there; tests/native-archive makes it", archive.display());
        process::exit(1);
    }
    println!("cargo::rustc-link-search=native={}", folder.display());
    println!("cargo::rustc-link-lib=static=foamcorbel");
}
