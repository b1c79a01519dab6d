//! Finds rpds 1.2.1's own files, makes sure that they are the known ones, and names them to `src/lib.rs`.
use std::path::{Path, PathBuf};
use std::{env, fs, process};

/// Where the files are looked for without RPDS_SRC, from the root of the repository.
const DEFAULT: &str = "../shared/docs/src";

/// Each file with the FNV-1a checksum of its bytes as published.
const UTILS: (&str, u64) = ("src/utils/mod.rs", 0x1e182d154c5cb912);
const ENTRY: (&str, u64) = ("src/map/entry.rs", 0x21c11585d6f7cdc6);
const MAP: (&str, u64) = ("src/map/red_black_tree_map/mod.rs", 0x0cc4ee35e5455a75);

fn main() {
    println!("cargo::rerun-if-changed=build.rs");
    println!("cargo::rerun-if-env-changed=RPDS_SRC");
    if let Err(message) = write_modules() {
        println!("cargo::error={message}");
        process::exit(1);
    }
}

fn write_modules() -> Result<(), String> {
    let folder = folder();
    let utils = known(&folder, UTILS)?;
    let entry = known(&folder, ENTRY)?;
    let map = known(&folder, MAP)?;
    // `utils` also has a hasher for rpds's other collections, which nothing here uses.
    let text = format!(
        "#[allow(dead_code)] #[path = {utils:?}] mod utils;\n\
         pub mod map {{\n    \
             #[path = {entry:?}] pub(crate) mod entry;\n    \
             #[path = {map:?}] pub mod red_black_tree_map;\n\
         }}\n"
    );
    let out = env::var("OUT_DIR").map_err(|error| error.to_string())?;
    fs::write(Path::new(&out).join("modules.rs"), text).map_err(|error| error.to_string())
}

/// RPDS_SRC, or the default; a relative path counts from the root of the repository.
fn folder() -> PathBuf {
    let root = Path::new(env!("CARGO_MANIFEST_DIR")).join("../..");
    root.join(env::var_os("RPDS_SRC").unwrap_or(DEFAULT.into()))
}

/// The whole path of a file in the folder, once its bytes are found to be the known ones.
fn known(folder: &Path, (name, checksum): (&str, u64)) -> Result<PathBuf, String> {
    let path = folder.join(name);
    println!("cargo::rerun-if-changed={}", path.display());
    let bytes = fs::read(&path).map_err(|error| {
        format!(
            "rpds 1.2.1's file {} cannot be read ({error}); set RPDS_SRC to the folder that has {name}",
            path.display()
        )
    })?;
    let found = fnv1a(&bytes);
    if found != checksum {
        return Err(format!(
            "{} is not rpds 1.2.1's own file: its checksum is {found:#018x}, not {checksum:#018x}",
            path.display()
        ));
    }
    path.canonicalize().map_err(|error| format!("{}: {error}", path.display()))
}

fn fnv1a(bytes: &[u8]) -> u64 {
    bytes.iter().fold(0xcbf29ce484222325, |hash, byte| (hash ^ u64::from(*byte)).wrapping_mul(0x100000001b3))
}
