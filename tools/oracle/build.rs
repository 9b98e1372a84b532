//! Finds the Rust sources and hands their place to the compiler. Nothing is
//! copied: the two files are compiled where they stand, unchanged.

use std::path::PathBuf;
use std::{env, fs};

fn main() {
    println!("cargo:rerun-if-env-changed=E5R_TYPES_SRC");
    println!("cargo:rerun-if-changed=build.rs");
    let sources = source_folder();
    let mut modules = String::new();
    for name in ["cdecl", "ctype"] {
        let file = sources.join(format!("{name}.rs"));
        println!("cargo:rerun-if-changed={}", file.display());
        if !file.is_file() {
            panic!(
                "the oracle's source {} is missing; put it there, or name the folder \
                 that holds cdecl.rs and ctype.rs in E5R_TYPES_SRC",
                file.display()
            );
        }
        modules += &format!("#[path = {file:?}]\n#[allow(warnings)]\npub mod {name};\n");
    }
    let out = PathBuf::from(env::var_os("OUT_DIR").expect("cargo sets OUT_DIR"));
    fs::write(out.join("sources.rs"), modules).expect("OUT_DIR can be written");
}

/// The folder named by E5R_TYPES_SRC, or the one in `shared` beside the repo.
fn source_folder() -> PathBuf {
    let here = PathBuf::from(env::var_os("CARGO_MANIFEST_DIR").expect("cargo sets it"));
    match env::var_os("E5R_TYPES_SRC") {
        Some(folder) => here.join(folder),
        None => here.join("../../../shared/docs/src/crates/e5r-types/src"),
    }
}
