//! Makes the patched copies of cdecl.rs and ctype.rs in OUT_DIR.
//!
//! Each patch must find its place exactly once: a source that has changed
//! stops the build instead of being patched in the wrong place.

#[path = "patches/mod.rs"]
mod patches;

use patches::{Change, Patch};
use std::path::PathBuf;
use std::{env, fs};

fn main() {
    println!("cargo:rerun-if-env-changed=E5R_TYPES_SRC");
    for file in ["build.rs", "patches/mod.rs", "patches/layout.rs", "patches/parser.rs"] {
        println!("cargo:rerun-if-changed={file}");
    }
    let sources = source_folder();
    let out = PathBuf::from(env::var_os("OUT_DIR").expect("cargo sets OUT_DIR"));
    let mut modules = String::new();
    for name in ["cdecl", "ctype"] {
        let file = sources.join(format!("{name}.rs"));
        println!("cargo:rerun-if-changed={}", file.display());
        let text = fs::read_to_string(&file).unwrap_or_else(|e| {
            panic!("the Rust source {} can't be read: {e} (see E5R_TYPES_SRC)", file.display())
        });
        let patched = out.join(format!("{name}.rs"));
        fs::write(&patched, patch(name, text)).expect("OUT_DIR can be written");
        modules += &format!("#[path = {patched:?}]\n#[allow(warnings)]\npub mod {name};\n");
    }
    fs::write(out.join("sources.rs"), modules).expect("OUT_DIR can be written");
}

/// The folder named by E5R_TYPES_SRC, or the one in `shared` beside the repo.
fn source_folder() -> PathBuf {
    let here = PathBuf::from(env::var_os("CARGO_MANIFEST_DIR").expect("cargo sets it"));
    match env::var_os("E5R_TYPES_SRC") {
        Some(folder) => here.join(folder),
        None => here.join("../../../shared/docs/src/crates/e5r-types/src"),
    }
}

fn patch(file: &str, mut text: String) -> String {
    for p in patches::ALL.iter().filter(|p| p.file == file) {
        text = apply(p, text);
    }
    text
}

fn apply(p: &Patch, text: String) -> String {
    match p.change {
        Change::Replace(old, new) => {
            once(p, &text, old);
            text.replacen(old, new, 1)
        }
        Change::ReplaceFromTo(from, to, new) => {
            let start = once(p, &text, from);
            let end = once(p, &text, to);
            format!("{}{new}{}", &text[..start], &text[end..])
        }
        Change::Append(new) => text + new,
    }
}

fn once(p: &Patch, text: &str, wanted: &str) -> usize {
    let places: Vec<usize> = text.match_indices(wanted).map(|(at, _)| at).collect();
    match places[..] {
        [at] => at,
        _ => panic!(
            "patch `{}` of {}.rs finds its place {} times instead of once:\n{wanted}",
            p.why,
            p.file,
            places.len()
        ),
    }
}
