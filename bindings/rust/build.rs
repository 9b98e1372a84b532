//! Finds the proved archive and has it linked.

use std::env;
use std::path::{Path, PathBuf};
use std::process::exit;

/// A folder that holds the archive, where it is not the repository's own.
const FOLDER: &str = "RECORDTABLE_ARCHIVE";
const ARCHIVE: &str = "librecordtable_c.a";

fn main() {
    println!("cargo:rerun-if-env-changed={FOLDER}");
    println!("cargo:rerun-if-changed=build.rs");
    let target = |part: &str| env::var(format!("CARGO_CFG_TARGET_{part}")).unwrap_or_default();
    if target("ARCH") != "x86_64" || target("OS") != "linux" {
        stop("the archive is for x86-64 Linux only");
    }
    let folder = folder();
    let archive = folder.join(ARCHIVE);
    println!("cargo:rerun-if-changed={}", archive.display());
    if !archive.is_file() {
        stop(&format!(
            "there is no {}.\nBuild it in the repository's folder crates/recordtable_c by\n\n    rt lib\n\n\
             or name the folder that holds {ARCHIVE} by the environment variable {FOLDER}.",
            archive.display()
        ));
    }
    println!("cargo:rustc-link-search=native={}", folder.display());
    println!("cargo:rustc-link-lib=static=recordtable_c");
}

fn folder() -> PathBuf {
    match env::var_os(FOLDER) {
        Some(named) => PathBuf::from(named),
        None => Path::new(env!("CARGO_MANIFEST_DIR")).join("../../crates/recordtable_c/out"),
    }
}

fn stop(why: &str) -> ! {
    eprintln!("recordtable: {why}");
    exit(1)
}
