//! Times the proved reader against the Rust. See README.md.

use bench::readers::Who;
use bench::{growth, once, table, texts};
use std::process::{Command, ExitCode};

const USAGE: &str = "usage: bench [--only NAME] | --growth | --plain | --memory [--only NAME] | --once NAME rust|ours|reader | --show NAME
NAME is a text's name or the beginning of some; for --once and --show it is the whole name";

fn main() -> ExitCode {
    bench::program(run)
}

fn run(words: &[&str]) -> Result<(), String> {
    match *words {
        [] => table::print(&texts::chosen("")?),
        ["--only", name] => table::print(&texts::chosen(name)?),
        ["--growth"] => growth::print(),
        ["--plain"] => growth::print_plain(),
        ["--memory", ref rest @ ..] => memory(rest),
        ["--once", name, who] => once::run(&texts::named(name)?, Who::named(who).ok_or(USAGE)?),
        ["--show", name] => {
            print!("{}", texts::named(name)?.text);
            Ok(())
        }
        _ => Err(USAGE.into()),
    }
}

/// Memory is measured by a program of its own: its allocator counts, and the Rust that is timed shall not pay for that.
fn memory(rest: &[&str]) -> Result<(), String> {
    let cargo = std::env::var_os("CARGO").unwrap_or("cargo".into());
    let manifest = concat!(env!("CARGO_MANIFEST_DIR"), "/Cargo.toml");
    let status = Command::new(cargo)
        .args(["run", "-q", "--release", "--offline", "--manifest-path", manifest])
        .args(["--bin", "memory", "--"])
        .args(rest)
        .status();
    match status {
        Ok(status) if status.success() => Ok(()),
        Ok(_) => Err("memory was not measured (see above)".into()),
        Err(e) => Err(format!("cargo can't be run: {e}")),
    }
}
