//! Measures the memory that both readers take: `memory [--only NAME]`.

use bench::{memory, texts};
use std::process::ExitCode;

#[global_allocator]
static HEAP: memory::Counting = memory::Counting;

fn main() -> ExitCode {
    bench::program(|words| match *words {
        [] => memory::print(&texts::chosen("")?),
        ["--only", name] => memory::print(&texts::chosen(name)?),
        _ => Err("usage: memory [--only NAME]".into()),
    })
}
