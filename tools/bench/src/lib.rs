//! The proved reader and the Rust, in one process on the same texts. See README.md.

pub mod agree;
pub mod clock;
pub mod growth;
pub mod memory;
pub mod once;
pub mod places;
pub mod readers;
pub mod table;
pub mod texts;
pub mod timing;

use std::process::ExitCode;

/// Both readers' deepest recursion fits.
const STACK: usize = 64 << 20;

/// Runs a program's work with its arguments, and says how it ended.
pub fn program(work: fn(&[&str]) -> Result<(), String>) -> ExitCode {
    let arguments: Vec<String> = std::env::args().skip(1).collect();
    let thread = std::thread::Builder::new().stack_size(STACK).spawn(move || {
        let words: Vec<&str> = arguments.iter().map(String::as_str).collect();
        work(&words)
    });
    let ended = thread.expect("a thread can be started").join();
    match ended.unwrap_or_else(|e| std::panic::resume_unwind(e)) {
        Ok(()) => ExitCode::SUCCESS,
        Err(message) => {
            eprintln!("bench: {message}");
            ExitCode::FAILURE
        }
    }
}
