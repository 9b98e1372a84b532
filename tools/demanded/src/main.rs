//! Answers a batch from standard input as document 01 demands; a reader for
//! trying `compare` on. `demanded < batch > answers`

use std::process::ExitCode;

fn main() -> ExitCode {
    demanded::quiet_full_tables();
    match batch::supervise::serve(demanded::answer) {
        Ok(()) => ExitCode::SUCCESS,
        Err(e) => {
            eprintln!("demanded: {e}");
            ExitCode::FAILURE
        }
    }
}
