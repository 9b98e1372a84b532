//! Writes cases as a batch. `cases FAMILY [--seed S] [--count N]`

use std::io::{self, BufWriter, Write};
use std::process::ExitCode;

fn main() -> ExitCode {
    match run() {
        Ok(()) => ExitCode::SUCCESS,
        Err(message) => {
            eprintln!("cases: {message}");
            ExitCode::FAILURE
        }
    }
}

fn run() -> Result<(), String> {
    let mut arguments = std::env::args().skip(1);
    let family = arguments.next().ok_or("usage: cases FAMILY [--seed S] [--count N]")?;
    let (mut seed, mut count) = (1, 10_000);
    while let Some(option) = arguments.next() {
        let value = arguments.next().and_then(|v| v.parse::<u64>().ok());
        let value = value.ok_or(format!("{option} needs a number"))?;
        match option.as_str() {
            "--seed" => seed = value,
            "--count" => count = value as usize,
            _ => return Err(format!("{option} is no option")),
        }
    }
    let records = cases::make(&family, seed, count)?;
    let mut out = BufWriter::new(io::stdout().lock());
    records
        .iter()
        .try_for_each(|r| batch::write_record(&mut out, r))
        .and_then(|()| out.flush())
        .map_err(|e| e.to_string())
}
