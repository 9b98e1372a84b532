//! Answers a batch from standard input with the unchanged Rust.
//!
//! `oracle [--patience MILLISECONDS] < batch > answers`
//! `oracle --text TEXT [--model 0|1|2] [--entry unit|decl]` asks one text.

use batch::supervise::Supervisor;
use batch::{Entry, Record};
use std::io::{self, BufWriter, Write};
use std::process::ExitCode;
use std::time::Duration;

/// The word with which this program starts itself as a worker.
const WORKER: &str = "--worker";

fn main() -> ExitCode {
    match run(std::env::args().skip(1).collect()) {
        Ok(()) => ExitCode::SUCCESS,
        Err(message) => {
            eprintln!("oracle: {message}");
            ExitCode::FAILURE
        }
    }
}

fn run(arguments: Vec<String>) -> Result<(), String> {
    if arguments == [WORKER] {
        return oracle::work().map_err(|e| e.to_string());
    }
    let options = Options::read(arguments)?;
    let program = std::env::current_exe().map_err(|e| e.to_string())?;
    let mut rust = Supervisor::new(program, &[WORKER], options.patience);
    match options.text {
        Some(record) => print_one(&mut rust, record),
        None => answer_batch(&mut rust),
    }
    .map_err(|e| e.to_string())
}

fn print_one(rust: &mut Supervisor, record: Record) -> io::Result<()> {
    let answers = rust.ask(&[record])?;
    io::stdout().write_all(&answers[0])
}

/// Records are answered in lots, so that a pipe is served while it is filled.
fn answer_batch(rust: &mut Supervisor) -> io::Result<()> {
    let records = batch::read_batch(&mut io::stdin().lock())?;
    let mut out = BufWriter::new(io::stdout().lock());
    for lot in records.chunks(1000) {
        for answer in rust.ask(lot)? {
            batch::write_answer(&mut out, &answer)?;
        }
        out.flush()?;
    }
    Ok(())
}

struct Options {
    patience: Duration,
    text: Option<Record>,
}

impl Options {
    fn read(arguments: Vec<String>) -> Result<Options, String> {
        let mut patience = oracle::PATIENCE_MS;
        let (mut text, mut model, mut entry) = (None, 0, Entry::Unit);
        let mut rest = arguments.into_iter();
        while let Some(option) = rest.next() {
            let value = rest.next().ok_or(format!("{option} needs a value"))?;
            let bad = || format!("{option} can't be {value}");
            match option.as_str() {
                "--patience" => patience = value.parse().map_err(|_| bad())?,
                "--model" => model = value.parse().map_err(|_| bad())?,
                "--entry" if value == "unit" => entry = Entry::Unit,
                "--entry" if value == "decl" => entry = Entry::Decl,
                "--text" => text = Some(value.into_bytes()),
                _ => return Err(bad()),
            }
        }
        Ok(Options {
            patience: Duration::from_millis(patience),
            text: text.map(|text| Record { model, entry, text }),
        })
    }
}
