//! The command line.

use crate::reader::Form;
use std::time::Duration;

/// Where the reader's answers come from.
pub enum Source {
    /// A command that `sh` runs, and how it is asked.
    Reader(String, Form),
    /// A file of answers to the records of `--batch`.
    Answers(String),
}

pub struct Options {
    pub source: Source,
    pub batch: Option<String>,
    pub families: Vec<String>,
    pub seed: u64,
    pub count: usize,
    pub rust_patience: Duration,
    pub reader_patience: Duration,
    /// Ask the reader too where the Rust is slow.
    pub ask_slow: bool,
}

const USAGE: &str = "usage: compare (--reader COMMAND | --program COMMAND | --answers FILE) \
[--batch FILE] [--families a,b] [--seed S] [--count N] [--patience MILLISECONDS] \
[--reader-patience SECONDS] [--ask-slow]";

/// Records for each run of a reader: few enough that a fall is soon seen, and
/// enough that starting the command costs nothing.
const LOT: usize = 5_000;

impl Options {
    pub fn read(arguments: Vec<String>) -> Result<Options, String> {
        let mut options = Options {
            source: Source::Reader(String::new(), Form::OneText),
            batch: None,
            families: cases::FAMILIES.map(String::from).to_vec(),
            seed: 1,
            count: 10_000,
            rust_patience: Duration::from_millis(oracle::PATIENCE_MS),
            reader_patience: Duration::from_secs(60),
            ask_slow: false,
        };
        let mut rest = arguments.into_iter();
        while let Some(option) = rest.next() {
            if option == "--ask-slow" {
                options.ask_slow = true;
                continue;
            }
            let value = rest.next().ok_or(format!("{option} needs a value\n{USAGE}"))?;
            options.set(&option, value)?;
        }
        match (&options.source, &options.batch) {
            (Source::Reader(command, _), _) if command.is_empty() => Err(USAGE.into()),
            (Source::Answers(_), None) => Err("--answers needs --batch".into()),
            _ => Ok(options),
        }
    }

    fn set(&mut self, option: &str, value: String) -> Result<(), String> {
        let number = || value.parse::<u64>().map_err(|_| format!("{option} needs a number"));
        match option {
            "--reader" => self.source = Source::Reader(value, Form::Batch(LOT)),
            "--program" => self.source = Source::Reader(value, Form::OneText),
            "--answers" => self.source = Source::Answers(value),
            "--batch" => self.batch = Some(value),
            "--families" => self.families = value.split(',').map(String::from).collect(),
            "--seed" => self.seed = number()?,
            "--count" => self.count = number()? as usize,
            "--patience" => self.rust_patience = Duration::from_millis(number()?),
            "--reader-patience" => self.reader_patience = Duration::from_secs(number()?),
            _ => return Err(format!("{option} is no option\n{USAGE}")),
        }
        Ok(())
    }
}
