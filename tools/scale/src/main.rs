//! Compares the proved reader with document 01 on many texts, called in this process through `bindings/rust`.
//!
//! `scale [--families a,b] [--seed S] [--lots L] [--count N]`: L seeds from S on, N texts of each family for each.
//! Every byte of the report is compared as `compare` does, and every number that the Rust crate hands out is
//! compared with the report. Exit status: 0 all right, 1 mismatches, 2 nothing could be compared.

#[path = "../../compare/src/answers.rs"]
mod answers;
#[path = "../../compare/src/demands.rs"]
mod demands;
#[path = "../../compare/src/judge.rs"]
mod judge;
mod relist;
#[path = "../../compare/src/report.rs"]
mod report;

use batch::{Entry, Record};
use judge::Judges;
use recordtable::{Model, Reader};
use report::Report;
use std::process::ExitCode;
use std::time::{Duration, Instant};

/// Families that ignore the seed and the count.
const FIXED: [&str; 2] = ["examples", "limits"];

const USAGE: &str = "usage: scale [--families a,b] [--seed S] [--lots L] [--count N]";

fn main() -> ExitCode {
    let arguments: Vec<String> = std::env::args().skip(1).collect();
    match batch::supervise::on_large_stack(move || run(arguments)) {
        Ok(true) => ExitCode::SUCCESS,
        Ok(false) => ExitCode::from(1),
        Err(message) => {
            eprintln!("scale: {message}");
            ExitCode::from(2)
        }
    }
}

struct Options {
    families: Vec<String>,
    seed: u64,
    lots: u64,
    count: usize,
}

fn options(arguments: Vec<String>) -> Result<Options, String> {
    let families = ["short", "grammar", "damaged"].map(String::from).to_vec();
    let mut options = Options { families, seed: 1, lots: 1, count: 20_000 };
    let mut rest = arguments.into_iter();
    while let Some(option) = rest.next() {
        let value = rest.next().ok_or(format!("{option} needs a value\n{USAGE}"))?;
        let number = || value.parse::<u64>().map_err(|_| format!("{option} needs a number"));
        match option.as_str() {
            "--families" => options.families = value.split(',').map(String::from).collect(),
            "--seed" => options.seed = number()?,
            "--lots" => options.lots = number()?,
            "--count" => options.count = number()? as usize,
            _ => return Err(format!("{option} is no option\n{USAGE}")),
        }
    }
    Ok(options)
}

/// True where nothing is left unexplained.
fn run(arguments: Vec<String>) -> Result<bool, String> {
    if arguments == [judge::RUST_WORKER] {
        return oracle::work().map(|()| true).map_err(|e| e.to_string());
    }
    let options = options(arguments)?;
    let patience = Duration::from_millis(oracle::PATIENCE_MS);
    let mut judges = Judges::new(patience).map_err(|e| e.to_string())?;
    let mut clean = true;
    for family in &options.families {
        let start = Instant::now();
        let mut report = Report::default();
        let mut reading = Duration::ZERO;
        // a list that is fixed is asked once
        let lots = if FIXED.contains(&family.as_str()) { 1 } else { options.lots };
        for lot in 0..lots {
            let records = cases::make(family, options.seed + lot, options.count)?;
            reading += compare(&mut judges, &records, &mut report)?;
        }
        if report.asked == 0 {
            return Err(format!("{family}: nothing could be compared"));
        }
        println!(
            "{family}: {}; {:.0?}, of it in the reader {reading:.1?}",
            report.counts(),
            start.elapsed()
        );
        for (class, found) in &report.mismatches {
            print!("  {} times: {class}\n{}", found.count, found.example.lines());
        }
        clean &= report.mismatches.is_empty();
    }
    println!("{}", if clean { "no mismatch" } else { "MISMATCHES: see above" });
    Ok(clean)
}

/// The time that the reader took.
fn compare(
    judges: &mut Judges,
    records: &[Record],
    report: &mut Report,
) -> Result<Duration, String> {
    let expected = judges.expected(records).map_err(|e| e.to_string())?;
    let mut readers = Readers { reports: Reader::new(), tables: Reader::new() };
    let mut reading = Duration::ZERO;
    for (record, expected) in records.iter().zip(&expected) {
        if expected.is_slow() {
            report.left_out += 1;
            continue;
        }
        let start = Instant::now();
        let answer = answer(&mut readers, record);
        reading += start.elapsed();
        if let Some(answer) = answer {
            report.add(record, expected, answer.as_bytes());
        }
    }
    Ok(reading)
}

/// One for each use: a reader of tables alone keeps its slices zero and reads into zeros, one of reports has them cleared.
struct Readers {
    reports: Reader,
    tables: Reader,
}

/// The report, where the table or the refusal says the same. A model that is none of the three can't be asked.
fn answer(readers: &mut Readers, record: &Record) -> Option<String> {
    let model = *Model::ALL.get(usize::try_from(record.model).ok()?)?;
    let report = match record.entry {
        Entry::Unit => readers.reports.unit_report(&record.text, model),
        Entry::Decl => readers.reports.declaration_report(&record.text, model),
    };
    let read = match record.entry {
        Entry::Unit => readers.tables.read_unit(&record.text, model),
        Entry::Decl => readers.tables.read_declaration(&record.text, model),
    };
    let same = match read {
        Ok(table) => relist::says(&table, &report),
        Err(e) => report == format!("refused {} {} {} {}\n", e.number, e.offset, e.line, e.column),
    };
    Some(if same { report } else { format!("table and report differ:\n{report}") })
}
