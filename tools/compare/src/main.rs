//! Compares a reader with document 01, the Rust being the judge.
//!
//! `compare --reader COMMAND [--families a,b] [--seed S] [--count N]`
//! `compare --reader COMMAND --batch FILE`
//! `compare --program COMMAND …`, where COMMAND reads one text as `recordtable`
//! `compare --answers FILE --batch FILE`
//!
//! Exit status: 0 all right, 1 mismatches, 2 nothing could be compared.

mod answers;
mod demands;
mod judge;
mod options;
mod reader;
mod report;
mod shrink;

use batch::Record;
use judge::{mismatch, Judges};
use options::{Options, Source};
use reader::Reader;
use report::{Example, Report};
use std::fs::File;
use std::io::BufReader;
use std::process::ExitCode;

fn main() -> ExitCode {
    let arguments: Vec<String> = std::env::args().skip(1).collect();
    // The Rust and its patched copy recurse deeply on long declarators.
    let done = batch::supervise::on_large_stack(move || run(arguments));
    match done {
        Ok(true) => ExitCode::SUCCESS,
        Ok(false) => ExitCode::from(1),
        Err(message) => {
            eprintln!("compare: {message}");
            ExitCode::from(2)
        }
    }
}

/// True where nothing is left unexplained.
fn run(arguments: Vec<String>) -> Result<bool, String> {
    if arguments == [judge::RUST_WORKER] {
        return oracle::work().map(|()| true).map_err(|e| e.to_string());
    }
    let options = Options::read(arguments)?;
    let mut judges = Judges::new(options.rust_patience).map_err(|e| e.to_string())?;
    let clean = match &options.source {
        Source::Reader(command, form) => {
            let mut reader = Reader::new(command.clone(), *form, options.reader_patience);
            compare_reader(&options, &mut judges, &mut reader)?
        }
        Source::Answers(file) => compare_stored(&options, &mut judges, file)?,
    };
    println!("{}", if clean { "no mismatch" } else { "MISMATCHES: see above" });
    Ok(clean)
}

fn compare_reader(
    options: &Options,
    judges: &mut Judges,
    reader: &mut Reader,
) -> Result<bool, String> {
    let mut clean = true;
    for (name, records) in batches(options)? {
        let report = ask_all(options, judges, reader, &records)?;
        println!("{name}: {}", report.counts());
        for (class, found) in &report.mismatches {
            println!("  {} times: {class}", found.count);
            let example = shrunk(judges, reader, class, &found.example)?;
            print!("{}", example.lines());
        }
        clean &= report.mismatches.is_empty();
    }
    Ok(clean)
}

fn ask_all(
    options: &Options,
    judges: &mut Judges,
    reader: &mut Reader,
    records: &[Record],
) -> Result<Report, String> {
    let records: Vec<Record> = records.iter().filter(|r| reader.can_be_asked(r)).cloned().collect();
    let expected = judges.expected(&records).map_err(|e| e.to_string())?;
    let asked: Vec<usize> =
        (0..records.len()).filter(|n| options.ask_slow || !expected[*n].is_slow()).collect();
    let questions: Vec<Record> = asked.iter().map(|n| records[*n].clone()).collect();
    let answers = reader.ask(&questions)?;
    let mut report = Report { left_out: records.len() - asked.len(), ..Report::default() };
    for (n, answer) in asked.iter().zip(&answers) {
        report.add(&records[*n], &expected[*n], answer);
    }
    Ok(report)
}

/// A smaller example of the same class, with its answers.
fn shrunk(
    judges: &mut Judges,
    reader: &mut Reader,
    class: &str,
    example: &Example,
) -> Result<Example, String> {
    let mut smallest = None;
    let hangs = example.reader == reader::SILENT;
    shrink::shrink(&example.record, |records| {
        let expected = judges.expected(records).map_err(|e| e.to_string())?;
        // A slow text would only hold up the search.
        let fast: Vec<usize> = (0..records.len())
            .filter(|n| !hangs && !expected[*n].is_slow() && reader.can_be_asked(&records[*n]))
            .collect();
        let questions: Vec<Record> = fast.iter().map(|n| records[*n].clone()).collect();
        // A reader that falls too often here has told enough already.
        let Ok(answers) = reader.ask(&questions) else {
            return Ok(vec![false; records.len()]);
        };
        let mut kept = vec![false; records.len()];
        for (n, answer) in fast.iter().zip(&answers) {
            kept[*n] = mismatch(&expected[*n], answer).as_deref() == Some(class);
        }
        if let Some(at) = fast.iter().position(|n| kept[*n]) {
            let n = fast[at];
            smallest = Some(Example {
                record: records[n].clone(),
                rust: expected[n].rust.clone(),
                demanded: expected[n].demanded.clone(),
                reader: answers[at].clone(),
            });
        }
        Ok(kept)
    })?;
    Ok(smallest.unwrap_or(Example {
        record: example.record.clone(),
        rust: example.rust.clone(),
        demanded: example.demanded.clone(),
        reader: example.reader.clone(),
    }))
}

fn compare_stored(options: &Options, judges: &mut Judges, file: &str) -> Result<bool, String> {
    let (_, records) = batches(options)?.swap_remove(0);
    let mut input = open(file)?;
    let mut report = Report::default();
    for (record, expected) in
        records.iter().zip(judges.expected(&records).map_err(|e| e.to_string())?)
    {
        let answer = batch::read_answer(&mut input).map_err(|e| format!("{file}: {e}"))?;
        let answer = answer.ok_or(format!("{file} answers too few records ({})", report.asked))?;
        report.add(record, &expected, &answer);
    }
    if !matches!(batch::read_answer(&mut input), Ok(None)) {
        return Err(format!("{file} holds more answers than the batch has records"));
    }
    println!("{file}: {}", report.counts());
    for (class, found) in &report.mismatches {
        println!("  {} times: {class}", found.count);
        print!("{}", found.example.lines());
    }
    Ok(report.mismatches.is_empty())
}

/// The records to ask, under the names that the report gives them.
fn batches(options: &Options) -> Result<Vec<(String, Vec<Record>)>, String> {
    let batches = match &options.batch {
        Some(file) => {
            let records = batch::read_batch(&mut open(file)?);
            vec![(file.clone(), records.map_err(|e| format!("{file}: {e}"))?)]
        }
        None => options
            .families
            .iter()
            .map(|family| Ok((family.clone(), cases::make(family, options.seed, options.count)?)))
            .collect::<Result<_, String>>()?,
    };
    match batches.iter().find(|(_, records)| records.is_empty()) {
        Some((name, _)) => Err(format!("the batch {name} is empty: nothing can be compared")),
        None if batches.is_empty() => Err("no family was named: nothing can be compared".into()),
        None => Ok(batches),
    }
}

fn open(file: &str) -> Result<BufReader<File>, String> {
    File::open(file).map(BufReader::new).map_err(|e| format!("{file}: {e}"))
}
