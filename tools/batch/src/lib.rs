//! The batch format that the oracle, the cases and every reader share.
//!
//! A record asks one question: a header line `MODEL ENTRY LENGTH`, then LENGTH
//! raw bytes, then a line feed. An answer is a line `answer N`, then N bytes,
//! then a line feed. Lengths instead of end marks, because a text may hold any
//! byte at all.

pub mod supervise;

use std::fmt;
use std::io::{self, BufRead, Read, Write};

/// Which of the two functions of the Rust a record asks.
#[derive(Debug, Clone, Copy, PartialEq, Eq, Hash, PartialOrd, Ord)]
pub enum Entry {
    /// `translation_unit`.
    Unit,
    /// `declaration`.
    Decl,
}

impl Entry {
    pub const ALL: [Entry; 2] = [Entry::Unit, Entry::Decl];

    fn from_word(word: &str) -> Option<Entry> {
        Entry::ALL.into_iter().find(|e| e.to_string() == word)
    }
}

impl fmt::Display for Entry {
    fn fmt(&self, f: &mut fmt::Formatter<'_>) -> fmt::Result {
        f.write_str(match self {
            Entry::Unit => "unit",
            Entry::Decl => "decl",
        })
    }
}

/// One question: a text, the data model and the function to ask.
#[derive(Debug, Clone, PartialEq, Eq, Hash)]
pub struct Record {
    /// 0 lp64, 1 ilp32, 2 llp64. Other numbers are allowed in a batch, because
    /// a reader has to refuse them.
    pub model: u64,
    pub entry: Entry,
    pub text: Vec<u8>,
}

/// How much the record's own text may be before a batch is taken for damaged.
const LONGEST_TEXT: usize = 1 << 26;

/// Read one record, or nothing at the end of the batch.
pub fn read_record(input: &mut impl BufRead) -> io::Result<Option<Record>> {
    let Some(header) = read_line(input)? else {
        return Ok(None);
    };
    let bad = || damaged(format!("`{header}` is no record header (MODEL ENTRY LENGTH)"));
    let mut words = header.split(' ');
    let (Some(model), Some(entry), Some(length), None) =
        (words.next(), words.next(), words.next(), words.next())
    else {
        return Err(bad());
    };
    let model = model.parse().map_err(|_| bad())?;
    let entry = Entry::from_word(entry).ok_or_else(bad)?;
    let text = read_counted(input, length.parse().map_err(|_| bad())?)?;
    Ok(Some(Record { model, entry, text }))
}

/// Read a whole batch; an empty one is an error, since it proves nothing.
pub fn read_batch(input: &mut impl BufRead) -> io::Result<Vec<Record>> {
    let mut records = Vec::new();
    while let Some(record) = read_record(input)? {
        records.push(record);
    }
    if records.is_empty() {
        return Err(damaged("the batch is empty: it holds no record".into()));
    }
    Ok(records)
}

pub fn write_record(out: &mut impl Write, record: &Record) -> io::Result<()> {
    writeln!(out, "{} {} {}", record.model, record.entry, record.text.len())?;
    out.write_all(&record.text)?;
    out.write_all(b"\n")
}

pub fn write_answer(out: &mut impl Write, answer: &[u8]) -> io::Result<()> {
    writeln!(out, "answer {}", answer.len())?;
    out.write_all(answer)?;
    out.write_all(b"\n")
}

/// Read one answer, or nothing at the end.
pub fn read_answer(input: &mut impl BufRead) -> io::Result<Option<Vec<u8>>> {
    let Some(header) = read_line(input)? else {
        return Ok(None);
    };
    let length = header
        .strip_prefix("answer ")
        .and_then(|n| n.parse().ok())
        .ok_or_else(|| damaged(format!("`{header}` is no answer header (answer LENGTH)")))?;
    read_counted(input, length).map(Some)
}

/// Line and column of an offset, both from 1, as the Rust's `ParseError` has
/// them. Only for offsets with nothing but ASCII before them.
pub fn place(text: &[u8], offset: usize) -> (usize, usize) {
    let before = &text[..offset.min(text.len())];
    let line = before.iter().filter(|b| **b == b'\n').count() + 1;
    let column = before.iter().rev().take_while(|b| **b != b'\n').count() + 1;
    (line, column)
}

/// The one line that a refusal prints.
pub fn refusal(number: &str, offset: usize, (line, column): (usize, usize)) -> String {
    format!("refused {number} {offset} {line} {column}\n")
}

fn damaged(message: String) -> io::Error {
    io::Error::new(io::ErrorKind::InvalidData, message)
}

fn read_line(input: &mut impl BufRead) -> io::Result<Option<String>> {
    let mut line = Vec::new();
    // A header is short; the limit keeps a damaged batch from filling memory.
    input.take(200).read_until(b'\n', &mut line)?;
    if line.is_empty() {
        return Ok(None);
    }
    if line.pop() != Some(b'\n') {
        return Err(damaged("a header line does not end".into()));
    }
    String::from_utf8(line).map(Some).map_err(|_| damaged("a header line is not text".into()))
}

fn read_counted(input: &mut impl BufRead, length: usize) -> io::Result<Vec<u8>> {
    if length > LONGEST_TEXT {
        return Err(damaged(format!("a length of {length} bytes is not believed")));
    }
    let mut bytes = vec![0; length + 1];
    input
        .read_exact(&mut bytes)
        .map_err(|_| damaged(format!("the input ends inside {length} promised bytes")))?;
    if bytes.pop() != Some(b'\n') {
        return Err(damaged(format!("no line feed after {length} bytes")));
    }
    Ok(bytes)
}

#[cfg(test)]
mod tests {
    use super::*;

    #[test]
    fn records_survive_a_round_trip() {
        let record = Record { model: 7, entry: Entry::Decl, text: b"a\n\0\xff".to_vec() };
        let mut bytes = Vec::new();
        write_record(&mut bytes, &record).unwrap();
        write_record(&mut bytes, &record).unwrap();
        assert_eq!(read_batch(&mut &bytes[..]).unwrap(), [record.clone(), record]);
    }

    #[test]
    fn damaged_batches_are_refused() {
        for bytes in
            ["", "0 unit", "0 unit 3\nab\n", "0 file 0\n\n", "0 unit 1\nab\n", "x unit 0\n\n"]
        {
            assert!(read_batch(&mut bytes.as_bytes()).is_err(), "{bytes:?}");
        }
    }

    #[test]
    fn places_count_from_one() {
        assert_eq!(place(b"ab\ncd", 4), (2, 2));
        assert_eq!(place(b"", 0), (1, 1));
    }
}
