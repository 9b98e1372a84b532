//! Counting what was found, and saying it.

use crate::judge::{mismatch, Because, Expected};
use batch::Record;
use std::collections::BTreeMap;

/// An example of a mismatch with all three answers.
pub struct Example {
    pub record: Record,
    pub rust: Vec<u8>,
    pub demanded: Vec<u8>,
    pub reader: Vec<u8>,
}

/// All mismatches of one class.
pub struct Class {
    pub count: usize,
    /// The one with the shortest text.
    pub example: Example,
}

#[derive(Default)]
pub struct Report {
    pub asked: usize,
    pub equal: usize,
    /// Records on which the Rust is slow; readers are slow there by design.
    pub left_out: usize,
    pub demanded: BTreeMap<&'static str, usize>,
    pub mismatches: BTreeMap<String, Class>,
}

impl Report {
    pub fn add(&mut self, record: &Record, expected: &Expected, reader: &[u8]) {
        self.asked += 1;
        match (mismatch(expected, reader), expected.because) {
            (Some(class), _) => self.add_mismatch(class, record, expected, reader),
            (None, Because::Demand(name)) => *self.demanded.entry(name).or_default() += 1,
            (None, _) => self.equal += 1,
        }
    }

    fn add_mismatch(&mut self, class: String, record: &Record, expected: &Expected, reader: &[u8]) {
        let example = || Example {
            record: record.clone(),
            rust: expected.rust.clone(),
            demanded: expected.demanded.clone(),
            reader: reader.to_vec(),
        };
        let class =
            self.mismatches.entry(class).or_insert_with(|| Class { count: 0, example: example() });
        class.count += 1;
        if record.text.len() < class.example.record.text.len() {
            class.example = example();
        }
    }

    /// One line of counts.
    pub fn counts(&self) -> String {
        let demanded: usize = self.demanded.values().sum();
        let names: Vec<String> =
            self.demanded.iter().map(|(name, n)| format!("{name} {n}")).collect();
        let mismatched: usize = self.mismatches.values().map(|c| c.count).sum();
        format!(
            "{} asked: {} equal to the Rust, {demanded} as document 01 demands ({}), \
             {mismatched} mismatched; {} not asked, the Rust being slow",
            self.asked,
            self.equal,
            names.join(", "),
            self.left_out
        )
    }
}

impl Example {
    /// The example in lines that can be read and typed again.
    pub fn lines(&self) -> String {
        let text = shown(&self.record.text, 600);
        format!(
            "    model {} entry {} text ({} bytes):\n      {text}\n    demanded:\n{}    reader:\n{}    unchanged Rust:\n{}",
            self.record.model,
            self.record.entry,
            self.record.text.len(),
            indented(&self.demanded),
            indented(&self.reader),
            indented(&self.rust)
        )
    }
}

fn shown(bytes: &[u8], most: usize) -> String {
    let head: String = bytes.iter().take(most).map(|b| b.escape_ascii().to_string()).collect();
    let more = if bytes.len() > most { " …" } else { "" };
    format!("\"{head}\"{more}")
}

fn indented(answer: &[u8]) -> String {
    let text = String::from_utf8_lossy(answer);
    let mut out: String = text.lines().take(25).map(|line| format!("      {line}\n")).collect();
    if text.lines().count() > 25 {
        out += "      …\n";
    }
    out
}
