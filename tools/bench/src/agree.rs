//! Before a text is timed, both readers must say the same of it.

use crate::texts::{Expected, Text};
use batch::{Entry, Record};
use recordtable::{Model, Reader};

const LP64: u64 = 0;

/// What ours says of a text that is too long; the Rust has no such limit.
const TOO_LONG: &str = "refused 2 0 1 1\n";

pub fn check(text: &Text) -> Result<(), String> {
    let ours = Reader::new().unit_report(text.text.as_bytes(), Model::Lp64);
    let rust = rust(text);
    let right = match text.expected {
        Expected::Accepted => accepted(&ours) && says_the_same(&ours, &rust),
        Expected::Refused => !accepted(&ours) && says_the_same(&ours, &rust),
        Expected::TooLong => ours == TOO_LONG && accepted(&rust),
    };
    if right {
        return Ok(());
    }
    let (rust, ours) = (first_difference(&rust, &ours), first_difference(&ours, &rust));
    Err(format!("{}: not as expected. The Rust says: {rust}; ours: {ours}", text.name))
}

fn accepted(answer: &str) -> bool {
    answer.starts_with("type 0 void")
}

fn rust(text: &Text) -> String {
    let record = Record { model: LP64, entry: Entry::Unit, text: text.text.clone().into_bytes() };
    String::from_utf8_lossy(&oracle::answer(&record)).into_owned()
}

/// Token by token; the Rust keeps no first bits and says `?` there.
fn says_the_same(ours: &str, rust: &str) -> bool {
    let (mut ours, mut rust) = (ours.split([' ', '\n']), rust.split([' ', '\n']));
    loop {
        match (ours.next(), rust.next()) {
            (None, None) => return true,
            (Some(a), Some(b)) if a == b || b == "?" => {}
            _ => return false,
        }
    }
}

/// The first line of one listing that the other has not.
fn first_difference<'a>(one: &'a str, other: &str) -> &'a str {
    let mut others = other.lines();
    let differs = |line: &&str| {
        !others.next().is_some_and(|o| says_the_same(o, line) || says_the_same(line, o))
    };
    one.lines().find(differs).unwrap_or("(nothing more)")
}
