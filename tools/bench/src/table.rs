//! The table of times.

use crate::agree;
use crate::readers::{Readers, Who, LENT_BYTES};
use crate::texts::{Expected, Text};
use crate::timing::{interleaved, Times};

/// The order in a round.
const ROUND: [Who; 3] = [Who::Lent, Who::Rust, Who::Reader];

/// What the three took on one text.
pub struct Row {
    pub lent: Times,
    pub rust: Times,
    pub reader: Times,
}

/// Times one text.
pub fn row(readers: &mut Readers, text: &str) -> Row {
    let times = interleaved(|i| {
        readers.read(ROUND[i], text);
    });
    let [lent, rust, reader] = times;
    Row { lent, rust, reader }
}

pub fn print(texts: &[Text]) -> Result<(), String> {
    for text in texts {
        agree::check(text)?;
    }
    println!("Microseconds of a call, the least of all rounds (and the median); a ratio above 1 means that ours is faster.\n");
    println!(
        "| text | bytes | Rust | ours, lent slices | ours, Reader | Rust/lent | Rust/Reader |"
    );
    println!("|---|---|---|---|---|---|---|");
    let mut readers = Readers::ready();
    for text in texts {
        print_row(text, &row(&mut readers, &text.text));
    }
    print_alone(&mut readers);
    Ok(())
}

fn print_row(text: &Text, row: &Row) {
    let ratio = |ours: Times| match text.expected {
        Expected::TooLong => "-".to_string(),
        _ => format!("{:.2} ({:.2})", row.rust.min / ours.min, row.rust.median / ours.median),
    };
    println!(
        "| {} | {} | {} | {} | {} | {} | {} |",
        text.name,
        text.text.len(),
        micros(row.rust),
        micros(row.lent),
        micros(row.reader),
        ratio(row.lent),
        ratio(row.reader)
    );
}

fn micros(times: Times) -> String {
    format!("{:.2} ({:.2})", times.min / 1e3, times.median / 1e3)
}

/// What a call on lent slices can't do without.
fn print_alone(readers: &mut Readers) {
    let [clearing] = interleaved(|_| readers.slices().clear());
    let [new] = interleaved(|_| {
        std::hint::black_box(recordtable::Reader::new());
    });
    println!("\nAlone: clearing the lent slices ({LENT_BYTES} bytes) {} us;", micros(clearing));
    println!("a new Reader and its end {} us.", micros(new));
}
