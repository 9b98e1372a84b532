//! How times grow with the length of a text.

use crate::agree;
use crate::readers::Readers;
use crate::table::row;
use crate::texts::{Expected, Text, GROWING, PLAIN};

const KILOBYTES: [usize; 6] = [1, 2, 4, 8, 16, 32];

/// Each length of scratch in crate `entry`, and one byte more, which asks for the next.
const AT_SCRATCH: [usize; 10] = [16, 64, 65, 320, 321, 1_536, 1_537, 7_168, 7_169, 32_768];

pub fn print() -> Result<(), String> {
    let mut readers = Readers::ready();
    let empty = row(&mut readers, "").lent.min;
    println!(
        "Nanoseconds for each byte of the text, from the least times of a call.\n\
         An empty text takes ours {empty:.0} ns, which the last column leaves out.\n"
    );
    println!(
        "| text | bytes | Rust | ours, lent slices | ours, Reader | Rust/lent | ours over empty |"
    );
    println!("|---|---|---|---|---|---|---|");
    for (name, make) in GROWING {
        for kilobytes in KILOBYTES {
            print_row(&mut readers, empty, name, make(kilobytes * 1_024))?;
        }
    }
    Ok(())
}

/// Texts with little to read, where what is cleared for a text weighs most.
pub fn print_plain() -> Result<(), String> {
    let mut readers = Readers::ready();
    println!(
        "Nanoseconds of a call, least times, Rust / ours (Reader), and the Rust's over ours.\n"
    );
    println!("| bytes | {} |", PLAIN.map(|(name, _)| name).join(" | "));
    println!("|---{}|", "|---".repeat(PLAIN.len()));
    for bytes in AT_SCRATCH {
        print!("| {bytes} |");
        for (name, make) in PLAIN {
            let text = Text { name, text: make(bytes), expected: Expected::Accepted };
            agree::check(&text)?;
            let row = row(&mut readers, &text.text);
            let (rust, ours) = (row.rust.min, row.reader.min);
            print!(" {rust:.0} / {ours:.0}: {:.2} |", rust / ours);
        }
        println!();
    }
    Ok(())
}

fn print_row(
    readers: &mut Readers,
    empty: f64,
    name: &'static str,
    text: String,
) -> Result<(), String> {
    let text = Text { name, text, expected: Expected::Accepted };
    agree::check(&text)?;
    let row = row(readers, &text.text);
    let bytes = text.text.len();
    let each = |ns: f64| ns / bytes as f64;
    println!(
        "| {name} | {bytes} | {:.2} | {:.2} | {:.2} | {:.2} | {:.2} |",
        each(row.rust.min),
        each(row.lent.min),
        each(row.reader.min),
        row.rust.min / row.lent.min,
        each(row.lent.min - empty)
    );
    Ok(())
}
