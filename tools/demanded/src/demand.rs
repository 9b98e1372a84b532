//! What the patches call: the limits of document 01, its range of values, and
//! notes that the Rust keeps no room for. One text is read at a time on a
//! thread, so the notes are thread-local and begin anew with `begin_text`.

use std::cell::RefCell;
use std::collections::HashMap;

/// Refusals that the Rust lacks carry their number in front.
pub const HASH_LINE: &str = "demanded 4: a `#` line that a macro is made of";
pub const VALUE: &str = "demanded 8: the exact value fits no signed 64 bits";
pub const LAYOUT: &str = "demanded 26: a size or bit count in a layout passes 64 bits";
pub const LIMIT: &str = "demanded 27: a limit would be passed";

/// The number of a refusal that only document 01 has.
pub fn number_of(message: &str) -> Option<u32> {
    let rest = message.strip_prefix("demanded ")?;
    rest.split(':').next()?.parse().ok()
}

// -- values ---------------------------------------------------------------

pub fn fits(value: i128) -> bool {
    i64::try_from(value).is_ok()
}

/// The exact value of digits, `i128::MAX` standing for anything above that.
pub fn literal(digits: &str, radix: u32) -> Option<i128> {
    if digits.is_empty() || !digits.chars().all(|c| c.is_digit(radix)) {
        return None;
    }
    Some(i128::from_str_radix(digits, radix).unwrap_or(i128::MAX))
}

/// One more byte of a character constant; a value that has left the range
/// stays outside, since bytes are only added below it.
pub fn one_more_byte(value: i128, byte: i128) -> i128 {
    if fits(value) {
        (value << 8) | byte
    } else {
        value
    }
}

/// `left` times 2^count, or something outside the range where that is so.
pub fn shift_left(left: i128, count: u32) -> i128 {
    match (left, count) {
        (0, _) => 0,
        (_, 0..=63) => left << count,
        _ => i128::MAX,
    }
}

// -- limits ---------------------------------------------------------------

/// What is counted over a text, and the steps of one declarator.
#[derive(Debug, Clone, Copy)]
pub enum Entry {
    Declaration,
    Member,
    Enumerator,
    Parameter,
    Step,
}

impl Entry {
    fn limit(self) -> usize {
        match self {
            Entry::Declaration => 1024,
            Entry::Member | Entry::Enumerator | Entry::Parameter => 4096,
            Entry::Step => 256,
        }
    }
}

const ROW_LIMIT: usize = 1024;

/// Thrown where a row is needed and the table is full.
pub struct TableFull;

pub fn need_row(rows: usize) {
    if rows >= ROW_LIMIT {
        std::panic::panic_any(TableFull);
    }
}

#[derive(Default)]
struct Notes {
    counts: [usize; 5],
    cursor: usize,
    last_first_bits: Vec<u64>,
    first_bits: HashMap<u32, Vec<u64>>,
}

thread_local! {
    static NOTES: RefCell<Notes> = RefCell::default();
}

pub fn begin_text() {
    NOTES.set(Notes::default());
}

/// Count one entry; false where there is no room for it.
pub fn take(entry: Entry) -> bool {
    NOTES.with_borrow_mut(|notes| {
        let count = &mut notes.counts[entry as usize];
        let room = *count < entry.limit();
        *count += room as usize;
        room
    })
}

/// Start counting steps from 0; gives the count of the declarator around.
pub fn begin_declarator() -> usize {
    NOTES.with_borrow_mut(|notes| std::mem::take(&mut notes.counts[Entry::Step as usize]))
}

pub fn end_declarator(around: usize) {
    NOTES.with_borrow_mut(|notes| notes.counts[Entry::Step as usize] = around);
}

pub fn note_cursor(offset: usize) {
    NOTES.with_borrow_mut(|notes| notes.cursor = offset);
}

pub fn cursor() -> usize {
    NOTES.with_borrow(|notes| notes.cursor)
}

// -- first bits -----------------------------------------------------------

/// The first bits of the body that was laid out last.
pub fn note_first_bits(bits: Vec<u64>) {
    NOTES.with_borrow_mut(|notes| notes.last_first_bits = bits);
}

/// The last body became this row's.
pub fn keep_first_bits(row: u32) {
    NOTES.with_borrow_mut(|notes| {
        let bits = std::mem::take(&mut notes.last_first_bits);
        notes.first_bits.insert(row, bits);
    });
}

pub fn first_bit(row: u32, field: usize) -> u64 {
    NOTES.with_borrow(|notes| notes.first_bits[&row][field])
}

#[cfg(test)]
mod tests {
    use super::*;

    #[test]
    fn shifts_are_exact() {
        assert_eq!(shift_left(-1, 63), i64::MIN as i128);
        assert!(!fits(shift_left(1, 63)));
        assert!(!fits(shift_left(4, 126)));
        assert_eq!(shift_left(0, 127), 0);
    }

    #[test]
    fn literals_are_exact_or_outside() {
        assert_eq!(literal("ff", 16), Some(255));
        assert_eq!(literal("8", 8), None);
        assert_eq!(literal("", 16), None);
        assert!(!fits(literal(&"9".repeat(60), 10).unwrap()));
    }

    #[test]
    fn the_257th_step_has_no_room() {
        begin_text();
        assert!((0..256).all(|_| take(Entry::Step)));
        assert!(!take(Entry::Step));
        let around = begin_declarator();
        assert!(take(Entry::Step));
        end_declarator(around);
        assert!(!take(Entry::Step));
    }
}
