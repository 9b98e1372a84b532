//! The memory that tables stand in, lent to the proved reader for each text.
//!
//! Clearing all of it takes longer than reading a short text, so what a table left is cleared entry by entry, by its
//! counts: then all of it is zero, as it was when it was new.

use crate::ffi::{self, Entry, Lent, ANSWER, SIGNEDS, WIDES, WORDS};
use crate::table::{
    Counts, DECLARATIONS, MEMBERS, MEMBER_WIDES, NAMES, PARAMETERS, ROWS, ROW_WIDES, VALUES,
};

pub struct Slices {
    pub words: Box<[u32; WORDS]>,
    pub wides: Box<[u64; WIDES]>,
    pub signeds: Box<[i64; SIGNEDS]>,
    left: Left,
}

/// What stands in the slices between calls.
#[derive(Clone, Copy)]
enum Left {
    /// Zeros alone: they are new, or the last text was refused.
    Zeros,
    /// A table of so many entries, and zeros in all other places.
    Table(Counts),
    /// A table whose counts were not told.
    Unknown,
}

impl Slices {
    pub fn new() -> Slices {
        Slices { words: zeros(), wides: zeros(), signeds: zeros(), left: Left::Zeros }
    }

    /// Reads a text: the counts of its table, or the refusal's number, offset, line and column.
    pub fn read(
        &mut self,
        entry: Entry,
        text: &[u8],
        model: u32,
    ) -> Result<Counts, (u32, [usize; 3])> {
        let mut answer = [0; ANSWER];
        let number = match std::mem::replace(&mut self.left, Left::Unknown) {
            Left::Unknown => ffi::read(entry, text, model, self.lent(), &mut answer),
            left => {
                if let Left::Table(counts) = left {
                    self.clear(counts);
                }
                debug_assert!(self.are_zero());
                // SAFETY: what the last call left was cleared. It is proved that there is nothing outside a table's entries,
                // and nothing at all after a refusal.
                unsafe { ffi::read_in_zeros(entry, text, model, self.lent(), &mut answer) }
            }
        };
        let [rows, members, values, parameters, declarations, names] = answer.map(|n| n as usize);
        if number != 0 {
            self.left = Left::Zeros;
            let (offset, line, column) = (rows, members, values);
            return Err((number, [offset, line, column]));
        }
        let counts = Counts { rows, members, values, parameters, declarations, names };
        self.left = Left::Table(counts);
        Ok(counts)
    }

    /// Writes the listing of a text, or the line of its refusal, as far as it fits. The length of it.
    pub fn report(&mut self, entry: Entry, text: &[u8], model: u32, out: &mut [u8]) -> usize {
        self.left = Left::Unknown;
        ffi::report(entry, text, model, self.lent(), out)
    }

    fn lent(&mut self) -> Lent<'_> {
        let Slices { words, wides, signeds, .. } = self;
        Lent { words: &mut words[..], wides: &mut wides[..], signeds: &mut signeds[..] }
    }

    /// Clears the entries of a table.
    fn clear(&mut self, counts: Counts) {
        let words = &mut self.words[..];
        clear(ROWS.of_mut(words, counts.rows));
        clear(MEMBERS.of_mut(words, counts.members));
        clear(VALUES.of_mut(words, counts.values));
        clear(PARAMETERS.of_mut(words, counts.parameters));
        clear(DECLARATIONS.of_mut(words, counts.declarations));
        clear(NAMES.of_mut(words, counts.names));
        clear(ROW_WIDES.of_mut(&mut self.wides[..], counts.rows));
        clear(MEMBER_WIDES.of_mut(&mut self.wides[..], counts.members));
        clear(&mut self.signeds[..counts.values]);
    }

    fn are_zero(&self) -> bool {
        self.words.iter().all(|n| *n == 0)
            && self.wides.iter().all(|n| *n == 0)
            && self.signeds.iter().all(|n| *n == 0)
    }
}

/// An empty part is passed over: on memory that was never used, a `memset` of no bytes takes some 0.2 us where glibc uses AVX-512.
fn clear<T: Clone + Default>(part: &mut [T]) {
    if !part.is_empty() {
        part.fill(T::default());
    }
}

/// An array of zeros that was never on the stack.
fn zeros<T: Clone + Default, const N: usize>() -> Box<[T; N]> {
    match vec![T::default(); N].into_boxed_slice().try_into() {
        Ok(array) => array,
        Err(_) => unreachable!("a vector of N elements is an array of N"),
    }
}
