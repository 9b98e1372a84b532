//! The readers that are timed: the Rust, and the proved one called in two ways.

#[allow(dead_code)]
#[path = "../../../bindings/rust/src/ffi.rs"]
mod ffi;

use ffi::{Entry, ANSWER, SIGNEDS, WIDES, WORDS};
use oracle::cdecl;
use oracle::ctype::{Model, Types};
use recordtable::Reader;
use std::hint::black_box;

/// Bytes of the slices that a call is lent, the answer's included.
pub const LENT_BYTES: usize = 4 * WORDS + 8 * WIDES + 8 * SIGNEDS + 8 * ANSWER;

/// lp64's number.
const LP64: u32 = 0;

#[derive(Clone, Copy, Debug, PartialEq, Eq)]
pub enum Who {
    Rust,
    /// The C interface, on lent slices.
    Lent,
    /// `recordtable::Reader`, which owns its slices.
    Reader,
}

impl Who {
    pub fn named(word: &str) -> Option<Who> {
        match word {
            "rust" => Some(Who::Rust),
            "ours" => Some(Who::Lent),
            "reader" => Some(Who::Reader),
            _ => None,
        }
    }
}

/// The memory of all three, so that each call finds what its last one left.
pub struct Readers {
    slices: Slices,
    reader: Reader,
}

impl Readers {
    /// Noise in the lent slices, as a C program's may hold.
    pub fn ready() -> Readers {
        Readers { slices: Slices::noisy(), reader: Reader::new() }
    }

    /// One call. True where the text is accepted.
    #[inline]
    pub fn read(&mut self, who: Who, text: &str) -> bool {
        match who {
            Who::Rust => rust(text),
            Who::Lent => self.slices.read(text.as_bytes()),
            Who::Reader => reader(&mut self.reader, text.as_bytes()),
        }
    }

    pub fn slices(&mut self) -> &mut Slices {
        &mut self.slices
    }
}

/// The Rust builds its table, and drops it.
fn rust(text: &str) -> bool {
    let mut types = Types::for_model(Model::lp64());
    let read = cdecl::translation_unit(&mut types, black_box(text));
    black_box(&types);
    black_box(&read).is_ok()
}

fn reader(reader: &mut Reader, text: &[u8]) -> bool {
    black_box(&reader.read_unit(black_box(text), recordtable::Model::Lp64)).is_ok()
}

/// Slices as a C program would lend them: nobody clears them between calls.
pub struct Slices {
    words: Vec<u32>,
    wides: Vec<u64>,
    signeds: Vec<i64>,
    answer: [u64; ANSWER],
}

impl Slices {
    fn noisy() -> Slices {
        Slices {
            words: vec![0xdead_beef; WORDS],
            wides: vec![0xdead_beef_dead_beef; WIDES],
            signeds: vec![-1; SIGNEDS],
            answer: [u64::MAX; ANSWER],
        }
    }

    fn read(&mut self, text: &[u8]) -> bool {
        let Slices { words, wides, signeds, answer } = self;
        let lent = ffi::Lent { words, wides, signeds };
        let number = ffi::read(Entry::Unit, black_box(text), LP64, lent, answer);
        black_box(&self.answer);
        number == 0
    }

    /// Clearing alone, as fast as Rust does it.
    pub fn clear(&mut self) {
        black_box(&mut self.words).fill(0);
        black_box(&mut self.wides).fill(0);
        black_box(&mut self.signeds).fill(0);
        black_box(&self);
    }
}
