//! The table of a C header: the size of its types, the place of each member, the
//! values of its enums. The reader behind it is proved: whatever the text, its
//! answer is the one that the definition gives, or a refusal with a number and
//! a place. This crate lends it memory and shows what it found.
//!
//! ```
//! use recordtable::{Model, Reader};
//!
//! let mut reader = Reader::new();
//! let table = reader.read_unit(b"struct lock { char day; short minute[6]; };", Model::Lp64)?;
//! for member in table.members() {
//!     println!("{} at {}", member.name.unwrap_or("-"), member.offset);
//! }
//! assert_eq!(table.members().map(|m| m.offset).collect::<Vec<_>>(), [0, 2]);
//! # Ok::<(), recordtable::Refusal>(())
//! ```
//!
//! A call uses up to 2 MB of stack, on deeply nested parameter lists; a thread of
//! `std` has as much unless told otherwise, and less ends the process.

#![deny(unsafe_code)]
#![warn(missing_debug_implementations)]

#[allow(unsafe_code)]
mod ffi;
mod refusal;
#[allow(unsafe_code)]
mod slices;
mod table;

pub use refusal::Refusal;
pub use table::{
    Bits, Declaration, Member, Name, OwnedTable, Parameter, Row, Storage, Table, Type, Value,
};

use ffi::Entry;
use slices::Slices;

/// A data model: the sizes of C's types.
#[derive(Clone, Copy, Debug, PartialEq, Eq, Hash)]
pub enum Model {
    /// 64-bit Unix: `long` and pointers are 8 bytes.
    Lp64,
    /// 32 bits: `int`, `long` and pointers are 4 bytes.
    Ilp32,
    /// 64-bit Windows: pointers are 8 bytes, `long` is 4.
    Llp64,
}

impl Model {
    /// Every model.
    pub const ALL: [Model; 3] = [Model::Lp64, Model::Ilp32, Model::Llp64];

    fn number(self) -> u32 {
        match self {
            Model::Lp64 => 0,
            Model::Ilp32 => 1,
            Model::Llp64 => 2,
        }
    }
}

/// Most listings fit; a longer one is asked for again.
const FIRST_LISTING: usize = 16 * 1_024;

/// Reads texts. It owns the memory that tables stand in, 422 KB, and lends it
/// anew for each text; a reader that is kept saves making and clearing it.
pub struct Reader {
    slices: Slices,
}

impl Reader {
    pub fn new() -> Reader {
        Reader { slices: Slices::new() }
    }

    /// Reads a whole header.
    pub fn read_unit<'a>(&'a mut self, text: &'a [u8], model: Model) -> Result<Table<'a>, Refusal> {
        self.read(Entry::Unit, text, model)
    }

    /// Reads a single declaration, of one name at most; the semicolon may be missing.
    ///
    /// ```
    /// # use recordtable::{Model, Reader};
    /// let mut reader = Reader::new();
    /// let table = reader.read_declaration(b"int (*handler)(void)", Model::Lp64)?;
    /// assert_eq!(table.declarations().next().unwrap().name, Some("handler"));
    /// assert_eq!(reader.read_declaration(b"int a, b;", Model::Lp64).unwrap_err().number, 24);
    /// # Ok::<(), recordtable::Refusal>(())
    /// ```
    pub fn read_declaration<'a>(
        &'a mut self,
        text: &'a [u8],
        model: Model,
    ) -> Result<Table<'a>, Refusal> {
        self.read(Entry::Declaration, text, model)
    }

    /// What the program `recordtable` prints for a whole header: its listing, or the line of its refusal.
    ///
    /// ```
    /// # use recordtable::{Model, Reader};
    /// let mut reader = Reader::new();
    /// assert_eq!(reader.unit_report(b"int @;", Model::Lp64), "refused 7 4 1 5\n");
    /// ```
    pub fn unit_report(&mut self, text: &[u8], model: Model) -> String {
        self.report(Entry::Unit, text, model)
    }

    /// The same of a single declaration.
    pub fn declaration_report(&mut self, text: &[u8], model: Model) -> String {
        self.report(Entry::Declaration, text, model)
    }

    fn read<'a>(
        &'a mut self,
        entry: Entry,
        text: &'a [u8],
        model: Model,
    ) -> Result<Table<'a>, Refusal> {
        let counts = self
            .slices
            .read(entry, text, model.number())
            .map_err(|(number, [offset, line, column])| Refusal { number, offset, line, column })?;
        let Slices { words, wides, signeds, .. } = &self.slices;
        Ok(Table::new(text, model, entry, words, wides, signeds, counts))
    }

    fn report(&mut self, entry: Entry, text: &[u8], model: Model) -> String {
        let mut out = vec![0; FIRST_LISTING];
        let mut length = self.slices.report(entry, text, model.number(), &mut out);
        if length > out.len() {
            out.resize(length, 0);
            length = self.slices.report(entry, text, model.number(), &mut out);
        }
        out.truncate(length);
        String::from_utf8(out).expect("a listing is ASCII")
    }
}

impl Default for Reader {
    fn default() -> Reader {
        Reader::new()
    }
}

impl std::fmt::Debug for Reader {
    fn fmt(&self, f: &mut std::fmt::Formatter<'_>) -> std::fmt::Result {
        f.debug_struct("Reader").finish_non_exhaustive()
    }
}
