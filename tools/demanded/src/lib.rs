//! The reader that document 01 describes, made of the Rust by patches.
//!
//! Each difference between document 01 and the Rust is one change of the
//! Rust's text (patches/mod.rs), so that what is demanded has an exact answer
//! for each text. `compare` holds a reader against this answer, and holds this
//! answer against the unchanged Rust wherever no demand speaks.

include!(concat!(env!("OUT_DIR"), "/sources.rs"));

pub mod demand;
// Over the patched tables; the oracle's use of it needs more than this one.
#[allow(dead_code)]
#[path = "../../oracle/src/listing.rs"]
pub mod listing;
#[path = "../../oracle/src/numbers.rs"]
mod numbers;

use batch::{place, refusal, Entry, Record};
use cdecl::{Declaration, ParseError};
use ctype::{Model, Types};
use std::panic::{self, AssertUnwindSafe};

/// The most bytes a text may have.
const LONGEST: usize = 32_768;

/// The answer that document 01 demands.
pub fn answer(record: &Record) -> Vec<u8> {
    let text = &record.text;
    let model = match record.model {
        0 => Model::lp64(),
        1 => Model::ilp32(),
        2 => Model::llp64(),
        _ => return refused(1, text, 0),
    };
    if text.len() > LONGEST {
        return refused(2, text, 0);
    }
    if let Some(offset) = text.iter().position(|b| *b > 127) {
        return refused(3, text, offset);
    }
    let text = std::str::from_utf8(text).expect("no byte is above 127");
    demand::begin_text();
    let asked = AssertUnwindSafe(|| ask(model, record.entry, text));
    match panic::catch_unwind(asked) {
        Ok(answer) => answer,
        Err(thrown) if thrown.is::<demand::TableFull>() => {
            refused(27, text.as_bytes(), demand::cursor())
        }
        Err(fault) => panic::resume_unwind(fault),
    }
}

fn refused(number: u32, text: &[u8], offset: usize) -> Vec<u8> {
    refusal(&number.to_string(), offset, place(text, offset)).into_bytes()
}

fn ask(model: Model, entry: Entry, text: &str) -> Vec<u8> {
    let mut types = Types::for_model(model);
    match read(&mut types, entry, text) {
        Ok(declarations) => {
            let first_bit = |id: ctype::TypeId, n| demand::first_bit(id.0, n).to_string();
            listing::listing(&types, &declarations, &first_bit).into_bytes()
        }
        Err(e) => {
            let number = demand::number_of(&e.message)
                .or_else(|| numbers::number_of(&e.message, text.as_bytes(), e.offset))
                .unwrap_or_else(|| panic!("no number for the message `{}`", e.message));
            refusal(&number.to_string(), e.offset, (e.line, e.column)).into_bytes()
        }
    }
}

fn read(types: &mut Types, entry: Entry, text: &str) -> Result<Vec<Declaration>, ParseError> {
    match entry {
        Entry::Unit => cdecl::translation_unit(types, text),
        Entry::Decl => cdecl::declaration(types, text).map(|d| vec![d]),
    }
}

/// A full table unwinds on purpose and is not worth a message; anything else
/// that unwinds here is a fault of these tools.
pub fn quiet_full_tables() {
    let usual = panic::take_hook();
    panic::set_hook(Box::new(move |info| {
        if !info.payload().is::<demand::TableFull>() {
            usual(info);
        }
    }));
}
