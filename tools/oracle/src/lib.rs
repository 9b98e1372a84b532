//! The Rust of document 01 as a judge that can be asked many times a second.
//!
//! `cdecl` and `ctype` are the files of docs/src, compiled unchanged. All that
//! is added is around them: the numbers of the refusals, the listing, and
//! answers where the Rust panics.

include!(concat!(env!("OUT_DIR"), "/sources.rs"));

pub mod listing;
pub mod numbers;

use batch::{Entry, Record};
use cdecl::{Declaration, ParseError};
use ctype::{Model, Types};
use std::cell::RefCell;
use std::panic::{self, AssertUnwindSafe};

/// The answer of the unchanged Rust.
///
/// It is not asked where it has no such question: a model that isn't one of
/// the three, a text that is not UTF-8.
pub fn answer(record: &Record) -> Vec<u8> {
    let Some(model) = model_of(record.model) else {
        return b"not-asked the model is none of the three\n".to_vec();
    };
    let Ok(text) = std::str::from_utf8(&record.text) else {
        return b"not-asked the text is not UTF-8\n".to_vec();
    };
    let asked = AssertUnwindSafe(|| ask(model, record.entry, text));
    match panic::catch_unwind(asked) {
        Ok(answer) => answer.into_bytes(),
        Err(_) => format!("panicked {}\n", last_panic()).into_bytes(),
    }
}

/// The model with this number in document 01.
pub fn model_of(number: u64) -> Option<Model> {
    match number {
        0 => Some(Model::lp64()),
        1 => Some(Model::ilp32()),
        2 => Some(Model::llp64()),
        _ => None,
    }
}

fn ask(model: Model, entry: Entry, text: &str) -> String {
    let mut types = Types::for_model(model);
    match read(&mut types, entry, text) {
        Ok(_) if listing::alignment_calls(&types) > PATIENT_CALLS => SLOW.into(),
        Ok(declarations) => listing::listing(&types, &declarations, &|_, _| "?".into()),
        Err(e) => {
            let number = numbers::number_of(&e.message, text.as_bytes(), e.offset);
            let number = number.map_or("?".to_string(), |n| n.to_string());
            batch::refusal(&number, e.offset, (e.line, e.column))
        }
    }
}

fn read(types: &mut Types, entry: Entry, text: &str) -> Result<Vec<Declaration>, ParseError> {
    match entry {
        Entry::Unit => cdecl::translation_unit(types, text),
        Entry::Decl => cdecl::declaration(types, text).map(|d| vec![d]),
    }
}

thread_local! {
    static LAST_PANIC: RefCell<String> = const { RefCell::new(String::new()) };
}

/// Keep panics from printing, and remember what they said and where. To be
/// called once, by a process whose panics are answers.
pub fn quiet_panics() {
    panic::set_hook(Box::new(|info| {
        let message = info.payload_as_str().unwrap_or("without a message").replace('\n', " ");
        let place = info.location().map_or(String::new(), |l| {
            let file = l.file().rsplit('/').next().unwrap_or_default();
            format!(" ({file}:{})", l.line())
        });
        LAST_PANIC.with_borrow_mut(|last| *last = message + &place);
    }));
}

fn last_panic() -> String {
    LAST_PANIC.with_borrow(|last| last.clone())
}

/// Be the worker of a supervised oracle (see `batch::supervise`).
pub fn work() -> std::io::Result<()> {
    quiet_panics();
    batch::supervise::serve(answer)
}

/// How long the Rust may think about one text before it is called slow.
pub const PATIENCE_MS: u64 = 500;

/// The same for the alignments that a listing asks of the table afterwards, in
/// calls of `align_at`. They are not made (the listing finds alignments in a
/// faster way), but a reader built like the Rust would make them.
const PATIENT_CALLS: u64 = 50_000_000;
const SLOW: &str = "slow\n";
