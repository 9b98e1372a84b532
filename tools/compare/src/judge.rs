//! Judging answers: the Rust, what document 01 demands, and the reader.

use crate::answers::{agree, class_of};
use crate::demands;
use batch::supervise::{Supervisor, SLOW};
use batch::Record;
use std::io;
use std::panic::{catch_unwind, AssertUnwindSafe};

/// The word with which this program starts itself as the Rust's worker.
pub const RUST_WORKER: &str = "--rust-worker";

/// What the right answer to one record is.
pub struct Expected {
    /// The unchanged Rust's answer.
    pub rust: Vec<u8>,
    /// Document 01's answer.
    pub demanded: Vec<u8>,
    pub because: Because,
}

/// Why document 01's answer is what it is.
#[derive(Clone, Copy)]
pub enum Because {
    /// The Rust answers so.
    Rust,
    /// A demand of this name stands against the Rust.
    Demand(&'static str),
    /// No demand explains the difference: a fault of these tools.
    Nothing,
}

impl Expected {
    pub fn is_slow(&self) -> bool {
        self.rust == SLOW
    }
}

/// The two judges.
pub struct Judges {
    rust: Supervisor,
}

impl Judges {
    pub fn new(patience: std::time::Duration) -> io::Result<Judges> {
        demanded::quiet_full_tables();
        let program = std::env::current_exe()?;
        Ok(Judges { rust: Supervisor::new(program, &[RUST_WORKER], patience) })
    }

    pub fn expected(&mut self, records: &[Record]) -> io::Result<Vec<Expected>> {
        let rust = self.rust.ask(records)?;
        Ok(records.iter().zip(rust).map(|(record, rust)| expect(record, rust)).collect())
    }
}

fn expect(record: &Record, rust: Vec<u8>) -> Expected {
    let asked = catch_unwind(AssertUnwindSafe(|| demanded::answer(record)));
    let demanded = asked.unwrap_or_else(|_| b"panicked in the tools\n".to_vec());
    let because = if agree(&rust, &demanded) {
        Because::Rust
    } else {
        match demands::explain(record, &rust, &demanded) {
            Some(demand) => Because::Demand(demand.name),
            None => Because::Nothing,
        }
    };
    Expected { rust, demanded, because }
}

/// The class of a mismatch, or nothing where the reader is right.
pub fn mismatch(expected: &Expected, reader: &[u8]) -> Option<String> {
    if let Because::Nothing = expected.because {
        let class = class_of(&expected.rust, &expected.demanded);
        return Some(format!("FAULT OF THE TOOLS, no demand explains {class}"));
    }
    (expected.demanded != reader).then(|| class_of(&expected.demanded, reader))
}
