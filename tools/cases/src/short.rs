//! All token strings up to a length over small alphabets.
//!
//! The count decides the length: each alphabet takes its share, whole lengths
//! while they fit, and a random choice of the first length that doesn't.

use crate::rng::Rng;
use batch::{Entry, Record};
use std::collections::{BTreeSet, HashSet};

struct Alphabet {
    /// What stands around the string.
    before: &'static str,
    after: &'static str,
    /// What stands between two tokens.
    between: &'static str,
    tokens: &'static [&'static str],
}

const ALPHABETS: &[Alphabet] = &[
    // Declarators.
    Alphabet {
        before: "",
        after: "",
        between: " ",
        tokens: &[
            "int", "x", "*", "(", ")", "[", "]", ",", ";", "const", "2", "typedef", "void", "...",
            "y", "=",
        ],
    },
    Alphabet {
        before: "int ",
        after: ";",
        between: "",
        tokens: &["x", "*", "(", ")", "[", "]", "void", ",", "int", "1", "..."],
    },
    Alphabet {
        before: "typedef int T;typedef void V;int ",
        after: ";",
        between: " ",
        tokens: &["x", "*", "(", ")", "[", "]", "T", ",", "V", "1", "const"],
    },
    // Specifiers.
    Alphabet {
        before: "",
        after: " x;",
        between: " ",
        tokens: &[
            "int", "char", "short", "long", "signed", "unsigned", "float", "double", "void",
            "_Bool", "const", "static", "uint8_t", "struct S", "typedef",
        ],
    },
    // Constants.
    Alphabet {
        before: "enum{B=5,A=",
        after: "};",
        between: "",
        tokens: &[
            "1", "0", "-", "*", "/", "(", ")", "?", ":", "<<", "63", "~", "!", "B", "%", "==",
            "&&", "9223372036854775807", "+",
        ],
    },
    Alphabet {
        before: "int a[",
        after: "];",
        between: " ",
        tokens: &[
            "1", "0", "-", "*", "]", "[", "static", "const", "N", "(", ")", "sizeof", "\"s\"",
        ],
    },
    // Bodies.
    Alphabet {
        before: "",
        after: "",
        between: " ",
        tokens: &[
            "struct", "union", "S", "{", "}", "int", "a", ":", "0", "3", ";", ",", "char", "enum",
        ],
    },
    Alphabet {
        before: "struct S{",
        after: "};",
        between: " ",
        tokens: &[
            "int", "char", ":", "3", "0", "a", ";", ",", "*", "[]", "long", "struct S", "struct",
            "{", "}", "[2]", "union",
        ],
    },
    Alphabet {
        before: "union U{char c;",
        after: ";};",
        between: " ",
        tokens: &["int", "long long", ":", "3", "0", "a", ";", ",", "[]", "double", "struct{", "}"],
    },
    Alphabet {
        before: "enum ",
        after: ";",
        between: "",
        tokens: &["E", "{", "}", "A", "=", "1", ",", ":", ";", " int", "-", " enum "],
    },
    // Bytes.
    Alphabet {
        before: "",
        after: "",
        between: "",
        tokens: &[
            "'", "\"", "\\", "\n", "/", "*", "#", "x", "0", "8", "(", " ", ".", "@", "<", "-", "i",
            "\r", "\0",
        ],
    },
    Alphabet {
        before: "enum{A='",
        after: "'};",
        between: "",
        tokens: &["\\", "x", "0", "a", "n", "'", "\"", "f", "1", "\n", "\u{7f}"],
    },
    Alphabet {
        before: "int a[",
        after: "];",
        between: "",
        tokens: &["0", "x", "b", "1", "8", "9", "u", "L", "z", "f", "e", ".", "_", "X"],
    },
    Alphabet {
        before: "",
        after: "\nint x;",
        between: "",
        tokens: &[
            "#", "define", " ", "N", "(", "\\\n", "/*", "*/", "//", "1", "\n", "\\", "\t", ")",
        ],
    },
    Alphabet {
        before: "int ",
        after: ";",
        between: "",
        tokens: &[
            "__attribute__", "(", ")", "packed", "asm", " ", "x", "/**/", "\n", ",", "aligned", "*",
        ],
    },
];

pub fn records(rng: &mut Rng, count: usize) -> Vec<Record> {
    let share = (count / (2 * ALPHABETS.len())).max(1);
    let mut records = Vec::new();
    // Two strings of tokens can be one text.
    let mut seen = HashSet::new();
    for alphabet in ALPHABETS {
        for text in strings(alphabet, rng, share) {
            if !seen.insert(text.clone()) {
                continue;
            }
            let model = (records.len() / 2 % 3) as u64;
            for entry in Entry::ALL {
                let text = text.clone().into_bytes();
                records.push(Record { model, entry, text });
            }
        }
    }
    records
}

fn strings(alphabet: &Alphabet, rng: &mut Rng, share: usize) -> Vec<String> {
    let mut out = Vec::new();
    for length in 0.. {
        let all = (alphabet.tokens.len() as u64).checked_pow(length).unwrap_or(u64::MAX);
        let room = (share - out.len()) as u64;
        if all > room {
            let chosen = choose(rng, all, room);
            out.extend(chosen.iter().map(|n| string(alphabet, *n, length)));
            break;
        }
        out.extend((0..all).map(|n| string(alphabet, n, length)));
    }
    out
}

/// `some` different numbers below `all`.
fn choose(rng: &mut Rng, all: u64, some: u64) -> BTreeSet<u64> {
    let mut chosen = BTreeSet::new();
    while (chosen.len() as u64) < some {
        chosen.insert(rng.number() % all);
    }
    chosen
}

/// The string with this number: its digits in the alphabet's base.
fn string(alphabet: &Alphabet, mut number: u64, length: u32) -> String {
    let base = alphabet.tokens.len() as u64;
    let mut tokens = Vec::new();
    for _ in 0..length {
        tokens.push(alphabet.tokens[(number % base) as usize]);
        number /= base;
    }
    format!("{}{}{}", alphabet.before, tokens.join(alphabet.between), alphabet.after)
}
