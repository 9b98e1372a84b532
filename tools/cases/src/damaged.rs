//! Made headers with something broken in them.

use crate::grammar;
use crate::rng::Rng;

/// Tokens that change the meaning of what they land in.
const TOKENS: &[&str] = &[
    "int ", "struct ", "union{", "enum{", "{", "}", "(", ")", "[", "]", ";", ",", ":", "*", "=",
    "typedef ", "static ", "const ", "void ", "...", "0", "64", "65", "-1", "08", "9e9", "'", "\"",
    "/*", "*/", "//", "#", "\n#define X 1\n", "\n#define X\n", "\\\n", "\\", "@", "?", "<<", "/0",
    "__attribute__((packed))", "__attribute__((", "asm", " T ", "[1/0]", "[]", ":0", " x ",
    "9223372036854775808", "\0", "\x7f",
];

pub fn header(rng: &mut Rng) -> Vec<u8> {
    // A short text is more likely to be read as far as its damage.
    let mut text = grammar::short_header(rng).into_bytes();
    for _ in 0..1 + rng.below(2) {
        damage(rng, &mut text);
    }
    text
}

fn damage(rng: &mut Rng, text: &mut Vec<u8>) {
    let at = rng.below(text.len() + 1);
    let end = (at + 1 + rng.below(12)).min(text.len());
    match rng.below(10) {
        0 => drop(text.drain(at..end.min(at + 1).max(at))),
        1 => drop(text.drain(at..end)),
        2 => text.insert(at, printable(rng)),
        3 => text.insert(at, rng.number() as u8 & if rng.one_in(8) { 0xff } else { 0x7f }),
        4 => text.truncate(at),
        5 => replace(text, at, printable(rng)),
        6 => {
            let piece = text[at..end].to_vec();
            let to = rng.below(text.len() + 1);
            text.splice(to..to, piece);
        }
        _ => {
            let token = TOKENS[rng.below(TOKENS.len())];
            text.splice(at..at, token.bytes());
        }
    }
}

fn replace(text: &mut [u8], at: usize, byte: u8) {
    if let Some(old) = text.get_mut(at) {
        *old = byte;
    }
}

fn printable(rng: &mut Rng) -> u8 {
    b' ' + rng.below(95) as u8
}
