//! The differences from the Rust that document 01 demands, by name.
//!
//! The exact answer comes from `demanded`. Here it is decided whether that
//! answer may differ from the Rust's at all: each name has a test of its own
//! over the record and both answers, and a difference that no test takes is a
//! fault of the tools.

use crate::answers::refusal;
use batch::Record;

pub struct Demand {
    pub name: &'static str,
    test: fn(&Record, rust: &[u8], demanded: &[u8]) -> bool,
}

pub const ALL: &[Demand] = &[
    Demand { name: "model", test: model },
    Demand { name: "length", test: length },
    Demand { name: "byte", test: byte },
    Demand { name: "hash-line", test: hash_line },
    Demand { name: "value", test: value },
    Demand { name: "layout-range", test: layout_range },
    Demand { name: "limit", test: limit },
    Demand { name: "exact-size", test: exact_size },
    Demand { name: "slow", test: slow },
];

/// The demand that explains why the two answers differ.
pub fn explain(record: &Record, rust: &[u8], demanded: &[u8]) -> Option<&'static Demand> {
    ALL.iter().find(|d| (d.test)(record, rust, demanded))
}

/// "model not 0 to 2 …; offset 0"
fn model(record: &Record, _: &[u8], demanded: &[u8]) -> bool {
    record.model > 2 && refusal(demanded) == Some((1, 0))
}

/// "text over 32,768 bytes; offset 0"
fn length(record: &Record, _: &[u8], demanded: &[u8]) -> bool {
    record.text.len() > 32_768 && refusal(demanded) == Some((2, 0))
}

/// "byte above 127; the first such"
fn byte(record: &Record, _: &[u8], demanded: &[u8]) -> bool {
    let first = record.text.iter().position(|b| *b > 127);
    first.is_some_and(|at| refusal(demanded) == Some((3, at)))
}

/// "a `#` line that `object_like_macro` would keep; at `#`"
fn hash_line(record: &Record, _: &[u8], demanded: &[u8]) -> bool {
    match refusal(demanded) {
        Some((4, at)) => {
            let before = &record.text[..at];
            // Nothing but what may stand before a `#` on its line.
            let blank = before.rsplit(|b| *b == b'\n').next().unwrap_or(before);
            let commented = before.ends_with(b"*/") || blank.windows(2).any(|w| w == b"*/");
            let starts_line =
                commented || blank.iter().all(|b| b.is_ascii_whitespace() || *b == 11);
            record.text[at] == b'#'
                && starts_line
                && keeps_macro(&logical_line(&record.text[at + 1..]))
        }
        _ => false,
    }
}

/// A # line's text: joined lines and comments are blanks.
fn logical_line(mut text: &[u8]) -> String {
    let mut line = String::new();
    while let Some(first) = text.first() {
        let skipped = if text.starts_with(b"\\\n") {
            2
        } else if text.starts_with(b"/*") {
            let end = text[2..].windows(2).position(|w| w == b"*/");
            end.map_or(text.len(), |end| end + 4)
        } else if text.starts_with(b"//") {
            text.iter().position(|b| *b == b'\n').unwrap_or(text.len())
        } else if *first == b'\n' {
            break;
        } else {
            line.push(*first as char);
            text = &text[1..];
            continue;
        };
        line.push(' ');
        text = &text[skipped..];
    }
    line
}

/// `object_like_macro`, written again: `define`, a blank, a name that is no
/// number, and a body that begins with no parenthesis and is not blank.
fn keeps_macro(line: &str) -> bool {
    let blank = |c: char| c.is_ascii_whitespace() || c == '\x0b';
    let Some(rest) = line.trim_start_matches(blank).strip_prefix("define") else {
        return false;
    };
    let name = rest.trim_start_matches(blank);
    let length = name.bytes().take_while(|b| b.is_ascii_alphanumeric() || *b == b'_').count();
    let body = &name[length..];
    rest.starts_with(blank)
        && length > 0
        && !name.starts_with(|c: char| c.is_ascii_digit())
        && !body.starts_with('(')
        && body.contains(|c| !blank(c) && c != '\\')
}

/// "exact value outside −2^63 to 2^63 − 1; at the literal, operator or
/// enumerator name"
fn value(record: &Record, _: &[u8], demanded: &[u8]) -> bool {
    let Some((8, at)) = refusal(demanded) else {
        return false;
    };
    match record.text.get(at..) {
        Some([b'0'..=b'9' | b'\'', ..]) => true,
        Some([b'+' | b'-' | b'*' | b'/', ..] | [b'<', b'<', ..]) => true,
        Some([first, ..]) => first.is_ascii_alphabetic() || *first == b'_',
        _ => false,
    }
}

/// "a size, a bit count or the end of a struct bit-field's unit … in layout
/// passes 2^64 − 1": exactly there the Rust's 64 bits overflow.
fn layout_range(_: &Record, rust: &[u8], demanded: &[u8]) -> bool {
    matches!(refusal(demanded), Some((26, _))) && overflowed(rust)
}

/// "a limit would be passed": no text reaches one with fewer marks than this.
fn limit(record: &Record, _: &[u8], demanded: &[u8]) -> bool {
    let step_marks = record.text.iter().filter(|b| b"*[(".contains(b)).count();
    let solid = record.text.iter().filter(|b| b.is_ascii_graphic()).count();
    matches!(refusal(demanded), Some((27, _))) && (step_marks > 256 || solid > 1024)
}

/// "Sizes are exact, so a bound of 0 gives 0 under any sized element": the
/// Rust overflowed on the way to a size that fits.
fn exact_size(_: &Record, rust: &[u8], demanded: &[u8]) -> bool {
    overflowed(rust) && !matches!(refusal(demanded), Some((26, _)))
}

/// The Rust's alignment walk did not end in time; document 01 wants its answer
/// all the same, which `demanded` finds without walking twice.
fn slow(_: &Record, rust: &[u8], _: &[u8]) -> bool {
    rust == batch::supervise::SLOW
}

fn overflowed(rust: &[u8]) -> bool {
    let text = String::from_utf8_lossy(rust);
    text.starts_with("panicked attempt to ") && text.contains(" with overflow ")
}

#[cfg(test)]
mod tests {
    use super::*;

    #[test]
    fn kept_macros() {
        for line in ["define N 6", " define\tN-1", "define N \\6", "define _ 1"] {
            assert!(keeps_macro(line), "{line}");
        }
        for line in
            ["define N", "define N(x) 1", "defineN 6", "define 1 2", "undef N", "define N \\ "]
        {
            assert!(!keeps_macro(line), "{line}");
        }
        assert_eq!(logical_line(b"define N /* a\nb */ \\\n6 // x\nint"), "define N    6  ");
    }
}
