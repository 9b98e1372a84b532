//! The refusal number of document 01 for a message of the Rust.
//!
//! The Rust has words and no numbers. Messages quote the text (names, string
//! literals, attribute bodies), so a message is matched at its two ends and
//! never by something it contains: a quoted string can't pass for a reason.

/// Messages that begin like this.
const PREFIXES: &[(&str, u32)] = &[
    ("expected `", 10),
    ("expected a constant, found ", 23),
    ("expected a declared name, found ", 14),
];

/// Messages that are this and nothing else.
const WHOLE: &[(&str, u32)] = &[
    ("a comment was never closed", 5),
    ("a string literal was never closed", 5),
    ("a character constant was never closed", 6),
    ("this declaration nests too deeply to read", 9),
    ("this expression nests too deeply to read", 9),
    ("a structure body was never closed", 10),
    ("an enumerator must be a name", 10),
    ("two type names in one declaration", 11),
    ("this declaration names no type", 11),
    ("a `typedef` with no name declares nothing", 14),
    ("this declares a type with no name", 14),
    ("`struct` with no tag and no body", 14),
    ("`union` with no tag and no body", 14),
    ("`enum` with no tag and no body", 14),
    ("this member declares a type and no field", 14),
    ("a structure member needs a name", 14),
    ("an array of `void` has no element size", 16),
    ("a function cannot return an array or another function", 16),
    ("a parameter cannot be `void`", 16),
    ("a structure member has no storage class", 17),
    ("a variable length array has no fixed size", 18),
    ("an array bound cannot be negative", 18),
    ("this structure is larger than four gigabytes", 21),
    ("division by zero in a constant expression", 22),
    ("one declaration was expected and the text holds more", 24),
    ("this declares more than one name; declare them one at a time", 24),
    ("an enumeration with a fixed underlying type is not read", 25),
];

/// Messages that end like this, after something quoted from the text.
const SUFFIXES: &[(&str, u32)] = &[
    (" has an unclosed parenthesis", 5),
    (" is not an integer constant this parser reads", 6),
    (" does not belong in a declaration", 7),
    (" has a value no integer type holds", 8),
    (" is a keyword, not an enumerator", 10),
    (" follows a type that is already complete", 11),
    (" is not a type", 11),
    (" is not a type this parser knows", 12),
    (" changes the layout and is not implemented", 13),
    ("both arms of a `#if` are read", 15),
    (" is not a bitfield width", 19),
    (", whose size is not known here", 20),
    ("`#define`s and literals do", 23),
];

/// The number for a message, or `None` for a message this table lacks.
///
/// One message stands for two numbers: a literal of 2^128 or more is told like
/// a malformed one. The text at the refusal decides (`8` where it is only too
/// large).
pub fn number_of(message: &str, text: &[u8], offset: usize) -> Option<u32> {
    let number = listed_number(message)?;
    if number == 6 && literal_is_only_too_large(&text[offset.min(text.len())..]) {
        return Some(8);
    }
    Some(number)
}

fn listed_number(message: &str) -> Option<u32> {
    let find = |table: &[(&str, u32)], fits: &dyn Fn(&str) -> bool| {
        table.iter().find(|(m, _)| fits(m)).map(|(_, n)| *n)
    };
    find(PREFIXES, &|m| message.starts_with(m))
        .or_else(|| find(WHOLE, &|m| message == m))
        .or_else(|| find(SUFFIXES, &|m| message.ends_with(m)))
}

/// True for a number that the Rust's `integer` would read if it were smaller.
fn literal_is_only_too_large(text: &[u8]) -> bool {
    let length =
        text.iter().take_while(|b| b.is_ascii_alphanumeric() || **b == b'_' || **b == b'.').count();
    let word = String::from_utf8_lossy(&text[..length]).to_ascii_lowercase();
    let body = word.trim_end_matches(['u', 'l', 'z']);
    let (radix, digits) = match (body.strip_prefix("0x"), body.strip_prefix("0b")) {
        (Some(rest), _) => (16, rest),
        (_, Some(rest)) => (2, rest),
        _ if body.len() > 1 && body.starts_with('0') => (8, &body[1..]),
        _ => (10, body),
    };
    !digits.is_empty() && digits.chars().all(|c| c.is_digit(radix))
}

#[cfg(test)]
mod tests {
    use super::*;

    #[test]
    fn quoted_words_do_not_decide() {
        let message = "expected `;` after it, found a string literal \" is not a type\"";
        assert_eq!(number_of(message, b"", 0), Some(10));
        assert_eq!(number_of("no such message", b"", 0), None);
    }

    #[test]
    fn a_literal_is_malformed_or_only_too_large() {
        let message = "\"1\" is not an integer constant this parser reads";
        let digits = [b'9'; 50];
        assert_eq!(number_of(message, &digits, 0), Some(8));
        assert_eq!(number_of(message, b"0x", 0), Some(6));
        assert_eq!(number_of(message, b"08", 0), Some(6));
        assert_eq!(
            number_of(message, b"99999999999999999999999999999999999999999999x9", 0),
            Some(6)
        );
    }
}
