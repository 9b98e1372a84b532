//! Answers as they are compared: their kind, and how two of them differ.

/// What an answer is, as far as a class of mismatches needs it: `listing`,
/// `refused N`, or the first word of anything else.
pub fn kind(answer: &[u8]) -> String {
    let text = String::from_utf8_lossy(answer);
    let mut words = text.split_ascii_whitespace();
    match words.next() {
        Some("type") => "listing".into(),
        Some("refused") => format!("refused {}", words.next().unwrap_or("nothing")),
        Some(word) => word.chars().take(40).collect(),
        None => "nothing".into(),
    }
}

/// A refusal's number and offset, for answers that are refusals.
pub fn refusal(answer: &[u8]) -> Option<(u32, usize)> {
    let text = std::str::from_utf8(answer).ok()?;
    let mut words = text.split_ascii_whitespace();
    if words.next() != Some("refused") {
        return None;
    }
    Some((words.next()?.parse().ok()?, words.next()?.parse().ok()?))
}

/// True where the Rust's answer says the same: token by token, `?` standing
/// for a number that the Rust does not keep.
pub fn agree(rust: &[u8], demanded: &[u8]) -> bool {
    let lines = |answer| -> Vec<Vec<u8>> {
        <[u8]>::split(answer, |b| *b == b'\n').map(<[u8]>::to_vec).collect()
    };
    let (rust, demanded) = (lines(rust), lines(demanded));
    rust.len() == demanded.len()
        && rust.iter().zip(&demanded).all(|(r, d)| r == d || line_agrees(r, d))
}

fn line_agrees(rust: &[u8], demanded: &[u8]) -> bool {
    let tokens = |line| -> Vec<Vec<u8>> {
        <[u8]>::split(line, |b| *b == b' ').map(<[u8]>::to_vec).collect()
    };
    let (rust, demanded) = (tokens(rust), tokens(demanded));
    rust.len() == demanded.len() && rust.iter().zip(&demanded).all(|(r, d)| r == d || r == b"?")
}

/// The class of a mismatch: the two kinds, and for answers of one kind what
/// the first difference is about.
pub fn class_of(demanded: &[u8], reader: &[u8]) -> String {
    let (wanted, got) = (kind(demanded), kind(reader));
    if wanted != got {
        return format!("{wanted} -> {got}");
    }
    if wanted == "listing" {
        return format!("listing differs in {}", first_difference(demanded, reader));
    }
    format!("{wanted} at another place")
}

fn first_difference(demanded: &[u8], reader: &[u8]) -> String {
    let wanted = String::from_utf8_lossy(demanded);
    let got = String::from_utf8_lossy(reader);
    let (mut wanted, mut got) = (wanted.lines(), got.lines());
    loop {
        match (wanted.next(), got.next()) {
            (Some(w), Some(g)) if w == g => {}
            (Some(w), Some(g)) => return line_difference(w, g),
            (Some(w), None) => return format!("a missing `{}` line", first_word(w)),
            (None, Some(g)) => return format!("an extra `{}` line", first_word(g)),
            (None, None) => return "line feeds".into(),
        }
    }
}

fn line_difference(wanted: &str, got: &str) -> String {
    let word = first_word(wanted);
    if word != first_word(got) {
        return format!("`{}` for a `{word}` line", first_word(got));
    }
    let same = wanted.split(' ').zip(got.split(' ')).take_while(|(w, g)| w == g).count();
    let kind = if word == "type" { wanted.split(' ').nth(2).unwrap_or("") } else { "" };
    format!("token {same} of a `{}` line", format!("{word} {kind}").trim())
}

fn first_word(line: &str) -> &str {
    let known = ["type", "member", "value", "param", "decl", "refused"];
    let word = line.split(' ').next().unwrap_or("");
    if known.contains(&word) {
        word
    } else {
        "strange"
    }
}

#[cfg(test)]
mod tests {
    use super::*;

    #[test]
    fn only_the_rust_may_leave_a_token_open() {
        assert!(agree(b"member 0 ? 3 2 b\n", b"member 0 8 3 2 b\n"));
        assert!(!agree(b"member 0 8 3 2 b\n", b"member 0 ? 3 2 b\n"));
        assert!(!agree(b"member 0 ? 3 2 b\n", b"member 0 8 3 2\n"));
        assert!(!agree(b"refused 8 1 1 2\n", b"refused 8 2 1 2\n"));
    }

    #[test]
    fn classes_name_the_first_difference() {
        assert_eq!(
            class_of(b"refused 8 1 1 2\n", b"refused 8 2 1 2\n"),
            "refused 8 at another place"
        );
        assert_eq!(class_of(b"type 0 void - -\n", b"refused 8 2 1 2\n"), "listing -> refused 8");
        assert_eq!(
            class_of(
                b"type 0 void - -\nmember 1 - - 2 a\n", b"type 0 void - -\nmember 2 - - 2 a\n"
            ),
            "listing differs in token 1 of a `member` line"
        );
    }
}
