//! Texts of every length and byte, and readers that were used before.

use recordtable::{Model, Reader};

#[test]
fn texts_at_the_limit_and_past_it() {
    let mut reader = Reader::new();
    for length in [0, 1, 32_767, 32_768, 32_769, 10_000_000] {
        for filler in [b' ', b';', 0, 255] {
            let text = vec![filler; length];
            let answer = reader.read_unit(&text, Model::Lp64).map(|t| t.types().len());
            match answer {
                Ok(rows) => assert!(length <= 32_768 && rows == 1),
                Err(e) if length > 32_768 => {
                    assert_eq!((e.number, e.offset, e.line, e.column), (2, 0, 1, 1))
                }
                Err(e) => assert_eq!((e.number, e.offset), (if filler == 255 { 3 } else { 7 }, 0)),
            }
        }
    }
}

#[test]
fn full_texts_that_are_read() {
    // 32,768 bytes: one long list of enumerators, one of members, one name
    let enumerators = format!(
        "enum{{{}}};",
        (0..4_000).map(|i| format!("A{i:05}")).collect::<Vec<_>>().join(",")
    );
    let members = format!(
        "struct{{int {};}};",
        (0..4_000).map(|i| format!("a{i:05}")).collect::<Vec<_>>().join(",")
    );
    let name = format!("int {};", "n".repeat(32_768 - 5));
    let mut reader = Reader::new();
    for text in [enumerators, members, name] {
        assert!(text.len() <= 32_768);
        let table = reader
            .read_unit(text.as_bytes(), Model::Lp64)
            .unwrap_or_else(|e| panic!("{text:.20}: {e}"));
        let listing = table.listing();
        assert!(listing.len() > text.len());
        assert_eq!(listing.matches("value ").count(), table.values().len());
    }
}

#[test]
fn every_byte_alone_and_in_a_declaration() {
    let mut reader = Reader::new();
    for byte in 0..=255 {
        for text in [vec![byte], [b"int a", &[byte][..], b"b;"].concat()] {
            for model in Model::ALL {
                let read = reader.read_unit(&text, model).is_ok();
                let report = reader.unit_report(&text, model);
                assert_eq!(read, !report.starts_with("refused "), "{text:?}");
                if byte > 127 {
                    let at = text.iter().position(|b| *b == byte).unwrap();
                    assert_eq!(report, format!("refused 3 {at} 1 {}\n", at + 1));
                }
            }
        }
    }
}

#[test]
fn a_used_reader_answers_as_a_new_one() {
    let texts = [
        "struct T{char d;short m[6];};", "int @;", "enum{A,B,C};", "", "void f(int a,char b);",
        "foo a;", "int a;",
    ];
    let mut used = Reader::new();
    for first in texts {
        for second in texts {
            let _ = used.read_unit(first.as_bytes(), Model::Lp64);
            let again = used.read_unit(second.as_bytes(), Model::Ilp32).map(|t| format!("{t:?}"));
            let mut new = Reader::new();
            assert_eq!(
                again,
                new.read_unit(second.as_bytes(), Model::Ilp32).map(|t| format!("{t:?}"))
            );
        }
    }
}

#[test]
fn many_threads_with_readers_of_their_own() {
    let read = || Reader::new().unit_report(b"struct S { int a; };", Model::Lp64);
    let expected = read();
    let threads: Vec<_> = (0..8).map(|_| std::thread::spawn(read)).collect();
    for thread in threads {
        assert_eq!(thread.join().unwrap(), expected);
    }
}

/// The text that takes the most stack of those that were measured, on a thread with `std`'s own stack.
#[test]
fn deep_nesting_fits_the_stack_of_a_thread() {
    let text = format!("int f({}", "int(int g(".repeat(60));
    let read = move || {
        Reader::new().read_unit(text.as_bytes(), Model::Lp64).map(|_| ()).unwrap_err().number
    };
    assert_eq!(std::thread::spawn(read).join().unwrap(), 9);
}
