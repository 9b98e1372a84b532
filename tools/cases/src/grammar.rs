//! Random headers that use every construct the reader knows.
//!
//! Most of what is made is accepted; small doses of what is refused are mixed
//! in, so that a refusal is found in the middle of something.

use crate::examples::typedef_chain;
use crate::rng::Rng;

/// One random header.
pub fn header(rng: &mut Rng) -> String {
    let declarations = 1 + rng.below(6);
    with_declarations(rng, declarations)
}

/// A random header of one or two declarations.
pub fn short_header(rng: &mut Rng) -> String {
    let declarations = 1 + rng.below(2);
    with_declarations(rng, declarations)
}

fn with_declarations(rng: &mut Rng, declarations: usize) -> String {
    let mut maker = Maker::new(rng);
    for _ in 0..declarations {
        maker.declaration();
    }
    maker.out
}

/// Plain type words; the second half is refused or unusual.
const WORDS: &[&str] = &[
    "int", "char", "short", "long", "long long", "unsigned", "signed", "unsigned char",
    "signed char", "short int", "unsigned short", "long int", "unsigned long", "long unsigned int",
    "long long unsigned", "float", "double", "long double", "_Bool", "int long", "__signed__ char",
    "__unsigned int", "int8_t", "int16_t", "int32_t", "int64_t", "uint8_t", "uint16_t", "uint32_t",
    "uint64_t", "intmax_t", "uintmax_t", "intptr_t", "ssize_t", "ptrdiff_t", "uintptr_t", "size_t",
    "wchar_t", "char8_t", "char16_t", "char32_t", "bool", "double long", "int int",
    "signed signed", "short double", "long long long", "_Complex double", "unsigned float",
    "unsigned struct S", "char char", "void int", "short long", "long long double", "short short",
];
/// How many of `WORDS` are accepted.
const GOOD_WORDS: usize = 44;

const QUALIFIERS: &[&str] = &[
    "const", "volatile", "restrict", "__const", "__const__", "__volatile", "__volatile__",
    "__restrict", "__restrict__", "_Atomic",
];

const SILENT_WORDS: &[&str] =
    &["inline", "__inline", "__inline__", "_Noreturn", "_Thread_local", "__extension__", "_Atomic"];

const ATTRIBUTES: &[&str] = &[
    "__attribute__((unused))", "__attribute__ ((deprecated(\"(x)\")))", "__declspec(dllimport)",
    "asm(\"name\")", "__asm__ (\"x\" \"y\")", "__attribute((noreturn))", "__asm", "asm",
    "__attribute__\n(())",
];

const LAYOUT_ATTRIBUTES: &[&str] = &[
    "__attribute__((packed))", "__attribute__((aligned(8)))", "__attribute__((mode(DI)))",
    "__attribute((vector_size(16)))", "__declspec(unaligned)",
    "__attribute__((transparent_union))",
];

const HASH_LINES: &[&str] = &[
    "#pragma once", "#if defined(X)", "#endif", "# include <stdint.h>", "#define F(x) ((x)+1)",
    "#define EMPTY", "#define LONG(x) \\\n x", "#undef X /* a\n b */", "#", "#else // x",
    "#line 7 \"a\"", "#define", "#define 1 2", "#define N /* no body */", "# define N \\",
];

const KEPT_HASH_LINES: &[&str] = &[
    "#define N 6", " # define N\t(6)", "#define N \\\n 6", "#define N-1", "#define /**/ N /**/ 1",
];

const NUMBERS: &[&str] = &[
    "0", "1", "2", "3", "5", "7", "10", "63", "64", "65", "127", "255", "256", "1u", "2UL", "3llu",
    "4z", "010", "0x10", "0XfF", "0b101", "0B1", "07", "2147483647", "2147483648", "4294967295",
    "4294967296", "0x7fffffffffffffff", "9223372036854775807", "0x4000000000000000", "1000000",
    "9223372036854775808", "0xffffffffffffffff", "18446744073709551616", "08", "0x", "1.5", "1e5",
    "340282366920938463463374607431768211456", "0b2", "1_0", "12ab",
];
/// How many of `NUMBERS` have a value in range.
const GOOD_NUMBERS: usize = 31;

const CHARACTERS: &[&str] = &[
    "'a'", "'\\n'", "'\\t'", "'\\r'", "'\\0'", "'\\a'", "'\\b'", "'\\f'", "'\\v'", "'\\\\'",
    "'\\''", "'\\\"'", "'\"'", "'\\x41'", "'\\x141'", "'abcd'", "'\\q'", "'\\12'", "'\\xFf\\0'",
    "'\\\n'", "'/*'", "' '", "'abcdefgh'", "'''", "''", "'\\x'", "'abcdefghi'", "'\\xffbcdefgh'",
];
/// How many of `CHARACTERS` have a value in range.
const GOOD_CHARACTERS: usize = 23;

const INITIALISERS: &[&str] = &[
    "5", "{1,2,{3}}", "\"a;b\"", "\"\\\"\"", "'a'", "{[0]=1,.x=2}", "f(1,2)", "(int){3}", "&x",
    "{}", "a?b:c", "sizeof(int)", "\"a\" \"b\"", "{\"a,\",'b'}", "(1,2)", "a[1]", "}", "",
];

const BINARY: &[&str] = &[
    "||", "&&", "|", "^", "&", "==", "!=", "<", ">", "<=", ">=", "<<", ">>", "+", "-", "*", "/",
    "%",
];

const NAMES: &[&str] = &["a", "b", "c", "d", "e", "x1", "_y", "longer_name"];
const TAGS: &[&str] = &["S", "U", "E", "Node", "T"];
const WIDTHS: &[&str] =
    &["0", "1", "3", "7", "8", "9", "13", "16", "31", "32", "33", "40", "63", "64", "65", "-1"];

/// What may stand between two tokens of a noisy text.
const GAPS: &[&str] = &[
    " ", "  ", "\n", "\t", "/* c */", "// c\n", "\\\n", "/**/", "\r\n", "\x0b\x0c", "/* * / \n */",
];

struct Maker<'r> {
    rng: &'r mut Rng,
    out: String,
    /// Comments and odd blanks between tokens.
    noisy: bool,
    /// Inside a member, where a type without a size is refused: rarely made.
    sized: bool,
    typedefs: Vec<String>,
    tags: Vec<String>,
    enumerators: Vec<String>,
    /// Where declarations began, to repeat one of them.
    starts: Vec<usize>,
    made_names: usize,
}

impl<'r> Maker<'r> {
    fn new(rng: &'r mut Rng) -> Maker<'r> {
        let noisy = rng.one_in(3);
        Maker {
            rng,
            out: String::new(),
            noisy,
            sized: false,
            typedefs: Vec::new(),
            tags: Vec::new(),
            enumerators: Vec::new(),
            starts: Vec::new(),
            made_names: 0,
        }
    }

    /// Write a token, with a gap before it where one is needed or wanted.
    fn put(&mut self, token: &str) {
        let is_word = |c: char| c.is_ascii_alphanumeric() || c == '_';
        let joins = self.out.ends_with(is_word) && token.starts_with(is_word);
        if self.noisy && self.rng.one_in(4) {
            self.out += self.rng.pick(GAPS);
        } else if joins {
            self.out.push(' ');
        }
        self.out += token;
    }

    fn new_name(&mut self) -> String {
        self.made_names += 1;
        format!("n{}", self.made_names)
    }

    // -- declarations -----------------------------------------------------

    fn declaration(&mut self) {
        self.starts.push(self.out.len());
        match self.rng.below(24) {
            0..=5 => self.record_declaration(),
            6..=8 => self.enum_declaration(),
            9..=12 => self.typedef_declaration(),
            13 => self.hash_line(),
            14 => self.repeat_declaration(),
            15 if self.rng.one_in(6) => self.chain(),
            15 => self.forward_tag(),
            16..=17 => self.function(),
            _ => self.objects(),
        }
    }

    fn end(&mut self) {
        if self.rng.one_in(60) {
            return;
        }
        self.put(";");
        if self.rng.one_in(20) {
            self.put(";");
        }
        if self.rng.one_in(3) {
            self.out.push('\n');
        }
    }

    fn record_declaration(&mut self) {
        if self.rng.one_in(6) {
            self.storage();
        }
        self.record(0);
        if self.rng.one_in(3) {
            self.declarators();
        }
        self.end();
    }

    fn enum_declaration(&mut self) {
        self.enumeration();
        if self.rng.one_in(4) {
            self.declarators();
        }
        self.end();
    }

    fn typedef_declaration(&mut self) {
        self.put("typedef");
        self.specifiers(1);
        let name = if self.rng.one_in(8) && !self.typedefs.is_empty() {
            self.known_typedef()
        } else {
            self.new_name()
        };
        self.declarator(&name, 2);
        self.end();
        self.typedefs.push(name);
    }

    fn hash_line(&mut self) {
        let line = if self.rng.one_in(8) {
            self.rng.pick(KEPT_HASH_LINES)
        } else {
            self.rng.pick(HASH_LINES)
        };
        self.out.push('\n');
        self.out += line;
        self.out.push('\n');
    }

    /// The same words again: equal rows, replaced bodies, repeated typedefs.
    fn repeat_declaration(&mut self) {
        let start = self.starts[self.rng.below(self.starts.len())];
        let again = self.out[start..].to_string();
        self.out += &again;
    }

    /// A chain of typedefs around the 64 that `resolve` looks through.
    fn chain(&mut self) {
        let first =
            self.rng.pick(&["int T0[]", "void T0", "int T0(void)", "struct S T0", "int T0"]);
        let length = 60 + self.rng.below(10);
        self.out += &typedef_chain(first, length);
        let last = format!("T{}", length - 1);
        let uses = ["struct{int a;@ b;};", "int f(@);", "@ g(void);", "@ h[2];", "struct{@;};"];
        self.out += &self.rng.pick(&uses).replace('@', &last);
    }

    fn forward_tag(&mut self) {
        let keyword = self.rng.pick(&["struct", "union", "enum"]);
        self.put(keyword);
        self.tag();
        self.end();
    }

    fn function(&mut self) {
        if self.rng.one_in(3) {
            self.storage();
        }
        self.specifiers(1);
        let stars = self.rng.below(3);
        for _ in 0..stars {
            self.put("*");
        }
        let name = self.new_name();
        self.put(&name);
        self.parameters(2);
        if self.rng.one_in(4) {
            self.attribute();
        }
        self.end();
    }

    fn objects(&mut self) {
        if self.rng.one_in(4) {
            self.storage();
        }
        self.specifiers(0);
        self.declarators();
        self.end();
    }

    fn storage(&mut self) {
        let word = self.rng.pick(&["extern", "static", "auto", "register"]);
        self.put(word);
    }

    fn declarators(&mut self) {
        loop {
            let name = self.rng.pick(NAMES).to_string();
            self.declarator(&name, 3);
            if self.rng.one_in(5) {
                self.put("=");
                let value = self.rng.pick(INITIALISERS);
                self.put(value);
            }
            if !self.rng.one_in(3) {
                break;
            }
            self.put(",");
        }
    }

    // -- specifiers -------------------------------------------------------

    fn specifiers(&mut self, depth: usize) {
        self.around_type();
        match self.rng.below(16) {
            0 | 1 if depth < 3 => self.record(depth + 1),
            2 if depth < 3 => self.enumeration(),
            3 if !self.sized || self.rng.one_in(3) => self.known_record(),
            4..=6 if !self.typedefs.is_empty() => {
                let name = self.known_typedef();
                self.put(&name);
            }
            7 if !self.sized || self.rng.one_in(8) => self.put("void"),
            8 if self.rng.one_in(12) => self.put("unknown_type"),
            9 if self.rng.one_in(3) => {
                let word = WORDS[self.rng.below(WORDS.len())];
                self.put(word);
            }
            _ => {
                let word = WORDS[self.rng.below(GOOD_WORDS)];
                self.put(word);
            }
        }
        self.around_type();
    }

    /// Words that may stand on either side of the type.
    fn around_type(&mut self) {
        if self.rng.one_in(5) {
            let word = self.rng.pick(QUALIFIERS);
            self.put(word);
        }
        if self.rng.one_in(12) {
            let word = self.rng.pick(SILENT_WORDS);
            self.put(word);
        }
        if self.rng.one_in(15) {
            self.attribute();
        }
    }

    fn attribute(&mut self) {
        let words = if self.rng.one_in(12) { LAYOUT_ATTRIBUTES } else { ATTRIBUTES };
        let attribute = self.rng.pick(words);
        self.put(attribute);
    }

    fn known_typedef(&mut self) -> String {
        self.typedefs[self.rng.below(self.typedefs.len())].clone()
    }

    fn known_record(&mut self) {
        let keyword = self.rng.pick(&["struct", "union", "struct", "enum"]);
        self.put(keyword);
        if self.tags.is_empty() {
            return self.tag();
        }
        let tag = self.tags[self.rng.below(self.tags.len())].clone();
        self.put(&tag);
    }

    fn tag(&mut self) {
        let tag = self.rng.pick(TAGS);
        self.put(tag);
        self.tags.push(tag.to_string());
    }

    // -- declarators ------------------------------------------------------

    fn declarator(&mut self, name: &str, depth: usize) {
        let shape = if depth == 0 { 9 } else { self.rng.below(14) };
        match shape {
            0..=3 => {
                self.put("*");
                while self.rng.one_in(5) {
                    let word = self.rng.pick(QUALIFIERS);
                    self.put(word);
                }
                self.declarator(name, depth - 1);
            }
            4..=6 => {
                self.direct(name, depth - 1);
                self.bound();
            }
            7 if !self.sized || self.rng.one_in(8) => {
                self.direct(name, depth - 1);
                self.parameters(depth - 1);
            }
            8 => self.grouped(name, depth - 1),
            _ => self.put(name),
        }
    }

    /// A declarator that a suffix may follow: grouped, unless it is a name.
    fn direct(&mut self, name: &str, depth: usize) {
        if depth > 0 && self.rng.one_in(3) {
            self.grouped(name, depth);
        } else {
            self.put(name);
            while self.rng.one_in(4) {
                self.bound();
            }
        }
    }

    fn grouped(&mut self, name: &str, depth: usize) {
        self.put("(");
        self.declarator(name, depth);
        self.put(")");
    }

    fn bound(&mut self) {
        self.put("[");
        if self.rng.one_in(10) {
            self.put("static");
        }
        if self.rng.one_in(12) {
            let word = self.rng.pick(QUALIFIERS);
            self.put(word);
        }
        match self.rng.below(12) {
            0 | 1 if !self.sized || self.rng.one_in(8) => {}
            2 => self.constant(2),
            3 if self.rng.one_in(6) => self.put("*"),
            _ => {
                let small = NUMBERS[self.rng.below(10)];
                self.put(small);
            }
        }
        self.put("]");
    }

    fn parameters(&mut self, depth: usize) {
        self.put("(");
        match self.rng.below(6) {
            0 => {}
            1 => self.put("void"),
            _ => self.parameter_list(depth),
        }
        self.put(")");
    }

    fn parameter_list(&mut self, depth: usize) {
        loop {
            self.specifiers(2);
            if self.rng.one_in(4) {
                self.abstract_declarator();
            } else {
                let name = self.rng.pick(NAMES).to_string();
                self.declarator(&name, depth);
            }
            if !self.rng.one_in(2) {
                break;
            }
            self.put(",");
            if self.rng.one_in(6) {
                self.put("...");
                break;
            }
        }
    }

    fn abstract_declarator(&mut self) {
        let shapes =
            ["", "*", "[]", "[3]", "(*)(int)", "*const", "(*[2])(void)", "()", "**", "(*)[2]"];
        let shape = self.rng.pick(&shapes);
        if !shape.is_empty() {
            self.put(shape);
        }
    }

    // -- bodies -----------------------------------------------------------

    fn record(&mut self, depth: usize) {
        let keyword = self.rng.pick(&["struct", "struct", "union"]);
        self.put(keyword);
        if self.rng.one_in(20) {
            self.attribute();
        }
        if !self.rng.one_in(3) {
            self.tag();
        }
        self.put("{");
        let members = self.rng.below(5);
        for _ in 0..members {
            self.member(depth + 1);
        }
        if self.rng.one_in(10) {
            self.put("int rest[];");
        }
        self.put("}");
        if self.rng.one_in(20) {
            self.attribute();
        }
    }

    fn member(&mut self, depth: usize) {
        match self.rng.below(14) {
            0 if depth < 4 => self.record(depth),
            1 => {
                self.bit_field_type();
                self.put(":");
                self.width();
            }
            2..=4 => {
                self.bit_field_type();
                let name = self.rng.pick(NAMES);
                self.put(name);
                self.put(":");
                self.width();
            }
            5 if self.rng.one_in(20) => self.put("static int a"),
            6 if self.rng.one_in(4) => return self.put(";"),
            _ => self.plain_member(depth),
        }
        self.put(";");
    }

    fn plain_member(&mut self, depth: usize) {
        let around = std::mem::replace(&mut self.sized, true);
        self.specifiers(depth);
        loop {
            let name = self.rng.pick(NAMES).to_string();
            // A pointer keeps a member of unknown size from being refused.
            if self.rng.one_in(2) {
                self.put("*");
            }
            self.declarator(&name, 2);
            if !self.rng.one_in(4) {
                break;
            }
            self.put(",");
        }
        self.sized = around;
    }

    fn bit_field_type(&mut self) {
        if self.rng.one_in(4) {
            return self.specifiers(3);
        }
        let types = [
            "int", "char", "short", "long", "long long", "unsigned", "_Bool", "uint16_t", "double",
            "float", "long double", "int64_t",
        ];
        let ty = self.rng.pick(&types);
        self.put(ty);
    }

    fn width(&mut self) {
        if self.rng.one_in(12) {
            return self.constant(1);
        }
        let good = WIDTHS.len() - 2;
        let among = if self.rng.one_in(25) { WIDTHS.len() } else { good };
        let width = WIDTHS[self.rng.below(among)];
        self.put(width);
    }

    fn enumeration(&mut self) {
        self.put("enum");
        if !self.rng.one_in(3) {
            self.tag();
        }
        if self.rng.one_in(60) {
            self.put(": int");
        }
        self.put("{");
        let values = self.rng.below(5);
        for n in 0..values {
            let name = self.new_name();
            self.put(&name);
            if self.rng.one_in(2) {
                self.put("=");
                self.constant(3);
            }
            self.enumerators.push(name);
            if n + 1 < values || self.rng.one_in(4) {
                self.put(",");
            }
        }
        self.put("}");
    }

    // -- constants --------------------------------------------------------

    fn constant(&mut self, depth: usize) {
        if depth == 0 {
            return self.operand();
        }
        match self.rng.below(12) {
            0..=2 => {
                let sign = self.rng.pick(&["-", "+", "~", "!", "- -"]);
                self.put(sign);
                self.constant(depth - 1);
            }
            3..=6 => {
                self.constant(depth - 1);
                let operator = self.rng.pick(BINARY);
                self.put(operator);
                self.constant(depth - 1);
            }
            7 => {
                self.constant(depth - 1);
                self.put("?");
                self.constant(depth - 1);
                self.put(":");
                self.constant(depth - 1);
            }
            8 => {
                self.put("(");
                self.constant(depth - 1);
                self.put(")");
            }
            _ => self.operand(),
        }
    }

    fn operand(&mut self) {
        match self.rng.below(10) {
            0 | 1 if !self.enumerators.is_empty() => {
                let name = self.enumerators[self.rng.below(self.enumerators.len())].clone();
                self.put(&name);
            }
            2 => {
                let rare = self.rng.one_in(15);
                let among = if rare { CHARACTERS.len() } else { GOOD_CHARACTERS };
                let character = CHARACTERS[self.rng.below(among)];
                self.put(character);
            }
            3 if self.rng.one_in(30) => self.put("UNKNOWN"),
            _ => {
                let rare = self.rng.one_in(40);
                let among = if rare { NUMBERS.len() } else { GOOD_NUMBERS };
                let number = NUMBERS[self.rng.below(among)];
                self.put(number);
            }
        }
    }
}
