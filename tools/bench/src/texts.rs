//! The texts. All are made here, but for `lock.h`; all stay inside the limits of document 01 unless they say otherwise.

/// The longest text that ours reads.
pub const LONGEST: usize = 32_768;

const LOCK_H: &str = include_str!("../texts/lock.h");
const HUNDRED_BYTES: &str =
    "struct rotor { unsigned char day:3, hour:5; short minute[6]; struct rotor *next; long offset[12]; };";

#[derive(Clone, Copy, PartialEq, Eq, Debug)]
pub enum Expected {
    Accepted,
    Refused,
    /// The Rust reads it, ours refuses its length.
    TooLong,
}

pub struct Text {
    pub name: &'static str,
    pub text: String,
    pub expected: Expected,
}

/// The texts that are wanted: the one of this name, or all whose names begin so.
pub fn chosen(name: &str) -> Result<Vec<Text>, String> {
    if let Ok(text) = named(name) {
        return Ok(vec![text]);
    }
    let chosen: Vec<Text> = all().into_iter().filter(|t| t.name.starts_with(name)).collect();
    if chosen.is_empty() {
        return Err(unknown(name));
    }
    Ok(chosen)
}

pub fn named(name: &str) -> Result<Text, String> {
    all().into_iter().find(|t| t.name == name).ok_or_else(|| unknown(name))
}

fn unknown(name: &str) -> String {
    let names: Vec<&str> = all().iter().map(|t| t.name).collect();
    format!("there is no text {name}; there are {}", names.join(", "))
}

fn all() -> Vec<Text> {
    [accepted(), refused(), too_long()].into_iter().flatten().collect()
}

fn accepted() -> Vec<Text> {
    let text = |name, text: String| Text { name, text, expected: Expected::Accepted };
    vec![
        text("empty", String::new()),
        text("int", "int a;".into()),
        text("struct", "struct T{char d;short m[6];};".into()),
        text("100-bytes", HUNDRED_BYTES.into()),
        text("externs", "extern int name_of_a_variable;\n".repeat(9)),
        text("licence", licence()),
        text("lock.h", LOCK_H.into()),
        text("structs", structs(LONGEST)),
        text("linked", linked(LONGEST)),
        text("body", body(LONGEST)),
        text("enumerators", enumerators(LONGEST)),
        text("enums", enums(LONGEST)),
        text("declarators", declarators(LONGEST)),
        text("steps", steps(LONGEST)),
        text("parameters", parameters(LONGEST)),
        text("nested", nested(LONGEST)),
        text("typedefs", typedefs(LONGEST)),
        text("aliases", aliases(LONGEST)),
        text("references", references(LONGEST)),
        text("tagged", tagged(LONGEST)),
        text("collisions", collisions(LONGEST)),
        text("prototypes", prototypes(LONGEST)),
        text("comments", comments(LONGEST)),
    ]
}

fn refused() -> Vec<Text> {
    let text = |name, text: String| Text { name, text, expected: Expected::Refused };
    vec![
        text("bad-token", "int @;".into()),
        text("bad-word", "foo a;".into()),
        text("lock.h-bad-token", lock_with("int @;\n")),
        text("lock.h-bad-word", lock_with("foo a;\n")),
        text("structs-bad-token", ended("int @;", structs)),
        text("structs-bad-word", ended("foo a;", structs)),
        text("deep", deep()),
        text("deep-long", format!("{:\n>LONGEST$}", deep())),
    ]
}

fn too_long() -> Vec<Text> {
    let text = |name, text: String| Text { name, text, expected: Expected::TooLong };
    vec![
        text("32769", exactly(LONGEST + 1, structs(LONGEST))),
        text("10MB", "int a;\n".repeat(10_000_000 / 7)),
    ]
}

/// The header with a fault before its last line.
fn lock_with(fault: &str) -> String {
    let last = LOCK_H.rfind("#endif").expect("lock.h has a guard");
    [&LOCK_H[..last], fault, &LOCK_H[last..]].concat()
}

fn ended(end: &str, make: Maker) -> String {
    make(LONGEST - end.len()) + end
}

/// Makes a text of so many bytes.
type Maker = fn(usize) -> String;

/// Kinds of texts of any length, for growth.
pub const GROWING: [(&str, Maker); 9] = [
    ("structs", structs),
    ("enumerators", enumerators),
    ("declarators", declarators),
    ("parameters", parameters),
    ("prototypes", prototypes),
    ("aliases", aliases),
    ("references", references),
    ("tagged", tagged),
    ("collisions", collisions),
];

/// Texts in which there is little to read, of any length from 16 bytes.
pub const PLAIN: [(&str, Maker); 3] =
    [("comment", comment), ("blanks", blanks), ("externs", externs)];

/// One comment, then one declaration.
fn comment(bytes: usize) -> String {
    const WORDS: &str = "licence text, some words of it ";
    let (before, after) = ("/*", "*/\nint a;");
    let words: String = WORDS.chars().cycle().take(bytes - before.len() - after.len()).collect();
    format!("{before}{words}{after}")
}

/// Blanks, then one declaration.
fn blanks(bytes: usize) -> String {
    format!("{:>bytes$}", "int a;")
}

/// Plain declarations, and line feeds up to the length.
fn externs(bytes: usize) -> String {
    filled(bytes, "int a;", |i| format!("\nextern int name_of_a_variable_{i:04};"), "")
}

/// A comment of 600 bytes before one declaration.
fn licence() -> String {
    format!("/* {} */\nint a;", "licence text, some words of it ".repeat(19))
}

/// Many small structs; each adds one row.
fn structs(bytes: usize) -> String {
    filled(bytes, "", |i| format!("struct s{i:04} {{ int a; char b[4]; long c; }};\n"), "")
}

/// A list of structs; each adds a row and its pointer's.
fn linked(bytes: usize) -> String {
    let part = |i: usize| {
        let before = i.saturating_sub(1);
        format!("struct part_{i:04} {{\n    uint16_t id;\n    char tag[4];\n    struct part_{before:04} *next;\n}};\n")
    };
    filled(bytes, "", part, "")
}

/// One struct of many members.
fn body(bytes: usize) -> String {
    let member = |i: usize| match i % 4 {
        0 => format!("int m{i:04};"),
        1 => format!("char m{i:04}[8];"),
        2 => format!("unsigned m{i:04}:5;"),
        _ => format!("void *m{i:04};"),
    };
    filled(bytes, "struct body {", member, "};")
}

/// One enum, as many enumerators as there may be.
fn enumerators(bytes: usize) -> String {
    filled(bytes, "enum e {", |i| format!("EV{i:04},\n"), "};")
}

/// Enums of eight, with values and long names.
fn enums(bytes: usize) -> String {
    let group = |g: usize| {
        let mut text = format!("enum group_{g:04} {{\n    EVENT_OF_GROUP_{g:04}_0 = {g} << 4,\n");
        for i in 1..7 {
            text += &format!("    EVENT_OF_GROUP_{g:04}_{i},\n");
        }
        text + &format!("    EVENT_OF_GROUP_{g:04}_7 = EVENT_OF_GROUP_{g:04}_0 | 0x0f\n}};\n")
    };
    filled(bytes, "", group, "")
}

/// One declaration of many names.
fn declarators(bytes: usize) -> String {
    let one = |i: usize| match i % 4 {
        0 => format!("\n    number_of_the_motor_step_{i:04},"),
        1 => format!("\n    *pointer_to_motor_step_{i:04},"),
        2 => format!("\n    array_of_motor_steps_{i:04}[3 * 4],"),
        _ => format!("\n    (*function_of_step_{i:04})(int a),"),
    };
    filled(bytes, "extern int", one, "\n    last;")
}

/// One declarator of 250 bounds, each a long expression.
fn steps(bytes: usize) -> String {
    let terms = " + 12 / 4 - 3 + (5 & 2) + (0x10 >> 5) + 7 % 7 + (1 ? 0 : 9) - !1 + 12 / 4 - 3 + (5 & 2) + (0x10 >> 5) - 14 * 3 + 42 + (6 ^ 6)";
    filled(bytes, "int deep", |i| format!("[{}{terms}]\n", i % 7 + 1), ";")
}

/// One long parameter list.
fn parameters(bytes: usize) -> String {
    let one = |i: usize| match i % 4 {
        0 => format!("int p{i:04},"),
        1 => format!("char *p{i:04},"),
        2 => format!("long p{i:04}[2],"),
        _ => "uint8_t,".into(),
    };
    filled(bytes, "void call(", one, "int last);")
}

/// Parameter lists in parameter lists, as deep as they may be.
fn nested(bytes: usize) -> String {
    let deep = 29;
    let one = |i: usize| {
        let (open, close) = ("int (*reply)(int code, ".repeat(deep), ")".repeat(deep));
        format!("int call_{i:04}({open}int last{close});\n")
    };
    filled(bytes, "", one, "")
}

/// Parameter lists in parameter lists, refused for their depth: no text was found that takes more stack.
fn deep() -> String {
    format!("int f({}", "int(".repeat(70))
}

/// Names of types, and their use.
fn typedefs(bytes: usize) -> String {
    let one = |i: usize| {
        format!(
            "typedef unsigned short half_word_{i:04};\n\
             typedef half_word_{i:04} same_word_{i:04};\n\
             extern same_word_{i:04} used_{i:04};\n"
        )
    };
    filled(bytes, "", one, "")
}

/// Many type names, and uses of any of them.
fn aliases(bytes: usize) -> String {
    let one = |i: usize| {
        let (a, b, c) = (i / 3, i / 2, i);
        format!(
            "typedef int t{i:04};\nstruct u{i:04} {{ t{a:04} a, b; t{b:04} c, d; t{c:04} e; }};\n"
        )
    };
    filled(bytes, "", one, "")
}

/// Enumerators that name others.
fn references(bytes: usize) -> String {
    filled(
        bytes,
        "enum e {\nR = 1,\nR0000,\n",
        |i| format!("R{:04} = R{:04} + R,\n", i + 1, i / 2),
        "};",
    )
}

/// A type name that is a tag too, with many rows between the two, and uses of it.
fn tagged(bytes: usize) -> String {
    let rows: String = (0..bytes / 100).map(|i| format!("char m{i:03}[{}];\n", i + 1)).collect();
    filled(
        bytes,
        &format!("typedef struct T {{\n{rows}}} T;\n"),
        |i| format!("struct u{i:03} {{ T aa; T bb; T cc; T dd; T ee; T ff; T gg; }};\n"),
        "",
    )
}

/// Names that are made against the hash of our names: all share one.
fn collisions(bytes: usize) -> String {
    let hash = |word: &[u8]| word.iter().fold(0, |h: usize, &b| (33 * h + b as usize) % 4096);
    let mut words = (0..26usize.pow(6)).filter_map(|n| {
        let word: Vec<u8> = (0..6).map(|i| b'a' + (n / 26usize.pow(i) % 26) as u8).collect();
        (hash(&word) == 77).then(|| String::from_utf8(word).unwrap())
    });
    filled(bytes, "enum e {\n", |_| format!("{},\n", words.next().unwrap()), "};")
}

fn prototypes(bytes: usize) -> String {
    let one = |i: usize| {
        format!("int lock_call_{i:04}(struct lock *lock, unsigned code_{i:04}, const char *name, void *context);\n")
    };
    filled(bytes, "", one, "")
}

/// Much to skip, little to read.
fn comments(bytes: usize) -> String {
    let one = |i: usize| {
        format!("/* Register {i:04}: what it is good for is said here, at some length. */\nextern int r{i:04}; // read only\n")
    };
    filled(bytes, "", one, "")
}

/// As many units as fit between two ends, then line feeds up to the length.
fn filled(bytes: usize, before: &str, unit: impl FnMut(usize) -> String, after: &str) -> String {
    let mut text = before.to_string();
    for next in (0..).map(unit) {
        if text.len() + next.len() + after.len() > bytes {
            break;
        }
        text += &next;
    }
    exactly(bytes, text + after)
}

fn exactly(bytes: usize, text: String) -> String {
    let missing = bytes - text.len();
    text + &"\n".repeat(missing)
}
