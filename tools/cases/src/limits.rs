//! Every limit of document 01, and one off it on both sides.

use crate::everywhere;
use crate::examples::typedef_chain;
use batch::{Entry, Record};

/// A text above this is asked less often: its answer is long too.
const LARGE: usize = 2_000;

pub fn records() -> Vec<Record> {
    let of_the_model = [
        lengths(),
        rows(),
        declarations(),
        members(),
        enumerators(),
        parameters(),
        steps(),
        depths(),
        alignment_depths(),
        chains(),
        sizes(),
        widths(),
        enum_ranges(),
    ];
    // Constants have no types: no model changes their value.
    let of_no_model = [literals(), operators()];
    let mut records = Vec::new();
    for text in of_the_model.concat() {
        let large = text.len() >= LARGE;
        records.extend(if large { twice(&text) } else { everywhere(text.as_bytes()) });
    }
    records.extend(of_no_model.concat().iter().flat_map(|text| twice(text)));
    records
}

/// Both entries, each under one model.
fn twice(text: &str) -> Vec<Record> {
    let of = |model, entry| Record { model, entry, text: text.into() };
    vec![of(0, Entry::Unit), of(1, Entry::Decl)]
}

/// A limit with its neighbours.
fn around(limit: usize) -> std::ops::RangeInclusive<usize> {
    limit - 1..=limit + 1
}

/// The longest text, and the lengths of scratch that a text is read in (crate `entry`).
const LENGTHS: [usize; 5] = [64, 320, 1_536, 7_168, 32_768];

fn lengths() -> Vec<String> {
    let mut texts = Vec::new();
    for length in LENGTHS.into_iter().flat_map(around) {
        let filled = |start: &str, end: &str| {
            let middle = " ".repeat(length - start.len() - end.len());
            format!("{start}{middle}{end}")
        };
        texts.push(filled("", ""));
        texts.push(filled("int a;", ""));
        texts.push(filled("", "int a;"));
        texts.push(filled("/*", "*/"));
        texts.push(filled("/*", ""));
        texts.push(filled("", "@"));
        texts.push(filled("char*s=\"", "\";"));
        // A name in the last byte, and as many tokens as bytes.
        texts.push(filled("int a,", "z"));
        texts.push(";".repeat(length));
        texts.push(format!("int{}", "*".repeat(length - 3)));
    }
    texts
}

/// Rows 0 to `rows` - 1 filled by one declaration: void, S, char and arrays.
fn filled_rows(rows: usize) -> String {
    let arrays: Vec<String> = (1..=rows - 3).map(|n| format!("m[{n}]")).collect();
    format!("struct S{{char {};}};", arrays.join(","))
}

fn rows() -> Vec<String> {
    let last = [
        "uint8_t x;", "short x;", "char*x;", "const char x;", "typedef char T;", "struct U;",
        "struct{char z;};", "struct U{short q;};", "struct U{char q;};", "enum E{A};", "enum{A};",
        "enum E;", "char f(void);", "char f(char);", "char x[2000];", "typedef char T,U;",
        "void f(short a[5]);", "char*const x;", "uint8_t x y", "short f(", "char x[2000][3];",
        "union{char m[1];uint8_t b;}x;", "const struct S s;", "void*x;", "char a,b,*c,d;",
        "enum E{A=5,B}const x;", "char (*f)(char*);", "typedef char T;typedef char T;",
    ];
    let mut texts = Vec::new();
    for rows in 1021..=1024 {
        let filled = filled_rows(rows);
        texts.push(filled.clone());
        texts.extend(last.iter().map(|end| format!("{filled}{end}")));
    }
    texts
}

fn declarations() -> Vec<String> {
    let mut texts = Vec::new();
    for count in around(1024) {
        texts.push("int a;".repeat(count));
        texts.push("struct S;".repeat(count));
        texts.push("typedef int T;".repeat(count));
        texts.push(format!("int a{};", ",a".repeat(count - 1)));
        texts.push(format!("typedef int a{};", ",a".repeat(count - 1)));
        texts.push(format!("int a{};", ",a=1".repeat(count - 1)));
        // What is looked at before the push, and what only after it.
        texts.push(format!("{}typedef int;", "int a;".repeat(count)));
        texts.push(format!("{}int a b", "int a;".repeat(count - 1)));
        texts.push(format!("{}typedef int T;typedef char T;", "int a;".repeat(count - 2)));
        texts.push(format!("{}int*;", "int a;".repeat(count)));
    }
    texts
}

fn members() -> Vec<String> {
    let mut texts = Vec::new();
    for count in around(4096) {
        let more = count - 1;
        texts.push(format!("struct{{char a{};}};", ",a".repeat(more)));
        texts.push(format!("union{{char a{};}};", ",a".repeat(more)));
        texts.push(format!("struct{{int:0{};}};", ",:0".repeat(more)));
        texts.push(format!("struct{{int:1{};}};", ",:1".repeat(more)));
        texts.push(format!("struct{{int:1{},:65;}};", ",:1".repeat(more)));
        texts.push(format!("struct{{int a{},b:65;}};", ",a".repeat(more)));
        texts.push(format!("struct{{int a{},*;}};", ",a".repeat(more)));
        // Replaced bodies count, and so do bodies inside.
        let half = ",a".repeat(2047);
        let rest = ",a".repeat(count - 2049);
        texts.push(format!("struct S{{char a{half};}};struct S{{char a{rest};}};"));
        texts.push(format!(
            "struct{{struct{{char a{half};}}b;char a{};}};",
            ",a".repeat(count - 2050)
        ));
        texts.push(format!("struct{{char a{};struct{{}};}};", ",a".repeat(count - 2)));
        texts.push(format!("struct{{char a{};struct{{}};}};", ",a".repeat(count - 1)));
    }
    texts
}

fn enumerators() -> Vec<String> {
    let mut texts = Vec::new();
    for count in around(4096) {
        let more = count - 1;
        texts.push(format!("enum{{A{}}};", ",A".repeat(more)));
        texts.push(format!("enum{{A{},}};", ",A".repeat(more)));
        texts.push(format!("enum{{A{}}}", ",A".repeat(more)));
        texts.push(format!("enum E{{A{}}};enum E{{A}};", ",A".repeat(more - 1)));
        texts.push(format!("enum{{A{},A=9223372036854775807,A}};", ",A".repeat(more - 2)));
        texts.push(format!("enum{{A{},A=1/0}};", ",A".repeat(more)));
        texts.push(format!("enum{{A{},int}};", ",A".repeat(more)));
    }
    texts
}

fn parameters() -> Vec<String> {
    let mut texts = Vec::new();
    for count in around(4096) {
        let more = count - 1;
        texts.push(format!("int f(int{});", ",int".repeat(more)));
        texts.push(format!("int f(int{},...);", ",int".repeat(more)));
        texts.push(format!("int f(int{},void);", ",int".repeat(more)));
        texts.push(format!("int f(int{},short);", ",int".repeat(more)));
        texts.push(format!("int f(int{},int a[]);", ",int".repeat(more)));
        let half = ",int".repeat(2047);
        texts.push(format!("int f(int{half}),g(int{});", ",int".repeat(count - 2049)));
        texts.push(format!("int f(int g(int{half}){});", ",int".repeat(count - 2049)));
    }
    texts.push("int f(void),g(void),h();".into());
    texts
}

fn steps() -> Vec<String> {
    let mut texts = Vec::new();
    for count in 255..=258 {
        let steps = |step: &str| step.repeat(count);
        texts.push(format!("int {}x;", steps("*")));
        texts.push(format!("int {}const x;", steps("*")));
        texts.push(format!("int {}x;", steps("*volatile ")));
        texts.push(format!("int x{};", steps("[1]")));
        texts.push(format!("int x{};", steps("[]")));
        texts.push(format!("int x{};", steps("()")));
        texts.push(format!("int x{}", steps("[")));
        texts.push(format!("int x{}", steps("(")));
        texts.push(format!("int *x{};", "[1]".repeat(count - 1)));
        texts.push(format!("int (*x){};", "[1]".repeat(count - 1)));
        texts.push(format!("int (({}x))(int);", "*".repeat(count - 1)));
        texts.push(format!("int *f(int {}x,int {}y);", steps("*"), steps("*")));
        texts.push(format!("int {}f(int {}x);", "*".repeat(count - 1), steps("*")));
        texts.push(format!("int {}f(int *x)[2];", "*".repeat(count - 1)));
        texts.push(format!("int {}f(struct{{int{}a;}}*x)[2];", "*".repeat(count - 2), steps("*")));
        texts.push(format!("int {}x,{}y;", steps("*"), steps("*")));
        texts.push(format!("struct{{int {}x;}};", steps("*")));
        texts.push(format!("struct{{int x{}:3;}};", steps("[1]")));
        texts.push(format!("int {}", steps("*")));
    }
    texts
}

fn depths() -> Vec<String> {
    let mut texts = Vec::new();
    let nested = |open: &str, middle: &str, close: &str, n: usize| {
        format!("{}{middle}{}", open.repeat(n), close.repeat(n))
    };
    for n in 29..=33 {
        texts.push(format!("int {};", nested("(", "x", ")", n)));
        texts.push(format!("int {};", nested("(*", "x", ")", n)));
        texts.push(format!("int {};", nested("(*", "x", ")[2]", n)));
        texts.push(format!("int {};", nested("(*", "x", ")(int)", n)));
        texts.push(format!("struct{{int {};}};", nested("(", "x", ")", n)));
        texts.push(format!("int f{};", nested("(int f", "", ")", n)));
        texts.push(format!("int f{};", nested("(int(*)", "", ")", n)));
    }
    for n in 59..=67 {
        texts.push(format!("{};", nested("struct{", "int a;", "}a;", n)));
        texts.push(format!("{};", nested("struct{", "int a;", "};", n)));
        texts.push(format!("{};", nested("union U{", "enum{A}a;", "}a;", n)));
        for (before, after) in [("int a[", "];"), ("enum{A=", "};"), ("struct{int a:", ";};")] {
            let mut push = |middle: String| texts.push(format!("{before}{middle}{after}"));
            push(nested("(", "1", ")", n));
            push(nested("-", "1", "", n));
            push(nested("!", "1", "", n));
            push(nested("+", "1", "", n));
            push(nested("1?", "1", ":1", n));
            push(nested("1?1:", "1", "", n));
            push(nested("1+(", "1", ")", n / 2));
            push(nested("1+-", "1", "", n / 2));
            push(nested("1+", "1", "", n));
        }
    }
    for n in 28..=34 {
        texts.push(format!("{};", nested("struct{int(*a)(", "int", ");}", n / 3)));
        texts.push(format!("{}int a[1];{};", "struct{".repeat(2 * n - 2), "}a;".repeat(2 * n - 2)));
        texts.push(format!("int x{};", nested("(struct{int (*a)", "", ";}*p)", n / 2)));
    }
    // A depth that grows and shrinks again must be given back.
    texts.push(format!("int {};", vec!["((((x))))"; 40].join(",")));
    texts.push("int ((x));struct{struct{int a;}a;}b;enum{A=((1))};".repeat(60));
    texts.push(format!("struct{{{}}};", "int((x));struct{int a;}a;enum{A};int:3;".repeat(40)));
    texts
}

fn alignment_depths() -> Vec<String> {
    let mut texts = Vec::new();
    for n in 29..=36 {
        let inside = format!("{}int a;{}", "struct{".repeat(n), "}a;".repeat(n));
        texts.push(format!("struct{{char c;{inside}}};"));
        texts.push(format!("union{{char c[3];{inside}}};"));
        let tags = (1..n).map(|k| format!("struct S{k}{{struct S{} a;}};", k - 1));
        let tags = format!("struct S0{{long a;}};{}", tags.collect::<String>());
        texts.push(format!("{tags}struct T{{char c;struct S{} s;}};", n - 1));
        let chain = typedef_chain("int T0", n);
        texts.push(format!("{chain}struct T{{char c;T{} s;}};", n - 1));
        texts.push(format!("struct{{char c;int a{};}};", "[1]".repeat(n)));
        texts.push(format!("struct{{char c;int a{}:3,b:30;}};", "[1]".repeat(n)));
        texts.push(format!("int a{};", "[1]".repeat(n)));
    }
    texts
}

fn chains() -> Vec<String> {
    let mut texts = Vec::new();
    for n in 62..=67 {
        for first in [
            "int T0[]", "int T0[2]", "void T0", "int T0(void)", "struct S T0", "struct{int a;}T0",
            "int*T0", "struct S T0[2]",
        ] {
            let chain = typedef_chain(first, n);
            for end in [
                "struct{char c;@ a;};", "struct{@ a;char c;};", "int f(@);", "int f(@ a,int);",
                "@ f(void);", "@ a[2];", "struct{@;};", "struct{@ a:3;};", "const @ x;",
            ] {
                texts.push(format!("{chain}{}", end.replace('@', &format!("T{}", n - 1))));
            }
        }
    }
    texts
}

fn sizes() -> Vec<String> {
    let mut bounds: Vec<u128> = vec![0, 1, 6_148_914_691_236_517_205, 2_305_843_009_213_693_950];
    for power in [28, 29, 30, 31, 32, 33, 58, 59, 60, 61, 62, 63] {
        let n: u128 = 1 << power;
        bounds.extend([n - 9, n - 8, n - 1, n, n + 1]);
    }
    bounds.retain(|n| *n < 1 << 63);
    bounds.push((1 << 63) - 1);
    let shapes = [
        "struct{char a[@];};", "struct{char a[@];char b;};", "struct{char a;int b[@];};",
        "struct{char a[@];int b;};", "struct{char a[@];long c;};", "struct{char a[@];int:0;};",
        "struct{char a[@];char b:3;char c:7;};", "struct{char a[@];int b:1;};",
        "struct{char a[@];long long b:64;};", "struct{char a[@];char b:64;};",
        "struct{char c:3;char a[@]:5;};", "struct{char c;char a[@]:5;char d:64;};",
        "struct{char a[@]:0;};", "struct{char a[@][2]:0;};", "union{char a[@];};",
        "union{char a[@];int b;};", "union{char a[@]:3;long b;};", "union{char a[@][3];int b;};",
        "union{int a[@];char b;};", "char a[@][8];", "int a[@][@];", "int a[0][@][@];",
        "int a[@][@][0];", "struct{int a[0][@][@];};", "struct{int a[@][0][@];};",
        "struct{int a[@][];};", "struct{struct S a[@];};",
        "typedef char T[@];typedef T V[4];const V x;",
        "struct S{char a[@];};struct T{struct S s[16];};",
    ];
    let mut texts = Vec::new();
    for bound in bounds {
        texts.extend(shapes.iter().map(|shape| shape.replace('@', &bound.to_string())));
    }
    texts
}

fn widths() -> Vec<String> {
    let types = [
        "char", "short", "int", "long", "long long", "_Bool", "float", "double", "long double",
        "char*", "enum{A}", "struct{int a,b;}", "struct{}", "void", "struct S",
        "union{char a[3];}",
    ];
    let mut texts = Vec::new();
    for ty in types {
        for width in [
            "-1", "0", "1", "7", "8", "9", "31", "32", "33", "63", "64", "65", "128",
            "-9223372036854775807",
        ] {
            for shape in
                ["struct{@ a:#;};", "struct{char c:5;@ a:#,b:#;};", "union{char c;@ :#;@ a:#;};"]
            {
                texts.push(shape.replace('@', ty).replace('#', width));
            }
        }
    }
    texts
}

/// Spellings of 2^power - 1, 2^power and 2^power + 1.
fn spellings(power: u32) -> Vec<String> {
    let mut out = Vec::new();
    if power < 128 {
        for n in [(1u128 << power) - 1, 1 << power, (1u128 << power) + 1] {
            out.extend([format!("{n}"), format!("0{n:o}"), format!("{n:#x}"), format!("{n:#b}")]);
        }
    } else {
        let hex = "f".repeat(power as usize / 4);
        out.extend([format!("0x{hex}"), format!("0x1{}", "0".repeat(power as usize / 4))]);
        out.extend([
            format!("0b{}", "1".repeat(power as usize)),
            format!("0b1{}", "0".repeat(power as usize)),
        ]);
    }
    out
}

fn literals() -> Vec<String> {
    let mut numbers: Vec<String> = [7, 8, 15, 16, 31, 32, 62, 63, 64, 65, 126, 127, 128, 132]
        .iter()
        .flat_map(|power| spellings(*power))
        .collect();
    // 2^128 in decimal with its neighbours, and numbers malformed as well.
    numbers.extend(
        ["5", "6", "7"].map(|last| format!("34028236692093846346337460743176821145{last}")),
    );
    numbers.extend(["99999999999999999999999999999999999999999999".to_string(), "9".repeat(300)]);
    numbers.extend(["9".repeat(50) + "x", "0x".to_string() + &"f".repeat(50) + "g"]);
    numbers.extend(["0".repeat(60) + "7", "0x".to_string() + &"0".repeat(60) + "7"]);
    for bytes in [1, 2, 7, 8, 9, 15, 16, 17, 18] {
        for first in ["\\x7f", "\\x80", "\\xff", "a", "\\0", "\\x0"] {
            numbers.push(format!("'{first}{}'", "b".repeat(bytes - 1)));
            numbers.push(format!("'\\0\\0{first}{}'", "b".repeat(bytes - 1)));
        }
        numbers.push(format!("'{}b'", "\\0".repeat(bytes)));
        numbers.push(format!("'\\x80{}", "b".repeat(bytes)));
    }
    for digits in [1, 2, 3, 16, 31, 32, 33, 60] {
        for first in ["0", "1", "7", "8", "f"] {
            numbers.push(format!("'\\x{first}{}'", "a".repeat(digits - 1)));
            numbers.push(format!("'\\x000{first}{}'", "0".repeat(digits - 1)));
        }
    }
    let mut texts = Vec::new();
    for n in numbers {
        for shape in ["enum{A=@};", "enum{A=-@};", "int a[@];", "int a=@;", "enum{A=@,B};"] {
            texts.push(shape.replace('@', &n));
        }
    }
    texts
}

fn operators() -> Vec<String> {
    let values = [
        "0", "1", "-1", "2", "63", "64", "127", "128", "4294967295", "4294967296", "4294967359",
        "9223372036854775807", "(-9223372036854775807-1)", "-9223372036854775807", "3037000500",
        "-3037000500", "2147483648", "4611686018427387904", "-4294967296",
    ];
    let operators = [
        "||", "&&", "|", "^", "&", "==", "!=", "<", ">", "<=", ">=", "<<", ">>", "+", "-", "*",
        "/", "%",
    ];
    let mut texts = Vec::new();
    for left in values {
        for sign in ["-", "+", "~", "!", "--", "~-", "-~"] {
            texts.push(format!("enum{{A={sign}{left}}};"));
        }
        for right in values {
            // All operators in one text would stop at the first refusal.
            for operator in operators {
                texts.push(format!("enum{{A={left}{operator}{right}}};"));
            }
        }
    }
    texts
}

fn enum_ranges() -> Vec<String> {
    let values = [
        "-2147483649", "-2147483648", "2147483647", "2147483648", "4294967295", "4294967296",
        "9223372036854775807", "-9223372036854775807-1", "9223372036854775806",
    ];
    let mut texts = Vec::new();
    for value in values {
        for shape in [
            "enum{A=@};", "enum{A=@,B};", "enum{A=@,B,C};", "enum E{A=@,B=0}x;enum E;",
            "enum E;enum E{A=@};struct{enum E e;char c;};",
        ] {
            texts.push(shape.replace('@', value));
        }
    }
    texts
}
