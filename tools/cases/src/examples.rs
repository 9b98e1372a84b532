//! Every example of document 01 and every text of the notes on it.

use crate::everywhere;
use batch::{Entry, Record};

/// The third column of the refusal table and the rows of the listing.
const OF_THE_TABLES: &[&str] = &[
    "struct T{char d;short m[6];};", "#define N 6", "/*", "int a[08];", "int @;", "enum{A=1<<63};",
    "int a[2;", "int struct S a;", "foo a;", "__attribute__((packed)) int a;", "typedef int;",
    "typedef int T; typedef char T;", "void a[2];", "struct{static int a;};", "int a[-1];",
    "struct{int a:65;};", "struct{struct S s;};", "struct{char a[4294967296];};", "int a[1/0];",
    "int a[N];", "int a,b;", "enum E:int{A};", "struct{char a[4611686018427387904];};",
    "enum{int};", "int a int b;", "int a;int b",
];

/// P1 to P8 and the wrong ways that look fair; P9 and P10 are made below.
const MARKED: &[&str] = &[
    "struct{};",
    "struct{char a;int b:3;int c:30;};",
    "struct{int a;long long b:40;};",
    "struct{char a;int:0;char b;};",
    "enum{OPEN,SHUT=24*60,NEXT};",
    "enum{A=-7/2,B=-7%2,C=-7>>1};",
    "enum{D=1<<4294967296};",
    "enum {A=1?2:1/0}",
    "struct S{int a;};struct T{struct S s;};struct S{char a;};struct U{struct S s;};",
    "struct S{long a;};struct T{char c;struct S s;}x;struct S{char a;};struct V{char c;struct T t;};",
    "enum{A=1?2:1/0};",
    "enum{A=0?1/0:2};",
    "enum{A=0&&1/0};",
    "enum{A=1||1/0};",
    "enum{A=--1};",
    "int a[--1];",
    "struct{int a;}x;struct{int a;}y;",
    "struct{struct{int a;}x;struct{int a;}y;};",
];

/// Texts quoted in notes/open-points.md.
const OF_THE_NOTES: &[&str] = &[
    "int x;",
    "uint8_t x;",
    "struct{char a[2305843009213693950];char b:3;char c:7;};",
    "union{char a[4611686018427387904];};",
    "union{char a[6148914691236517205][3];int b;};",
    "struct{char a[4611686018427387904][4]:0;};",
    "struct{void:0;};",
    "enum{A='\\x141'};",
    "enum{A='\\x'};",
    "enum{A='\\x7fffffffffffffffffffffffffffffff'};",
    "enum{A='\\x80000000000000000000000000000000'};",
    "enum{A='\\0\\0\\0\\0\\0\\0\\0\\0\\0A'};",
    "enum{A=99999999999999999999999999999999999999999a};",
    "struct{int x;struct{int y;}s;int z;};",
    "struct{int a;long long:0;};",
    "int a=b,b;",
    "enum{A=-9223372036854775807-1,B=A%-1};",
    "enum{A=-9223372036854775807-1,B=A/-1};",
    "int a[sizeof];",
    "int a[\"s\"];",
    "int a[__attribute__((packed))];",
    "int a[",
    "struct S{struct S{int a;}n,m;};",
    "struct S{struct S{int a;}n,m;};struct T{struct S s;};",
    "struct S{struct S{int a;}n;int b;};",
    "/* ab",
    "#define N /*",
    "#define N 6 /*",
    "#define N /* 6\n*/ 7\nint a;",
    " /* c */ # define N 6\nint a;",
    "\\\n#define N 6\nint a;",
    "int a; #define N 6",
    "/*\n*/#define N 6",
    "int /*\n*/ #define N 6",
    "int __attribute__((x\n)) #define N 6",
    "int asm x;",
    "int __attribute__ x;",
    "int x asm/**/(\"y\");",
    "int x asm(\"y\");",
    "int a=08;",
    "foo 08",
    "enum{A=-9223372036854775808};",
    "int a[*2];",
    "int a[*];",
    "typedef void V;int f(V);",
    "int f(void);",
    "const const int x;",
    "typedef const int C;volatile C x;",
    "enum E{A}x;",
    "struct E{int A;}x;",
    "struct{char a;int:3;};",
    "union{char a;int:3;};",
    "union{long:0;char z;};",
    "enum{A=-1,B=4294967295};",
    "struct{int a;int x:8;long long b:50;};",
    "union{long long a:3;};",
    "#pragma pack(1)\nstruct{char a;int b;};",
    "struct __declspec(align(8)) S{char a;};",
    "struct __declspec(aligned(8)) S{char a;};",
    "enum{A=0xffffffff+1};",
    "enum{A='\\12'};",
    "char *s=\"a\nb\";",
    "enum{A=1uUlLzZ,B=0b11};",
    "int int a;",
    "int a[0];",
    "enum{};",
    "struct S{int a;};struct S{char b;};",
    "struct{int a;int a;};",
    "struct{char a:20;float f:3;};",
    "int a=];",
    "_Static_assert(1,\"\");",
    "struct{_Alignas(8)char a;};",
    "int f(void){return 0;}",
    "struct{int a[][0];};",
    "struct{struct S s[0];};",
    "struct{int a[0][];};",
    "struct{char a[0][4611686018427387904][4];};",
    "char a[4611686018427387904][4];",
];

pub fn records() -> Vec<Record> {
    let mut records = Vec::new();
    for text in [OF_THE_TABLES, MARKED, OF_THE_NOTES].concat() {
        records.extend(everywhere(text.as_bytes()));
    }
    for text in made() {
        records.extend(everywhere(text.as_bytes()));
    }
    records.extend(unusual());
    records
}

/// Examples that are told and not written out.
fn made() -> Vec<String> {
    let mut texts = vec![
        // 9 and P9.
        format!("int {}x", "(".repeat(31)),
        format!("int {}x{};", "(".repeat(30), ")".repeat(30)),
        format!("int {}x{};", "(".repeat(31), ")".repeat(31)),
        // 27.
        "int a;".repeat(1024),
        "int a;".repeat(1025),
        format!("int x{};", "()".repeat(257)),
        // Two structures of equal bodies that double the walk at each level.
        doubling_unions(33),
    ];
    // P10.
    for depth in [31, 32, 33, 34] {
        let bodies = "struct{".repeat(depth) + "int a;" + &"}a;".repeat(depth);
        texts.push(format!("struct{{char c;{bodies}}};"));
    }
    // A chain of typedefs to `int[]` as the last member.
    for length in [63, 64, 65, 66] {
        texts.push(format!("{}struct{{T{} a;}};", typedef_chain("int T0[]", length), length - 1));
    }
    texts
}

/// `length` typedefs, the first of them declared by `first` with the name T0.
pub fn typedef_chain(first: &str, length: usize) -> String {
    let links = (1..length).map(|n| format!("typedef T{} T{n};", n - 1));
    format!("typedef {first};{}", links.collect::<String>())
}

/// Unions each holding the one before twice.
fn doubling_unions(levels: usize) -> String {
    let links = (1..levels).map(|n| format!("union U{n}{{union U{} a,b;}};", n - 1));
    format!("union U0{{int a,b;}};{}", links.collect::<String>())
}

/// Refusals 1 to 3 and the empty text.
fn unusual() -> Vec<Record> {
    let of = |model, text: &[u8]| Record { model, entry: Entry::Unit, text: text.to_vec() };
    vec![
        of(3, b"int a;"),
        of(4_294_967_296, b""),
        of(3, &[b' '; 32_769]),
        of(0, &[b' '; 32_769]),
        of(0, &[200]),
        of(0, b"int \xc3\xa9;"),
        of(0, b"/* \xc3\xa9 */ int a;\nint \xff"),
        of(0, "int a;\n\u{a0}".as_bytes()),
        of(0, b""),
        Record { model: 0, entry: Entry::Decl, text: Vec::new() },
    ]
}
