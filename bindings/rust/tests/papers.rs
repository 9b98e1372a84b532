//! The examples of document 01.

use recordtable::{Bits, Model, Reader, Table, Type};

fn with_unit<T>(text: &str, model: Model, see: impl FnOnce(Table) -> T) -> T {
    let mut reader = Reader::new();
    see(reader.read_unit(text.as_bytes(), model).unwrap_or_else(|e| panic!("{text}: {e}")))
}

fn refused(text: &str, model: Model) -> (u32, usize) {
    let mut reader = Reader::new();
    let e = reader.read_unit(text.as_bytes(), model).expect_err(text);
    assert_eq!((e.line, e.column), place(text.as_bytes(), e.offset), "{text}");
    let line = format!("refused {} {} {} {}\n", e.number, e.offset, e.line, e.column);
    assert_eq!(reader.unit_report(text.as_bytes(), model), line);
    (e.number, e.offset)
}

/// Line and column of an offset, both from 1.
fn place(text: &[u8], offset: usize) -> (usize, usize) {
    let before = &text[..offset];
    let line = before.iter().filter(|b| **b == b'\n').count() + 1;
    let column = before.iter().rev().take_while(|b| **b != b'\n').count() + 1;
    (line, column)
}

/// The size of the only struct or union.
fn size(table: &Table) -> u64 {
    let sizes: Vec<u64> = table
        .types()
        .filter_map(|(_, ty)| match ty {
            Type::Struct { bytes, .. } | Type::Union { bytes, .. } => bytes,
            _ => None,
        })
        .collect();
    assert_eq!(sizes.len(), 1);
    sizes[0]
}

#[test]
fn the_listing() {
    let listing = "type 0 void - -\n\
                   type 1 struct 14 2 T\n\
                   member 0 - - 2 d\n\
                   member 2 - - 4 m\n\
                   type 2 int 1 1 signed\n\
                   type 3 int 2 2 signed\n\
                   type 4 array 12 2 3 6\n\
                   decl none 1 -\n";
    let text = "struct T{char d;short m[6];};";
    assert_eq!(Reader::new().unit_report(text.as_bytes(), Model::Lp64), listing);
    with_unit(text, Model::Lp64, |table| {
        assert_eq!(table.listing(), listing);
        assert_eq!(table.to_owned().table().listing(), listing);
        let names: Vec<_> = table.names().map(|n| (n.offset, n.spelling)).collect();
        assert_eq!(names, [(7, "T"), (14, "d"), (22, "m")]);
    });
}

#[test]
fn p1_to_p4_layout() {
    with_unit("struct{};", Model::Lp64, |t| assert_eq!(size(&t), 0));
    with_unit("struct{char a;int b:3;int c:30;};", Model::Lp64, |t| {
        let fields: Vec<_> = t.members().map(|m| (m.offset, m.bits)).collect();
        let bits = |first, width| Some(Bits { first, width });
        assert_eq!(fields, [(0, None), (0, bits(8, 3)), (4, bits(32, 30))]);
        assert_eq!(size(&t), 8);
    });
    with_unit("struct{int a;long long b:40;};", Model::Ilp32, |t| {
        let field = t.members().nth(1).unwrap();
        assert_eq!((field.offset, field.bits), (0, Some(Bits { first: 32, width: 40 })));
        assert_eq!(size(&t), 12);
    });
    with_unit("struct{char a;int:0;char b;};", Model::Lp64, |t| {
        let named: Vec<_> = t.members().filter_map(|m| Some((m.name?, m.offset))).collect();
        assert_eq!(named, [("a", 0), ("b", 4)]);
        assert_eq!(t.members().filter(|m| m.owner.is_none()).count(), 1);
        let (row, _) = t.types().find(|(_, ty)| matches!(ty, Type::Struct { .. })).unwrap();
        assert_eq!(t.members_of(row).count(), 2);
        assert_eq!(size(&t), 8);
    });
}

#[test]
fn p5_to_p8_constants() {
    let values = |text: &str| {
        with_unit(text, Model::Lp64, |t| t.values().map(|v| v.value).collect::<Vec<_>>())
    };
    assert_eq!(values("enum{OPEN,SHUT=24*60,NEXT};"), [0, 1440, 1441]);
    assert_eq!(values("enum{A=-7/2,B=-7%2,C=-7>>1};"), [-3, -1, -4]);
    assert_eq!(values("enum{D=1<<4294967296};"), [1]);
    assert_eq!(values("enum{A=-9223372036854775807-1};"), [i64::MIN]);
    assert_eq!(refused("enum {A=1?2:1/0}", Model::Lp64), (22, 13));
}

#[test]
fn p9_nesting() {
    let nested = |n: usize| format!("int {}x{};", "(".repeat(n), ")".repeat(n));
    with_unit(&nested(30), Model::Lp64, |t| {
        assert_eq!(t.declarations().next().unwrap().name, Some("x"))
    });
    assert_eq!(refused(&nested(31), Model::Lp64), (9, 35));
}

#[test]
fn p10_alignment_by_depth() {
    let alignment = |n: usize| {
        let structs: String =
            (1..n).map(|i| format!("struct s{i}{{struct s{} x;}};", i - 1)).collect();
        let text = format!("struct s0{{int x;}};{structs}struct r{{struct s{} m;}};", n - 1);
        with_unit(&text, Model::Lp64, |t| {
            let row = t.members().find(|m| m.name == Some("m")).unwrap().ty.number();
            let listing = t.listing();
            let line = listing.lines().find(|l| l.starts_with(&format!("type {row} "))).unwrap();
            line.split(' ').nth(4).unwrap().to_string()
        })
    };
    assert_eq!(alignment(32), "4");
    assert_eq!(alignment(33), "1");
}

#[test]
fn an_example_of_each_refusal() {
    let many = "int a;".repeat(1_025);
    let long = " ".repeat(32_769);
    let deep = format!("int {}x", "(".repeat(31));
    let examples = [
        (2, 0, long.as_str()),
        (4, 0, "#define N 6"),
        (5, 2, "/*"),
        (6, 6, "int a[08];"),
        (7, 4, "int @;"),
        (8, 8, "enum{A=1<<63};"),
        (9, 35, deep.as_str()),
        (10, 7, "int a[2;"),
        (11, 4, "int struct S a;"),
        (12, 0, "foo a;"),
        (13, 0, "__attribute__((packed)) int a;"),
        (14, 0, "typedef int;"),
        (15, 28, "typedef int T; typedef char T;"),
        (16, 9, "void a[2];"),
        (17, 7, "struct{static int a;};"),
        (18, 6, "int a[-1];"),
        (19, 11, "struct{int a:65;};"),
        (20, 16, "struct{struct S s;};"),
        (21, 6, "struct{char a[4294967296];};"),
        (22, 7, "int a[1/0];"),
        (23, 6, "int a[N];"),
        (25, 5, "enum E:int{A};"),
        (26, 12, "struct{char a[4611686018427387904];};"),
        (27, 6_149, many.as_str()),
    ];
    for (number, offset, text) in examples {
        assert_eq!(refused(text, Model::Lp64), (number, offset), "{:.40}", text);
    }
    let mut reader = Reader::new();
    let e = reader.read_unit(b"int a; // \xc8", Model::Lp64).unwrap_err();
    assert_eq!((e.number, e.offset, e.line, e.column), (3, 10, 1, 11));
    assert_eq!(reader.declaration_report(b"int a,b;", Model::Lp64), "refused 24 0 1 1\n");
}

#[test]
fn every_kind_of_type() {
    let text = "typedef unsigned long word;
        struct node { const struct node *next; word bits; union { float f; double d; } as; };
        enum mode { OFF, ON = -1 };
        extern int (*handler)(enum mode m, ...);
        static void (*const volatile table[4])(struct node *restrict);
        _Bool flags[];";
    with_unit(text, Model::Llp64, |t| {
        let kind = |test: fn(&Type) -> bool| t.types().filter(|(_, ty)| test(ty)).count();
        assert_eq!(kind(|ty| matches!(ty, Type::Void)), 1);
        assert!(kind(|ty| matches!(ty, Type::Int { .. })) >= 1);
        assert_eq!(kind(|ty| matches!(ty, Type::Float { .. })), 2);
        assert_eq!(kind(|ty| matches!(ty, Type::Bool)), 1);
        assert!(kind(|ty| matches!(ty, Type::Pointer { .. })) >= 3);
        assert_eq!(kind(|ty| matches!(ty, Type::Array { bound: None, .. })), 1);
        assert_eq!(kind(|ty| matches!(ty, Type::Array { bound: Some(4), .. })), 1);
        assert_eq!(kind(|ty| matches!(ty, Type::Struct { tag: Some("node"), bytes: Some(24) })), 1);
        assert_eq!(kind(|ty| matches!(ty, Type::Union { tag: None, bytes: Some(8) })), 1);
        assert_eq!(kind(|ty| matches!(ty, Type::Enum { tag: Some("mode"), bytes: 4 })), 1);
        assert_eq!(kind(|ty| matches!(ty, Type::Function { variadic: true, returns: Some(_) })), 1);
        assert_eq!(kind(|ty| matches!(ty, Type::Function { variadic: false, returns: None })), 1);
        assert_eq!(kind(|ty| matches!(ty, Type::Typedef { name: "word", .. })), 1);
        let all = |ty: &Type| {
            matches!(
                ty,
                Type::Qualified { is_const: true, is_volatile: true, is_restrict: false, .. }
            )
        };
        assert_eq!(kind(all), 1);
        let (mode, _) = t.types().find(|(_, ty)| matches!(ty, Type::Enum { .. })).unwrap();
        let values: Vec<_> = t.values_of(mode).map(|v| (v.name, v.value)).collect();
        assert_eq!(values, [("OFF", 0), ("ON", -1)]);
        let (function, _) =
            t.types().find(|(_, ty)| matches!(ty, Type::Function { variadic: true, .. })).unwrap();
        assert_eq!(t.parameters_of(function).map(|p| p.name).collect::<Vec<_>>(), [Some("m")]);
        assert_eq!(t.members_of(mode).count(), 0);
    });
}
