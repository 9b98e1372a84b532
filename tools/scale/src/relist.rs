//! The listing, written once more from the numbers that the Rust crate hands out.

use recordtable::{Row, Storage, Table, Type};
use std::fmt::Write;

/// Whether a report says what the table does. Alignments, and sizes of other rows than those that hold theirs, stand in the
/// report only and are taken from it.
pub fn says(table: &Table, report: &str) -> bool {
    let mut lines = String::new();
    let mut told = report.lines().filter(|l| l.starts_with("type "));
    for (row, ty) in table.types() {
        let mut words = told.next().unwrap_or_default().split(' ').skip(3);
        let (size, align) = (words.next().unwrap_or_default(), words.next().unwrap_or_default());
        if own_size(ty).is_some_and(|own| size != own) {
            return false;
        }
        let (kind, details) = described(ty);
        let _ = writeln!(lines, "type {} {kind} {size} {align}{details}", row.number());
        entries(table, row, &mut lines);
    }
    for d in table.declarations() {
        let storage = match d.storage {
            Storage::None => "none",
            Storage::Typedef => "typedef",
            Storage::Extern => "extern",
            Storage::Static => "static",
            Storage::Auto => "auto",
        };
        let _ = writeln!(lines, "decl {storage} {} {}", d.ty.number(), or_dash(d.name));
    }
    told.next().is_none() && lines == report && named_once(table)
}

/// The size that a row holds.
fn own_size(ty: Type) -> Option<String> {
    match ty {
        Type::Int { bytes, .. } | Type::Float { bytes } | Type::Enum { bytes, .. } => {
            Some(bytes.to_string())
        }
        Type::Struct { bytes, .. } | Type::Union { bytes, .. } => {
            Some(bytes.map_or("-".into(), |b| b.to_string()))
        }
        _ => None,
    }
}

fn described(ty: Type) -> (&'static str, String) {
    let row_or_dash = |row: Option<Row>| row.map_or("-".to_string(), |r| r.number().to_string());
    match ty {
        Type::Void => ("void", String::new()),
        Type::Int { signed, .. } => ("int", if signed { " signed" } else { " unsigned" }.into()),
        Type::Float { .. } => ("float", String::new()),
        Type::Bool => ("bool", String::new()),
        Type::Pointer { target } => ("pointer", format!(" {}", target.number())),
        Type::Array { element, bound } => (
            "array",
            format!(" {} {}", element.number(), bound.map_or("-".into(), |b| b.to_string())),
        ),
        Type::Struct { tag, .. } => ("struct", format!(" {}", or_dash(tag))),
        Type::Union { tag, .. } => ("union", format!(" {}", or_dash(tag))),
        Type::Enum { tag, .. } => ("enum", format!(" {}", or_dash(tag))),
        Type::Function { returns, variadic } => (
            "function",
            format!(" {} {}", row_or_dash(returns), if variadic { "..." } else { "." }),
        ),
        Type::Typedef { name, target } => ("typedef", format!(" {} {name}", target.number())),
        Type::Qualified { target, is_const, is_volatile, is_restrict } => {
            let letters: String = [(is_const, 'c'), (is_volatile, 'v'), (is_restrict, 'r')]
                .into_iter()
                .filter_map(|(is, letter)| is.then_some(letter))
                .collect();
            ("qualified", format!(" {} {letters}", target.number()))
        }
    }
}

fn entries(table: &Table, row: Row, lines: &mut String) {
    for m in table.members_of(row) {
        let (first, width) = match m.bits {
            Some(bits) => (bits.first.to_string(), bits.width.to_string()),
            None => ("-".into(), "-".into()),
        };
        let _ = writeln!(
            lines,
            "member {} {first} {width} {} {}",
            m.offset,
            m.ty.number(),
            or_dash(m.name)
        );
    }
    for v in table.values_of(row) {
        let _ = writeln!(lines, "value {} {}", v.value, v.name);
    }
    for p in table.parameters_of(row) {
        let _ = writeln!(lines, "param {} {}", p.ty.number(), or_dash(p.name));
    }
}

/// Each spelling once, sorted by its place, and none that no entry holds.
fn named_once(table: &Table) -> bool {
    let mut held: Vec<&str> = table
        .types()
        .filter_map(|(_, ty)| match ty {
            Type::Struct { tag, .. } | Type::Union { tag, .. } | Type::Enum { tag, .. } => tag,
            Type::Typedef { name, .. } => Some(name),
            _ => None,
        })
        .chain(table.members().filter_map(|m| m.name))
        .chain(table.values().map(|v| v.name))
        .chain(table.parameters().filter_map(|p| p.name))
        .chain(table.declarations().filter_map(|d| d.name))
        .collect();
    held.sort_unstable();
    held.dedup();
    let mut listed: Vec<&str> = table.names().map(|n| n.spelling).collect();
    let offsets: Vec<usize> = table.names().map(|n| n.offset).collect();
    listed.sort_unstable();
    listed == held && offsets.windows(2).all(|w| w[0] < w[1])
}

fn or_dash(name: Option<&str>) -> &str {
    name.unwrap_or("-")
}
