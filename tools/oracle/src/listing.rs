//! The listing of document 01 over the Rust's tables.
//!
//! This file is compiled twice: here, over the unchanged Rust, and in
//! `demanded`, over the patched one. It uses only the public face of `Types`.
//! Sizes and alignments are worked out here: the Rust's `size_of` overflows
//! and its `align_of` takes exponential time, and neither may stop a listing.

use crate::cdecl::{Declaration, Storage};
use crate::ctype::{Composite, Qualifiers, Signature, Type, TypeId, Types};
use std::collections::HashMap;
use std::fmt::{self, Write};

/// An exact size in bytes.
#[derive(Debug, Clone, Copy, PartialEq, Eq)]
pub enum Size {
    Unknown,
    Bytes(u64),
    /// Above 2^64 - 1.
    Big,
}

impl Size {
    fn times(self, count: u64) -> Size {
        match self {
            Size::Unknown => Size::Unknown,
            _ if count == 0 => Size::Bytes(0),
            Size::Big => Size::Big,
            Size::Bytes(one) => one.checked_mul(count).map_or(Size::Big, Size::Bytes),
        }
    }
}

impl fmt::Display for Size {
    fn fmt(&self, f: &mut fmt::Formatter<'_>) -> fmt::Result {
        match self {
            Size::Unknown => f.write_str("-"),
            Size::Bytes(n) => write!(f, "{n}"),
            Size::Big => f.write_str("big"),
        }
    }
}

/// The exact size of one type. Arrays, typedefs and qualifiers point to lower
/// rows, and a structure holds its size, so this always ends.
pub fn size_of(types: &Types, id: TypeId) -> Size {
    let known = |bytes: u8| Size::Bytes(bytes.into());
    match types.get(id) {
        None | Some(Type::Void | Type::Function(_) | Type::Opaque(_)) => Size::Unknown,
        Some(Type::Bool) => Size::Bytes(1),
        Some(Type::Int { size, .. } | Type::Float { size }) => known(*size),
        Some(Type::Enum(e)) => known(e.size),
        Some(Type::Pointer(_)) => known(types.model().pointer),
        Some(Type::Composite(c)) => c.size.map_or(Size::Unknown, Size::Bytes),
        Some(Type::Array(_, None)) => Size::Unknown,
        Some(Type::Array(inner, Some(count))) => size_of(types, *inner).times(*count),
        Some(Type::Typedef(_, inner) | Type::Qualified { inner, .. }) => size_of(types, *inner),
    }
}

/// The Rust's `align_at`, remembering what it found for a structure at a depth:
/// structures are the only place where the walk branches.
pub struct Alignments<'a> {
    types: &'a Types,
    found: HashMap<(TypeId, u32), Walk>,
}

/// What a walk finds, and how many calls the Rust needs for it.
#[derive(Debug, Clone, Copy)]
struct Walk {
    alignment: Option<u64>,
    calls: u64,
}

impl<'a> Alignments<'a> {
    pub fn new(types: &'a Types) -> Alignments<'a> {
        Alignments { types, found: HashMap::new() }
    }

    pub fn of(&mut self, id: TypeId) -> Option<u64> {
        self.walk(id, 0).alignment
    }

    /// How often the Rust's `align_at` would call itself for `align_of(id)`.
    pub fn calls_for(&mut self, id: TypeId) -> u64 {
        self.walk(id, 0).calls
    }

    fn walk(&mut self, id: TypeId, depth: u32) -> Walk {
        let types = self.types;
        let at_once = |alignment| Walk { alignment, calls: 1 };
        let scalar = |size: u8| {
            let cap = types.model().max_align.max(1);
            at_once(Some(size.clamp(1, cap).into()))
        };
        let Some(ty) = types.get(id).filter(|_| depth <= 32) else {
            return at_once(None);
        };
        match ty {
            Type::Void | Type::Function(_) | Type::Opaque(_) => at_once(None),
            Type::Bool => at_once(Some(1)),
            Type::Int { size, .. } | Type::Float { size } => scalar(*size),
            Type::Enum(e) => scalar(e.size),
            Type::Pointer(_) => scalar(types.model().pointer),
            Type::Composite(c) => self.walk_composite(id, c, depth),
            Type::Array(inner, _) | Type::Typedef(_, inner) | Type::Qualified { inner, .. } => {
                let under = self.walk(*inner, depth + 1);
                Walk { calls: under.calls.saturating_add(1), ..under }
            }
        }
    }

    fn walk_composite(&mut self, id: TypeId, body: &Composite, depth: u32) -> Walk {
        if let Some(found) = self.found.get(&(id, depth)) {
            return *found;
        }
        let mut largest = None;
        let mut calls: u64 = 1;
        for field in &body.fields {
            let under = self.walk(field.ty, depth + 1);
            largest = largest.max(under.alignment);
            calls = calls.saturating_add(under.calls);
        }
        let found = Walk { alignment: Some(largest.unwrap_or(1)), calls };
        self.found.insert((id, depth), found);
        found
    }
}

/// The calls that the Rust's `align_of` needs for all rows together.
pub fn alignment_calls(types: &Types) -> u64 {
    let mut alignments = Alignments::new(types);
    (0..types.len() as u32)
        .map(|row| alignments.calls_for(TypeId(row)))
        .fold(0, u64::saturating_add)
}

/// The first bit of a bit-field, given its row and its place in the body. The
/// unchanged Rust doesn't keep it and says `?`.
pub type FirstBit<'a> = &'a dyn Fn(TypeId, usize) -> String;

/// All type lines with their sub-lines, then the declarations.
pub fn listing(types: &Types, declarations: &[Declaration], first_bit: FirstBit) -> String {
    let mut out = String::new();
    let mut alignments = Alignments::new(types);
    for row in 0..types.len() {
        let id = TypeId(row as u32);
        let ty = types.get(id).expect("the row is in the table");
        let alignment = alignments.of(id).map_or("-".to_string(), |a| a.to_string());
        let (kind, details) = kind_and_details(ty);
        let size = size_of(types, id);
        let _ = writeln!(out, "type {row} {kind} {size} {alignment}{details}");
        out += &sub_lines(id, ty, first_bit);
    }
    for d in declarations {
        let _ = writeln!(out, "decl {} {} {}", storage_word(d.storage), d.ty.0, or_dash(&d.name));
    }
    out
}

fn kind_and_details(ty: &Type) -> (&'static str, String) {
    match ty {
        Type::Void => ("void", String::new()),
        Type::Bool => ("bool", String::new()),
        Type::Float { .. } => ("float", String::new()),
        Type::Int { signed: true, .. } => ("int", " signed".into()),
        Type::Int { signed: false, .. } => ("int", " unsigned".into()),
        Type::Pointer(target) => ("pointer", format!(" {}", target.0)),
        Type::Array(inner, bound) => {
            let bound = bound.map_or("-".to_string(), |n| n.to_string());
            ("array", format!(" {} {bound}", inner.0))
        }
        Type::Composite(c) => {
            let kind = if c.union { "union" } else { "struct" };
            (kind, format!(" {}", or_dash(&c.name)))
        }
        Type::Enum(e) => ("enum", format!(" {}", or_dash(&e.name))),
        Type::Function(f) => ("function", function_details(f)),
        Type::Typedef(name, inner) => ("typedef", format!(" {} {name}", inner.0)),
        Type::Qualified { inner, quals } => {
            ("qualified", format!(" {} {}", inner.0, letters(*quals)))
        }
        // Document 01 has no such row and neither entry makes one.
        Type::Opaque(name) => ("opaque", format!(" {name}")),
    }
}

fn function_details(f: &Signature) -> String {
    let returns = f.returns.map_or("-".to_string(), |r| r.0.to_string());
    format!(" {returns} {}", if f.varargs { "..." } else { "." })
}

fn letters(q: Qualifiers) -> String {
    [(q.is_const, 'c'), (q.is_volatile, 'v'), (q.is_restrict, 'r')]
        .iter()
        .filter(|(set, _)| *set)
        .map(|(_, letter)| letter)
        .collect()
}

fn sub_lines(id: TypeId, ty: &Type, first_bit: FirstBit) -> String {
    let mut out = String::new();
    match ty {
        Type::Composite(c) => {
            for (n, f) in c.fields.iter().enumerate() {
                let bits = match f.bits {
                    Some(width) => format!("{} {width}", first_bit(id, n)),
                    None => "- -".to_string(),
                };
                let name = if f.name.is_empty() { "-" } else { &f.name };
                let _ = writeln!(out, "member {} {bits} {} {name}", f.offset, f.ty.0);
            }
        }
        Type::Enum(e) => {
            for (name, value) in &e.values {
                let _ = writeln!(out, "value {value} {name}");
            }
        }
        Type::Function(f) => {
            for (name, ty) in &f.parameters {
                let _ = writeln!(out, "param {} {}", ty.0, or_dash(name));
            }
        }
        _ => {}
    }
    out
}

fn storage_word(storage: Option<Storage>) -> &'static str {
    match storage {
        None => "none",
        Some(Storage::Typedef) => "typedef",
        Some(Storage::Extern) => "extern",
        Some(Storage::Static) => "static",
        Some(Storage::Automatic) => "auto",
    }
}

fn or_dash(name: &Option<String>) -> &str {
    name.as_deref().unwrap_or("-")
}
