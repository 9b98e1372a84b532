use crate::ffi::{Entry, SIGNEDS, WIDES, WORDS};
use crate::{Model, Reader};

// Where each kind of entry begins in the 32-bit slice, and how many numbers it has (include/recordtable.h).
pub(crate) const ROWS: Region = Region { from: 0, each: 6 };
pub(crate) const MEMBERS: Region = Region { from: 6_144, each: 4 };
pub(crate) const VALUES: Region = Region { from: 22_528, each: 2 };
pub(crate) const PARAMETERS: Region = Region { from: 30_720, each: 3 };
pub(crate) const DECLARATIONS: Region = Region { from: 43_008, each: 3 };
pub(crate) const NAMES: Region = Region { from: 46_080, each: 2 };
// .. and in the 64-bit one.
pub(crate) const ROW_WIDES: Region = Region { from: 0, each: 1 };
pub(crate) const MEMBER_WIDES: Region = Region { from: 1_024, each: 2 };

pub(crate) struct Region {
    from: usize,
    each: usize,
}

impl Region {
    fn of<'a, T>(&self, slice: &'a [T], count: usize) -> &'a [T] {
        &slice[self.from..self.from + self.each * count]
    }

    pub(crate) fn of_mut<'a, T>(&self, slice: &'a mut [T], count: usize) -> &'a mut [T] {
        &mut slice[self.from..self.from + self.each * count]
    }
}

/// The number of a type row.
#[derive(Clone, Copy, Debug, PartialEq, Eq, PartialOrd, Ord, Hash)]
pub struct Row(pub(crate) u32);

impl Row {
    /// As the listing prints it.
    pub fn number(self) -> usize {
        self.0 as usize
    }
}

/// A type, as its row has it.
#[derive(Clone, Copy, Debug, PartialEq, Eq)]
pub enum Type<'a> {
    Void,
    Int {
        bytes: u64,
        signed: bool,
    },
    Float {
        bytes: u64,
    },
    Bool,
    Pointer {
        target: Row,
    },
    /// `bound` is none for `int a[]`.
    Array {
        element: Row,
        bound: Option<u64>,
    },
    /// `bytes` is none where it has no body.
    Struct {
        tag: Option<&'a str>,
        bytes: Option<u64>,
    },
    Union {
        tag: Option<&'a str>,
        bytes: Option<u64>,
    },
    Enum {
        tag: Option<&'a str>,
        bytes: u64,
    },
    /// `returns` is none for void.
    Function {
        returns: Option<Row>,
        variadic: bool,
    },
    Typedef {
        name: &'a str,
        target: Row,
    },
    Qualified {
        target: Row,
        is_const: bool,
        is_volatile: bool,
        is_restrict: bool,
    },
}

/// The bits of a bit-field.
#[derive(Clone, Copy, Debug, PartialEq, Eq)]
pub struct Bits {
    /// Counted from where its struct or union begins.
    pub first: u64,
    pub width: u32,
}

/// A member of a struct or union.
#[derive(Clone, Copy, Debug, PartialEq, Eq)]
pub struct Member<'a> {
    /// The struct or union; none where the body was replaced or equals an earlier one, or where a field has width 0.
    pub owner: Option<Row>,
    pub ty: Row,
    pub name: Option<&'a str>,
    /// In bytes; of a bit-field the place of its unit.
    pub offset: u64,
    /// None for a plain member.
    pub bits: Option<Bits>,
}

/// An enumerator.
#[derive(Clone, Copy, Debug, PartialEq, Eq)]
pub struct Value<'a> {
    /// The enum; none where the body was replaced or equals an earlier one.
    pub owner: Option<Row>,
    pub name: &'a str,
    pub value: i64,
}

/// A parameter of a function type.
#[derive(Clone, Copy, Debug, PartialEq, Eq)]
pub struct Parameter<'a> {
    /// The function type; none where the list equals an earlier one.
    pub owner: Option<Row>,
    pub ty: Row,
    pub name: Option<&'a str>,
}

/// The storage class that was written.
#[derive(Clone, Copy, Debug, PartialEq, Eq, Hash)]
pub enum Storage {
    None,
    Typedef,
    Extern,
    Static,
    Auto,
}

/// A declared name, or a declaration without one.
#[derive(Clone, Copy, Debug, PartialEq, Eq)]
pub struct Declaration<'a> {
    pub storage: Storage,
    pub ty: Row,
    pub name: Option<&'a str>,
}

/// A spelling that some entry holds.
#[derive(Clone, Copy, Debug, PartialEq, Eq)]
pub struct Name<'a> {
    /// Of its first place in the text.
    pub offset: usize,
    pub spelling: &'a str,
}

/// The table of an accepted text, in a [`Reader`]'s memory or an [`OwnedTable`]'s.
#[derive(Clone, Copy)]
pub struct Table<'a> {
    pub(crate) text: &'a [u8],
    pub(crate) model: Model,
    pub(crate) entry: Entry,
    parts: Parts<'a>,
}

/// The used part of each region.
#[derive(Clone, Copy)]
struct Parts<'a> {
    rows: &'a [u32],
    row_wides: &'a [u64],
    members: &'a [u32],
    member_wides: &'a [u64],
    values: &'a [u32],
    signeds: &'a [i64],
    parameters: &'a [u32],
    declarations: &'a [u32],
    names: &'a [u32],
}

/// How many there are of each, in the order of the answer.
#[derive(Clone, Copy)]
pub(crate) struct Counts {
    pub rows: usize,
    pub members: usize,
    pub values: usize,
    pub parameters: usize,
    pub declarations: usize,
    pub names: usize,
}

impl<'a> Table<'a> {
    pub(crate) fn new(
        text: &'a [u8],
        model: Model,
        entry: Entry,
        words: &'a [u32; WORDS],
        wides: &'a [u64; WIDES],
        signeds: &'a [i64; SIGNEDS],
        counts: Counts,
    ) -> Table<'a> {
        let parts = Parts {
            rows: ROWS.of(words, counts.rows),
            row_wides: ROW_WIDES.of(wides, counts.rows),
            members: MEMBERS.of(words, counts.members),
            member_wides: MEMBER_WIDES.of(wides, counts.members),
            values: VALUES.of(words, counts.values),
            signeds: &signeds[..counts.values],
            parameters: PARAMETERS.of(words, counts.parameters),
            declarations: DECLARATIONS.of(words, counts.declarations),
            names: NAMES.of(words, counts.names),
        };
        Table { text, model, entry, parts }
    }

    /// The text that was read.
    pub fn text(&self) -> &'a [u8] {
        self.text
    }

    pub fn model(&self) -> Model {
        self.model
    }

    /// Every type with its row, row 0 (void) first.
    ///
    /// ```
    /// # use recordtable::{Model, Reader, Type};
    /// let mut reader = Reader::new();
    /// let table = reader.read_unit(b"unsigned short a[3];", Model::Lp64)?;
    /// let types: Vec<Type> = table.types().map(|(_, ty)| ty).collect();
    /// assert_eq!(types[1], Type::Int { bytes: 2, signed: false });
    /// assert!(matches!(types[2], Type::Array { element, bound: Some(3) } if element.number() == 1));
    /// # Ok::<(), recordtable::Refusal>(())
    /// ```
    pub fn types(&self) -> impl ExactSizeIterator<Item = (Row, Type<'a>)> + 'a {
        let table = *self;
        (0..table.parts.row_wides.len() as u32).map(move |n| (Row(n), table.ty(Row(n))))
    }

    /// The type of a row of this table.
    ///
    /// # Panics
    ///
    /// Where the row is another table's and this one has none of that number.
    pub fn ty(&self, row: Row) -> Type<'a> {
        let n = row.number();
        let [kind, target, flags, name, _, _] = self.row(row);
        let (target, bytes) = (Row(target), self.parts.row_wides[n]);
        let has = |flag: u32| flags & flag != 0;
        match kind {
            0 => Type::Void,
            1 => Type::Int { bytes, signed: has(1) },
            2 => Type::Float { bytes },
            3 => Type::Bool,
            4 => Type::Pointer { target },
            5 => Type::Array { element: target, bound: has(1).then_some(bytes) },
            6 => Type::Struct { tag: self.name(name), bytes: has(1).then_some(bytes) },
            7 => Type::Union { tag: self.name(name), bytes: has(1).then_some(bytes) },
            8 => Type::Enum { tag: self.name(name), bytes },
            9 => Type::Function { returns: has(1).then_some(target), variadic: has(2) },
            10 => Type::Typedef { name: self.spelling(name), target },
            11 => Type::Qualified {
                target,
                is_const: has(1),
                is_volatile: has(2),
                is_restrict: has(4),
            },
            _ => unreachable!("the kinds of rows are 0 to 11"),
        }
    }

    fn row(&self, row: Row) -> [u32; 6] {
        let at = row.number() * ROWS.each;
        std::array::from_fn(|i| self.parts.rows[at + i])
    }

    /// All member entries, in the order in which they were read.
    pub fn members(&self) -> impl ExactSizeIterator<Item = Member<'a>> + 'a {
        let table = *self;
        (0..table.parts.members.len() / MEMBERS.each).map(move |i| table.member(i))
    }

    /// The members of a struct or union; none of any other type.
    ///
    /// ```
    /// # use recordtable::{Model, Reader, Type};
    /// let mut reader = Reader::new();
    /// let table = reader.read_unit(b"struct T { char d; short m[6]; };", Model::Lp64)?;
    /// let (row, ty) = table.types().nth(1).unwrap();
    /// assert_eq!(ty, Type::Struct { tag: Some("T"), bytes: Some(14) });
    /// let places: Vec<_> = table.members_of(row).map(|m| (m.name.unwrap(), m.offset)).collect();
    /// assert_eq!(places, [("d", 0), ("m", 2)]);
    /// # Ok::<(), recordtable::Refusal>(())
    /// ```
    pub fn members_of(&self, row: Row) -> impl Iterator<Item = Member<'a>> + 'a {
        let span = self.span(row, |ty| matches!(ty, Type::Struct { .. } | Type::Union { .. }));
        self.members().skip(span.first).filter(move |m| m.owner == Some(row)).take(span.count)
    }

    fn member(&self, i: usize) -> Member<'a> {
        let words = &self.parts.members[i * MEMBERS.each..][..MEMBERS.each];
        let wides = &self.parts.member_wides[i * MEMBER_WIDES.each..][..MEMBER_WIDES.each];
        Member {
            owner: owner(words[0]),
            ty: Row(words[1]),
            name: self.name(words[2]),
            offset: wides[0],
            bits: words[3].checked_sub(1).map(|width| Bits { first: wides[1], width }),
        }
    }

    /// All enumerators, in the order in which they were read.
    pub fn values(&self) -> impl ExactSizeIterator<Item = Value<'a>> + 'a {
        let table = *self;
        (0..table.parts.signeds.len()).map(move |i| table.value(i))
    }

    /// The enumerators of an enum; none of any other type.
    pub fn values_of(&self, row: Row) -> impl Iterator<Item = Value<'a>> + 'a {
        let span = self.span(row, |ty| matches!(ty, Type::Enum { .. }));
        self.values().skip(span.first).filter(move |v| v.owner == Some(row)).take(span.count)
    }

    fn value(&self, i: usize) -> Value<'a> {
        let words = &self.parts.values[i * VALUES.each..][..VALUES.each];
        Value {
            owner: owner(words[0]),
            name: self.spelling(words[1]),
            value: self.parts.signeds[i],
        }
    }

    /// All parameter entries, in the order in which they were read.
    pub fn parameters(&self) -> impl ExactSizeIterator<Item = Parameter<'a>> + 'a {
        let table = *self;
        (0..table.parts.parameters.len() / PARAMETERS.each).map(move |i| table.parameter(i))
    }

    /// The parameters of a function type; none of any other type.
    pub fn parameters_of(&self, row: Row) -> impl Iterator<Item = Parameter<'a>> + 'a {
        let span = self.span(row, |ty| matches!(ty, Type::Function { .. }));
        self.parameters().skip(span.first).filter(move |p| p.owner == Some(row)).take(span.count)
    }

    fn parameter(&self, i: usize) -> Parameter<'a> {
        let words = &self.parts.parameters[i * PARAMETERS.each..][..PARAMETERS.each];
        Parameter { owner: owner(words[0]), ty: Row(words[1]), name: self.name(words[2]) }
    }

    /// The declarations, in the text's order.
    ///
    /// ```
    /// # use recordtable::{Model, Reader, Storage};
    /// let mut reader = Reader::new();
    /// let table = reader.read_unit(b"extern int hours, minutes;", Model::Lp64)?;
    /// let names: Vec<_> = table.declarations().map(|d| (d.storage, d.name.unwrap())).collect();
    /// assert_eq!(names, [(Storage::Extern, "hours"), (Storage::Extern, "minutes")]);
    /// # Ok::<(), recordtable::Refusal>(())
    /// ```
    pub fn declarations(&self) -> impl ExactSizeIterator<Item = Declaration<'a>> + 'a {
        let table = *self;
        let count = table.parts.declarations.len() / DECLARATIONS.each;
        (0..count).map(move |i| table.declaration(i))
    }

    fn declaration(&self, i: usize) -> Declaration<'a> {
        let words = &self.parts.declarations[i * DECLARATIONS.each..][..DECLARATIONS.each];
        let storage = match words[0] {
            0 => Storage::None,
            1 => Storage::Typedef,
            2 => Storage::Extern,
            3 => Storage::Static,
            4 => Storage::Auto,
            _ => unreachable!("the numbers of storage are 0 to 4"),
        };
        Declaration { storage, ty: Row(words[1]), name: self.name(words[2]) }
    }

    /// The spellings that entries hold, each once, sorted by their first place in the text.
    pub fn names(&self) -> impl ExactSizeIterator<Item = Name<'a>> + 'a {
        let table = *self;
        table.parts.names.chunks_exact(NAMES.each).map(move |pair| {
            let offset = pair[0] as usize;
            Name { offset, spelling: table.word(offset, pair[1] as usize) }
        })
    }

    /// The lines that the program `recordtable` prints. The text is read once more for them, in memory of its own.
    ///
    /// ```
    /// # use recordtable::{Model, Reader};
    /// let mut reader = Reader::new();
    /// let table = reader.read_unit(b"char *a;", Model::Ilp32)?;
    /// assert_eq!(
    ///     table.listing(),
    ///     "type 0 void - -\ntype 1 int 1 1 signed\ntype 2 pointer 4 4 1\ndecl none 2 a\n"
    /// );
    /// # Ok::<(), recordtable::Refusal>(())
    /// ```
    pub fn listing(&self) -> String {
        Reader::new().report(self.entry, self.text, self.model)
    }

    /// A copy of the table and its text, without unused entries.
    pub fn to_owned(&self) -> OwnedTable {
        let p = &self.parts;
        OwnedTable {
            text: self.text.into(),
            model: self.model,
            entry: self.entry,
            rows: p.rows.into(),
            row_wides: p.row_wides.into(),
            members: p.members.into(),
            member_wides: p.member_wides.into(),
            values: p.values.into(),
            signeds: p.signeds.into(),
            parameters: p.parameters.into(),
            declarations: p.declarations.into(),
            names: p.names.into(),
        }
    }

    /// A name of an entry: 65,536 times its length plus its offset, 0 for none.
    fn name(&self, number: u32) -> Option<&'a str> {
        (number != 0).then(|| self.word((number % 65_536) as usize, (number / 65_536) as usize))
    }

    /// A name that is never missing.
    fn spelling(&self, number: u32) -> &'a str {
        self.name(number).unwrap_or_default()
    }

    fn word(&self, offset: usize, length: usize) -> &'a str {
        std::str::from_utf8(&self.text[offset..offset + length]).expect("an accepted text is ASCII")
    }

    fn span(&self, row: Row, has_entries: impl Fn(Type<'a>) -> bool) -> Span {
        let [_, _, _, _, first, count] = self.row(row);
        let count = if has_entries(self.ty(row)) { count } else { 0 };
        Span { first: first as usize, count: count as usize }
    }
}

/// A row's entries: from number `first` on, the first `count` that carry the row.
struct Span {
    first: usize,
    count: usize,
}

/// Row 0 is void, which has no entries: it stands for none.
fn owner(row: u32) -> Option<Row> {
    (row != 0).then_some(Row(row))
}

impl std::fmt::Debug for Table<'_> {
    fn fmt(&self, f: &mut std::fmt::Formatter<'_>) -> std::fmt::Result {
        f.debug_struct("Table")
            .field("model", &self.model)
            .field("types", &self.types().collect::<Vec<_>>())
            .field("members", &self.members().collect::<Vec<_>>())
            .field("values", &self.values().collect::<Vec<_>>())
            .field("parameters", &self.parameters().collect::<Vec<_>>())
            .field("declarations", &self.declarations().collect::<Vec<_>>())
            .finish()
    }
}

/// A table with its text, on its own.
///
/// ```
/// # use recordtable::{Model, OwnedTable, Reader, Refusal};
/// fn read(text: &str) -> Result<OwnedTable, Refusal> {
///     Ok(Reader::new().read_unit(text.as_bytes(), Model::Llp64)?.to_owned())
/// }
///
/// let owned = read("enum { OPEN, SHUT = 24 * 60, NEXT };")?;
/// let values: Vec<i64> = owned.table().values().map(|v| v.value).collect();
/// assert_eq!(values, [0, 1440, 1441]);
/// # Ok::<(), Refusal>(())
/// ```
#[derive(Clone)]
pub struct OwnedTable {
    text: Box<[u8]>,
    model: Model,
    entry: Entry,
    rows: Box<[u32]>,
    row_wides: Box<[u64]>,
    members: Box<[u32]>,
    member_wides: Box<[u64]>,
    values: Box<[u32]>,
    signeds: Box<[i64]>,
    parameters: Box<[u32]>,
    declarations: Box<[u32]>,
    names: Box<[u32]>,
}

impl OwnedTable {
    pub fn table(&self) -> Table<'_> {
        let parts = Parts {
            rows: &self.rows,
            row_wides: &self.row_wides,
            members: &self.members,
            member_wides: &self.member_wides,
            values: &self.values,
            signeds: &self.signeds,
            parameters: &self.parameters,
            declarations: &self.declarations,
            names: &self.names,
        };
        Table { text: &self.text, model: self.model, entry: self.entry, parts }
    }
}

impl std::fmt::Debug for OwnedTable {
    fn fmt(&self, f: &mut std::fmt::Formatter<'_>) -> std::fmt::Result {
        self.table().fmt(f)
    }
}
