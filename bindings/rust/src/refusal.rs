use std::error::Error;
use std::fmt;

/// Why a text is not read, and where.
///
/// ```
/// # use recordtable::{Model, Reader};
/// let refusal = Reader::new().read_unit(b"int a;\nint @;\n", Model::Lp64).unwrap_err();
/// assert_eq!((refusal.number, refusal.offset, refusal.line, refusal.column), (7, 11, 2, 5));
/// assert_eq!(refusal.to_string(), "line 2, column 5: a byte that C has no use for (refusal 7)");
/// ```
#[derive(Clone, Copy, Debug, PartialEq, Eq, Hash)]
pub struct Refusal {
    /// 1 to 27; `docs/REFUSALS.md` says what to change.
    pub number: u32,
    /// Bytes of the text before the place.
    pub offset: usize,
    /// From 1.
    pub line: usize,
    /// From 1.
    pub column: usize,
}

impl Refusal {
    /// What the number means, without the place.
    pub fn meaning(&self) -> &'static str {
        match self.number {
            1 => "an unknown data model, or too little memory was lent",
            2 => "the header is longer than 32,768 bytes",
            3 => "a byte that is not plain ASCII",
            4 => "a #define that gives a name a value",
            5 => "a comment, an attribute's parenthesis or a string is not closed",
            6 => "a number or a character constant that is none",
            7 => "a byte that C has no use for",
            8 => "a value that does not fit in 64 bits with a sign",
            9 => "more than 64 levels of nesting",
            10 => "a mark or the name of an enumerator is missing",
            11 => "words that name no type together, or a second type after the first",
            12 => "a word that is no known type",
            13 => "an attribute that changes the layout",
            14 => "a name, a tag or a member's name is missing",
            15 => "a typedef's name is given another type than before",
            16 => "an array of void, a function that returns an array or a function, or a parameter of type void",
            17 => "a storage class on a member",
            18 => "a bound that is negative, or *",
            19 => "a bit-field's width that is not 0 to 64",
            20 => "a member whose size is not known",
            21 => "a struct or union of more than 4,294,967,295 bytes",
            22 => "division by zero",
            23 => "no constant where one must stand",
            24 => "more than one name, or something after the declaration, or none",
            25 => "an enum with a fixed type",
            26 => "a size or a count of bits that passes 64 bits",
            27 => "more types, members, enumerators, parameters, declarations or declarator steps than the limits allow",
            _ => "an unknown refusal",
        }
    }
}

impl fmt::Display for Refusal {
    fn fmt(&self, f: &mut fmt::Formatter<'_>) -> fmt::Result {
        write!(
            f,
            "line {}, column {}: {} (refusal {})",
            self.line,
            self.column,
            self.meaning(),
            self.number
        )
    }
}

impl Error for Refusal {}
