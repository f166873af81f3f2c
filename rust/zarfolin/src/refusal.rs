//! The refusals, and what comes with them.

use core::error::Error;
use core::fmt;

/// The type that the library's calls return.
pub type Number = u64;

macro_rules! refusals {
    ($($(#[$doc:meta])* $name:ident = $number:literal, $message:literal;)*) => {
        /// Why the library refused: one of document 01's numbers.
        ///
        /// Later versions may have more; a number that this version has no name for is [`Refusal::Unknown`].
        ///
        /// ```
        /// use zarfolin::Refusal;
        /// assert_eq!(Refusal::of(242), Some(Refusal::NotLegal));
        /// assert_eq!(Refusal::NotLegal.number(), 242);
        /// assert_eq!(Refusal::NotLegal.to_string(), "the field holds a number that is neither in the range nor on a line [242]");
        /// assert_eq!(Refusal::of(0), None);
        /// assert_eq!(Refusal::of(9999).map(|r| r.number()), Some(9999));
        /// ```
        #[derive(Clone, Copy, Debug, PartialEq, Eq, Hash)]
        #[non_exhaustive]
        pub enum Refusal {
            $($(#[$doc])* $name,)*
            /// A number that this version of the crate does not know.
            Unknown(Number),
        }

        impl Refusal {
            /// All that have a name.
            pub const ALL: &'static [Refusal] = &[$(Refusal::$name),*];

            /// The refusal that a call means by the number it returns; none for 0, which is done.
            pub const fn of(number: Number) -> Option<Refusal> {
                match number {
                    0 => None,
                    $($number => Some(Refusal::$name),)*
                    other => Some(Refusal::Unknown(other)),
                }
            }

            /// Its number.
            pub const fn number(self) -> Number {
                match self {
                    $(Refusal::$name => $number,)*
                    Refusal::Unknown(number) => number,
                }
            }

            /// What it says, in words, without its number.
            pub const fn message(self) -> &'static str {
                match self {
                    $(Refusal::$name => $message,)*
                    Refusal::Unknown(_) => "refused for a reason that this version does not know",
                }
            }
        }
    };
}

refusals! {
    /// 1: definition too long.
    TooLong = 1, "the definition is longer than 1,048,576 bytes";
    /// 2: another token was due.
    Token = 2, "another word, number or text was due here";
    /// 3: string or comment unclosed, bad brace form, level 33; bytes to be decoded that are not the inside of a text.
    Mark = 3, "a string or comment is not closed, has a bad brace form, or is a comment of level 33, or these bytes are no text";
    /// 4: version not 1.1; in XML neither 1.1 nor 1.2.
    Version = 4, "the version is not 1.1 (or, in XML, 1.2)";
    /// 5: ident 0, over four digits, or repeated.
    Ident = 5, "the ident is 0, has over four digits, or is repeated";
    /// 6: value form wrong for its type, range reversed, decimals differ, value repeated.
    Values = 6, "the value has the wrong form for its type, reverses its range, differs in decimals, or is repeated";
    /// 7: start 0, finish below start, subfields or SIZE 0, subfield width 0 or inexact, or position too narrow.
    Position = 7, "the position starts at 0, ends before it starts, has 0 subfields or bytes, is not a multiple of its subfields, or is too narrow for its values";
    /// 8: another limit passed.
    Limit = 8, "a limit is passed";
    /// 9: STANDARD NAMES broken.
    Names = 9, "the name is no standard name, or agrees with an earlier one";
    /// 10: lent table too short.
    TableRoom = 10, "the lent table is too short for this definition";
    /// 20: table not well formed.
    Table = 20, "the table is not well formed";
    /// 21: no such row.
    Row = 21, "there is no such row";
    /// 22: record shorter than L.
    Short = 22, "the record is shorter than its definition needs";
    /// 23: byte below 32 in the record (whole record only).
    LowByte = 23, "the record has a byte below 32";
    /// 25: list shorter than the set, or than the text.
    ListRoom = 25, "the lent list is too short for this set or text";
    /// 26: value of another type.
    Type = 26, "the value does not fit the variable's type";
    /// 27: value not legal.
    Value = 27, "the value is not legal for this variable";
    /// 28: more members than subfields.
    Members = 28, "the set has more members than the variable has subfields";
    /// 29: a number of no terminator, for a part of a file.
    Terminator = 29, "no terminator has this number";
    /// 30: last record has no terminator.
    Unended = 30, "the last record has no terminator";
    /// 31: length differs from the first record's.
    Length = 31, "the record's length differs from the first record's";
    /// 40: the table is not the one that the definition yields; of an export and an import also: the definition is refused.
    OtherTable = 40, "the table is not the one that this definition yields";
    /// 41: clean text above 1,048,576 bytes.
    CleanSize = 41, "the clean definition is longer than 1,048,576 bytes";
    /// 42: output too short for the clean text.
    CleanRoom = 42, "the lent output is too short for the clean definition";
    /// 50: XML not well formed.
    Xml = 50, "the XML is not well formed here";
    /// 51: element or attribute unknown or misplaced.
    Element = 51, "this element or attribute is unknown, or may not stand here";
    /// 52: use or filter rule broken.
    Use = 52, "the use or the filter breaks its rule";
    /// 60: output too short for the exported text, or for the imported records.
    ExportRoom = 60, "the lent output is too short for the exported text or the imported records";
    /// 61: text malformed.
    Malformed = 61, "the text is malformed: a quote or a line end stands where none may, or it ends within a line";
    /// 62: name line differs.
    NameLine = 62, "the name line is not that of this definition";
    /// 63: wrong number of fields.
    Fields = 63, "the line has another number of fields than there are variables";
    /// 64: field not a legal value.
    Field = 64, "the field is not a legal value of its variable";
    /// 70: output or list too short for the mended file.
    MendRoom = 70, "the lent output or list is too short for the mended file";
    /// 80: no column at all.
    NoColumn = 80, "the matrix has no column, since every variable is a text";
    /// 81: total above 16,777,216 bytes.
    MatrixSize = 81, "the matrix is longer than 16,777,216 bytes";
    /// 82: output too short for the matrix.
    MatrixRoom = 82, "the lent output is too short for the matrix";
    /// 90: two rows share a value place.
    Shared = 90, "two variables share a value place";
    /// 241: stray byte.
    Stray = 241, "the field has a byte that cannot stand there";
    /// 242: not a legal value.
    NotLegal = 242, "the field holds a number that is neither in the range nor on a line";
    /// 243: decimal point.
    Point = 243, "the field has no decimal point at its place, or one elsewhere";
}

impl fmt::Display for Refusal {
    fn fmt(&self, f: &mut fmt::Formatter) -> fmt::Result {
        write!(f, "{} [{}]", self.message(), self.number())
    }
}

impl Error for Refusal {}

/// Why a definition was refused, and where.
#[derive(Clone, Copy, Debug, PartialEq, Eq)]
#[non_exhaustive]
pub struct DefinitionError {
    /// Why.
    pub refusal: Refusal,
    /// The first byte of what is at fault, from 0; 0 where no byte is (1, 10, 40 to 42).
    pub place: usize,
}

/// Why one row was not read.
///
/// ```
/// # let text = std::fs::read("../../examples/counter/survey.sss").unwrap();
/// # let definition = zarfolin::Definition::read(&text).unwrap();
/// use zarfolin::calls;
/// let read = |record: &[u8]| calls::read_value(definition.table(), 3, record, &mut []).unwrap_err().to_string();
/// assert_eq!(read(b"  1/010---0/010400  x2.50Bad Ischl     .1"), "byte 20: the field has a byte that cannot stand there [241]");
/// assert_eq!(read(b"  1/010---0/010400  12550Bad Ischl     .1"), "byte 22: the field has no decimal point at its place, or one elsewhere [243]");
/// ```
#[derive(Clone, Copy, Debug, PartialEq, Eq)]
#[non_exhaustive]
pub struct ReadError {
    /// Why.
    pub refusal: Refusal,
    /// The byte of the record, from 0, that is at fault (241, 243).
    pub place: Option<usize>,
    /// The number, scaled, that is not legal (242).
    pub number: Option<i64>,
}

impl ReadError {
    /// The refusal with what comes beside it: a place, or the number of 242.
    #[cfg(feature = "ffi")]
    pub(crate) fn with(refusal: Refusal, beside: i64) -> ReadError {
        ReadError {
            refusal,
            place: matches!(refusal, Refusal::Stray | Refusal::Point).then_some(beside as usize),
            number: (refusal == Refusal::NotLegal).then_some(beside),
        }
    }
}

impl From<Refusal> for ReadError {
    fn from(refusal: Refusal) -> ReadError {
        ReadError { refusal, place: None, number: None }
    }
}

/// What is wrong with a record.
#[derive(Clone, Copy, Debug, PartialEq, Eq)]
#[non_exhaustive]
pub struct RecordFault {
    /// What.
    pub refusal: Refusal,
    /// The row of the lowest illegal field, where a field is at fault.
    pub row: Option<usize>,
    /// The byte of the record, from 0, where one is at fault (23, 241, 243).
    pub place: Option<usize>,
    /// The number, scaled, that is not legal, where one is at fault (242).
    pub number: Option<i64>,
}

/// The first fault of a data file.
#[derive(Clone, Copy, Debug, PartialEq, Eq)]
#[non_exhaustive]
pub struct FileFault {
    /// The record, from 1; 0 where none is meant (20, 29, 40, 60, 80 to 82).
    pub record: u64,
    /// What is wrong with it.
    pub fault: RecordFault,
}

/// Why text was not imported, and where.
///
/// ```
/// # let text = std::fs::read("../../examples/counter/survey.sss").unwrap();
/// # let definition = zarfolin::Definition::read(&text).unwrap();
/// let fault = definition.import(b"ACT,SHOWN\r\n", &mut []).unwrap_err();
/// assert_eq!(fault.to_string(), "line 1, column 3: the name line is not that of this definition [62]");
/// ```
#[derive(Clone, Copy, Debug, PartialEq, Eq)]
#[non_exhaustive]
pub struct ImportFault {
    /// Why.
    pub refusal: Refusal,
    /// The line, from 1, that of the names being 1; 0 where none is meant (20, 40, 60, 90).
    pub line: u64,
    /// The column, from 1: the field's number in its line; 0 alike.
    pub column: u64,
}

impl fmt::Display for DefinitionError {
    fn fmt(&self, f: &mut fmt::Formatter) -> fmt::Result {
        match self.refusal {
            Refusal::TooLong | Refusal::TableRoom | Refusal::OtherTable | Refusal::CleanSize | Refusal::CleanRoom => {
                write!(f, "{}", self.refusal)
            }
            refusal => write!(f, "byte {}: {refusal}", self.place),
        }
    }
}

impl fmt::Display for ReadError {
    fn fmt(&self, f: &mut fmt::Formatter) -> fmt::Result {
        match (self.place, self.number) {
            (Some(place), _) => write!(f, "byte {place}: {}", self.refusal),
            (None, Some(number)) => write!(f, "number {number}: {}", self.refusal),
            (None, None) => write!(f, "{}", self.refusal),
        }
    }
}

impl fmt::Display for RecordFault {
    fn fmt(&self, f: &mut fmt::Formatter) -> fmt::Result {
        if let Some(row) = self.row {
            write!(f, "row {row}, ")?;
        }
        write!(f, "{}", ReadError { refusal: self.refusal, place: self.place, number: self.number })
    }
}

impl fmt::Display for ImportFault {
    fn fmt(&self, f: &mut fmt::Formatter) -> fmt::Result {
        match self.line {
            0 => write!(f, "{}", self.refusal),
            line => write!(f, "line {line}, column {}: {}", self.column, self.refusal),
        }
    }
}

impl fmt::Display for FileFault {
    fn fmt(&self, f: &mut fmt::Formatter) -> fmt::Result {
        match self.record {
            0 => write!(f, "{}", self.fault),
            record => write!(f, "record {record}, {}", self.fault),
        }
    }
}

impl Error for DefinitionError {
    fn source(&self) -> Option<&(dyn Error + 'static)> {
        Some(&self.refusal)
    }
}

impl Error for ReadError {
    fn source(&self) -> Option<&(dyn Error + 'static)> {
        Some(&self.refusal)
    }
}

impl Error for RecordFault {
    fn source(&self) -> Option<&(dyn Error + 'static)> {
        Some(&self.refusal)
    }
}

impl Error for ImportFault {
    fn source(&self) -> Option<&(dyn Error + 'static)> {
        Some(&self.refusal)
    }
}

impl Error for FileFault {
    fn source(&self) -> Option<&(dyn Error + 'static)> {
        Some(&self.fault)
    }
}
