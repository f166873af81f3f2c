//! The table of a definition: where each of its numbers stands. `include/zarfolin.h` has the same names, and
//! `tests/header.rs` holds the two against each other.
//!
//! ```
//! use zarfolin::table;
//! // A row's type stands at
//! let at = |row: usize| table::row_at(row) + table::column::TYPE;
//! assert_eq!(at(1) - at(0), table::ROW);
//! ```

/// The numbers of the header.
pub const HEADER: usize = 6;

/// The numbers of a row.
pub const ROW: usize = 20;

/// The numbers of a line.
pub const LINE: usize = 4;

/// The first number of every table of a 1.1 definition.
pub const MARK: i64 = 11;

/// The first number of every table of a definition in XML.
pub const MARK_XML: i64 = 12;

/// Where a row starts.
pub const fn row_at(row: usize) -> usize {
    HEADER + ROW * row
}

/// Where a line starts in a table of so many rows.
pub const fn line_at(rows: usize, line: usize) -> usize {
    row_at(rows) + LINE * line
}

/// The numbers of a table of so many rows and lines.
pub const fn length(rows: usize, lines: usize) -> usize {
    line_at(rows, lines)
}

/// The numbers of the header, by name.
pub mod header {
    /// [`MARK`](super::MARK) or [`MARK_XML`](super::MARK_XML).
    pub const MARK: usize = 0;
    /// Rows, V.
    pub const VARIABLES: usize = 1;
    /// Lines, E.
    pub const LINES: usize = 2;
    /// Least length of a record, L.
    pub const RECORD: usize = 3;
    /// Where the rows start.
    pub const ROWS_AT: usize = 4;
    /// Where the lines start.
    pub const LINES_AT: usize = 5;
}

/// The columns of a row. Those that its type lacks are 0.
pub mod column {
    /// The ident.
    pub const IDENT: usize = 0;
    /// [`SINGLE`](super::kind::SINGLE) to [`LOGICAL`](super::kind::LOGICAL).
    pub const TYPE: usize = 1;
    /// The first location of POSITION, from 1.
    pub const START: usize = 2;
    /// The last location of POSITION.
    pub const FINISH: usize = 3;
    /// The value width w.
    pub const WIDTH: usize = 4;
    /// A quantity's decimals.
    pub const DECIMALS: usize = 5;
    /// A quantity's point: 0 none, 1 one, 2 one that no digit need stand before.
    pub const POINT: usize = 6;
    /// A spread's subfields.
    pub const SUBFIELDS: usize = 7;
    /// The width of each.
    pub const SUBFIELD_WIDTH: usize = 8;
    /// Whether there is a range, 0 or 1.
    pub const RANGE: usize = 9;
    /// Its lower end, scaled.
    pub const FROM: usize = 10;
    /// Its upper end, scaled.
    pub const TO: usize = 11;
    /// Lines of the rows before.
    pub const LINES_BEFORE: usize = 12;
    /// Lines of this row.
    pub const LINES: usize = 13;
    /// Where the name stands in the definition, undecoded.
    pub const NAME: usize = 14;
    /// Its bytes.
    pub const NAME_LENGTH: usize = 15;
    /// Where the label stands in the definition, undecoded.
    pub const LABEL: usize = 16;
    /// Its bytes.
    pub const LABEL_LENGTH: usize = 17;
    /// [`NO_USE`](super::usage::NO_USE) to [`WEIGHT`](super::usage::WEIGHT).
    pub const USE: usize = 18;
    /// The number plus one of the row that filters this one, 0 where none does.
    pub const FILTER: usize = 19;
}

/// The columns of a line.
pub mod line {
    /// The value, scaled.
    pub const VALUE: usize = 0;
    /// Whether SPECIAL stands with it, 0 or 1.
    pub const SPECIAL: usize = 1;
    /// Where its text stands in the definition, undecoded.
    pub const TEXT: usize = 2;
    /// Its bytes.
    pub const TEXT_LENGTH: usize = 3;
}

/// The uses of a row.
pub mod usage {
    /// None.
    pub const NO_USE: i64 = 0;
    /// The serial number.
    pub const SERIAL: i64 = 1;
    /// The weight.
    pub const WEIGHT: i64 = 2;
}

/// The types of a row.
pub mod kind {
    /// SINGLE
    pub const SINGLE: i64 = 1;
    /// MULTIPLE
    pub const MULTIPLE: i64 = 2;
    /// QUANTITY
    pub const QUANTITY: i64 = 3;
    /// CHARACTER
    pub const CHARACTER: i64 = 4;
    /// LOGICAL
    pub const LOGICAL: i64 = 5;
}

/// The kinds of value that [`zarfolin_read_value`](crate::ffi::zarfolin_read_value) answers.
pub mod value {
    /// Nothing.
    pub const MISSING: i64 = 0;
    /// A number.
    pub const NUMBER: i64 = 1;
    /// A set.
    pub const SET: i64 = 2;
    /// A text.
    pub const TEXT: i64 = 3;
    /// A truth.
    pub const TRUTH: i64 = 4;
}

/// What [`zarfolin_next_record`](crate::ffi::zarfolin_next_record) returns.
pub mod next {
    /// None: at or past the end of the data.
    pub const NO_RECORD: u64 = 0;
    /// A record with its terminator.
    pub const RECORD: u64 = 1;
    /// A record that the data ends without a terminator.
    pub const OPEN_RECORD: u64 = 2;
}

/// The terminators, as [`zarfolin_judge_part`](crate::ffi::zarfolin_judge_part) takes them.
pub mod terminator {
    /// CR LF
    pub const CR_LF: u64 = 1;
    /// LF CR
    pub const LF_CR: u64 = 2;
    /// CR
    pub const CR: u64 = 3;
    /// LF
    pub const LF: u64 = 4;
}

/// What [`zarfolin_mend`](crate::ffi::zarfolin_mend) changes, as its list has it.
pub mod mended {
    /// An empty record dropped.
    pub const DROPPED: i64 = 1;
    /// A space for a byte below 32.
    pub const BYTE: i64 = 2;
    /// A record padded with spaces.
    pub const PAD: i64 = 3;
    /// The first terminator in place of another, or of none.
    pub const TERMINATOR: i64 = 4;
}

/// The limits of definitions and tables.
pub mod limit {
    /// Bytes of a definition.
    pub const MAX_DEFINITION: usize = 1_048_576;
    /// Rows of a table.
    pub const MAX_VARIABLES: usize = 512;
    /// Lines of a table, over all rows.
    pub const MAX_LINES: usize = 4_096;
    /// A category.
    pub const MAX_CATEGORY: i64 = 9_999;
    /// Members of a set: with a list of so many numbers refusal 25 can't come.
    pub const MAX_SET: usize = MAX_CATEGORY as usize;
    /// A scaled quantity, either sign.
    pub const MAX_QUANTITY: i64 = 999_999_999_999_999;
    /// Decimals of a quantity.
    pub const MAX_DECIMALS: usize = 9;
    /// Bytes of a text.
    pub const MAX_SIZE: usize = 4_096;
    /// The last byte of a record that a row may use.
    pub const MAX_LOCATION: usize = 16_384;
    /// Comments within comments.
    pub const MAX_LEVEL: usize = 32;
    /// Bytes of a matrix.
    pub const MAX_MATRIX: usize = 16_777_216;
    /// Numbers of a table.
    pub const MAX_TABLE: usize = super::length(MAX_VARIABLES, MAX_LINES);
}
