//! Reading, judging and writing Triple-S 1.1, and definitions in XML 1.2, in plain Rust, written from the project's papers only (documents
//! 000, 01, 02 and 003 and the readings) and from none of the verified code, so that the two can be held against each other.
//!
//! Every call is total: any bytes, any numbers, any lengths. Every refusal leaves all lent memory as it was.

#![forbid(unsafe_code)]

mod clean;
mod correct;
mod csv;
mod definition;
mod field;
mod file;
mod import;
mod matrix;
mod mend;
mod normal;
mod ready;
mod scan;
mod table;
mod text;
mod write;
mod xml;

pub use clean::write_definition;
pub use correct::{Correction, correct};
pub use csv::export;
pub use definition::{Definition, read_definition};
pub use field::{Judgement, Reading, Refused, Value, judge_record, read_record, read_value};
pub use file::{FileJudgement, NextRecord, judge_file, judge_part, next_record};
pub use import::import;
pub use matrix::matrix;
pub use mend::mend;
pub use normal::normal;
pub use table::well_formed;
pub use text::{BREAK, decode_text};
pub use write::{write_missing, write_number, write_set, write_text, write_truth};
pub use xml::{decode_xml, is_xml, read_xml};

/// The most bytes a definition may have; also the bound of text places and lengths in a table.
pub const MAX_DEFINITION: usize = 1_048_576;
/// The most variables.
pub const MAX_VARIABLES: usize = 512;
/// The most value lines, over all variables.
pub const MAX_LINES: usize = 4_096;
/// The highest category.
pub const MAX_CATEGORY: i64 = 9_999;
/// The greatest magnitude of a scaled quantity: fifteen digits.
pub const MAX_QUANTITY: i64 = 999_999_999_999_999;
/// The most decimals of a quantity.
pub const MAX_DECIMALS: usize = 9;
/// The greatest SIZE.
pub const MAX_SIZE: i64 = 4_096;
/// The highest location in a record.
pub const MAX_LOCATION: i64 = 16_384;
/// The deepest comment.
pub const MAX_LEVEL: usize = 32;

/// Numbers in the table's header, in a row, in a line.
pub const HEADER: usize = 6;
pub const ROW: usize = 20;
pub const LINE: usize = 4;

/// The columns of a row.
pub mod column {
    pub const IDENT: usize = 0;
    pub const TYPE: usize = 1;
    pub const START: usize = 2;
    pub const FINISH: usize = 3;
    pub const WIDTH: usize = 4;
    pub const DECIMALS: usize = 5;
    pub const POINT: usize = 6;
    pub const SUBFIELDS: usize = 7;
    pub const SUBWIDTH: usize = 8;
    pub const RANGE: usize = 9;
    pub const FROM: usize = 10;
    pub const TO: usize = 11;
    pub const BEFORE: usize = 12;
    pub const LINES: usize = 13;
    pub const NAME: usize = 14;
    pub const NAME_LENGTH: usize = 15;
    pub const LABEL: usize = 16;
    pub const LABEL_LENGTH: usize = 17;
    pub const USE: usize = 18;
    pub const FILTER: usize = 19;
}

/// The first number of a table: of a 1.1 definition, of one in XML.
pub const MARK: i64 = 11;
pub const MARK_XML: i64 = 12;

/// The types of a row.
pub const SINGLE: i64 = 1;
pub const MULTIPLE: i64 = 2;
pub const QUANTITY: i64 = 3;
pub const CHARACTER: i64 = 4;
pub const LOGICAL: i64 = 5;

type Row = [i64; ROW];
type Line = [i64; LINE];

/// The digits of a category, 1 to 9,999 (1 for 0).
#[inline]
fn category_digits(c: i64) -> i64 {
    1 + (c > 9) as i64 + (c > 99) as i64 + (c > 999) as i64
}

/// The powers of ten.
const TENS: [u64; 20] = {
    let mut tens = [1; 20];
    let mut i = 1;
    while i < tens.len() {
        tens[i] = 10 * tens[i - 1];
        i += 1;
    }
    tens
};

/// The bytes a scaled quantity takes with these decimals and this point's code: with code 2 no digit before the point counts.
#[inline]
fn quantity_width(v: i64, decimals: i64, point: i64) -> i64 {
    let m = v.unsigned_abs();
    // As many digits as a number of so many bits has at least, and one more from the next power of ten on; 0 is none, which is too few.
    let digits = (((m | 1).ilog2() as usize + 1) * 1233) >> 12;
    let digits = digits as i64 + (m >= TENS[digits]) as i64;
    (v < 0) as i64 + digits.max(decimals + (point != 2) as i64) + (point > 0) as i64
}
