//! Zarfolin reads, judges and corrects Triple-S survey files, with definitions of version 1.1 or in XML 1.2. The work is done by a library
//! that is proved in full (`libzarfolin.a`, for Linux on x86-64); this crate is its face for Rust. What the library promises of each call stands in
//! `include/zarfolin.h` and `docs/CONTRACTS.md` of its repository.
//!
//! ```
//! use zarfolin::{Definition, Value};
//!
//! let text = b"SSS VERSION 1.1 SURVEY RECORD R
//!     VARIABLE 1 NAME \"desk\" LABEL \"Desk\" TYPE SINGLE POSITION 1 TO 2
//!     VALUES 1 TO 12 END VALUES END VARIABLE
//!     VARIABLE 2 NAME \"seen\" LABEL \"Seen\" TYPE MULTIPLE POSITION 3 TO 6
//!     VALUES 1 \"a\" 2 \"b\" 4 \"d\" END VALUES END VARIABLE
//!     END RECORD END SURVEY END SSS";
//! let definition = Definition::read(text)?;
//! for variable in definition.variables() {
//!     println!("{} {:?} {} in columns {:?}", variable.ident(), variable.kind(), variable.name(), variable.columns());
//! }
//!
//! let data = b" 710x1\n1300x0\n";
//! for record in definition.records(data) {
//!     for (variable, value) in record.values()?.iter() {
//!         match value {
//!             Ok(value) => println!("{} {} {value:?}", record.number(), variable.ident()),
//!             Err(refusal) => println!("{} {} {refusal}", record.number(), variable.ident()),
//!         }
//!     }
//! }
//! let first = definition.records(data).next().unwrap();
//! assert_eq!(first.values()?.get(1), Some(Ok(Value::Set(&[1, 4]))));
//!
//! let fault = definition.judge(data).unwrap_err();
//! let words = "record 2, row 0, number 13: the field holds a number that is neither in the range nor on a line [242]";
//! assert_eq!(fault.to_string(), words);
//! # Ok::<(), Box<dyn std::error::Error>>(())
//! ```
//!
//! | module | has |
//! |---|---|
//! | here | [`Definition`] and what comes of it, in Rust's own types; [`Refusal`] |
//! | [`calls`] | each call over lent slices, nothing allocated |
//! | [`ffi`] | the calls as they are exported, `unsafe` |
//! | [`table`] | the names of a table's numbers, and the limits |
//!
//! # Linking
//!
//! The feature `ffi`, on unless it is turned off, links `libzarfolin.a` from `target/staticlib` of the repository, where
//! `tools/build library` puts it, or from the folder that `ZARFOLIN_LIB_DIR` names. When the crate is built it holds its
//! [`VERSION`] against the header's and the archive's. Without the feature only [`table`], [`Correction`], [`Refusal`],
//! [`Text`] and [`Value`] are there.

#![no_std]

#[cfg(feature = "ffi")]
extern crate alloc;

mod correction;
mod refusal;
pub mod table;
mod text;

pub use correction::{Correction, Given};
pub use refusal::{DefinitionError, FileFault, ImportFault, Number, ReadError, RecordFault, Refusal};
pub use text::{Sign, Text};

/// The version of the face that this crate is written for.
pub const VERSION: u64 = 3;

/// A row's value: what was read from a record, or what is to be written.
#[derive(Clone, Copy, Debug, PartialEq, Eq)]
pub enum Value<'a> {
    /// Nothing: spaces in the data, or a SINGLE's zero.
    Missing,
    /// A SINGLE's category, or a QUANTITY scaled by its decimals.
    Number(i64),
    /// A MULTIPLE's categories, rising.
    Set(&'a [i64]),
    /// A CHARACTER's bytes without the spaces at the end.
    Text(&'a [u8]),
    /// A LOGICAL's truth.
    Truth(bool),
}

#[cfg(feature = "ffi")]
pub mod calls;
#[cfg(feature = "ffi")]
pub mod ffi;
#[cfg(feature = "ffi")]
mod parts;
#[cfg(feature = "ffi")]
mod survey;

#[cfg(feature = "ffi")]
pub use parts::{Blocks, Parts, Shape, Terminator};
#[cfg(feature = "ffi")]
pub use survey::{Definition, Kind, Line, Lines, RawText, Record, Records, Use, Values, Variable, Variables};

#[cfg(all(zarfolin_other_machine, not(doc)))]
compile_error!(
    "libzarfolin.a is for x86-64 only: build with --target x86_64-unknown-linux-gnu, or without the feature `ffi`"
);

#[cfg(all(zarfolin_no_archive, not(doc)))]
compile_error!(
    "libzarfolin.a is not there: build it with `tools/build library`, name its folder in ZARFOLIN_LIB_DIR, or turn the feature `ffi` off"
);

/// Whether a version that build.rs found is this crate's; where it found none there is nothing to compare.
const fn agrees(found: Option<&str>) -> bool {
    let Some(text) = found else { return true };
    let (digits, mut i, mut n) = (text.as_bytes(), 0, 0);
    while i < digits.len() && digits[i].is_ascii_digit() {
        n = n * 10 + (digits[i] - b'0') as u64;
        i += 1;
    }
    i == digits.len() && i > 0 && n == VERSION
}

const _: () =
    assert!(agrees(option_env!("ZARFOLIN_HEADER_VERSION")), "include/zarfolin.h has another version than this crate");
const _: () =
    assert!(agrees(option_env!("ZARFOLIN_ARCHIVE_VERSION")), "libzarfolin.a has another version than this crate");
