//! The calls over slices that the caller lends: nothing is allocated. [`Definition`](crate::Definition) stands above them.
//!
//! Each takes any input. A refusal leaves all lent memory as it was.
//!
//! ```
//! use zarfolin::{Refusal, Value, calls, table::limit::MAX_TABLE};
//! let definition = b"SSS VERSION 1.1 SURVEY RECORD R \
//!     VARIABLE 1 NAME \"desk\" LABEL \"Desk\" TYPE SINGLE POSITION 1 TO 2 VALUES 1 TO 12 END VALUES END VARIABLE \
//!     END RECORD END SURVEY END SSS";
//! let mut table = [0; MAX_TABLE];
//! let counts = calls::read_definition(definition, &mut table)?;
//! let table = &table[..counts.table_length()];
//! let mut record = *b" 7";
//! assert_eq!(calls::read_value(table, 0, &record, &mut []), Ok(Value::Number(7)));
//! calls::write_value(table, 0, Value::Number(12), &mut record).unwrap();
//! assert_eq!(&record, b"12");
//! assert_eq!(calls::write_value(table, 0, Value::Number(13), &mut record), Err(Refusal::Value));
//! # Ok::<(), zarfolin::DefinitionError>(())
//! ```

use crate::ffi::*;
use crate::table::{self, next, value};
use crate::{
    Correction, DefinitionError, FileFault, ImportFault, Number, ReadError, RecordFault, Refusal, Text, Value,
};

/// How many rows and lines a definition was read into.
#[derive(Clone, Copy, Debug, PartialEq, Eq)]
pub struct Counts {
    /// Rows, one a variable.
    pub variables: usize,
    /// Lines, one a value with a text.
    pub lines: usize,
}

impl Counts {
    /// The numbers at the start of the table that are in use.
    pub const fn table_length(self) -> usize {
        table::length(self.variables, self.lines)
    }
}

/// Where a record stands in its data.
#[derive(Clone, Copy, Debug, PartialEq, Eq)]
pub struct Cut {
    /// Its first byte.
    pub start: usize,
    /// Behind its last byte, where its terminator stands.
    pub end: usize,
    /// Where the next record starts.
    pub next: usize,
    /// Whether its terminator is there.
    pub ended: bool,
}

/// What a matrix has.
#[derive(Clone, Copy, Debug, PartialEq, Eq)]
pub struct Matrix {
    /// Its bytes.
    pub total: usize,
    /// Records.
    pub records: u64,
    /// Columns.
    pub columns: usize,
}

/// What an export wrote.
#[derive(Clone, Copy, Debug, PartialEq, Eq)]
pub struct Exported {
    /// The text's bytes.
    pub length: usize,
    /// Its lines behind the name line.
    pub records: u64,
    /// Why it ends there, if the data has a fault.
    pub fault: Option<FileFault>,
}

/// What an import built.
#[derive(Clone, Copy, Debug, PartialEq, Eq)]
pub struct Imported {
    /// Records.
    pub records: u64,
    /// Their bytes, with a CR LF each.
    pub length: usize,
}

/// The version of the archive that is linked: [`VERSION`](crate::VERSION), or the two don't belong together.
pub fn version() -> u64 {
    // SAFETY: it takes nothing.
    unsafe { zarfolin_version() }
}

/// Reads a definition into the start of the table; the rest of the table is kept, and on a refusal all of it.
pub fn read_definition(def: &[u8], table: &mut [i64]) -> Result<Counts, DefinitionError> {
    let mut answer = [0i64; 4];
    // SAFETY: the pointers and lengths are those of live slices that don't overlap; answer has four numbers.
    let number = unsafe {
        zarfolin_read_definition(def.as_ptr(), def.len(), table.as_mut_ptr(), table.len(), answer.as_mut_ptr())
    };
    match Refusal::of(number) {
        None => Ok(Counts { variables: answer[2] as usize, lines: answer[3] as usize }),
        Some(refusal) => Err(DefinitionError { refusal, place: answer[1] as usize }),
    }
}

/// Writes a definition anew into `out`, clean, and answers the text's length: a statement a line with CR LF, in one order, every width
/// stated, comments and notes left out, texts and numbers as they stand without dropped bytes. Reading it gives the same table but for
/// the places and lengths of texts, and texts that decode alike. `out` keeps what stands behind the text, and on a refusal all of it:
/// the definition's own, with its place; [`Refusal::OtherTable`] (the definition yields another table), [`Refusal::CleanSize`],
/// [`Refusal::CleanRoom`] with place 0. With [`MAX_DEFINITION`](crate::table::limit::MAX_DEFINITION) bytes the last can't come.
///
/// ```
/// use zarfolin::{Refusal, calls, table::limit::MAX_TABLE};
/// let text = b"SSS VERSION 1.1 <draft> SURVEY RECORD R VARIABLE 007 NAME \"a\" LABEL \"{4A}\" TYPE logical POSITION 05 NOTE \"?\"
///     END VARIABLE END RECORD END SURVEY END SSS";
/// let mut table = [0; MAX_TABLE];
/// calls::read_definition(text, &mut table)?;
/// let mut out = [0; 200];
/// let length = calls::write_definition(text, &table, &mut out)?;
/// let clean = "SSS\r\nVERSION 1.1\r\nSURVEY\r\nRECORD R\r\nVARIABLE 007\r\nNAME \"a\"\r\nLABEL \"{4A}\"\r\nTYPE LOGICAL\r\n\
///     POSITION 05 TO 05\r\nEND VARIABLE\r\nEND RECORD\r\nEND SURVEY\r\nEND SSS\r\n";
/// assert_eq!(&out[..length], clean.as_bytes());
/// let error = calls::write_definition(text, &table, &mut out[..length - 1]).unwrap_err();
/// assert_eq!((error.refusal, error.place), (Refusal::CleanRoom, 0));
/// table[6] = 8;
/// assert_eq!(calls::write_definition(text, &table, &mut out).unwrap_err().refusal, Refusal::OtherTable);
/// # Ok::<(), zarfolin::DefinitionError>(())
/// ```
pub fn write_definition(def: &[u8], table: &[i64], out: &mut [u8]) -> Result<usize, DefinitionError> {
    let mut answer = [0i64; 4];
    // SAFETY: as above.
    let number = unsafe {
        zarfolin_write_definition(
            def.as_ptr(),
            def.len(),
            table.as_ptr(),
            table.len(),
            out.as_mut_ptr(),
            out.len(),
            answer.as_mut_ptr(),
        )
    };
    match Refusal::of(number) {
        None => Ok(answer[2] as usize),
        Some(refusal) => Err(DefinitionError { refusal, place: answer[1] as usize }),
    }
}

/// Reads one row's value from a record. A set goes to the start of the list and is answered as a part of it;
/// with [`MAX_SET`](crate::table::limit::MAX_SET) numbers the list is long enough for any.
pub fn read_value<'a>(table: &[i64], row: u64, record: &'a [u8], list: &'a mut [i64]) -> Result<Value<'a>, ReadError> {
    let mut answer = [0i64; 4];
    // SAFETY: as above.
    unsafe {
        zarfolin_read_value(
            table.as_ptr(),
            table.len(),
            row,
            record.as_ptr(),
            record.len(),
            list.as_mut_ptr(),
            list.len(),
            answer.as_mut_ptr(),
        )
    };
    value_of(&answer, record, list)
}

/// What the four numbers of a value mean; a set stands at the start of the list.
pub(crate) fn value_of<'a>(answer: &[i64; 4], record: &'a [u8], list: &'a [i64]) -> Result<Value<'a>, ReadError> {
    let [number, kind, first, second] = *answer;
    if let Some(refusal) = Refusal::of(number as Number) {
        return Err(ReadError::with(refusal, kind));
    }
    match kind {
        value::MISSING => Ok(Value::Missing),
        value::NUMBER => Ok(Value::Number(first)),
        value::SET => Ok(Value::Set(&list[..first as usize])),
        value::TEXT => Ok(Value::Text(&record[first as usize..][..second as usize])),
        value::TRUTH => Ok(Value::Truth(first == 1)),
        // No kind that a library of this version answers.
        _ => Err(Refusal::Unknown(0).into()),
    }
}

/// Reads all rows of a record, the table tested once. `out` gets four numbers a row: those of
/// [`zarfolin_read_record`]. Answers how many members stand in the list, and how many rows were refused.
pub fn read_record(
    table: &[i64],
    record: &[u8],
    out: &mut [[i64; 4]],
    list: &mut [i64],
) -> Result<(usize, usize), Refusal> {
    let out = out.as_flattened_mut();
    let mut answer = [0i64; 4];
    // SAFETY: as above.
    let number = unsafe {
        zarfolin_read_record(
            table.as_ptr(),
            table.len(),
            record.as_ptr(),
            record.len(),
            out.as_mut_ptr(),
            out.len(),
            list.as_mut_ptr(),
            list.len(),
            answer.as_mut_ptr(),
        )
    };
    Refusal::of(number).map_or(Ok((answer[1] as usize, answer[2] as usize)), Err)
}

/// Decodes a text of a definition, a name, a label or a line's text, by the place and length that the table has of it. Its signs go
/// to the start of the list and are answered as a part of it. [`Refusal::Mark`] where those bytes are not the inside of a text,
/// [`Refusal::ListRoom`] where the list is shorter than it; it has at most `length` signs.
///
/// ```
/// use zarfolin::{Refusal, calls};
/// let definition = b"..\"a{NL}b\"..";
/// let mut list = [0; 6];
/// let text = calls::decode_text(definition, 3, 6, &mut list)?;
/// assert!(text.bytes(b' ').eq(*b"a b"));
/// assert_eq!(calls::decode_text(definition, 3, 4, &mut list), Err(Refusal::Mark));
/// # Ok::<(), Refusal>(())
/// ```
pub fn decode_text<'a>(def: &[u8], place: u64, length: u64, list: &'a mut [i64]) -> Result<Text<'a>, Refusal> {
    let mut answer = [0i64; 4];
    // SAFETY: as above.
    let number = unsafe {
        zarfolin_decode_text(def.as_ptr(), def.len(), place, length, list.as_mut_ptr(), list.len(), answer.as_mut_ptr())
    };
    Refusal::of(number).map_or(Ok(Text::of(&list[..answer[1] as usize])), Err)
}

/// Judges a whole record.
pub fn judge_record(table: &[i64], record: &[u8]) -> Result<(), RecordFault> {
    let mut answer = [0i64; 4];
    // SAFETY: as above.
    let number = unsafe {
        zarfolin_judge_record(table.as_ptr(), table.len(), record.as_ptr(), record.len(), answer.as_mut_ptr())
    };
    judged(number, answer)
}

/// Gives a record its normal form, in place: every row is written back as it reads, and every byte outside the value places is kept.
/// Two records of one length that agree outside the value places have equal normal forms exactly when all their rows read equal.
/// [`Refusal::Shared`] where two rows share a value place, after [`Refusal::Table`]; else refused as [`judge_record`] refuses. A
/// refusal keeps the record.
pub fn normal(table: &[i64], record: &mut [u8]) -> Result<(), RecordFault> {
    let mut answer = [0i64; 4];
    // SAFETY: as above.
    let number =
        unsafe { zarfolin_normal(table.as_ptr(), table.len(), record.as_mut_ptr(), record.len(), answer.as_mut_ptr()) };
    judged(number, answer)
}

/// What the answer on a whole record says.
fn judged(number: Number, [_, first, second, _]: [i64; 4]) -> Result<(), RecordFault> {
    Refusal::of(number).map_or(Ok(()), |refusal| {
        let place = if refusal == Refusal::LowByte { first } else { second };
        Err(record_fault(refusal, first, place))
    })
}

/// A fault with the row, and the byte or the number, that come with its number.
fn record_fault(refusal: Refusal, row: i64, beside: i64) -> RecordFault {
    let field = ReadError::with(refusal, beside);
    let faulty = field.place.is_some() || field.number.is_some();
    RecordFault {
        refusal,
        row: faulty.then_some(row as usize),
        place: if refusal == Refusal::LowByte { Some(beside as usize) } else { field.place },
        number: field.number,
    }
}

/// Writes one row's value into a record. Nothing but the row's value places changes.
pub fn write_value(table: &[i64], row: u64, value: Value, record: &mut [u8]) -> Result<(), Refusal> {
    let (t, n) = (table.as_ptr(), table.len());
    let (r, length) = (record.as_mut_ptr(), record.len());
    // SAFETY: as above.
    let number = unsafe {
        match value {
            Value::Missing => zarfolin_write_missing(t, n, row, r, length),
            Value::Number(number) => zarfolin_write_number(t, n, row, number, r, length),
            Value::Truth(truth) => zarfolin_write_truth(t, n, row, truth as u8, r, length),
            Value::Set(list) => zarfolin_write_set(t, n, row, list.as_ptr(), list.len(), r, length),
            Value::Text(text) => zarfolin_write_text(t, n, row, text.as_ptr(), text.len(), r, length),
        }
    };
    Refusal::of(number).map_or(Ok(()), Err)
}

/// Writes corrections into a record, in their order, the table tested once, and marks each: record and marks are what the single
/// writes, one after the other, leave and answer. A correction that is refused stops nothing.
/// [`Refusal::Table`] and [`Refusal::Short`] turn all of them away: record and marks are kept.
///
/// ```
/// use zarfolin::{Correction, Definition, Refusal, calls};
/// # let text = std::fs::read("../../examples/counter/survey.sss").unwrap();
/// # let definition = Definition::read(&text).unwrap();
/// let mut record = *b"  1/010---0/010400  12.50Bad Ischl     .1";
/// let mut list = [Correction::number(3, -275), Correction::truth(3, true), Correction::missing(9), Correction::number(3, -300)];
/// calls::correct(definition.table(), &mut list, &mut record)?;
/// assert_eq!(&record, b"  1/010---0/010400 -03.00Bad Ischl     .1");
/// assert_eq!(list.map(|c| c.done()), [Ok(()), Err(Refusal::Type), Err(Refusal::Row), Ok(())]);
/// # Ok::<(), Refusal>(())
/// ```
pub fn correct(table: &[i64], corrections: &mut [Correction], record: &mut [u8]) -> Result<(), Refusal> {
    // SAFETY: as above; a correction is laid out as the library's is.
    let number = unsafe {
        zarfolin_correct(
            table.as_ptr(),
            table.len(),
            corrections.as_mut_ptr(),
            corrections.len(),
            record.as_mut_ptr(),
            record.len(),
        )
    };
    Refusal::of(number).map_or(Ok(()), Err)
}

/// Judges a whole data file: the count of its records, or the first fault.
pub fn judge_file(table: &[i64], data: &[u8]) -> Result<u64, FileFault> {
    let mut answer = [0i64; 4];
    // SAFETY: as above.
    let number =
        unsafe { zarfolin_judge_file(table.as_ptr(), table.len(), data.as_ptr(), data.len(), answer.as_mut_ptr()) };
    counted(number, answer)
}

/// The count of records, or the first fault, of a file or a part of one.
fn counted(number: Number, answer: [i64; 4]) -> Result<u64, FileFault> {
    let [_, record, row, place] = answer;
    let record = record as u64;
    match Refusal::of(number) {
        None => Ok(record),
        Some(refusal) => Err(FileFault { record, fault: record_fault(refusal, row, place) }),
    }
}

/// Judges a part of a data file that begins where a record does: the count of the records that end in it, or its first fault, its
/// record counted in the part. `terminator` is that of the file, one of [`table::terminator`], else [`Refusal::Terminator`]; `first`
/// the length of the file's first record. Where `last` is 0 more of the file follows, and a record that the part ends without is
/// left alone; else it is [`Refusal::Unended`].
///
/// The part is done with up to its count of records, each of `first` bytes and a terminator: the next part begins there.
/// [`Blocks`](crate::Blocks) and [`Parts`](crate::Parts) keep the books.
///
/// ```
/// use zarfolin::{Definition, Refusal, calls, table::terminator};
/// let definition = b"SSS VERSION 1.1 SURVEY RECORD R VARIABLE 1 NAME \"desk\" LABEL \"Desk\" TYPE SINGLE POSITION 1 TO 2 \
///     VALUES 1 TO 12 END VALUES END VARIABLE END RECORD END SURVEY END SSS";
/// let definition = Definition::read(definition).unwrap();
/// let judge = |data, last| calls::judge_part(definition.table(), data, terminator::LF, 2, last);
/// assert_eq!(judge(b" 7\n 8\n 1", 0), Ok(2));
/// assert_eq!(judge(b" 7\n 8\n 1", 1).unwrap_err().to_string(), "record 3, the last record has no terminator [30]");
/// assert_eq!(judge(b" 7\n13\n", 0).unwrap_err().fault.refusal, Refusal::NotLegal);
/// ```
pub fn judge_part(table: &[i64], data: &[u8], terminator: u64, first: u64, last: u64) -> Result<u64, FileFault> {
    let mut answer = [0i64; 4];
    // SAFETY: as above.
    let number = unsafe {
        zarfolin_judge_part(
            table.as_ptr(),
            table.len(),
            data.as_ptr(),
            data.len(),
            terminator,
            first,
            last,
            answer.as_mut_ptr(),
        )
    };
    counted(number, answer)
}

/// Mends a damaged data file into `out`: one terminator, one length, no byte below 32. The list gets three numbers a change, in the
/// order of the data: what ([`table::mended`]), the record from 1, the place. Answers how many bytes and changes were written.
/// [`Refusal::MendRoom`] where either has too little room: both are then kept.
///
/// ```
/// use zarfolin::{Definition, calls};
/// # let text = b"SSS VERSION 1.1 SURVEY RECORD R VARIABLE 1 NAME \"q\" LABEL \"\" TYPE CHARACTER POSITION 1 TO 3 SIZE 3 END VARIABLE
/// #     END RECORD END SURVEY END SSS";
/// # let definition = Definition::read(text).unwrap();
/// let (mut out, mut list) = ([0; 100], [[0; 3]; 10]);
/// let (bytes, changes) = calls::mend(definition.table(), b"ab\n\rabc\r", &mut out, &mut list)?;
/// assert_eq!(&out[..bytes], b"ab \n\rabc\n\r");
/// assert_eq!(&list[..changes], &[[3, 1, 2], [4, 2, 7]]);
/// # Ok::<(), zarfolin::Refusal>(())
/// ```
pub fn mend(table: &[i64], data: &[u8], out: &mut [u8], list: &mut [[i64; 3]]) -> Result<(usize, usize), Refusal> {
    let list = list.as_flattened_mut();
    let mut answer = [0i64; 4];
    // SAFETY: as above.
    let number = unsafe {
        zarfolin_mend(
            table.as_ptr(),
            table.len(),
            data.as_ptr(),
            data.len(),
            out.as_mut_ptr(),
            out.len(),
            list.as_mut_ptr(),
            list.len(),
            answer.as_mut_ptr(),
        )
    };
    Refusal::of(number).map_or(Ok((answer[1] as usize, answer[2] as usize)), Err)
}

/// Writes a data file into `out` as a matrix of 64-bit floats, little-endian: a header of six 32-bit numbers, the column summaries, the
/// presence bytes, the values. Answers its length, the records and the columns. A file with a fault is refused as
/// [`judge_file`] refuses it; then [`Refusal::NoColumn`], [`Refusal::MatrixSize`], [`Refusal::MatrixRoom`], behind which record and all
/// else are 0. On a refusal `out` is kept.
///
/// ```
/// use zarfolin::{Definition, Refusal, calls};
/// # let text = b"SSS VERSION 1.1 SURVEY RECORD R VARIABLE 1 NAME \"q\" LABEL \"\" TYPE QUANTITY POSITION 1 TO 4 VALUES -9.9 TO 9.9
/// #     END VALUES END VARIABLE END RECORD END SURVEY END SSS";
/// # let definition = Definition::read(text).unwrap();
/// let mut out = [0; 66];
/// let matrix = calls::matrix(definition.table(), b" 7.5\n    \n", &mut out).unwrap();
/// assert_eq!(matrix, calls::Matrix { total: 66, records: 2, columns: 1 });
/// assert_eq!((&out[48..50], &out[50..58]), (&[1, 0][..], &7.5f64.to_le_bytes()[..]));
/// let short = calls::matrix(definition.table(), b" 7.5\n    \n", &mut out[..65]).unwrap_err();
/// assert_eq!(short.fault.refusal, Refusal::MatrixRoom);
/// ```
pub fn matrix(table: &[i64], data: &[u8], out: &mut [u8]) -> Result<Matrix, FileFault> {
    let mut answer = [0i64; 4];
    // SAFETY: as above.
    let number = unsafe {
        zarfolin_matrix(
            table.as_ptr(),
            table.len(),
            data.as_ptr(),
            data.len(),
            out.as_mut_ptr(),
            out.len(),
            answer.as_mut_ptr(),
        )
    };
    counted(number, answer)?;
    Ok(Matrix { total: answer[1] as usize, records: answer[2] as u64, columns: answer[3] as usize })
}

/// Writes a data file into `out` as comma-separated text (RFC 4180): a line of the names as the definition decodes them, and a line for each
/// record before the first fault, which is told as [`judge_file`] tells it. `out` keeps what stands behind the text. It keeps all of it on
/// [`Refusal::Table`], [`Refusal::OtherTable`] (the definition yields another table, or is refused) and [`Refusal::ExportRoom`].
///
/// ```
/// use zarfolin::{Definition, Refusal};
/// # let text = b"SSS VERSION 1.1 SURVEY RECORD R VARIABLE 1 NAME \"a,b\" LABEL \"\" TYPE QUANTITY POSITION 1 TO 4 VALUES -9.9 TO 9.9
/// #     END VALUES END VARIABLE END RECORD END SURVEY END SSS";
/// let definition = Definition::read(text).unwrap();
/// let mut out = [0; 30];
/// let exported = definition.export(b"-0.5\n 7.5\n", &mut out).unwrap();
/// assert_eq!((exported.records, exported.fault), (2, None));
/// assert_eq!(&out[..exported.length], b"\"a,b\"\r\n-0.5\r\n7.5\r\n");
/// assert_eq!(definition.export(b"-0.5\n 7.5\n", &mut out[..17]), Err(Refusal::ExportRoom));
/// ```
pub fn export(def: &[u8], table: &[i64], data: &[u8], out: &mut [u8]) -> Result<Exported, Refusal> {
    let mut answer = [0i64; 5];
    // SAFETY: as above; this answer has five numbers.
    let number = unsafe {
        zarfolin_export(
            def.as_ptr(),
            def.len(),
            table.as_ptr(),
            table.len(),
            data.as_ptr(),
            data.len(),
            out.as_mut_ptr(),
            out.len(),
            answer.as_mut_ptr(),
        )
    };
    let [_, record, row, place, length] = answer;
    match (Refusal::of(number), counted(number, [0, record, row, place])) {
        (Some(refusal @ (Refusal::Table | Refusal::OtherTable | Refusal::ExportRoom)), _) => Err(refusal),
        (_, Ok(records)) => Ok(Exported { length: length as usize, records, fault: None }),
        (_, Err(fault)) => Ok(Exported { length: length as usize, records: fault.record - 1, fault: Some(fault) }),
    }
}

/// Reads comma-separated text as [`export`] writes it, and builds a record for each line behind the names into `out`, CR LF behind each.
/// A field may stand in quotes without need, and zeros may be cut from the end of a number's decimals. `out` keeps what stands behind
/// the records, and on a refusal all of it: [`Refusal::Table`], [`Refusal::OtherTable`], [`Refusal::Shared`]; then for the first line
/// that is refused the lowest of [`Refusal::Malformed`], [`Refusal::NameLine`], [`Refusal::Fields`], [`Refusal::Field`], with line and
/// column; then [`Refusal::ExportRoom`].
///
/// ```
/// use zarfolin::{Definition, Refusal};
/// # let text = b"SSS VERSION 1.1 SURVEY RECORD R VARIABLE 1 NAME \"a,b\" LABEL \"\" TYPE QUANTITY POSITION 1 TO 4 VALUES -9.9 TO 9.9
/// #     END VALUES END VARIABLE END RECORD END SURVEY END SSS";
/// let definition = Definition::read(text).unwrap();
/// let mut out = [0; 30];
/// let imported = definition.import(b"\"a,b\"\r\n-0.5\r\n7\r\n", &mut out).unwrap();
/// assert_eq!((imported.records, &out[..imported.length]), (2, &b"-0.5\r\n07.0\r\n"[..]));
/// let fault = definition.import(b"\"a,b\"\r\n-0.5\r\n7.55\r\n", &mut out).unwrap_err();
/// assert_eq!((fault.refusal, fault.line, fault.column), (Refusal::Field, 3, 1));
/// ```
pub fn import(def: &[u8], table: &[i64], text: &[u8], out: &mut [u8]) -> Result<Imported, ImportFault> {
    let mut answer = [0i64; 4];
    // SAFETY: as above.
    let number = unsafe {
        zarfolin_import(
            def.as_ptr(),
            def.len(),
            table.as_ptr(),
            table.len(),
            text.as_ptr(),
            text.len(),
            out.as_mut_ptr(),
            out.len(),
            answer.as_mut_ptr(),
        )
    };
    match Refusal::of(number) {
        None => Ok(Imported { records: answer[1] as u64, length: answer[2] as usize }),
        Some(refusal) => Err(ImportFault { refusal, line: answer[1] as u64, column: answer[2] as u64 }),
    }
}

/// The record that starts at `from`, if the data reaches that far. The terminator is the one that the data's first CR or
/// LF settles.
pub fn next_record(data: &[u8], from: usize) -> Option<Cut> {
    let mut answer = [0i64; 4];
    // SAFETY: as above.
    let found = unsafe { zarfolin_next_record(data.as_ptr(), data.len(), from as u64, answer.as_mut_ptr()) };
    let [_, start, end, next] = answer.map(|x| x as usize);
    (found != next::NO_RECORD).then_some(Cut { start, end, next, ended: found == next::RECORD })
}
