//! The face as it is exported: pointer and length for each slice, in this order. `include/zarfolin.h` has the rules.
//!
//! # Safety
//!
//! A pointer is never null, not even where the length is 0, and aligned (Rust's slices see to both); it points to as many bytes or
//! numbers as its length says, `answer` to four numbers. No two of the buffers of a call overlap, unless both are only read, and
//! nobody else writes to one while the call runs.

use crate::{Correction, Number};

unsafe extern "C" {
    /// The version of the archive. [`calls::version`](crate::calls::version).
    pub fn zarfolin_version() -> u64;

    /// Reads a definition into a lent table. [`calls::read_definition`](crate::calls::read_definition).
    pub fn zarfolin_read_definition(
        def: *const u8,
        def_len: usize,
        table: *mut i64,
        table_len: usize,
        answer: *mut i64,
    ) -> Number;

    /// Reads one row's value from a record. [`calls::read_value`](crate::calls::read_value).
    pub fn zarfolin_read_value(
        table: *const i64,
        table_len: usize,
        row: u64,
        record: *const u8,
        record_len: usize,
        list: *mut i64,
        list_len: usize,
        answer: *mut i64,
    ) -> Number;

    /// Judges a whole record. [`calls::judge_record`](crate::calls::judge_record).
    pub fn zarfolin_judge_record(
        table: *const i64,
        table_len: usize,
        record: *const u8,
        record_len: usize,
        answer: *mut i64,
    ) -> Number;

    /// Writes missing. [`calls::write_value`](crate::calls::write_value).
    pub fn zarfolin_write_missing(
        table: *const i64,
        table_len: usize,
        row: u64,
        record: *mut u8,
        record_len: usize,
    ) -> Number;

    /// Writes a number. [`calls::write_value`](crate::calls::write_value).
    pub fn zarfolin_write_number(
        table: *const i64,
        table_len: usize,
        row: u64,
        number: i64,
        record: *mut u8,
        record_len: usize,
    ) -> Number;

    /// Writes a truth, 0 or 1. [`calls::write_value`](crate::calls::write_value).
    pub fn zarfolin_write_truth(
        table: *const i64,
        table_len: usize,
        row: u64,
        truth: u8,
        record: *mut u8,
        record_len: usize,
    ) -> Number;

    /// Writes a set. [`calls::write_value`](crate::calls::write_value).
    pub fn zarfolin_write_set(
        table: *const i64,
        table_len: usize,
        row: u64,
        list: *const i64,
        list_len: usize,
        record: *mut u8,
        record_len: usize,
    ) -> Number;

    /// Writes a text. [`calls::write_value`](crate::calls::write_value).
    pub fn zarfolin_write_text(
        table: *const i64,
        table_len: usize,
        row: u64,
        text: *const u8,
        text_len: usize,
        record: *mut u8,
        record_len: usize,
    ) -> Number;

    /// Judges a whole data file. [`calls::judge_file`](crate::calls::judge_file).
    pub fn zarfolin_judge_file(
        table: *const i64,
        table_len: usize,
        data: *const u8,
        data_len: usize,
        answer: *mut i64,
    ) -> Number;

    /// Decodes a text of a definition. [`calls::decode_text`](crate::calls::decode_text).
    pub fn zarfolin_decode_text(
        def: *const u8,
        def_len: usize,
        place: u64,
        length: u64,
        list: *mut i64,
        list_len: usize,
        answer: *mut i64,
    ) -> Number;

    /// Judges a part of a data file. [`calls::judge_part`](crate::calls::judge_part).
    pub fn zarfolin_judge_part(
        table: *const i64,
        table_len: usize,
        data: *const u8,
        data_len: usize,
        terminator: u64,
        first_len: u64,
        last: u64,
        answer: *mut i64,
    ) -> Number;

    /// Finds the record that starts at `from`. [`calls::next_record`](crate::calls::next_record).
    pub fn zarfolin_next_record(data: *const u8, data_len: usize, from: u64, answer: *mut i64) -> Number;

    /// Reads all rows of a record. [`calls::read_record`](crate::calls::read_record).
    pub fn zarfolin_read_record(
        table: *const i64,
        table_len: usize,
        record: *const u8,
        record_len: usize,
        out: *mut i64,
        out_len: usize,
        list: *mut i64,
        list_len: usize,
        answer: *mut i64,
    ) -> Number;

    /// Writes a list of corrections into a record. [`calls::correct`](crate::calls::correct).
    pub fn zarfolin_correct(
        table: *const i64,
        table_len: usize,
        corrections: *mut Correction,
        count: usize,
        record: *mut u8,
        record_len: usize,
    ) -> Number;

    /// Gives a record its normal form, in place. [`calls::normal`](crate::calls::normal).
    pub fn zarfolin_normal(
        table: *const i64,
        table_len: usize,
        record: *mut u8,
        record_len: usize,
        answer: *mut i64,
    ) -> Number;

    /// Mends a damaged data file. [`calls::mend`](crate::calls::mend).
    pub fn zarfolin_mend(
        table: *const i64,
        table_len: usize,
        data: *const u8,
        data_len: usize,
        out: *mut u8,
        out_len: usize,
        list: *mut i64,
        list_len: usize,
        answer: *mut i64,
    ) -> Number;

    /// Writes a data file as a matrix of 64-bit floats. [`calls::matrix`](crate::calls::matrix).
    pub fn zarfolin_matrix(
        table: *const i64,
        table_len: usize,
        data: *const u8,
        data_len: usize,
        out: *mut u8,
        out_len: usize,
        answer: *mut i64,
    ) -> Number;

    /// Writes a definition anew, clean. [`calls::write_definition`](crate::calls::write_definition).
    pub fn zarfolin_write_definition(
        def: *const u8,
        def_len: usize,
        table: *const i64,
        table_len: usize,
        out: *mut u8,
        out_len: usize,
        answer: *mut i64,
    ) -> Number;

    /// Reads comma-separated text back into records. [`calls::import`](crate::calls::import).
    pub fn zarfolin_import(
        def: *const u8,
        def_len: usize,
        table: *const i64,
        table_len: usize,
        text: *const u8,
        text_len: usize,
        out: *mut u8,
        out_len: usize,
        answer: *mut i64,
    ) -> Number;

    /// Writes a data file as comma-separated text. Its answer has five numbers. [`calls::export`](crate::calls::export).
    pub fn zarfolin_export(
        def: *const u8,
        def_len: usize,
        table: *const i64,
        table_len: usize,
        data: *const u8,
        data_len: usize,
        out: *mut u8,
        out_len: usize,
        answer: *mut i64,
    ) -> Number;
}
