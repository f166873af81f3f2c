//! Comma-separated text of `export`'s shape, back into records.
//!
//! A line is read once, field by field, each straight into the record's bytes: its digits are those of the text. Where a field is not
//! plainly a value (it has quotes of its own, or is refused) it is read anew the long way; where a line is refused, that is told by reading
//! the whole line again.

use crate::csv::{name, yields};
use crate::field::{FEW, legal, range_of};
use crate::normal::shared;
use crate::table::{Table, view};
use crate::write::{put_missing, put_number, put_set, put_text, put_truth};
use crate::*;

/// Reads text of `export`'s shape and builds a record for each line behind the name line: L spaces, then ordinary writes in row order,
/// CR LF. Answers 0, records, length; 20, 40, 90; by line 61 malformed, 62 name line differs, 63 wrong number of fields, 64 field not a
/// legal value, each with line and column; 60 output too short. Every refusal leaves the output as it was.
pub fn import(def: &[u8], table: &[i64], text: &[u8], out: &mut [u8]) -> [i64; 4] {
    let Some(t) = view(table) else { return [20, 0, 0, 0] };
    if !yields(def, table, &t) {
        return [40, 0, 0, 0];
    }
    if shared(&t) {
        return [90, 0, 0, 0];
    }
    let mut at = match name_line(def, &t, text) {
        Ok(next) => next,
        Err(refusal) => return refusal,
    };
    let columns: Vec<Column> = t.rows.iter().map(|row| Column::of(&t, row)).collect();
    let (mut scratch, mut list) = (vec![], vec![]);
    let step = t.least + 2;
    // Built apart, as a line further on may refuse; what the output has no room for is built and thrown away.
    let mut built = Vec::with_capacity(out.len().min(2 * text.len()) + step);
    let mut records = 0;
    while at < text.len() {
        if built.len() + step > out.len() {
            built.clear();
        }
        let base = built.len();
        built.resize(base + step, b' ');
        let (record, end) = built[base..].split_at_mut(t.least);
        match take_line(&t, &columns, text, at, record, &mut scratch, &mut list) {
            Some(next) => at = next,
            None => return refusal(&t, text, at, records as i64 + 2),
        }
        end.copy_from_slice(b"\r\n");
        records += 1;
    }
    if records > out.len() / step {
        return [60, 0, 0, 0];
    }
    out[..built.len()].copy_from_slice(&built);
    [0, records as i64, built.len() as i64, 0]
}

/// Where the line behind the names starts, or the refusal.
fn name_line(def: &[u8], t: &Table, text: &[u8]) -> Result<usize, [i64; 4]> {
    let (mut line, mut own, mut scratch) = (vec![], vec![], vec![]);
    let next = fields(text, 0, &mut line).map_err(|column| [61, 1, column as i64, 0])?;
    for (i, row) in t.rows.iter().enumerate() {
        own.clear();
        name(def, row, &mut own);
        if line.get(i).is_none_or(|&field| meant(text, field, &mut scratch) != own) {
            return Err([62, 1, i as i64 + 1, 0]);
        }
    }
    if line.len() > t.rows.len() {
        return Err([62, 1, t.rows.len() as i64 + 1, 0]);
    }
    Ok(next)
}

/// What is wrong with the line at `at`.
#[cold]
fn refusal(t: &Table, text: &[u8], at: usize, number: i64) -> [i64; 4] {
    let (mut line, mut scratch, mut list) = (vec![], vec![], vec![]);
    if let Err(column) = fields(text, at, &mut line) {
        return [61, number, column as i64, 0];
    }
    if line.len() != t.rows.len() {
        return [63, number, line.len().min(t.rows.len()) as i64 + 1, 0];
    }
    let mut record = vec![b' '; t.least];
    let legal =
        |(row, &field): (&Row, &Field)| put_value(t, row, meant(text, field, &mut scratch), &mut list, &mut record);
    let column = t.rows.iter().zip(&line).map(legal).position(|legal| !legal);
    [64, number, column.expect("a line that was refused") as i64 + 1, 0]
}

// ---- a field, the long way

/// A field of a line: where its bytes stand; between quotes, some of them doubled.
#[derive(Clone, Copy)]
struct Field {
    start: usize,
    end: usize,
    doubled: bool,
}

/// The field at `at`, and where it ends; None for quotes that don't close. What stands behind it is not looked at.
fn field(text: &[u8], mut at: usize) -> Option<(Field, usize)> {
    if text.get(at) != Some(&b'"') {
        let start = at;
        while text.get(at).is_some_and(|x| !matches!(x, b',' | b'"' | b'\r' | b'\n')) {
            at += 1;
        }
        return Some((Field { start, end: at, doubled: false }, at));
    }
    let mut field = Field { start: at + 1, end: 0, doubled: false };
    at += 1;
    loop {
        match text.get(at)? {
            b'"' if text.get(at + 1) == Some(&b'"') => {
                field.doubled = true;
                at += 2;
            }
            b'"' => break,
            _ => at += 1,
        }
    }
    field.end = at;
    Some((field, at + 1))
}

/// The fields of the line at `at`, and where the next line starts; or the column of the first malformed field.
fn fields(text: &[u8], mut at: usize, fields: &mut Vec<Field>) -> Result<usize, usize> {
    fields.clear();
    loop {
        let column = fields.len() + 1;
        let (next, end) = field(text, at).ok_or(column)?;
        fields.push(next);
        match text.get(end) {
            Some(b',') => at = end + 1,
            Some(b'\r') if text.get(end + 1) == Some(&b'\n') => return Ok(end + 2),
            _ => return Err(column),
        }
    }
}

/// The bytes that a field means.
#[inline]
fn meant<'a>(text: &'a [u8], field: Field, scratch: &'a mut Vec<u8>) -> &'a [u8] {
    let mut bytes = &text[field.start..field.end];
    if !field.doubled {
        return bytes;
    }
    scratch.clear();
    while let Some(quote) = bytes.iter().position(|&x| x == b'"') {
        scratch.extend_from_slice(&bytes[..=quote]);
        bytes = &bytes[quote + 2..];
    }
    scratch.extend_from_slice(bytes);
    scratch
}

/// A whole number above 0 or 0 itself, without zeros in front; at most fifteen digits.
#[inline]
fn natural(bytes: &[u8]) -> Option<i64> {
    if bytes.is_empty() || bytes.len() > 15 || (bytes[0] == b'0' && bytes.len() > 1) {
        return None;
    }
    let mut v = 0;
    for &x in bytes {
        let d = x.wrapping_sub(b'0');
        if d > 9 {
            return None;
        }
        v = v * 10 + d as i64;
    }
    Some(v)
}

/// A number as export writes it, or with zeros cut from the end of its decimals: scaled.
fn figure(bytes: &[u8], decimals: usize) -> Option<i64> {
    let (minus, bytes) = match bytes {
        [b'-', rest @ ..] => (true, rest),
        _ => (false, bytes),
    };
    let point = bytes.iter().position(|&x| x == b'.');
    let mut v = natural(&bytes[..point.unwrap_or(bytes.len())])?;
    let behind = point.map_or(&[][..], |point| &bytes[point + 1..]);
    if (point.is_some() && behind.is_empty()) || behind.len() > decimals {
        return None;
    }
    for k in 0..decimals {
        let d = behind.get(k).map_or(0, |x| x.wrapping_sub(b'0'));
        if d > 9 {
            return None;
        }
        // Fifteen digits and nine: beyond every legal number long before it passes an i64.
        v = v.checked_mul(10)?.checked_add(d as i64)?;
    }
    match (minus, v) {
        (true, 0) => None,
        (true, v) => Some(-v),
        (false, v) => Some(v),
    }
}

/// Writes the field's value to the row; whether it is one.
fn put_value(t: &Table, row: &Row, field: &[u8], list: &mut Vec<i64>, record: &mut [u8]) -> bool {
    if field.is_empty() {
        put_missing(t, row, record);
        return true;
    }
    match row[column::TYPE] {
        SINGLE | QUANTITY => {
            figure(field, row[column::DECIMALS] as usize).is_some_and(|v| put_number(t, row, v, record).is_ok())
        }
        MULTIPLE => {
            list.clear();
            if field != b"none" {
                for code in field.split(|&x| x == b';') {
                    let Some(c) = natural(code) else { return false };
                    list.push(c);
                }
            }
            put_set(t, row, list, record).is_ok()
        }
        CHARACTER => put_text(row, field, record).is_ok(),
        _ => match field {
            b"0" => put_truth(row, 0, record).is_ok(),
            b"1" => put_truth(row, 1, record).is_ok(),
            _ => false,
        },
    }
}

// ---- a line, the quick way

/// A row made ready for many lines.
struct Column<'a> {
    row: &'a Row,
    lines: &'a [Line],
    kind: i64,
    /// The last w bytes of its position; of a bitstring, a text and a spread all that it has.
    start: usize,
    width: usize,
    decimals: usize,
    /// Numbers that are legal, all of them where `all` holds.
    low: i64,
    high: i64,
    all: bool,
    /// The lines' numbers, where there are many and they don't count up by ones.
    members: Option<Box<[u64; 157]>>,
}

const SPREAD: i64 = 6;

impl<'a> Column<'a> {
    fn of(t: &Table<'a>, row: &'a Row) -> Column<'a> {
        let lines = t.lines_of(row);
        let rising = lines.windows(2).all(|pair| pair[0][0] + 1 == pair[1][0]);
        let (low, high, all) = match (row[column::RANGE], lines) {
            (1, _) => (row[column::FROM], row[column::TO], lines.is_empty()),
            (_, [first, ..]) if rising => (first[0], first[0] + lines.len() as i64 - 1, true),
            _ => (1, 0, false),
        };
        let kind = if row[column::SUBFIELDS] > 0 { SPREAD } else { row[column::TYPE] };
        let width = row[column::WIDTH] as usize;
        let start = match kind {
            SINGLE | QUANTITY | LOGICAL => row[column::FINISH] as usize - width,
            _ => row[column::START] as usize - 1,
        };
        let members = (!all && lines.len() > FEW && matches!(row[column::TYPE], SINGLE | MULTIPLE)).then(|| {
            let mut members = Box::new([0; 157]);
            for line in lines {
                members[line[0] as usize / 64] |= 1 << (line[0] % 64);
            }
            members
        });
        Column { row, lines, kind, start, width, decimals: row[column::DECIMALS] as usize, low, high, all, members }
    }

    #[inline]
    fn takes(&self, v: i64) -> bool {
        if self.low <= v && v <= self.high {
            return true;
        }
        match &self.members {
            _ if self.all => false,
            Some(members) => (1..=MAX_CATEGORY).contains(&v) && members[v as usize / 64] >> (v % 64) & 1 == 1,
            None => legal(self.row, self.lines, v),
        }
    }

    /// Puts the field at `at` to the record, which is spaces here, and answers where it ends. None where it is not plainly a value.
    #[inline]
    fn take(&self, text: &[u8], at: usize, record: &mut [u8]) -> Option<usize> {
        if matches!(text.get(at)?, b',' | b'\r') {
            return Some(at);
        }
        match self.kind {
            SINGLE => self.single(text, at, record),
            QUANTITY => self.quantity(text, at, record),
            SPREAD => self.spread(text, at, record),
            MULTIPLE => self.bits(text, at, record),
            CHARACTER => self.text(text, at, record),
            _ => {
                record[self.start] = *text.get(at).filter(|&x| matches!(x, b'0' | b'1'))?;
                Some(at + 1)
            }
        }
    }

    /// The same, of a field that may stand in quotes without need.
    #[inline]
    fn take_quoted(&self, text: &[u8], at: usize, record: &mut [u8]) -> Option<usize> {
        if text.get(at) != Some(&b'"') {
            return self.take(text, at, record);
        }
        let end = if text.get(at + 1) == Some(&b'"') { at + 1 } else { self.take(text, at + 1, record)? };
        (text.get(end) == Some(&b'"')).then_some(end + 1)
    }

    #[inline]
    fn single(&self, text: &[u8], at: usize, record: &mut [u8]) -> Option<usize> {
        let (c, end) = code(text, at)?;
        if !self.takes(c) {
            return None;
        }
        lay(&mut record[self.start..self.start + self.width], &text[at..end]);
        Some(end)
    }

    #[inline]
    fn quantity(&self, text: &[u8], at: usize, record: &mut [u8]) -> Option<usize> {
        let minus = text[at] == b'-';
        let first = at + minus as usize;
        let (mut v, point) = run(text, first)?;
        if point == first || (text[first] == b'0' && point > first + 1) {
            return None;
        }
        let (mut end, mut missing) = (point, self.decimals);
        if text.get(point) == Some(&b'.') {
            let behind;
            (behind, end) = run(text, point + 1)?;
            let count = end - point - 1;
            missing = self.decimals.checked_sub(count).filter(|_| count > 0)?;
            v = v.checked_mul(TENS[count] as i64)? + behind;
        }
        v = v.checked_mul(TENS[missing] as i64)?;
        if minus {
            v = if v > 0 { -v } else { return None };
        }
        if !self.takes(v) {
            return None;
        }
        let places = &mut record[self.start..self.start + self.width];
        let mut whole = places.len();
        if self.row[column::POINT] != 0 {
            whole -= 1 + self.decimals;
            places[whole] = b'.';
            let behind = &mut places[whole + 1..];
            behind.fill(b'0');
            if end > point {
                behind[..end - point - 1].copy_from_slice(&text[point + 1..end]);
            }
        }
        // With code 2 no digit need stand before the point.
        let digits = &text[first..point];
        lay(&mut places[..whole], if digits.len() > whole { &[] } else { digits });
        if minus {
            places[0] = b'-';
        }
        Some(end)
    }

    #[inline]
    fn spread(&self, text: &[u8], mut at: usize, record: &mut [u8]) -> Option<usize> {
        let width = self.row[column::SUBWIDTH] as usize;
        let all = &mut record[self.start..self.start + self.row[column::SUBFIELDS] as usize * width];
        let mut subfields = all.chunks_exact_mut(width).map(|subfield| &mut subfield[width - self.width..]);
        if text[at] == b'n' {
            at = none(text, at)?;
        } else {
            let mut last = 0;
            loop {
                let (c, end) = code(text, at)?;
                if c <= last || !self.takes(c) {
                    return None;
                }
                lay(subfields.next()?, &text[at..end]);
                last = c;
                at = end;
                if text.get(at) != Some(&b';') {
                    break;
                }
                at += 1;
            }
        }
        subfields.for_each(|places| places.fill(b'0'));
        Some(at)
    }

    #[inline]
    fn bits(&self, text: &[u8], mut at: usize, record: &mut [u8]) -> Option<usize> {
        let bytes = &mut record[self.start..self.start + self.width];
        if self.all {
            bytes[self.low as usize - 1..self.high as usize].fill(b'0');
        } else {
            let (from, to) = range_of(self.row);
            bytes[from as usize - 1..to as usize].fill(b'0');
            self.lines.iter().for_each(|line| bytes[line[0] as usize - 1] = b'0');
        }
        if text[at] == b'n' {
            return none(text, at);
        }
        let mut last = 0;
        loop {
            let (c, end) = code(text, at)?;
            if c <= last || !self.takes(c) {
                return None;
            }
            bytes[c as usize - 1] = b'1';
            last = c;
            at = end;
            if text.get(at) != Some(&b';') {
                return Some(at);
            }
            at += 1;
        }
    }

    #[inline]
    fn text(&self, text: &[u8], at: usize, record: &mut [u8]) -> Option<usize> {
        let most = &text[at..text.len().min(at + self.width + 1)];
        let length = most.iter().position(|&x| x < b' ' || x == b',' || x == b'"')?;
        if length == 0 || most[length - 1] == b' ' {
            return None;
        }
        record[self.start..self.start + length].copy_from_slice(&most[..length]);
        Some(at + length)
    }
}

/// The number of the digits from `at` on, fifteen at most, and where they end.
#[inline]
fn run(text: &[u8], at: usize) -> Option<(i64, usize)> {
    let mut v = 0;
    for (k, &x) in text[at..].iter().enumerate() {
        let d = x.wrapping_sub(b'0');
        if d > 9 {
            return (k <= 15).then_some((v, at + k));
        }
        v = (v * 10 + d as i64) & (i64::MAX >> 4);
    }
    None
}

/// A category, without zeros in front, and where it ends.
#[inline]
fn code(text: &[u8], at: usize) -> Option<(i64, usize)> {
    let mut v = 0;
    for (k, &x) in text[at..].iter().take(5).enumerate() {
        let d = x.wrapping_sub(b'0');
        if d > 9 {
            return (k > 0 && text[at] != b'0').then_some((v, at + k));
        }
        v = v * 10 + d as i64;
    }
    None
}

/// Where `none` ends.
#[inline]
fn none(text: &[u8], at: usize) -> Option<usize> {
    text[at..].starts_with(b"none").then_some(at + 4)
}

/// Digits as they stand, zeros in front.
#[inline]
fn lay(places: &mut [u8], digits: &[u8]) {
    let (zeros, last) = places.split_at_mut(places.len() - digits.len());
    zeros.fill(b'0');
    last.copy_from_slice(digits);
}

/// Puts the fields of the line at `at` to a record of spaces, and answers where the next line starts; None where the line is refused.
#[inline]
fn take_line(
    t: &Table,
    columns: &[Column],
    text: &[u8],
    mut at: usize,
    record: &mut [u8],
    scratch: &mut Vec<u8>,
    list: &mut Vec<i64>,
) -> Option<usize> {
    let (last, before) = columns.split_last()?;
    for column in before {
        at = match column.take_quoted(text, at, record) {
            Some(end) if text.get(end) == Some(&b',') => end + 1,
            _ => {
                let end = long_way(t, column, text, at, record, scratch, list)?;
                (text.get(end) == Some(&b',')).then_some(end + 1)?
            }
        };
    }
    match last.take_quoted(text, at, record) {
        Some(end) if text[end..].starts_with(b"\r\n") => Some(end + 2),
        _ => {
            let end = long_way(t, last, text, at, record, scratch, list)?;
            text[end..].starts_with(b"\r\n").then_some(end + 2)
        }
    }
}

/// One field the long way: where it ends, if it is a value.
fn long_way(
    t: &Table,
    column: &Column,
    text: &[u8],
    at: usize,
    record: &mut [u8],
    scratch: &mut Vec<u8>,
    list: &mut Vec<i64>,
) -> Option<usize> {
    let (field, end) = field(text, at)?;
    put_value(t, column.row, meant(text, field, scratch), list, record).then_some(end)
}
