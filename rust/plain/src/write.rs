//! Writing one row's value. No byte of the record is read.

use crate::field::{Defined, legal, range_of};
use crate::table::{Table, view};
use crate::*;

/// The table and the row, or the refusal 20, 21 or 22.
#[inline]
fn prepare(table: &[i64], row: u64, length: usize) -> Result<(Table<'_>, &Row), u32> {
    let t = view(table).ok_or(20u32)?;
    if row >= t.rows.len() as u64 {
        return Err(21);
    }
    if length < t.least {
        return Err(22);
    }
    Ok((t, &t.rows[row as usize]))
}

#[inline]
fn answer(done: Result<(), u32>) -> u32 {
    done.err().unwrap_or(0)
}

/// Writes spaces to the row's value places.
pub fn write_missing(table: &[i64], row: u64, record: &mut [u8]) -> u32 {
    answer((|| {
        let (t, row) = prepare(table, row, record.len())?;
        put_missing(&t, row, record);
        Ok(())
    })())
}

/// Spaces to the value places of a row of a table that was tested, in a record that is long enough.
#[inline]
pub(crate) fn put_missing(t: &Table, row: &Row, record: &mut [u8]) {
    let finish = row[column::FINISH] as usize;
    let start = row[column::START] as usize - 1;
    let w = row[column::WIDTH] as usize;
    match row[column::TYPE] {
        MULTIPLE if row[column::SUBFIELDS] == 0 => {
            let (from, to) = range_of(row);
            let bytes = &mut record[start..start + w];
            bytes[from as usize - 1..to as usize].fill(b' ');
            for line in t.lines_of(row) {
                bytes[line[0] as usize - 1] = b' ';
            }
        }
        MULTIPLE => {
            let width = row[column::SUBWIDTH] as usize;
            let all = &mut record[start..start + row[column::SUBFIELDS] as usize * width];
            for subfield in all.chunks_exact_mut(width) {
                subfield[width - w..].fill(b' ');
            }
        }
        CHARACTER => record[start..start + w].fill(b' '),
        _ => record[finish - w..finish].fill(b' '),
    }
}

/// Writes a number to a SINGLE or a QUANTITY.
pub fn write_number(table: &[i64], row: u64, number: i64, record: &mut [u8]) -> u32 {
    answer((|| {
        let (t, row) = prepare(table, row, record.len())?;
        put_number(&t, row, number, record)
    })())
}

/// A number to a row of a table that was tested, in a record that is long enough: 26, 27.
#[inline]
pub(crate) fn put_number(t: &Table, row: &Row, number: i64, record: &mut [u8]) -> Result<(), u32> {
    let kind = row[column::TYPE];
    if kind != SINGLE && kind != QUANTITY {
        return Err(26);
    }
    if !legal(row, t.lines_of(row), number) {
        return Err(27);
    }
    lay_number(row, number, record);
    Ok(())
}

/// The bytes of a number that the row takes.
#[inline]
pub(crate) fn lay_number(row: &Row, number: i64, record: &mut [u8]) {
    let finish = row[column::FINISH] as usize;
    let places = &mut record[finish - row[column::WIDTH] as usize..finish];
    let mut m = number.unsigned_abs();
    let mut whole = places.len();
    if row[column::POINT] != 0 {
        whole -= 1 + row[column::DECIMALS] as usize;
        places[whole] = b'.';
        digits(&mut places[whole + 1..], &mut m);
    }
    digits(&mut places[..whole], &mut m);
    if number < 0 {
        places[0] = b'-';
    }
}

/// The lowest digits of m, zeros in front; m loses them.
#[inline]
pub(crate) fn digits(places: &mut [u8], m: &mut u64) {
    for x in places.iter_mut().rev() {
        *x = b'0' + (*m % 10) as u8;
        *m /= 10;
    }
}

/// Writes 0 or 1 to a LOGICAL; another number is 27.
pub fn write_truth(table: &[i64], row: u64, truth: u8, record: &mut [u8]) -> u32 {
    answer((|| {
        let (_, row) = prepare(table, row, record.len())?;
        put_truth(row, truth as i64, record)
    })())
}

/// A truth to a row of a table that was tested, in a record that is long enough: 26, 27.
#[inline]
pub(crate) fn put_truth(row: &Row, truth: i64, record: &mut [u8]) -> Result<(), u32> {
    if row[column::TYPE] != LOGICAL {
        return Err(26);
    }
    let byte = match truth {
        0 => b'0',
        1 => b'1',
        _ => return Err(27),
    };
    record[row[column::FINISH] as usize - 1] = byte;
    Ok(())
}

/// Writes a set, strictly rising, to a MULTIPLE.
pub fn write_set(table: &[i64], row: u64, list: &[i64], record: &mut [u8]) -> u32 {
    answer((|| {
        let (t, row) = prepare(table, row, record.len())?;
        put_set(&t, row, list, record)
    })())
}

/// A set to a row of a table that was tested, in a record that is long enough: 26, 27, 28.
#[inline]
pub(crate) fn put_set(t: &Table, row: &Row, list: &[i64], record: &mut [u8]) -> Result<(), u32> {
    if row[column::TYPE] != MULTIPLE {
        return Err(26);
    }
    let lines = t.lines_of(row);
    let mut defined = Defined::new(row, lines);
    let mut last = 0;
    for &c in list {
        if c <= last || !defined.has(c) {
            return Err(27);
        }
        last = c;
    }
    let n = row[column::SUBFIELDS] as usize;
    let start = row[column::START] as usize - 1;
    let w = row[column::WIDTH] as usize;
    if n == 0 {
        let bytes = &mut record[start..start + w];
        let (from, to) = range_of(row);
        bytes[from as usize - 1..to as usize].fill(b'0');
        for line in lines {
            bytes[line[0] as usize - 1] = b'0';
        }
        for &c in list {
            bytes[c as usize - 1] = b'1';
        }
        return Ok(());
    }
    if list.len() > n {
        return Err(28);
    }
    let width = row[column::SUBWIDTH] as usize;
    let mut members = list.iter();
    for subfield in record[start..start + n * width].chunks_exact_mut(width) {
        let mut c = members.next().map_or(0, |&c| c as u64);
        digits(&mut subfield[width - w..], &mut c);
    }
    Ok(())
}

/// Writes a text to a CHARACTER: 1 to w bytes of 32 to 255 with no space at the end.
pub fn write_text(table: &[i64], row: u64, text: &[u8], record: &mut [u8]) -> u32 {
    answer((|| {
        let (_, row) = prepare(table, row, record.len())?;
        put_text(row, text, record)
    })())
}

/// A text to a row of a table that was tested, in a record that is long enough: 26, 27.
#[inline]
pub(crate) fn put_text(row: &Row, text: &[u8], record: &mut [u8]) -> Result<(), u32> {
    if row[column::TYPE] != CHARACTER {
        return Err(26);
    }
    let w = row[column::WIDTH] as usize;
    let good = text.len() <= w && text.last().is_some_and(|&x| x != b' ') && text.iter().all(|&x| x >= 32);
    if !good {
        return Err(27);
    }
    let start = row[column::START] as usize - 1;
    let (used, rest) = record[start..start + w].split_at_mut(text.len());
    used.copy_from_slice(text);
    rest.fill(b' ');
    Ok(())
}
