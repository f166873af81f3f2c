//! Records, values and files for a table.

use crate::rng::Rng;
use crate::shape::{HEADER, ROW, line_at, row_at};

fn rows(table: &[i64]) -> usize {
    let said = table.get(1).map_or(0, |&v| v.clamp(0, 512) as usize);
    said.min(table.len().saturating_sub(HEADER) / ROW)
}

fn cell(table: &[i64], row: usize, column: usize) -> i64 {
    table[row_at(row) + column]
}

/// A row number: most of the time one that is there.
pub fn row(r: &mut Rng, table: &[i64]) -> u64 {
    let n = rows(table) as u64;
    match r.below(40) {
        0 => n,
        1 => n + 1,
        2 => r.pick(&[u64::MAX, 1 << 32, 1 << 63, 512, 513, u32::MAX as u64]),
        _ => r.below(n as usize) as u64,
    }
}

/// A number that the row's block may hold, or one near it.
fn number(r: &mut Rng, table: &[i64], row: usize) -> i64 {
    let (before, count) = (cell(table, row, 12), cell(table, row, 13));
    let has_range = cell(table, row, 9) == 1;
    let v = if has_range && (count <= 0 || r.once_in(2)) {
        let (from, to) = (cell(table, row, 10), cell(table, row, 11));
        match r.below(4) {
            0 => from,
            1 => to,
            _ if from <= to && to.checked_sub(from).is_some() => r.range(from, to),
            _ => from,
        }
    } else if count > 0 && count < 5000 && (0..5000).contains(&before) {
        let at = line_at(rows(table), before as usize + r.below(count as usize));
        table.get(at).copied().unwrap_or(1)
    } else {
        1
    };
    match r.below(16) {
        0 => v.wrapping_add(1),
        1 => v.wrapping_sub(1),
        2 => v.wrapping_neg(),
        3 => 0,
        _ => v,
    }
}

/// Any number to be written.
pub fn written_number(r: &mut Rng, table: &[i64], row: u64) -> i64 {
    if (row as usize) < rows(table) && !r.once_in(8) {
        return number(r, table, row as usize);
    }
    r.pick(&[0, 1, -1, 5, i64::MAX, i64::MIN, 999_999_999_999_999, 1_000_000_000_000_000, 9999, 10000])
}

/// Any set to be written: mostly rising and legal.
pub fn written_set(r: &mut Rng, table: &[i64], row: u64) -> Vec<i64> {
    let mut set: Vec<i64> = vec![];
    if (row as usize) < rows(table) {
        let subfields = cell(table, row as usize, 7).clamp(0, 40) as usize;
        let most = if r.once_in(3) { subfields + 2 } else { 5 };
        for _ in 0..r.below(most + 1) {
            set.push(number(r, table, row as usize));
        }
        if r.once_in(20) && cell(table, row as usize, 9) == 1 {
            let (from, to) = (cell(table, row as usize, 10), cell(table, row as usize, 11));
            if from >= 1 && to <= 20_000 {
                set.extend(from..=to);
            }
        }
    }
    set.retain(|&v| v != 0);
    if !r.once_in(8) {
        set.sort();
    }
    if !r.once_in(8) {
        set.dedup();
    }
    if r.once_in(20) {
        set.push(r.pick(&[0, -1, i64::MIN, i64::MAX, 10000]));
    }
    set
}

/// Any text to be written.
pub fn written_text(r: &mut Rng, table: &[i64], row: u64) -> Vec<u8> {
    let w = if (row as usize) < rows(table) { cell(table, row as usize, 4).clamp(0, 5000) as usize } else { 4 };
    let length = match r.below(8) {
        0 => w,
        1 => w + 1,
        2 => w.saturating_sub(1),
        3 => 0,
        _ => r.below(w + 1),
    };
    let mut text: Vec<u8> = (0..length).map(|_| letter(r)).collect();
    if let Some(last) = text.last_mut() {
        *last = if r.once_in(6) { b' ' } else { r.pick(b"xyz\xff\x7f!") };
    }
    if r.once_in(10) && length > 0 {
        text[r.below(length)] = r.pick(b"\r\n\0\x1f");
    }
    text
}

fn letter(r: &mut Rng) -> u8 {
    match r.below(12) {
        0..3 => b' ',
        3 => r.range(127, 255) as u8,
        _ => r.range(33, 126) as u8,
    }
}

/// The number as data of these many bytes, padded in one of the ways, or damaged.
fn figure(r: &mut Rng, v: i64, w: usize, decimals: usize, code: i64) -> Vec<u8> {
    let point = code != 0;
    let digits = format!("{:0>1$}", v.unsigned_abs(), decimals + 1);
    let (mut whole, rest) = digits.split_at(digits.len() - decimals);
    if code == 2 && whole == "0" && !r.once_in(3) {
        whole = "";
    }
    let minus = if v < 0 || (v == 0 && r.once_in(6)) { "-" } else { "" };
    let tail = format!("{whole}{}{rest}", if point { "." } else { "" });
    let room = w.saturating_sub(minus.len() + tail.len());
    let zeros = if r.once_in(2) { room } else { r.below(room + 1) };
    let mut text = " ".repeat(room - zeros) + minus + &"0".repeat(zeros) + &tail;
    if r.once_in(20) {
        text = minus.to_string() + &" ".repeat(room) + &tail;
    }
    if r.once_in(20) {
        text = tail + minus + &" ".repeat(room);
    }
    let mut bytes = text.into_bytes();
    bytes.truncate(w);
    bytes.resize(w, b' ');
    if w > 0 && r.once_in(12) {
        bytes[r.below(w)] = r.pick(b" -.+09x\xff");
    }
    bytes
}

fn lay(record: &mut [u8], at: i64, bytes: &[u8]) {
    for (i, &x) in bytes.iter().enumerate() {
        if let Some(place) = usize::try_from(at).ok().and_then(|at| record.get_mut(at + i)) {
            *place = x;
        }
    }
}

/// A record: filler, then each row's field legal, padded, blank or damaged. `sound` keeps the damage away as far as
/// fields don't overlap.
pub fn record(r: &mut Rng, table: &[i64]) -> Vec<u8> {
    let least = table.get(3).map_or(0, |&l| l.clamp(0, 16_500) as usize);
    let length = match r.below(12) {
        0 => least.saturating_sub(1),
        1 => least + 1 + r.below(20),
        _ => least,
    };
    let mut record: Vec<u8> = vec![b'x'; length];
    match r.below(4) {
        0 => record.fill(b' '),
        1 => record.fill(b'0'),
        2 => record.iter_mut().for_each(|x| *x = letter(r)),
        _ => {}
    }
    for i in 0..rows(table) {
        field(r, table, i, &mut record);
    }
    if r.once_in(10) && length > 0 {
        let at = r.below(length);
        record[at] = r.pick(b"\0\x1f\r\n\t 01x\xff-.");
    }
    record
}

/// Lays a field of this row anew.
pub fn field(r: &mut Rng, table: &[i64], row: usize, record: &mut [u8]) {
    let c = |column| cell(table, row, column);
    let start = c(2).clamp(1, 20_000) - 1;
    let finish = c(3).clamp(1, 20_000);
    let w = c(4).clamp(0, 20_000);
    let blank = r.once_in(8);
    match c(1) {
        1 => {
            let bytes = if blank {
                vec![b' '; w as usize]
            } else {
                let v = number(r, table, row);
                figure(r, v, w as usize, 0, 0)
            };
            lay(record, finish - w, &bytes);
        }
        2 if c(7) == 0 => {
            if blank {
                lay(record, start, &vec![b' '; w as usize]);
            } else {
                let bytes: Vec<u8> = (0..w).map(|_| r.pick(b"01")).collect();
                lay(record, start, &bytes);
            }
            if w > 0 && r.once_in(6) {
                let at = r.below(w as usize) as i64;
                lay(record, start + at, &[r.pick(b" 01x2\xff")]);
            }
        }
        2 => {
            let (n, sub) = (c(7).clamp(0, 300), c(8).clamp(0, 20_000));
            for k in 0..n {
                let bytes = if blank || r.once_in(6) {
                    vec![b' '; w as usize]
                } else if r.once_in(4) {
                    vec![b'0'; w as usize]
                } else {
                    let v = number(r, table, row);
                    figure(r, v, w as usize, 0, 0)
                };
                lay(record, start + (k + 1) * sub - w, &bytes);
            }
        }
        3 => {
            let bytes = if blank {
                vec![b' '; w as usize]
            } else {
                let v = number(r, table, row);
                figure(r, v, w as usize, c(5).clamp(0, 20) as usize, c(6))
            };
            lay(record, finish - w, &bytes);
        }
        4 => {
            let length = r.below(w as usize + 1);
            let mut bytes: Vec<u8> = (0..length).map(|_| letter(r)).collect();
            bytes.resize(w as usize, b' ');
            if r.once_in(20) && w > 0 {
                bytes[r.below(w as usize)] = r.pick(b"\r\n\0\x1f");
            }
            lay(record, start, &if blank { vec![b' '; w as usize] } else { bytes });
        }
        _ => lay(
            record,
            finish - 1,
            &[if blank {
                b' '
            } else if r.once_in(12) {
                r.pick(b"2xL\xff/")
            } else {
                r.pick(b"01")
            }],
        ),
    }
}

/// A file: records of one length with one terminator, mostly; then a fault now and then.
pub fn file(r: &mut Rng, table: &[i64]) -> Vec<u8> {
    let ends: [&[u8]; 4] = [b"\r\n", b"\n\r", b"\r", b"\n"];
    let end = r.pick(&ends);
    // One record many times is mostly sound; different ones mostly not.
    let mut base = record(r, table);
    for x in &mut base {
        if *x < 32 && !r.once_in(50) {
            *x = b' ';
        }
    }
    let n = r.below(6);
    let mut data = vec![];
    for _ in 0..n {
        if r.once_in(6) {
            base = record(r, table);
        }
        data.extend(&base);
        data.extend(if r.once_in(25) { r.pick(&ends) } else { end });
    }
    match r.below(10) {
        0 if !data.is_empty() => drop(data.pop()),
        1 if !data.is_empty() => {
            let at = r.below(data.len());
            data[at] = r.pick(b"\r\n\0\x1f x0");
        }
        2 => {
            let at = r.below(data.len() + 1);
            data.insert(at, r.pick(b"\r\n x\0"));
        }
        3 if !data.is_empty() => drop(data.remove(r.below(data.len()))),
        4 => data.extend(b"x"),
        _ => {}
    }
    data
}

/// Data for the next-record call: letters and many line ends.
pub fn loose_data(r: &mut Rng) -> Vec<u8> {
    (0..r.below(24)).map(|_| r.pick(b"ab \r\n\r\nx")).collect()
}

/// A record that is judged sound, as far as no two rows share a place: what is illegal in it is written anew, as missing or as a number.
pub fn sound_record(r: &mut Rng, table: &[i64]) -> Vec<u8> {
    let mut record = record(r, table);
    record.resize(record.len().max(table[3] as usize), b'x');
    for x in &mut record {
        *x = (*x).max(32);
    }
    for row in 0..rows(table) {
        if zarfolin_plain::read_value(table, row as u64, &record, &mut [0; 10_000]).is_err() {
            zarfolin_plain::write_missing(table, row as u64, &mut record);
            let v = number(r, table, row);
            zarfolin_plain::write_number(table, row as u64, v, &mut record);
        }
    }
    record
}

/// A file of sound records of one length; with none, some, or all of them alike.
pub fn sound_file(r: &mut Rng, table: &[i64], most: usize) -> Vec<u8> {
    let end = r.pick(&[&b"\r\n"[..], b"\n\r", b"\r", b"\n"]);
    let length = table[3] as usize + r.pick(&[0, 0, 0, 5]);
    let mut data = vec![];
    for _ in 0..r.below(most + 1) {
        let mut record = sound_record(r, table);
        record.resize(length, b'-');
        data.extend(record);
        data.extend(end);
    }
    data
}

/// A data file as mail leaves it: records of all lengths, mixed line ends, empty records, bytes below 32.
pub fn damaged_file(r: &mut Rng, table: &[i64]) -> Vec<u8> {
    let ends = [&b"\r\n"[..], b"\n\r", b"\r", b"\n"];
    let least = table.get(3).map_or(3, |&l| l.clamp(0, 200) as usize);
    let (own, same) = (r.pick(&ends), r.once_in(2));
    let mut data = vec![];
    for _ in 0..r.below(7) {
        let length = match r.below(6) {
            0 => 0,
            1 => r.below(least + 1),
            2 => least + r.below(4),
            _ => least,
        };
        for _ in 0..length {
            data.push(if r.once_in(30) { r.range(0, 31) as u8 } else { letter(r) });
        }
        data.extend(if same && !r.once_in(6) { own } else { r.pick(&ends) });
    }
    if r.once_in(3) {
        data.pop();
    }
    if r.once_in(3) {
        let at = r.below(data.len() + 1);
        data.insert(at, r.pick(b"\r\n\r\n\t x"));
    }
    data
}
