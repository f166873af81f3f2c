//! Tables: sound ones, and ones with single cells changed.

use crate::definitions::{Size, Style, model, sound};
use crate::rng::Rng;
use crate::shape::{HEADER, MARK, MARK_XML, ROW, column, header, kind, length, line, line_at, row_at, usage};

const ODD: &[i64] = &[
    0,
    0,
    1,
    1,
    -1,
    -1,
    2,
    3,
    4,
    5,
    6,
    7,
    8,
    9,
    10,
    11,
    12,
    99,
    100,
    511,
    512,
    513,
    999,
    1000,
    4095,
    4096,
    4097,
    9998,
    9999,
    10000,
    16383,
    16384,
    16385,
    1_048_575,
    1_048_576,
    1_048_577,
    i32::MAX as i64,
    1 << 31,
    1 << 32,
    (1 << 32) + 1,
    999_999_999_999_999,
    1_000_000_000_000_000,
    -999_999_999_999_999,
    -1_000_000_000_000_000,
    i64::MAX,
    i64::MAX - 1,
    i64::MIN,
    i64::MIN + 1,
];

/// A table of one row with these columns, 0 in all others, and no lines.
pub fn one_row(columns: &[(usize, i64)]) -> Vec<i64> {
    let mut table = vec![0; length(1, 0)];
    columns.iter().for_each(|&(column, number)| table[row_at(0) + column] = number);
    let least = table[row_at(0) + column::FINISH];
    table[..HEADER].copy_from_slice(&[MARK, 1, 0, least, HEADER as i64, row_at(1) as i64]);
    table
}

/// A sound table of either kind, now and then with numbers beyond it.
pub fn sound_table(r: &mut Rng, size: Size) -> Vec<i64> {
    let m = model(r, size);
    let (_, mut table) = sound(r, Style::PLAIN, &m);
    if r.once_in(3) {
        of_xml(r, &mut table);
    }
    if r.once_in(3) {
        for _ in 0..r.below(5) {
            table.push(r.pick(ODD));
        }
    }
    table
}

/// A sound table as one of XML would be: no SPECIAL; now and then a serial, a weight, and filters among the others.
fn of_xml(r: &mut Rng, table: &mut [i64]) {
    let (rows, lines) = (table[header::VARIABLES] as usize, table[header::LINES] as usize);
    table[header::MARK] = MARK_XML;
    (0..lines).for_each(|j| table[line_at(rows, j) + line::SPECIAL] = 0);
    let (mut uses, mut logicals) = (vec![usage::SERIAL, usage::WEIGHT], vec![0]);
    for i in 0..rows {
        let row = row_at(i);
        let typed = table[row + column::TYPE];
        let may = |k: i64| typed == kind::QUANTITY || (typed == kind::CHARACTER && k == usage::SERIAL);
        if !uses.is_empty() && r.once_in(2) && may(uses[uses.len() - 1]) {
            table[row + column::USE] = uses.pop().unwrap();
        } else if r.once_in(2) {
            table[row + column::FILTER] = r.pick(&logicals);
        }
        if typed == kind::LOGICAL {
            logicals.push(i as i64 + 1);
        }
        if r.once_in(4) {
            uses.reverse();
        }
    }
}

/// One cell or a few changed; then, half of the time, w and L mended, so that more of them stay well formed.
pub fn changed(r: &mut Rng, table: &mut Vec<i64>) {
    let used = table.len();
    if used < row_at(1) {
        return;
    }
    let rows = table[1].clamp(0, 512) as usize;
    for _ in 0..if r.once_in(3) { 1 + r.below(3) } else { 1 } {
        if r.once_in(12) {
            continue;
        }
        let at = match r.below(10) {
            0 => r.below(HEADER),
            1..6 => row_at(r.below(rows)) + r.below(ROW),
            6 => row_at(r.below(rows)) + r.pick(&[column::USE, column::FILTER]),
            _ => r.below(used),
        };
        let old = table[at];
        table[at] = match r.below(8) {
            0 => old.wrapping_add(1),
            1 => old.wrapping_sub(1),
            2 => old.wrapping_neg(),
            3 => table[r.below(used)],
            4 => old.wrapping_mul(10),
            _ => r.pick(ODD),
        };
    }
    if r.once_in(8) {
        // Two lines of one row with the same value, or nearly.
        let row = row_at(r.below(rows));
        let (before, lines) = (table[row + 12], table[row + 13]);
        if (0..5000).contains(&before) && (2..5000).contains(&lines) {
            let mut line = || line_at(rows, before as usize + r.below(lines as usize));
            let (a, b) = (line(), line());
            if a != b && a.max(b) < used {
                table[a] = table[b].wrapping_add(if r.once_in(4) { 1 } else { 0 });
            }
        }
    }
    if r.once_in(2) {
        mend(r, table);
    }
    if r.once_in(20) {
        table.truncate(r.below(used + 1));
    }
}

/// Sets w and L to what they would have to be, as far as the row can be understood.
fn mend(r: &mut Rng, table: &mut [i64]) {
    let rows = table[1].clamp(0, 512) as usize;
    if table.len() < row_at(rows) {
        return;
    }
    for i in 0..rows {
        let at = row_at(i);
        let row: [i64; ROW] = table[at..at + ROW].try_into().unwrap();
        let mut numbers = vec![];
        if row[9] == 1 {
            numbers.extend([row[10], row[11]]);
        }
        for line in row[12].clamp(0, 5000)..row[12].clamp(0, 5000) + row[13].clamp(0, 5000) {
            if let Some(&v) = table.get(line_at(rows, line as usize)) {
                numbers.push(v);
            }
        }
        let largest = numbers.iter().copied().max().unwrap_or(1);
        let w = match row[1] {
            1 => largest.to_string().len() as i64,
            2 if row[7] == 0 => largest,
            2 => largest.to_string().len() as i64,
            3 => {
                let least = row[5].clamp(0, 30) as usize + (row[6] != 2) as usize;
                let digits = |v: i64| v.unsigned_abs().to_string().len().max(least) as i64;
                numbers.iter().map(|&v| (v < 0) as i64 + digits(v) + row[6].clamp(0, 1)).max().unwrap_or(1)
            }
            4 => row[4],
            _ => 1,
        };
        table[at + 4] = w;
        if r.once_in(2) && row[2] >= 1 && row[3] < row[2].saturating_add(w) {
            table[at + 3] = row[2].saturating_add(w) - r.below(2) as i64;
        }
    }
    table[3] = (0..rows).map(|i| table[row_at(i) + 3]).max().unwrap_or(0);
}

/// Lays the rows of a sound table one behind the other, in some order and with gaps, so that no two share a place; left as it is
/// where that passes the highest location.
pub fn apart(r: &mut Rng, table: &mut [i64]) {
    let rows = table[1] as usize;
    let mut order: Vec<usize> = (0..rows).collect();
    if r.once_in(3) {
        for i in (1..rows).rev() {
            order.swap(i, r.below(i + 1));
        }
    }
    let length = |table: &[i64], i: usize| table[row_at(i) + 3] - table[row_at(i) + 2] + 1;
    if (0..rows).map(|i| length(table, i) + 3).sum::<i64>() > 16_384 {
        return;
    }
    let mut at = 1;
    for i in order {
        let room = length(table, i);
        at += if r.once_in(4) { r.range(1, 3) } else { 0 };
        table[row_at(i) + 2] = at;
        table[row_at(i) + 3] = at + room - 1;
        at += room;
    }
    table[3] = (0..rows).map(|i| table[row_at(i) + 3]).max().unwrap_or(0);
}
