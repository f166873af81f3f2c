//! A data file as a matrix of 64-bit floats: header, column summaries, presence bytes, values.

use crate::field::{Category, Quantity, bit_bytes, range_of};
use crate::file::{Terminator, judge_whole_by};
use crate::ready::{Column, Kind, all_legal};
use crate::table::view;
use crate::*;

/// The most bytes of a matrix.
const MAX_MATRIX: u128 = 16_777_216;
/// The bytes of the header, and of a column summary.
const MATRIX_HEADER: usize = 24;
const SUMMARY: usize = 24;

/// A column summary, extended record by record: the count present, then the smallest and largest present value.
#[derive(Clone, Copy, Default)]
struct Summary {
    count: u64,
    least: f64,
    most: f64,
}

impl Summary {
    #[inline]
    fn extended(self, v: f64) -> Summary {
        if self.count == 0 {
            return Summary { count: 1, least: v, most: v };
        }
        Summary {
            count: self.count + 1,
            least: if v < self.least { v } else { self.least },
            most: if v > self.most { v } else { self.most },
        }
    }

    fn bytes(self) -> [u8; SUMMARY] {
        let mut bytes = [0; SUMMARY];
        bytes[..8].copy_from_slice(&self.count.to_le_bytes());
        bytes[8..16].copy_from_slice(&self.least.to_le_bytes());
        bytes[16..].copy_from_slice(&self.most.to_le_bytes());
        bytes
    }
}

/// How many columns of the matrix a row makes.
fn count(row: &Row, lines: &[Line]) -> usize {
    match row[column::TYPE] {
        MULTIPLE => {
            let (from, to) = range_of(row);
            (to + 1 - from) as usize + lines.iter().filter(|line| line[0] < from || to < line[0]).count()
        }
        CHARACTER => 0,
        _ => 1,
    }
}

/// The defined categories of a multiple, rising, put behind those that are there.
fn put_categories(row: &Row, lines: &[Line], categories: &mut Vec<u16>) {
    let start = categories.len();
    let (from, to) = range_of(row);
    categories.extend((from..=to).map(|c| c as u16));
    categories.extend(lines.iter().filter(|line| line[0] < from || to < line[0]).map(|line| line[0] as u16));
    let own = &mut categories[start..];
    if !own.is_sorted() {
        own.sort_unstable();
    }
}

/// Where a category stands among the row's own.
#[inline]
fn place_of(categories: &[u16], c: i64) -> usize {
    // Mostly they count up by ones.
    let guess = (c - categories[0] as i64) as usize;
    if categories.get(guess) == Some(&(c as u16)) {
        return guess;
    }
    categories.binary_search(&(c as u16)).unwrap_or(0)
}

const ONE: [u8; 8] = 1f64.to_le_bytes();
const ZERO: [u8; 8] = [0; 8];
const POWERS: [f64; 10] = [1e0, 1e1, 1e2, 1e3, 1e4, 1e5, 1e6, 1e7, 1e8, 1e9];

/// Writes the data file as a matrix. Answers 0, the total length, records, columns; or 20, the file's own refusal, 80 no column, 81
/// total above 16,777,216, 82 output too short.
pub fn matrix(table: &[i64], data: &[u8], out: &mut [u8]) -> [i64; 4] {
    let Some(t) = view(table) else { return [20, 0, 0, 0] };
    let columns = Column::all(&t);
    let judged = judge_whole_by(&t, data, |record| all_legal(&columns, record));
    if judged.number != 0 {
        return judged.numbers();
    }
    let records = judged.record;
    let counts: Vec<usize> = columns.iter().map(|column| count(column.row, column.lines)).collect();
    let width = counts.iter().sum();
    if width == 0 {
        return [80, 0, 0, 0];
    }
    let total = (MATRIX_HEADER + SUMMARY * width) as u128 + 9 * records as u128 * width as u128;
    if total > MAX_MATRIX {
        return [81, 0, 0, 0];
    }
    let total = total as usize;
    let Some(out) = out.get_mut(..total) else { return [82, 0, 0, 0] };
    let presence_at = MATRIX_HEADER + SUMMARY * width;
    let values_at = presence_at + records * width;
    let (header, rest) = out.split_at_mut(MATRIX_HEADER);
    let numbers = [records, width, MATRIX_HEADER, presence_at, values_at, total];
    for (bytes, number) in header.as_chunks_mut::<4>().0.iter_mut().zip(numbers) {
        *bytes = (number as u32).to_le_bytes();
    }
    let (summaries, rest) = rest.split_at_mut(SUMMARY * width);
    let (presence, values) = rest.split_at_mut(records * width);
    fill(&columns, &counts, data, summaries.as_chunks_mut().0, presence, values.as_chunks_mut().0);
    [0, total as i64, records as i64, width as i64]
}

/// Fills the three parts from a file that was judged sound.
fn fill(
    columns: &[Column],
    counts: &[usize],
    data: &[u8],
    summaries: &mut [[u8; SUMMARY]],
    presence: &mut [u8],
    values: &mut [[u8; 8]],
) {
    let width = summaries.len();
    let mut categories = Vec::with_capacity(width);
    for column in columns.iter().filter(|column| column.row[column::TYPE] == MULTIPLE) {
        put_categories(column.row, column.lines, &mut categories);
    }
    // Of a number's column its summary; of a category's how often it was 1, and of its row how often it was there.
    let mut numbers = vec![Summary::default(); columns.len()];
    let mut ones = vec![0u32; categories.len()];
    // All records have one length, so that the first one's end tells where the others start.
    if let Some((length, terminator)) = Terminator::of(data, 0) {
        let step = length + terminator.length();
        let cells = presence.chunks_exact_mut(width).zip(values.chunks_exact_mut(width));
        for (record, (presence, values)) in data.chunks_exact(step).zip(cells) {
            let rows = columns.iter().zip(counts).zip(&mut numbers);
            one_record(rows, record, &categories, &mut ones, presence, values);
        }
    }
    let (mut summaries, mut ones) = (summaries, &ones[..]);
    for ((column, &count), summary) in columns.iter().zip(counts).zip(numbers) {
        let (own, others) = summaries.split_at_mut(count);
        summaries = others;
        if column.row[column::TYPE] == MULTIPLE {
            for (bytes, &ones) in own.iter_mut().zip(ones) {
                let all = ones as u64 == summary.count && ones > 0;
                *bytes =
                    Summary { count: summary.count, least: all as u8 as f64, most: (ones > 0) as u8 as f64 }.bytes();
            }
            ones = &ones[count..];
        } else if let [bytes] = own {
            *bytes = summary.bytes();
        }
    }
}

/// The cells of one record: for each row its column, how many columns it makes, and its summary.
#[inline]
fn one_record<'a>(
    rows: impl Iterator<Item = ((&'a Column<'a>, &'a usize), &'a mut Summary)>,
    record: &[u8],
    mut categories: &[u16],
    mut ones: &mut [u32],
    presence: &mut [u8],
    values: &mut [[u8; 8]],
) {
    let mut at = 0;
    for ((column, &count), summary) in rows {
        let v = match column.kind {
            Kind::Text => continue,
            Kind::Spread | Kind::Run | Kind::Bits => {
                let (own, others) = categories.split_at(count);
                let (own_ones, other_ones) = ones.split_at_mut(count);
                (categories, ones) = (others, other_ones);
                let cells = &mut values[at..at + count];
                let there = match column.kind {
                    Kind::Spread => spread(column, record, own, own_ones, cells),
                    Kind::Run => run(&record[column.start..column.end], own_ones, cells),
                    _ => bitstring(column, record, own, own_ones, cells),
                };
                presence[at..at + count].fill(there as u8);
                summary.count += there as u64;
                at += count;
                continue;
            }
            Kind::Single => match column.category(record, column.end) {
                Category::Number(c) if c != 0 => Some(c as f64),
                _ => None,
            },
            Kind::Quantity => match column.quantity(record) {
                Quantity::Number(v) => Some(v as f64 / POWERS[column.row[column::DECIMALS] as usize]),
                _ => None,
            },
            Kind::Truth => match record[column.end - 1] {
                b' ' => None,
                x => Some((x == b'1') as u8 as f64),
            },
        };
        presence[at] = v.is_some() as u8;
        values[at] = v.map_or(ZERO, f64::to_le_bytes);
        if let Some(v) = v {
            *summary = summary.extended(v);
        }
        at += 1;
    }
}

/// The values of a bitstring whose categories count up by ones; whether it is there. A sound one is spaces throughout, or nowhere.
#[inline]
fn run(bytes: &[u8], ones: &mut [u32], values: &mut [[u8; 8]]) -> bool {
    if bytes[0] == b' ' {
        values.as_flattened_mut().fill(0);
        return false;
    }
    for ((&x, ones), value) in bytes.iter().zip(ones).zip(values) {
        let one = (x & 1) as u64;
        *ones += one as u32;
        *value = (one * u64::from_le_bytes(ONE)).to_le_bytes();
    }
    true
}

/// The values of any other.
#[inline]
fn bitstring(column: &Column, record: &[u8], categories: &[u16], ones: &mut [u32], values: &mut [[u8; 8]]) -> bool {
    let bytes = bit_bytes(column.row, record);
    if bytes[categories[0] as usize - 1] == b' ' {
        values.as_flattened_mut().fill(0);
        return false;
    }
    for ((&c, ones), value) in categories.iter().zip(ones).zip(values) {
        let one = bytes[c as usize - 1] == b'1';
        *ones += one as u32;
        *value = if one { ONE } else { ZERO };
    }
    true
}

/// A spread's values; whether it is there.
#[inline]
fn spread(column: &Column, record: &[u8], categories: &[u16], ones: &mut [u32], values: &mut [[u8; 8]]) -> bool {
    values.as_flattened_mut().fill(0);
    let mut there = false;
    for said in column.categories(record) {
        if let Category::Number(c) = said {
            there = true;
            if c != 0 {
                let k = place_of(categories, c);
                ones[k] += (values[k] == ZERO) as u32;
                values[k] = ONE;
            }
        }
    }
    there
}
