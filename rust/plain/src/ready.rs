//! The rows of a table made ready for many records: what is the same in every record is found once.

use crate::field::{Bits, Category, FEW, Quantity, bits, four_places, last_bytes, legal, one_kind, quantity};
use crate::file::Stop;
use crate::table::{Table, codes_from};
use crate::*;

#[derive(Clone, Copy, PartialEq, Eq)]
pub(crate) enum Kind {
    Single,
    Spread,
    /// A bitstring whose categories count up by ones.
    Run,
    /// Any other.
    Bits,
    Quantity,
    Text,
    Truth,
}

/// A row made ready. The records that it is asked of are long enough and hold no byte below 32; they may go on behind their end.
pub(crate) struct Column<'a> {
    pub row: &'a Row,
    pub lines: &'a [Line],
    pub kind: Kind,
    /// Where its value places start and end: of a run those of its categories, of a spread all subfields.
    pub start: usize,
    pub end: usize,
    pub width: usize,
    /// The category of a run's first byte.
    pub first: usize,
    /// The numbers from `low` to `high` are legal, and no others where `all` holds.
    low: i64,
    high: i64,
    all: bool,
    /// Of the eight bytes up to a number's end those that stand before its places, and spaces for them.
    before: u64,
    spaces: u64,
    /// Eight bytes hold it, and the record has as many up to its end.
    short: bool,
}

const SPACES: u64 = u64::from_le_bytes(*b"        ");
const ONES: u64 = 0x0101_0101_0101_0101;

impl<'a> Column<'a> {
    pub fn all(t: &Table<'a>) -> Vec<Column<'a>> {
        t.rows.iter().map(|row| Column::of(t, row)).collect()
    }

    fn of(t: &Table<'a>, row: &'a Row) -> Column<'a> {
        let lines = t.lines_of(row);
        let (start, finish) = (row[column::START] as usize - 1, row[column::FINISH] as usize);
        let width = row[column::WIDTH] as usize;
        let last = (finish - width, finish);
        let mut first = 1;
        let (kind, (start, end)) = match row[column::TYPE] {
            SINGLE => (Kind::Single, last),
            MULTIPLE if row[column::SUBFIELDS] > 0 => {
                let length = (row[column::SUBFIELDS] * row[column::SUBWIDTH]) as usize;
                (Kind::Spread, (start, start + length))
            }
            MULTIPLE => {
                let run = codes_from(row, lines);
                first = run.unwrap_or(1);
                (if run.is_some() { Kind::Run } else { Kind::Bits }, (start + first - 1, start + width))
            }
            QUANTITY => (Kind::Quantity, last),
            CHARACTER => (Kind::Text, (start, start + width)),
            _ => (Kind::Truth, last),
        };
        let rising = lines.windows(2).all(|pair| pair[0][0] + 1 == pair[1][0]);
        let (low, high, all) = match (row[column::RANGE], lines) {
            (1, _) => (row[column::FROM], row[column::TO], lines.is_empty()),
            (_, [first, ..]) if rising => (first[0], first[0] + lines.len() as i64 - 1, true),
            _ => (1, 0, false),
        };
        let before = u64::MAX.checked_shr(8 * width as u32).unwrap_or(0);
        let short = width <= 8 && end >= 8;
        Column { row, lines, kind, start, end, width, first, low, high, all, before, spaces: SPACES & before, short }
    }

    /// Whether a number is legal.
    #[inline]
    pub fn takes(&self, v: i64) -> bool {
        (self.low <= v && v <= self.high) || (!self.all && legal(self.row, self.lines, v))
    }

    /// The category that ends at this place, of a single or a subfield.
    #[inline(always)]
    pub fn category(&self, record: &[u8], end: usize) -> Category {
        match record.get(end.wrapping_sub(4)..end).and_then(|four| four.first_chunk()) {
            // The same as of eight bytes, of their upper half.
            Some(four) => {
                let (before, spaces) = ((self.before >> 32) as u32, (self.spaces >> 32) as u32);
                four_places(u32::from_le_bytes(*four) & !before | spaces)
            }
            None => crate::field::category(&record[end - self.width..end]),
        }
    }

    /// The category of each subfield.
    #[inline(always)]
    pub fn categories(&self, record: &[u8]) -> impl Iterator<Item = Category> {
        let width = self.row[column::SUBWIDTH] as usize;
        (1..=self.row[column::SUBFIELDS] as usize).map(move |k| self.category(record, self.start + k * width))
    }

    /// The quantity.
    #[inline]
    pub fn quantity(&self, record: &[u8]) -> Quantity {
        if !self.short {
            return quantity(self.row, last_bytes(self.row, record));
        }
        let Some(eight) = record[..self.end].last_chunk() else { return Quantity::Bad };
        let mut places = u64::from_le_bytes(*eight) & !self.before | self.spaces;
        if places == SPACES {
            return Quantity::Blank;
        }
        // The digits that must be there.
        let least = 8 * (self.row[column::DECIMALS] as u32 + (self.row[column::POINT] != 2) as u32);
        if self.row[column::POINT] != 0 {
            // The point is taken out, and what stands before it moved up to what stands behind it.
            let point = 56 - 8 * self.row[column::DECIMALS] as u32;
            if (places >> point) as u8 != b'.' {
                return Quantity::Bad;
            }
            let behind = places & (u64::MAX << point << 8);
            places = behind | (places & !(u64::MAX << point)) << 8 | b' ' as u64;
        }
        eight_places(places, least)
    }

    /// Whether the record's field is legal.
    #[inline]
    pub fn is_legal(&self, record: &[u8]) -> bool {
        match self.kind {
            Kind::Single => self.category_legal(self.category(record, self.end)),
            Kind::Spread => {
                if self.lines.len() > FEW && self.row[column::SUBFIELDS] as usize > FEW {
                    return crate::field::long_spread_legal(self.row, self.lines, record);
                }
                self.categories(record).all(|said| self.category_legal(said))
            }
            Kind::Run => one_kind(&record[self.start..self.end]),
            Kind::Bits => !matches!(bits(self.row, self.lines, record), Bits::Bad),
            Kind::Quantity => match self.quantity(record) {
                Quantity::Blank => true,
                Quantity::Number(v) => self.takes(v),
                Quantity::Bad => false,
            },
            Kind::Text => true,
            Kind::Truth => matches!(record[self.end - 1], b' ' | b'0' | b'1'),
        }
    }

    #[inline(always)]
    fn category_legal(&self, said: Category) -> bool {
        match said {
            Category::Blank | Category::Number(0) => true,
            Category::Number(c) => self.takes(c),
            Category::Bad => false,
        }
    }
}

/// The number in eight bytes, the first of them lowest: spaces, a minus or none, then digits, at least those of the last `least` bits.
#[inline]
fn eight_places(places: u64, least: u32) -> Quantity {
    let numbers = places ^ (ONES * b'0' as u64);
    let not_digits = (numbers.wrapping_add(ONES * (0x80 - 10)) | numbers) & (ONES * 0x80);
    // The bits up to the last byte that is no digit.
    let front = 64 - (not_digits.leading_zeros() & !7);
    if front > 64 - least {
        return Quantity::Bad;
    }
    let mask = (1u64 << front) - 1;
    let signs = (places ^ SPACES) & mask;
    let minus = signs != 0;
    if minus && signs != ((b'-' ^ b' ') as u64) << (front - 8) {
        return Quantity::Bad;
    }
    let digits = numbers & !mask;
    let pairs = (digits * 10 + (digits >> 8)) & 0x00ff_00ff_00ff_00ff;
    let fours = (pairs * 100 + (pairs >> 16)) & 0x0000_ffff_0000_ffff;
    let value = ((fours * 10_000 + (fours >> 32)) & 0xffff_ffff) as i64;
    Quantity::Number(if minus { -value } else { value })
}

/// Whether all fields of a record are legal.
#[inline(never)]
pub(crate) fn all_legal(columns: &[Column], record: &[u8]) -> Result<(), Stop> {
    match columns.iter().position(|column| !column.is_legal(record)) {
        None => Ok(()),
        Some(row) => Err(Stop::Illegal(row)),
    }
}
