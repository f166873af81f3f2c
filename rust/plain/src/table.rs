//! Whether a table is well formed, and a view of one that is.

use crate::*;

/// A table known to be well formed.
#[derive(Clone, Copy)]
pub(crate) struct Table<'a> {
    pub rows: &'a [Row],
    pub lines: &'a [Line],
    /// The least record length.
    pub least: usize,
}

impl<'a> Table<'a> {
    /// The lines of a row.
    #[inline]
    pub fn lines_of(&self, row: &Row) -> &'a [Line] {
        let before = row[column::BEFORE] as usize;
        &self.lines[before..before + row[column::LINES] as usize]
    }
}

/// The least code of a bitstring without a range, where every code from there to its width is on a line.
#[inline]
pub(crate) fn codes_from(row: &Row, lines: &[Line]) -> Option<usize> {
    if row[column::RANGE] != 0 {
        return None;
    }
    // The lines differ, and the width is the greatest of them.
    if lines.len() == row[column::WIDTH] as usize {
        return Some(1);
    }
    lines.windows(2).all(|pair| pair[0][0] + 1 == pair[1][0]).then(|| lines[0][0] as usize)
}

/// Whether the table is well formed (the test behind refusal 20).
pub fn well_formed(table: &[i64]) -> bool {
    view(table).is_some()
}

#[inline]
fn within(x: i64, most: i64) -> bool {
    x as u64 <= most as u64
}

/// Whether the places and lengths of a row's texts are within a definition. That is asked only where all of them one over the other don't
/// stay below the bound, a power of two, as only a text at the very end of the longest definition makes them.
#[cold]
fn texts_within(row: &Row) -> bool {
    const { assert!(MAX_DEFINITION.is_power_of_two()) };
    TEXTS.iter().all(|&text| within(row[text], MAX_DEFINITION as i64))
}

/// The places and lengths of a row's texts.
const TEXTS: [usize; 4] = [column::NAME, column::NAME_LENGTH, column::LABEL, column::LABEL_LENGTH];

pub(crate) fn view(table: &[i64]) -> Option<Table<'_>> {
    let (header, rest) = table.split_first_chunk::<HEADER>()?;
    let &[version, v, e, least, rows_at, lines_at] = header;
    if !(MARK..=MARK_XML).contains(&version)
        || !(1..=MAX_VARIABLES as i64).contains(&v)
        || !within(e, MAX_LINES as i64)
        || rows_at != HEADER as i64
        || lines_at != HEADER as i64 + ROW as i64 * v
    {
        return None;
    }
    let (v, e) = (v as usize, e as usize);
    if rest.len() < ROW * v + LINE * e {
        return None;
    }
    let rows = rest[..ROW * v].as_chunks::<ROW>().0;
    let lines = rest[ROW * v..ROW * v + LINE * e].as_chunks::<LINE>().0;

    let mut idents = [0u64; 157];
    let mut left = lines;
    let (mut highest, mut uses, mut texts) = (0, 0, [0; 4]);
    for row in rows {
        let ident = row[column::IDENT];
        if !(1..=9_999).contains(&ident) {
            return None;
        }
        let word = &mut idents[ident as usize / 64];
        let with = *word | 1 << (ident % 64);
        if *word == with {
            return None;
        }
        *word = with;
        if row[column::BEFORE] != (e - left.len()) as i64 {
            return None;
        }
        let (own, behind) = left.split_at_checked(row[column::LINES] as usize)?;
        left = behind;
        if !row_sound(row, own) {
            return None;
        }
        highest = highest.max(row[column::FINISH]);
        uses |= row[column::USE] | row[column::FILTER];
        texts.iter_mut().zip(TEXTS).for_each(|(all, text)| *all |= row[text]);
    }
    if texts.iter().any(|&all| all as u64 >= MAX_DEFINITION as u64) && !rows.iter().all(texts_within) {
        return None;
    }
    // "The rows of 1.1 files carry 0 in both."
    let kind_sound = if version == MARK_XML { xml_sound(rows, lines) } else { uses == 0 };
    (left.is_empty() && least == highest && kind_sound).then_some(Table { rows, lines, least: least as usize })
}

/// "At most one serial, a character or quantity, and one weight, a quantity; neither may have a filter"; a filter is an earlier
/// logical; SPECIAL is always 0.
fn xml_sound(rows: &[Row], lines: &[Line]) -> bool {
    let (mut serials, mut weights) = (0, 0);
    for (i, row) in rows.iter().enumerate() {
        let (kind, filter) = (row[column::TYPE], row[column::FILTER]);
        match row[column::USE] {
            0 if filter == 0 => {}
            0 => {
                if !(1..=i as i64).contains(&filter) || rows[filter as usize - 1][column::TYPE] != LOGICAL {
                    return false;
                }
            }
            1 if filter == 0 && (kind == QUANTITY || kind == CHARACTER) => serials += 1,
            2 if filter == 0 && kind == QUANTITY => weights += 1,
            _ => return false,
        }
    }
    serials <= 1 && weights <= 1 && lines.iter().all(|line| line[1] == 0)
}

#[inline(always)]
fn row_sound(row: &Row, lines: &[Line]) -> bool {
    let (before, finish, kind) = (row[column::START].wrapping_sub(1), row[column::FINISH], row[column::TYPE]);
    if before as u64 >= finish as u64 || !within(finish, MAX_LOCATION) {
        return false;
    }
    let room = finish - before;
    if kind == SINGLE || kind == MULTIPLE {
        categories_sound(row, lines, room)
    } else if kind == QUANTITY {
        quantity_sound(row, lines, room)
    } else if kind == CHARACTER {
        others_unused(row, lines) && (1..=MAX_SIZE.min(room)).contains(&row[column::WIDTH])
    } else {
        kind == LOGICAL && others_unused(row, lines) && row[column::WIDTH] == 1
    }
}

/// Whether a text or a truth has no numbers that only other types have.
#[inline(always)]
fn others_unused(row: &Row, lines: &[Line]) -> bool {
    let fixed = row[column::DECIMALS] | row[column::POINT] | row[column::SUBFIELDS] | row[column::SUBWIDTH];
    fixed | row[column::RANGE] | row[column::FROM] | row[column::TO] == 0 && lines.is_empty()
}

#[inline(always)]
fn categories_sound(row: &Row, lines: &[Line], room: i64) -> bool {
    let (w, subfields, subwidth) = (row[column::WIDTH], row[column::SUBFIELDS], row[column::SUBWIDTH]);
    if row[column::DECIMALS] | row[column::POINT] != 0 {
        return false;
    }
    let Some((_, most)) = block_sound(row, lines, 1, MAX_CATEGORY) else { return false };
    if row[column::TYPE] == SINGLE {
        (subfields | subwidth) == 0 && w == category_digits(most) && w <= room
    } else if subfields == 0 {
        subwidth == 0 && w == most && w <= room
    } else {
        // Each at most the room, so the product stays small.
        w == category_digits(most)
            && (1..=room).contains(&subfields)
            && (w..=room).contains(&subwidth)
            && subfields * subwidth <= room
    }
}

#[inline(always)]
fn quantity_sound(row: &Row, lines: &[Line], room: i64) -> bool {
    let (w, decimals, point) = (row[column::WIDTH], row[column::DECIMALS], row[column::POINT]);
    if row[column::SUBFIELDS] | row[column::SUBWIDTH] != 0
        || !within(decimals, MAX_DECIMALS as i64)
        || !within(point, 2)
    {
        return false;
    }
    if (decimals > 0 && point == 0) || (decimals == 0 && point == 2) {
        return false;
    }
    // With code 2 all values are nearer zero than 1.
    let limit = if point == 2 { 10i64.pow(decimals as u32) - 1 } else { MAX_QUANTITY };
    let Some((lowest, most)) = block_sound(row, lines, -limit, limit) else { return false };
    w == quantity_width(lowest, decimals, point).max(quantity_width(most, decimals, point)) && w <= room
}

/// The least and greatest number of a block whose range and lines are sound.
#[inline(always)]
fn block_sound(row: &Row, lines: &[Line], low: i64, high: i64) -> Option<(i64, i64)> {
    let (range, from, to) = (row[column::RANGE], row[column::FROM], row[column::TO]);
    if range == 1 {
        if from < low || to < from || high < to {
            return None;
        }
        if lines.is_empty() {
            return Some((from, to));
        }
    } else if range | from | to != 0 || lines.is_empty() {
        return None;
    }
    // Lines mostly rise: the first is then the least, the last the greatest, and no two are equal.
    match rising(lines, low) {
        Some(last) if last <= high => {
            let first = lines[0][0];
            Some(if range == 1 { (first.min(from), last.max(to)) } else { (first, last) })
        }
        _ => unordered(range, from, to, lines, low, high),
    }
}

/// The last value of lines that rise from `low` on, have flags of 0 and 1, and texts before the very end of the longest definition.
#[inline(always)]
fn rising(lines: &[Line], low: i64) -> Option<i64> {
    let (mut flags, mut texts) = (0, 0);
    let mut last = low - 1;
    let (fours, rest) = lines.as_chunks::<4>();
    for [a, b, c, d] in fours {
        if !(last < a[0] && a[0] < b[0] && b[0] < c[0] && c[0] < d[0]) {
            return None;
        }
        flags |= a[1] | b[1] | c[1] | d[1];
        texts |= a[2] | b[2] | c[2] | d[2] | a[3] | b[3] | c[3] | d[3];
        last = d[0];
    }
    for line in rest {
        if line[0] <= last {
            return None;
        }
        flags |= line[1];
        texts |= line[2] | line[3];
        last = line[0];
    }
    (flags as u64 <= 1 && (texts as u64) < MAX_DEFINITION as u64).then_some(last)
}

/// The same of any lines. The range is sound.
#[cold]
fn unordered(range: i64, from: i64, to: i64, lines: &[Line], low: i64, high: i64) -> Option<(i64, i64)> {
    let (mut least, mut most) = if range == 1 { (from, to) } else { (i64::MAX, i64::MIN) };
    let (mut flags, mut texts) = (0, 0);
    for &[value, special, place, length] in lines {
        least = least.min(value);
        most = most.max(value);
        flags |= special as u64;
        texts = (place as u64).max(length as u64).max(texts);
    }
    let sound = flags <= 1 && texts <= MAX_DEFINITION as u64 && low <= least && most <= high;
    (sound && !repeated(lines, low == 1)).then_some((least, most))
}

/// Whether two lines have the same value. All values are within their bounds.
fn repeated(lines: &[Line], categories: bool) -> bool {
    if lines.len() <= 16 {
        return lines.iter().enumerate().any(|(i, line)| lines[..i].iter().any(|other| other[0] == line[0]));
    }
    if categories {
        let mut met = [0u64; 157];
        return lines.iter().any(|line| {
            let (word, bit) = (line[0] as usize / 64, 1u64 << (line[0] % 64));
            let again = met[word] & bit != 0;
            met[word] |= bit;
            again
        });
    }
    let mut room = [0i64; MAX_LINES];
    let values = &mut room[..lines.len()];
    for (value, line) in values.iter_mut().zip(lines) {
        *value = line[0];
    }
    values.sort_unstable();
    values.windows(2).any(|pair| pair[0] == pair[1])
}
