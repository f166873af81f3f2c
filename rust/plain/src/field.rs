//! Value places and readings: one row's value, and the judgement of a whole record.

use crate::scan::find_low;
use crate::table::{Table, codes_from, view};
use crate::*;

/// What a row's value places say.
#[derive(Clone, Copy, Debug, PartialEq, Eq)]
pub enum Value {
    Missing,
    Number(i64),
    /// The members are at the start of the lent list; this is their count.
    Set(usize),
    /// The text's place in the record, and its length.
    Text(usize, usize),
    Truth(bool),
}

/// Why a row was not read: the number, and beside it the place of 241 and 243, the number said of 242, otherwise 0.
#[derive(Clone, Copy, Debug, PartialEq, Eq)]
pub struct Refused {
    pub number: u32,
    pub beside: i64,
}

impl Refused {
    fn with(number: u32, beside: i64) -> Refused {
        Refused { number, beside }
    }
}

/// What reading one row answers: the value, or the refusal.
pub type Reading = Result<Value, Refused>;

/// Why a row of a table that was tested has no value.
pub(crate) enum Unread {
    Illegal,
    /// The list is shorter than the set.
    Room,
}

/// What judging a record answers. `place` is the byte for 23, the row of a fault (241, 242, 243), otherwise 0; `beside` is that of the
/// row's reading.
#[derive(Clone, Copy, Debug, PartialEq, Eq)]
pub struct Judgement {
    pub number: u32,
    pub place: usize,
    pub beside: i64,
}

impl Judgement {
    /// The four numbers that a call answers with.
    pub fn numbers(self) -> [i64; 4] {
        [self.number as i64, self.place as i64, self.beside, 0]
    }
}

/// Reads the value of one row. Only a set touches the list, and only its start.
pub fn read_value(table: &[i64], row: u64, record: &[u8], list: &mut [i64]) -> Reading {
    let Some(t) = view(table) else { return Err(Refused::with(20, 0)) };
    if row >= t.rows.len() as u64 {
        return Err(Refused::with(21, 0));
    }
    if record.len() < t.least {
        return Err(Refused::with(22, 0));
    }
    let row = &t.rows[row as usize];
    row_value(row, t.lines_of(row), record, list).map_err(|unread| match unread {
        Unread::Illegal => fault(row, t.lines_of(row), record),
        Unread::Room => Refused::with(25, 0),
    })
}

/// Reads all rows of a record, the table tested once: four numbers a row at the start of `out`, as for one row, but for a
/// set its kind, its count and where its members start in the list, where the sets follow each other. Answers the members
/// in the list and the rows refused; or 20, 22, 25 (`out` shorter than four numbers a row, or the list shorter than all sets
/// together), which leave `out` and the list as they were.
pub fn read_record(table: &[i64], record: &[u8], out: &mut [i64], list: &mut [i64]) -> Result<(usize, usize), u32> {
    let Some(t) = view(table) else { return Err(20) };
    if record.len() < t.least {
        return Err(22);
    }
    let Some(out) = out.get_mut(..4 * t.rows.len()) else { return Err(25) };
    // A set has at most a member for each byte of a bitstring, or for each subfield: mostly all of them fit.
    let most: usize = t.rows.iter().map(most_members).sum();
    if list.len() < most && list.len() < t.rows.iter().map(|row| count_members(row, t.lines_of(row), record)).sum() {
        return Err(25);
    }
    let (mut used, mut refused) = (0, 0);
    for (row, four) in t.rows.iter().zip(out.as_chunks_mut::<4>().0) {
        *four = match row_value(row, t.lines_of(row), record, &mut list[used..]) {
            Ok(Value::Missing) => [0, 0, 0, 0],
            Ok(Value::Number(n)) => [0, 1, n, 0],
            Ok(Value::Set(count)) => {
                used += count;
                [0, 2, count as i64, (used - count) as i64]
            }
            Ok(Value::Text(place, length)) => [0, 3, place as i64, length as i64],
            Ok(Value::Truth(truth)) => [0, 4, truth as i64, 0],
            Err(_) => {
                refused += 1;
                let fault = fault(row, t.lines_of(row), record);
                [fault.number as i64, fault.beside, 0, 0]
            }
        };
    }
    Ok((used, refused))
}

/// The most members that a row's set can have.
#[inline]
fn most_members(row: &Row) -> usize {
    match (row[column::TYPE], row[column::SUBFIELDS]) {
        (MULTIPLE, 0) => row[column::WIDTH] as usize,
        (MULTIPLE, subfields) => subfields as usize,
        _ => 0,
    }
}

/// How many members the row's set has.
fn count_members(row: &Row, lines: &[Line], record: &[u8]) -> usize {
    if row[column::TYPE] != MULTIPLE {
        return 0;
    }
    let mut members = vec![0; most_members(row)];
    match row_value(row, lines, record, &mut members) {
        Ok(Value::Set(count)) => count,
        _ => 0,
    }
}

/// The value of a row of a table that was tested, in a record that is long enough.
#[inline]
pub(crate) fn row_value(row: &Row, lines: &[Line], record: &[u8], list: &mut [i64]) -> Result<Value, Unread> {
    match row[column::TYPE] {
        SINGLE => match last_category(row, record) {
            Category::Blank | Category::Number(0) => Ok(Value::Missing),
            Category::Number(c) if legal(row, lines, c) => Ok(Value::Number(c)),
            _ => Err(Unread::Illegal),
        },
        MULTIPLE if row[column::SUBFIELDS] == 0 => match codes_from(row, lines) {
            Some(first) => run_value(&bit_bytes(row, record)[first - 1..], first, list),
            None => bits_value(row, lines, record, list),
        },
        MULTIPLE => spread(row, lines, record, list),
        QUANTITY => match quantity(row, last_bytes(row, record)) {
            Quantity::Blank => Ok(Value::Missing),
            Quantity::Number(v) if legal(row, lines, v) => Ok(Value::Number(v)),
            _ => Err(Unread::Illegal),
        },
        CHARACTER => {
            let start = row[column::START] as usize - 1;
            let text = &record[start..start + row[column::WIDTH] as usize];
            if controls(text) {
                return Err(Unread::Illegal);
            }
            match text.iter().rposition(|&x| x != b' ') {
                None => Ok(Value::Missing),
                Some(last) => Ok(Value::Text(start, last + 1)),
            }
        }
        _ => match record[row[column::FINISH] as usize - 1] {
            b' ' => Ok(Value::Missing),
            b'0' => Ok(Value::Truth(false)),
            b'1' => Ok(Value::Truth(true)),
            _ => Err(Unread::Illegal),
        },
    }
}

/// The value of a bitstring whose categories count up by ones from `first`.
#[inline]
fn run_value(bytes: &[u8], first: usize, list: &mut [i64]) -> Result<Value, Unread> {
    if !one_kind(bytes) {
        return Err(Unread::Illegal);
    }
    if bytes[0] == b' ' {
        return Ok(Value::Missing);
    }
    let count = bytes.iter().map(|&x| (x & 1) as usize).sum();
    let Some(list) = list.get_mut(..count) else { return Err(Unread::Room) };
    let mut slots = list.iter_mut();
    each_one(bytes, |i| {
        if let Some(slot) = slots.next() {
            *slot = (first + i) as i64;
        }
    });
    Ok(Value::Set(count))
}

/// Hands on where the ones are among bytes that are `0` and `1`: the low bit is all that differs.
#[inline(always)]
pub(crate) fn each_one(bytes: &[u8], mut put: impl FnMut(usize)) {
    let mut ones_of = |word: [u8; 8], at: usize| {
        let mut ones = u64::from_le_bytes(word) & 0x0101_0101_0101_0101;
        while ones != 0 {
            put(at + ones.trailing_zeros() as usize / 8);
            ones &= ones - 1;
        }
    };
    let (words, rest) = bytes.as_chunks::<8>();
    words.iter().enumerate().for_each(|(i, word)| ones_of(*word, 8 * i));
    let mut last = [0; 8];
    last.iter_mut().zip(rest).for_each(|(to, &x)| *to = x);
    ones_of(last, 8 * words.len());
}

/// The value of any other bitstring.
fn bits_value(row: &Row, lines: &[Line], record: &[u8], list: &mut [i64]) -> Result<Value, Unread> {
    match bits(row, lines, record) {
        Bits::Bad => Err(Unread::Illegal),
        Bits::Blank => Ok(Value::Missing),
        Bits::Set(count, rising) => {
            if list.len() < count {
                return Err(Unread::Room);
            }
            list_bits(row, lines, record, rising, list);
            Ok(Value::Set(count))
        }
    }
}

/// What is wrong with an illegal field. "The leftmost fault counts, with its place. Only a row sound in form is judged for values: the
/// first number neither in range nor on a line is given."
#[cold]
pub(crate) fn fault(row: &Row, lines: &[Line], record: &[u8]) -> Refused {
    let finish = row[column::FINISH] as usize;
    let start = row[column::START] as usize - 1;
    let w = row[column::WIDTH] as usize;
    let stray = |place: usize| Refused::with(241, place as i64);
    let binary = |x: u8| x == b'0' || x == b'1';
    match row[column::TYPE] {
        SINGLE => {
            let places = last_bytes(row, record);
            match number_fault(places, w - 1, None, false) {
                Some(i) => stray(finish - w + i),
                None => Refused::with(242, decimal(places)),
            }
        }
        MULTIPLE if row[column::SUBFIELDS] == 0 => {
            let mut places: Vec<usize> = lines.iter().map(|line| start + line[0] as usize - 1).collect();
            let (from, to) = range_of(row);
            places.extend((from..=to).map(|c| start + c as usize - 1));
            stray(places.into_iter().filter(|&p| !binary(record[p])).min().expect("an illegal bitstring"))
        }
        MULTIPLE => {
            let width = row[column::SUBWIDTH] as usize;
            for (k, places) in subfields(row, record).enumerate() {
                if places.iter().any(|&x| x != b' ')
                    && let Some(i) = number_fault(places, w - 1, None, false)
                {
                    return stray(start + (k + 1) * width - w + i);
                }
            }
            let mut said = subfields(row, record).map(decimal);
            Refused::with(242, said.find(|&c| c != 0 && !legal(row, lines, c)).expect("an illegal spread"))
        }
        QUANTITY => {
            let places = last_bytes(row, record);
            let decimals = row[column::DECIMALS] as usize;
            // "The point, the digit before it (with no point the last; none under code 2) and those after it have fixed places."
            let point = (row[column::POINT] != 0).then(|| w - decimals - 1);
            let before = point.unwrap_or(w) - (row[column::POINT] != 2) as usize;
            match number_fault(places, before, point, true) {
                Some(i) if places[i] == b'.' || point == Some(i) => Refused::with(243, (finish - w + i) as i64),
                Some(i) => stray(finish - w + i),
                None => Refused::with(242, if places.contains(&b'-') { -decimal(places) } else { decimal(places) }),
            }
        }
        CHARACTER => stray(find_low(&record[..start + w], start)),
        _ => stray(finish - 1),
    }
}

/// The first of the bytes that cannot stand after those to its left, in value places that are not all spaces: "the places before take
/// spaces, at most one minus (in a quantity only), then digits".
fn number_fault(places: &[u8], before: usize, point: Option<usize>, quantity: bool) -> Option<usize> {
    let mut i = places[..before].iter().take_while(|&&x| x == b' ').count();
    if quantity && i < before && places[i] == b'-' {
        i += 1;
    }
    (i..places.len()).find(|&i| if point == Some(i) { places[i] != b'.' } else { !places[i].is_ascii_digit() })
}

/// The digits among these bytes as a number.
fn decimal(places: &[u8]) -> i64 {
    places.iter().filter(|x| x.is_ascii_digit()).fold(0, |n, &x| n * 10 + (x - b'0') as i64)
}

/// Judges a whole record: 20, 22, 23 with the byte's place, 241 to 243 with the lowest row and what is beside its reading.
pub fn judge_record(table: &[i64], record: &[u8]) -> Judgement {
    match view(table) {
        Some(t) => judge(&t, record),
        None => Judgement { number: 20, place: 0, beside: 0 },
    }
}

/// Judges a record under a table that was tested.
#[inline]
pub(crate) fn judge(t: &Table, record: &[u8]) -> Judgement {
    if record.len() < t.least {
        return Judgement { number: 22, place: 0, beside: 0 };
    }
    let place = find_low(record, 0);
    if place < record.len() {
        return Judgement { number: 23, place, beside: 0 };
    }
    match first_illegal(t, record) {
        Some(i) => {
            let Refused { number, beside } = fault(&t.rows[i], t.lines_of(&t.rows[i]), record);
            Judgement { number, place: i, beside }
        }
        None => Judgement { number: 0, place: 0, beside: 0 },
    }
}

/// The lowest row whose field is illegal. The record is long enough and holds no byte below 32.
fn first_illegal(t: &Table, record: &[u8]) -> Option<usize> {
    t.rows.iter().position(|row| !field_legal(t, row, record))
}

#[inline]
fn field_legal(t: &Table, row: &Row, record: &[u8]) -> bool {
    match row[column::TYPE] {
        SINGLE => match last_category(row, record) {
            Category::Blank | Category::Number(0) => true,
            Category::Number(c) => legal(row, t.lines_of(row), c),
            Category::Bad => false,
        },
        MULTIPLE if row[column::SUBFIELDS] == 0 => {
            if let Some(first) = codes_from(row, t.lines_of(row)) {
                return one_kind(&bit_bytes(row, record)[first - 1..]);
            }
            !matches!(bits(row, t.lines_of(row), record), Bits::Bad)
        }
        MULTIPLE => {
            let lines = t.lines_of(row);
            if lines.len() <= FEW || row[column::SUBFIELDS] as usize <= FEW {
                return spread_legal(row, record, |c| legal(row, lines, c));
            }
            long_spread_legal(row, lines, record)
        }
        QUANTITY => match quantity(row, last_bytes(row, record)) {
            Quantity::Blank => true,
            Quantity::Number(v) => legal(row, t.lines_of(row), v),
            Quantity::Bad => false,
        },
        // No byte of the record is below 32.
        CHARACTER => true,
        _ => matches!(record[row[column::FINISH] as usize - 1], b' ' | b'0' | b'1'),
    }
}

/// Whether the bytes are `0` and `1` throughout, or spaces throughout.
#[inline]
pub(crate) fn one_kind(bytes: &[u8]) -> bool {
    const LOW: u64 = 0x0101_0101_0101_0101;
    let (mut binary, mut spaces) = (0, 0);
    let mut note = |word: u64| {
        binary |= (word ^ (LOW * b'0' as u64)) & (LOW * 0xfe);
        spaces |= word ^ (LOW * b' ' as u64);
    };
    let (words, rest) = bytes.as_chunks::<8>();
    words.iter().for_each(|word| note(u64::from_le_bytes(*word)));
    match (rest, bytes.last_chunk::<8>()) {
        ([], _) => {}
        // The last word once more, with what is left.
        (_, Some(last)) => note(u64::from_le_bytes(*last)),
        _ => rest.iter().for_each(|&x| note(LOW * x as u64)),
    }
    binary == 0 || spaces == 0
}

/// Whether a spread of many subfields and many lines is legal.
pub(crate) fn long_spread_legal(row: &Row, lines: &[Line], record: &[u8]) -> bool {
    let mut defined = Defined::new(row, lines);
    spread_legal(row, record, |c| defined.has(c))
}

#[inline]
fn spread_legal(row: &Row, record: &[u8], mut defined: impl FnMut(i64) -> bool) -> bool {
    said_categories(row, record).all(|said| match said {
        Category::Blank | Category::Number(0) => true,
        Category::Number(c) => defined(c),
        Category::Bad => false,
    })
}

/// Whether a byte below 32 is among these.
#[inline]
fn controls(bytes: &[u8]) -> bool {
    find_low(bytes, 0) < bytes.len()
}

/// Whether the number lies in the row's range or on one of its lines.
#[inline]
pub(crate) fn legal(row: &Row, lines: &[Line], v: i64) -> bool {
    (row[column::RANGE] == 1 && row[column::FROM] <= v && v <= row[column::TO]) || on_line(lines, v)
}

#[inline]
fn on_line(lines: &[Line], v: i64) -> bool {
    let Some(first) = lines.first() else { return false };
    // Lines mostly count up by ones: look there first.
    if let Ok(guess) = usize::try_from(v.wrapping_sub(first[0]))
        && let Some(line) = lines.get(guess)
        && line[0] == v
    {
        return true;
    }
    lines.iter().any(|line| line[0] == v)
}

/// Up to this many lines or subfields, looking through the lines is quick enough.
pub(crate) const FEW: usize = 16;

/// The defined categories of a row, made ready for many questions once more than a few were asked.
pub(crate) struct Defined<'a> {
    row: &'a Row,
    lines: &'a [Line],
    asked: usize,
    members: [u64; 157],
}

impl<'a> Defined<'a> {
    #[inline]
    pub fn new(row: &'a Row, lines: &'a [Line]) -> Self {
        Defined { row, lines, asked: 0, members: [0; 157] }
    }

    #[inline]
    pub fn has(&mut self, c: i64) -> bool {
        if self.row[column::RANGE] == 1 && self.row[column::FROM] <= c && c <= self.row[column::TO] {
            return true;
        }
        if self.lines.len() <= FEW || self.asked < FEW {
            self.asked += 1;
            return on_line(self.lines, c);
        }
        if self.asked == FEW {
            self.asked = FEW + 1;
            for line in self.lines {
                self.members[line[0] as usize / 64] |= 1 << (line[0] % 64);
            }
        }
        (1..=MAX_CATEGORY).contains(&c) && self.members[c as usize / 64] >> (c % 64) & 1 == 1
    }
}

/// The last w bytes of the position.
#[inline]
pub(crate) fn last_bytes<'a>(row: &Row, record: &'a [u8]) -> &'a [u8] {
    let finish = row[column::FINISH] as usize;
    &record[finish - row[column::WIDTH] as usize..finish]
}

/// The last w bytes of each subfield.
#[inline]
pub(crate) fn subfields<'a>(row: &Row, record: &'a [u8]) -> impl Iterator<Item = &'a [u8]> + use<'a> {
    let start = row[column::START] as usize - 1;
    let width = row[column::SUBWIDTH] as usize;
    let w = row[column::WIDTH] as usize;
    let all = &record[start..start + row[column::SUBFIELDS] as usize * width];
    all.chunks_exact(width).map(move |subfield| &subfield[width - w..])
}

pub(crate) enum Category {
    Blank,
    Number(i64),
    Bad,
}

/// Spaces, then digits; at most four bytes.
#[inline]
pub(crate) fn category(places: &[u8]) -> Category {
    let mut value = 0i64;
    let mut digits = false;
    for &x in places {
        let d = x.wrapping_sub(b'0');
        if d < 10 {
            value = value * 10 + d as i64;
            digits = true;
        } else if x != b' ' || digits {
            return Category::Bad;
        }
    }
    if digits { Category::Number(value) } else { Category::Blank }
}

/// The category in the last w bytes before `finish`, at most four.
#[inline]
pub(crate) fn category_before(record: &[u8], finish: usize, w: usize) -> Category {
    if w == 1 {
        return match record[finish - 1] {
            b' ' => Category::Blank,
            x if x.is_ascii_digit() => Category::Number((x - b'0') as i64),
            _ => Category::Bad,
        };
    }
    match record.get(finish.wrapping_sub(4)..finish).and_then(|four| four.first_chunk()) {
        Some(four) => {
            // What stands before the places counts as spaces.
            let before = (u32::MAX as u64 >> (8 * w)) as u32;
            four_places(u32::from_le_bytes(*four) & !before | before & u32::from_le_bytes(*b"    "))
        }
        None => category(&record[finish - w..finish]),
    }
}

/// The category of a single.
#[inline]
pub(crate) fn last_category(row: &Row, record: &[u8]) -> Category {
    category_before(record, row[column::FINISH] as usize, row[column::WIDTH] as usize)
}

/// The category of each subfield.
#[inline]
pub(crate) fn said_categories<'a>(row: &Row, record: &'a [u8]) -> impl Iterator<Item = Category> + use<'a> {
    let (start, width) = (row[column::START] as usize - 1, row[column::SUBWIDTH] as usize);
    let w = row[column::WIDTH] as usize;
    (1..=row[column::SUBFIELDS] as usize).map(move |k| category_before(record, start + k * width, w))
}

/// The category in four bytes, the first of them lowest, without looking at each by itself.
#[inline(always)]
pub(crate) fn four_places(places: u32) -> Category {
    const ONES: u32 = 0x0101_0101;
    // A digit is now its number, a space 16.
    let numbers = places ^ (ONES * b'0' as u32);
    let spaces = numbers >> 4 & ONES;
    let prefix = spaces * 0xff;
    let digits = numbers & !prefix;
    let not_digits = (digits.wrapping_add(ONES * (0x80 - 10)) | digits) & (ONES * 0x80);
    let not_spaces = numbers & prefix ^ spaces << 4;
    let not_in_front = prefix & prefix.wrapping_add(1);
    if not_digits | not_spaces | not_in_front != 0 {
        return Category::Bad;
    }
    if prefix == u32::MAX {
        return Category::Blank;
    }
    let pairs = (digits * 10 + (digits >> 8)) & 0x00ff_00ff;
    Category::Number(((pairs * 100 + (pairs >> 16)) & 0xffff) as i64)
}

pub(crate) enum Quantity {
    Blank,
    Number(i64),
    Bad,
}

/// Spaces, `-` or none, digits, at least one before the point (with code 2 the whole part may be empty); point and decimals as in the
/// block.
#[inline]
pub(crate) fn quantity(row: &Row, places: &[u8]) -> Quantity {
    let decimals = row[column::DECIMALS] as usize;
    let point = (row[column::POINT] != 0) as usize;
    let bare = row[column::POINT] == 2;
    let (whole, rest) = places.split_at(places.len() - decimals - point);
    let mut value = 0i64;
    let mut i = 0;
    while i < whole.len() && whole[i] == b' ' {
        i += 1;
    }
    if i == whole.len() {
        if rest.iter().all(|&x| x == b' ') {
            return Quantity::Blank;
        }
        if !bare {
            return Quantity::Bad;
        }
    }
    let minus = i < whole.len() && whole[i] == b'-';
    i += minus as usize;
    if i == whole.len() && !bare {
        return Quantity::Bad;
    }
    let mut good = true;
    for &x in &whole[i..] {
        let d = x.wrapping_sub(b'0');
        good &= d < 10;
        value = value * 10 + d as i64;
    }
    if point == 1 {
        good &= rest[0] == b'.';
        for &x in &rest[1..] {
            let d = x.wrapping_sub(b'0');
            good &= d < 10;
            value = value * 10 + d as i64;
        }
    }
    match (good, minus) {
        (false, _) => Quantity::Bad,
        (true, true) => Quantity::Number(-value),
        (true, false) => Quantity::Number(value),
    }
}

pub(crate) enum Bits {
    Blank,
    /// The count of members, and whether the lines are in rising order.
    Set(usize, bool),
    Bad,
}

/// The bytes of a bitstring's position; byte c is at c - 1.
#[inline]
pub(crate) fn bit_bytes<'a>(row: &Row, record: &'a [u8]) -> &'a [u8] {
    let start = row[column::START] as usize - 1;
    &record[start..start + row[column::WIDTH] as usize]
}

/// The row's range, empty (from above to) where there is none.
#[inline]
pub(crate) fn range_of(row: &Row) -> (i64, i64) {
    if row[column::RANGE] == 1 { (row[column::FROM], row[column::TO]) } else { (1, 0) }
}

pub(crate) fn bits(row: &Row, lines: &[Line], record: &[u8]) -> Bits {
    let bytes = bit_bytes(row, record);
    let (from, to) = range_of(row);
    let mut spaces = true;
    let mut binary = true;
    let mut count = 0;
    for &x in &bytes[from as usize - 1..to as usize] {
        spaces &= x == b' ';
        binary &= x & 0xfe == b'0';
        count += (x == b'1') as usize;
    }
    let mut rising = true;
    let mut last = 0;
    for &[c, ..] in lines {
        let x = bytes[c as usize - 1];
        spaces &= x == b' ';
        binary &= x & 0xfe == b'0';
        count += (x == b'1' && !(from <= c && c <= to)) as usize;
        rising &= last < c;
        last = c;
    }
    if spaces {
        Bits::Blank
    } else if binary {
        Bits::Set(count, rising)
    } else {
        Bits::Bad
    }
}

/// Lists the members of a bitstring in rising order. The list has room.
fn list_bits(row: &Row, lines: &[Line], record: &[u8], rising: bool, list: &mut [i64]) {
    let bytes = bit_bytes(row, record);
    let (from, to) = range_of(row);
    let mut slots = list.iter_mut();
    let mut put = |c: i64| {
        if let Some(slot) = slots.next() {
            *slot = c;
        }
    };
    let set = |c: i64| bytes[c as usize - 1] == b'1';
    if rising {
        // With no range from is 1 and to is 0: no line is below, all are above.
        let below = lines.iter().take_while(|line| line[0] < from).count();
        for line in &lines[..below] {
            if set(line[0]) {
                put(line[0]);
            }
        }
        each_one(&bytes[from as usize - 1..to as usize], |i| put(from + i as i64));
        for line in &lines[below..] {
            if line[0] > to && set(line[0]) {
                put(line[0]);
            }
        }
        return;
    }
    let mut members = [0u64; 157];
    for c in (from..=to).chain(lines.iter().map(|line| line[0])) {
        members[c as usize / 64] |= (set(c) as u64) << (c % 64);
    }
    each_member(&members, put);
}

pub(crate) fn each_member(members: &[u64; 157], mut put: impl FnMut(i64)) {
    for (i, &word) in members.iter().enumerate() {
        let mut word = word;
        while word != 0 {
            put((i * 64) as i64 + word.trailing_zeros() as i64);
            word &= word - 1;
        }
    }
}

fn spread(row: &Row, lines: &[Line], record: &[u8], list: &mut [i64]) -> Result<Value, Unread> {
    let mut blank = true;
    if row[column::SUBFIELDS] as usize <= FEW {
        let mut members = [0i64; FEW];
        let mut count = 0;
        for said in said_categories(row, record) {
            let c = match said {
                Category::Blank => continue,
                Category::Number(c) => c,
                Category::Bad => return Err(Unread::Illegal),
            };
            blank = false;
            if c == 0 {
                continue;
            }
            if !legal(row, lines, c) {
                return Err(Unread::Illegal);
            }
            // Into its place, unless it is there.
            let mut i = count;
            while i > 0 && members[i - 1] > c {
                i -= 1;
            }
            if i > 0 && members[i - 1] == c {
                continue;
            }
            members.copy_within(i..count, i + 1);
            members[i] = c;
            count += 1;
        }
        if blank {
            return Ok(Value::Missing);
        }
        let Some(start) = list.get_mut(..count) else { return Err(Unread::Room) };
        start.copy_from_slice(&members[..count]);
        return Ok(Value::Set(count));
    }
    let mut defined = Defined::new(row, lines);
    let mut members = [0u64; 157];
    for said in said_categories(row, record) {
        match said {
            Category::Blank => {}
            Category::Number(0) => blank = false,
            Category::Number(c) if defined.has(c) => {
                blank = false;
                members[c as usize / 64] |= 1 << (c % 64);
            }
            _ => return Err(Unread::Illegal),
        }
    }
    if blank {
        return Ok(Value::Missing);
    }
    let count: usize = members.iter().map(|word| word.count_ones() as usize).sum();
    let Some(start) = list.get_mut(..count) else { return Err(Unread::Room) };
    let mut slots = start.iter_mut();
    each_member(&members, |c| {
        if let Some(slot) = slots.next() {
            *slot = c;
        }
    });
    Ok(Value::Set(count))
}
