//! Reading a definition into a lent table.

use crate::scan::{Fault, Figure, Number, Outcome, Scan, fault};
use crate::*;

/// What reading a definition answers. `number` 0: read, with its counts. Otherwise the refusal and its place.
#[derive(Clone, Copy, Debug, PartialEq, Eq)]
pub struct Definition {
    pub number: u32,
    pub place: usize,
    pub variables: usize,
    pub lines: usize,
}

/// Reads a definition of either kind. The start of the table then holds header, rows and lines, and the rest is kept; a refusal keeps all.
pub fn read_definition(def: &[u8], table: &mut [i64]) -> Definition {
    if is_xml(def) { read_xml(def, table) } else { read_sss(def, table) }
}

/// The same of a 1.1 definition; one in XML is refused as any other text.
fn read_sss(def: &[u8], table: &mut [i64]) -> Definition {
    match read_whole::<()>(def).and_then(|read| read.put(table)) {
        Ok((variables, lines)) => Definition { number: 0, place: 0, variables, lines },
        Err(Fault { number, place }) => Definition { number: number.get() as u32, place, variables: 0, lines: 0 },
    }
}

/// Is told where each number of a variable stands, in the order of the definition: from its first byte to behind its last, and maybe
/// dropped bytes. Whoever only reads needs none of it.
pub(crate) trait Places: Default {
    fn note(&mut self, from: usize, to: usize);
}

impl Places for () {
    fn note(&mut self, _: usize, _: usize) {}
}

/// The statements before the variables, where they stand: a text's place and length.
#[derive(Default)]
pub(crate) struct Heading {
    /// DATE, TIME, ORIGIN, USER.
    pub texts: [Option<(usize, usize)>; 4],
    pub standard_names: bool,
    pub title: Option<(usize, usize)>,
    /// The place of the record's letter.
    pub letter: usize,
}

/// Reads a 1.1 definition, all but what its table needs of room.
pub(crate) fn read_whole<P: Places>(def: &[u8]) -> Outcome<Reader<'_, P>> {
    if def.len() > MAX_DEFINITION {
        return fault(1, 0);
    }
    let mut r = Reader {
        s: Scan { bytes: def, at: 0 },
        rows: Vec::with_capacity(32),
        lines: Vec::with_capacity(128),
        heading: Heading::default(),
        places: P::default(),
        idents: [0; 157],
        highest: 0,
        repeats: Repeats::default(),
    };
    r.header()?;
    r.record()?;
    if r.heading.standard_names {
        names(def, &r.rows)?;
    }
    Ok(r)
}

pub(crate) struct Reader<'a, P> {
    s: Scan<'a>,
    pub rows: Vec<Row>,
    pub lines: Vec<Line>,
    pub heading: Heading,
    pub places: P,
    /// The idents met, a bit each.
    idents: [u64; 157],
    highest: i64,
    repeats: Repeats,
}

impl<P> Reader<'_, P> {
    /// The header, and where the lines start in the table and end.
    fn header_numbers(&self) -> ([i64; HEADER], usize, usize) {
        let (v, e) = (self.rows.len(), self.lines.len());
        let lines_at = HEADER + ROW * v;
        ([MARK, v as i64, e as i64, self.highest, HEADER as i64, lines_at as i64], lines_at, lines_at + LINE * e)
    }

    /// Puts the table, and answers its counts.
    fn put(&self, table: &mut [i64]) -> Outcome<(usize, usize)> {
        let (header, lines_at, total) = self.header_numbers();
        if table.len() < total {
            return fault(10, 0);
        }
        table[..HEADER].copy_from_slice(&header);
        table[HEADER..lines_at].copy_from_slice(self.rows.as_flattened());
        table[lines_at..total].copy_from_slice(self.lines.as_flattened());
        Ok((self.rows.len(), self.lines.len()))
    }

    /// Whether this is the table that was read; numbers beyond it are not looked at.
    pub fn yields(&self, table: &[i64]) -> bool {
        let (header, lines_at, total) = self.header_numbers();
        table.len() >= total
            && table[..HEADER] == header
            && table[HEADER..lines_at] == *self.rows.as_flattened()
            && table[lines_at..total] == *self.lines.as_flattened()
    }
}

/// The values of a block: categories, or quantities with the decimals and point met so far.
struct Block {
    quantity: bool,
    decimals: Option<usize>,
    point: bool,
    /// No number so far has a digit before its point, or lacks the point.
    bare: bool,
    range: Option<(i64, i64)>,
    /// The least and greatest number of the block.
    least: i64,
    most: i64,
}

impl Block {
    fn take(&mut self, v: i64) {
        self.least = self.least.min(v);
        self.most = self.most.max(v);
    }

    /// Whether the figure's form is wrong for the type (6); a category of zero too.
    fn ill(&self, f: &Figure) -> bool {
        if self.quantity { !f.form } else { !f.plain || f.capped() == 0 }
    }

    /// Whether the figure passes a limit (8).
    fn beyond(&self, f: &Figure) -> bool {
        if self.quantity {
            f.decimals > MAX_DECIMALS || f.capped() > MAX_QUANTITY as u64
        } else {
            f.capped() > MAX_CATEGORY as u64
        }
    }
}

impl<P: Places> Reader<'_, P> {
    /// NOTE and its string, as often as they stand here; then past blanks and comments to the next token.
    #[inline(always)]
    fn notes(&mut self) -> Outcome<()> {
        self.s.gap()?;
        if self.s.word(b"NOTE") { self.rest_of_notes() } else { Ok(()) }
    }

    #[inline(never)]
    fn rest_of_notes(&mut self) -> Outcome<()> {
        loop {
            self.s.text()?;
            self.s.gap()?;
            if !self.s.word(b"NOTE") {
                return Ok(());
            }
        }
    }

    /// A word that is due, after notes.
    #[inline]
    fn statement<const N: usize>(&mut self, word: &[u8; N]) -> Outcome<()> {
        self.notes()?;
        if self.s.word(word) { Ok(()) } else { fault(2, self.s.at) }
    }

    /// `SSS` to `SURVEY`.
    fn header(&mut self) -> Outcome<()> {
        while self.s.at < self.s.bytes.len() && self.s.bytes[self.s.at] < 32 {
            self.s.at += 1;
        }
        if !self.s.word(b"SSS") {
            return fault(2, self.s.at);
        }
        self.s.blank();
        if !self.s.word(b"VERSION") {
            return fault(2, self.s.at);
        }
        self.s.blank();
        let place = self.s.at;
        if self.s.figure().is_none() {
            return fault(2, place);
        }
        if !self.s.reads(place, b"1.1") {
            return fault(4, place);
        }
        loop {
            self.notes()?;
            let place = self.s.at;
            let which = if self.s.word(b"SURVEY") {
                return Ok(());
            } else if self.s.word(b"DATE") {
                0
            } else if self.s.word(b"TIME") {
                1
            } else if self.s.word(b"ORIGIN") {
                2
            } else if self.s.word(b"USER") {
                3
            } else if self.s.word(b"STANDARD") {
                4
            } else {
                return fault(2, place);
            };
            match self.heading.texts.get(which) {
                None if !self.heading.standard_names => {
                    self.s.due(b"NAMES")?;
                    self.heading.standard_names = true;
                }
                Some(None) => self.heading.texts[which] = Some(self.s.text()?),
                _ => return fault(2, place),
            }
        }
    }

    /// From behind `SURVEY` to `END SSS`.
    fn record(&mut self) -> Outcome<()> {
        self.notes()?;
        if self.s.word(b"TITLE") {
            self.heading.title = Some(self.s.text()?);
        }
        self.statement(b"RECORD")?;
        self.s.gap()?;
        self.heading.letter = self.s.at;
        match self.s.bytes.get(self.s.at) {
            Some(x) if x.is_ascii_alphabetic() => self.s.at += 1,
            _ => return fault(2, self.s.at),
        }
        self.statement(b"VARIABLE")?;
        loop {
            self.variable()?;
            self.notes()?;
            if !self.s.word(b"VARIABLE") {
                break;
            }
        }
        if !self.s.word(b"END") {
            return fault(2, self.s.at);
        }
        self.s.due(b"RECORD")?;
        self.statement(b"END")?;
        self.s.due(b"SURVEY")?;
        self.statement(b"END")?;
        self.s.due(b"SSS")
    }

    /// A number that is due.
    #[inline]
    fn number(&mut self) -> Outcome<Number> {
        let number = self.s.number()?;
        self.places.note(number.place, number.end);
        Ok(number)
    }

    /// In place of a number that may be left out.
    #[inline]
    fn no_number(&mut self) -> Option<Number> {
        self.places.note(0, 0);
        None
    }

    /// From behind `VARIABLE` to `END VARIABLE`.
    fn variable(&mut self) -> Outcome<()> {
        let ident = self.number()?;
        let id = ident.capped();
        if id == 0 || ident.count > 4 {
            return fault(5, ident.place);
        }
        let (word, bit) = (id as usize / 64, 1u64 << (id % 64));
        if self.idents[word] & bit != 0 {
            return fault(5, ident.place);
        }
        if self.rows.len() == MAX_VARIABLES {
            return fault(8, ident.place);
        }
        self.idents[word] |= bit;

        let mut row: Row = [0; ROW];
        row[column::IDENT] = id as i64;
        row[column::BEFORE] = self.lines.len() as i64;

        self.statement(b"NAME")?;
        let (place, length) = self.s.text()?;
        row[column::NAME] = place as i64;
        row[column::NAME_LENGTH] = length as i64;
        self.statement(b"LABEL")?;
        let (place, length) = self.s.text()?;
        row[column::LABEL] = place as i64;
        row[column::LABEL_LENGTH] = length as i64;

        self.statement(b"TYPE")?;
        self.s.gap()?;
        let kind = if self.s.word(b"SINGLE") {
            SINGLE
        } else if self.s.word(b"MULTIPLE") {
            MULTIPLE
        } else if self.s.word(b"QUANTITY") {
            QUANTITY
        } else if self.s.word(b"CHARACTER") {
            CHARACTER
        } else if self.s.word(b"LOGICAL") {
            LOGICAL
        } else {
            return fault(2, self.s.at);
        };
        row[column::TYPE] = kind;

        let (position, start, finish) = self.position()?;
        let room = finish - start + 1;
        row[column::START] = start;
        row[column::FINISH] = finish;
        self.highest = self.highest.max(finish);

        let mut narrow = false;
        match kind {
            SINGLE => {
                let block = self.values(false, &mut row)?;
                row[column::WIDTH] = category_digits(block.most);
            }
            MULTIPLE => {
                self.notes()?;
                if self.s.word(b"SPREAD") {
                    let (n, width) = self.spread(room)?;
                    let block = self.values(false, &mut row)?;
                    row[column::WIDTH] = category_digits(block.most);
                    narrow = width < row[column::WIDTH] || n.saturating_mul(width) > room;
                    row[column::SUBFIELDS] = n;
                    row[column::SUBWIDTH] = width;
                } else {
                    let block = self.values(false, &mut row)?;
                    row[column::WIDTH] = block.most;
                }
            }
            QUANTITY => {
                let block = self.values(true, &mut row)?;
                let decimals = block.decimals.unwrap_or(0) as i64;
                // C-13: 2 where every number is written with no digit before the point.
                let point = block.point as i64 + (block.point && block.bare) as i64;
                row[column::DECIMALS] = decimals;
                row[column::POINT] = point;
                // Of the numbers below zero the least is the longest, of the others the greatest.
                row[column::WIDTH] =
                    quantity_width(block.least, decimals, point).max(quantity_width(block.most, decimals, point));
            }
            CHARACTER => {
                self.statement(b"SIZE")?;
                let size = self.number()?;
                if size.capped() == 0 {
                    return fault(7, size.place);
                }
                if size.capped() > MAX_SIZE as u64 {
                    return fault(8, size.place);
                }
                row[column::WIDTH] = size.capped() as i64;
            }
            _ => row[column::WIDTH] = 1,
        }
        self.statement(b"END")?;
        self.s.due(b"VARIABLE")?;
        if narrow || row[column::WIDTH] > room {
            return fault(7, position);
        }
        self.rows.push(row);
        Ok(())
    }

    /// `POSITION a [TO b]`: the place of a, start and finish.
    fn position(&mut self) -> Outcome<(usize, i64, i64)> {
        self.statement(b"POSITION")?;
        let start = self.number()?;
        self.s.gap()?;
        let finish = if self.s.word(b"TO") { Some(self.number()?) } else { self.no_number() };
        if start.capped() == 0 {
            return fault(7, start.place);
        }
        let limit = MAX_LOCATION as u64;
        match finish {
            None => {
                if start.capped() > limit {
                    return fault(8, start.place);
                }
                Ok((start.place, start.capped() as i64, start.capped() as i64))
            }
            Some(finish) => {
                if self.s.above(&start, &finish) {
                    return fault(7, finish.place);
                }
                if start.capped() > limit {
                    return fault(8, start.place);
                }
                if finish.capped() > limit {
                    return fault(8, finish.place);
                }
                Ok((start.place, start.capped() as i64, finish.capped() as i64))
            }
        }
    }

    /// From behind `SPREAD`: `n [OF w]`. A count or width beyond all positions is answered as the greatest i64.
    fn spread(&mut self, room: i64) -> Outcome<(i64, i64)> {
        let bounded = |n: &Number| i64::try_from(n.capped()).unwrap_or(i64::MAX);
        let n = self.number()?;
        self.s.gap()?;
        let width = if self.s.word(b"OF") { Some(self.number()?) } else { self.no_number() };
        if n.capped() == 0 {
            return fault(7, n.place);
        }
        match width {
            Some(width) if width.capped() == 0 => fault(7, width.place),
            Some(width) => Ok((bounded(&n), bounded(&width))),
            None if room % bounded(&n) != 0 => fault(7, n.place),
            None => Ok((bounded(&n), room / bounded(&n))),
        }
    }

    /// `VALUES` to `END VALUES`.
    fn values(&mut self, quantity: bool, row: &mut Row) -> Outcome<Block> {
        self.statement(b"VALUES")?;
        let first = self.lines.len();
        let mut block =
            Block { quantity, decimals: None, point: false, bare: true, range: None, least: i64::MAX, most: i64::MIN };
        self.repeats.start(first);
        self.notes()?;
        let figure = self.s.figure_due()?;
        self.s.gap()?;
        let mut lines_follow = true;
        if self.s.word(b"TO") {
            lines_follow = self.range(&mut block, figure)?;
            if lines_follow {
                self.notes()?;
                let figure = self.s.figure_due()?;
                self.line(&mut block, figure)?;
            }
        } else {
            self.line(&mut block, figure)?;
        }
        loop {
            self.notes()?;
            if self.s.word(b"END") {
                self.s.due(b"VALUES")?;
                break;
            }
            if !lines_follow {
                return fault(2, self.s.at);
            }
            let Some(figure) = self.s.figure() else { return fault(2, self.s.at) };
            self.line(&mut block, figure)?;
        }
        if let Some((from, to)) = block.range {
            row[column::RANGE] = 1;
            row[column::FROM] = from;
            row[column::TO] = to;
        }
        row[column::LINES] = (self.lines.len() - first) as i64;
        Ok(block)
    }

    /// From behind the TO of a range. Answers whether WITH stands behind it.
    fn range(&mut self, block: &mut Block, from: Figure) -> Outcome<bool> {
        let to = self.s.figure_due()?;
        self.s.gap()?;
        let with = self.s.word(b"WITH");
        if block.ill(&from) {
            return fault(6, from.place);
        }
        if block.ill(&to) || (block.quantity && from.decimals != to.decimals) || self.s.figure_above(&from, &to) {
            return fault(6, to.place);
        }
        if block.beyond(&from) {
            return fault(8, from.place);
        }
        if block.beyond(&to) {
            return fault(8, to.place);
        }
        self.places.note(from.place, from.end);
        self.places.note(to.place, to.end);
        block.range = Some((from.scaled(), to.scaled()));
        block.decimals = Some(from.decimals);
        block.point = from.point || to.point;
        block.bare = from.bare && to.bare;
        block.take(from.scaled());
        block.take(to.scaled());
        Ok(with)
    }

    /// From behind the value of a line.
    #[inline]
    fn line(&mut self, block: &mut Block, figure: Figure) -> Outcome<()> {
        let (place, length) = self.s.text()?;
        self.s.gap()?;
        let special = self.s.word(b"SPECIAL");
        if block.ill(&figure) || block.decimals.is_some_and(|d| d != figure.decimals) {
            return fault(6, figure.place);
        }
        if block.beyond(&figure) {
            return fault(8, figure.place);
        }
        let value = figure.scaled();
        if self.repeats.met(&self.lines, value) {
            return fault(6, figure.place);
        }
        if self.lines.len() == MAX_LINES {
            return fault(8, figure.place);
        }
        block.decimals = Some(figure.decimals);
        block.point |= figure.point;
        block.bare &= figure.bare;
        block.take(value);
        self.places.note(figure.place, figure.end);
        self.lines.push([value, special as i64, place as i64, length as i64]);
        Ok(())
    }
}

/// Tells a value that a line of the block already has. Values in rising or falling order cost nothing; a long block out
/// of order goes into a table of slots.
#[derive(Default)]
pub(crate) struct Repeats {
    first: usize,
    least: i64,
    most: i64,
    slots: Vec<(i64, u32)>,
    stamp: u32,
    hashed: bool,
}

const FEW: usize = 32;
const SLOTS: usize = 2 * MAX_LINES;

impl Repeats {
    pub(crate) fn start(&mut self, first: usize) {
        self.first = first;
        self.hashed = false;
    }

    /// Whether the value is on a line of the block. If not, it counts as met from now on.
    #[inline]
    pub(crate) fn met(&mut self, lines: &[Line], value: i64) -> bool {
        let block = &lines[self.first..];
        if block.is_empty() {
            self.least = value;
            self.most = value;
            return false;
        }
        let outside = value > self.most || value < self.least;
        self.least = self.least.min(value);
        self.most = self.most.max(value);
        if self.hashed {
            return !self.insert(value);
        }
        if outside {
            return false;
        }
        if block.len() <= FEW {
            return block.iter().any(|line| line[0] == value);
        }
        self.hash(block);
        !self.insert(value)
    }

    #[cold]
    fn hash(&mut self, block: &[Line]) {
        if self.slots.is_empty() {
            self.slots = vec![(0, 0); SLOTS];
        }
        self.stamp += 1;
        self.hashed = true;
        for line in block {
            self.insert(line[0]);
        }
    }

    /// Whether the value is new.
    fn insert(&mut self, value: i64) -> bool {
        let mut slot = ((value as u64).wrapping_mul(0x9e37_79b9_7f4a_7c15) >> 51) as usize;
        loop {
            let (v, stamp) = self.slots[slot];
            if stamp != self.stamp {
                self.slots[slot] = (value, self.stamp);
                return true;
            }
            if v == value {
                return false;
            }
            slot = (slot + 1) % SLOTS;
        }
    }
}

/// The rule of STANDARD NAMES: the first name that is ill-formed or agrees with one before it.
fn names(def: &[u8], rows: &[Row]) -> Outcome<()> {
    const PLACES: usize = 2 * MAX_VARIABLES;
    // A name's key is never 0.
    let mut met = [0u64; PLACES];
    for row in rows {
        let place = row[column::NAME] as usize;
        let length = row[column::NAME_LENGTH] as usize;
        let Some(key) = name_key(&def[place..place + length]) else { return fault(9, place - 1) };
        let mut slot = (key.wrapping_mul(0x9e37_79b9_7f4a_7c15) >> 54) as usize;
        while met[slot] != 0 {
            if met[slot] == key {
                return fault(9, place - 1);
            }
            slot = (slot + 1) % PLACES;
        }
        met[slot] = key;
    }
    Ok(())
}

/// The decoded name with case set aside, a byte after a byte, if it has 1 to 8 letters or digits and begins with a letter.
/// The text is one whose brace forms are good.
fn name_key(text: &[u8]) -> Option<u64> {
    let mut key = 0u64;
    let mut kept = text.iter().copied().filter(|&x| x >= 32);
    let mut take = |x: u8| {
        if key >> 56 != 0 || !x.is_ascii_alphanumeric() || (key == 0 && !x.is_ascii_alphabetic()) {
            return false;
        }
        key = key << 8 | (x | 0x20) as u64;
        true
    };
    while let Some(x) = kept.next() {
        if x != b'{' {
            if !take(x) {
                return None;
            }
            continue;
        }
        // Any form but hex pairs is no letter or digit.
        let mut pair = kept.next()?;
        while pair != b'}' {
            let high = (pair as char).to_digit(16)?;
            let low = (kept.next()? as char).to_digit(16)?;
            if !take((high * 16 + low) as u8) {
                return None;
            }
            pair = kept.next()?;
        }
    }
    (key != 0).then_some(key)
}
