//! Writing a clean definition: fixed order, one statement a line, no comments and notes. Reading notes where each number and text stands,
//! so that nothing is looked for a second time.

use crate::definition::{Heading, Places, read_whole};
use crate::scan::bits_of;
use crate::*;

/// Writes the definition anew. Answers 0, 0, the length; 1 to 9 with their place as reading a 1.1 definition does; 40 the table is not
/// the one that this definition yields, 41 the clean text passes 1,048,576 bytes, 42 output room too short.
pub fn write_definition(def: &[u8], table: &[i64], out: &mut [u8]) -> [i64; 4] {
    let read = match read_whole::<Numbers>(def) {
        Ok(read) => read,
        Err(fault) => return [fault.number.get() as i64, fault.place as i64, 0, 0],
    };
    if !read.yields(table) {
        return [40, 0, 0, 0];
    }
    // What stands in the definition is written once, but for a position's number that is written as both; each row and line adds words.
    let most = 2 * def.len() + WORDS * (read.rows.len() + 2) + WORDS_OF_LINE * read.lines.len();
    let mut writer = Writer { def, out: vec![0; most], at: 0, numbers: &read.places.0 };
    writer.heading(&read.heading);
    for row in &read.rows {
        let before = row[column::BEFORE] as usize;
        writer.variable(row, &read.lines[before..before + row[column::LINES] as usize]);
    }
    writer.put(b"END RECORD\r\nEND SURVEY\r\nEND SSS\r\n");
    let text = &writer.out[..writer.at];
    if text.len() > MAX_DEFINITION {
        return [41, 0, 0, 0];
    }
    let Some(room) = out.get_mut(..text.len()) else { return [42, 0, 0, 0] };
    room.copy_from_slice(text);
    [0, 0, text.len() as i64, 0]
}

/// More than the bytes that a row adds to those of its numbers and texts, and those that the heading adds; the same of a line.
const WORDS: usize = 256;
const WORDS_OF_LINE: usize = 32;

/// Where the variables' numbers stand; (0, 0) for one that was left out.
struct Numbers(Vec<(u32, u32)>);

impl Default for Numbers {
    fn default() -> Self {
        Numbers(Vec::with_capacity(256))
    }
}

impl Places for Numbers {
    #[inline]
    fn note(&mut self, from: usize, to: usize) {
        // A definition has at most 1,048,576 bytes.
        self.0.push((from as u32, to as u32));
    }
}

/// Writes a definition that was read.
struct Writer<'a> {
    def: &'a [u8],
    /// Room enough for all that is written, and where the next byte goes.
    out: Vec<u8>,
    at: usize,
    /// The numbers that are not written yet.
    numbers: &'a [(u32, u32)],
}

impl Writer<'_> {
    #[inline(always)]
    fn put<const N: usize>(&mut self, bytes: &[u8; N]) {
        self.out[self.at..self.at + N].copy_from_slice(bytes);
        self.at += N;
    }

    /// The kept bytes from one place of the definition to another. Sixteen are copied at a time; what is too much is written over.
    #[inline]
    fn kept(&mut self, from: usize, to: usize) {
        let length = to - from;
        let blocks = length.div_ceil(16);
        let source = self.def[from..].as_chunks::<16>().0.get(..blocks);
        let room = self.out[self.at..].as_chunks_mut::<16>().0.get_mut(..blocks);
        let (Some(source), Some(room)) = (source, room) else { return self.kept_singly(from, to) };
        let (mut low, mut last) = (0, 0);
        for (block, room) in source.iter().zip(room) {
            *room = *block;
            low |= last;
            last = bits_of(block, |x| x < 32);
        }
        // Of the last block only what is before `to` counts.
        low |= last & (u16::MAX >> (length.wrapping_neg() % 16));
        if low != 0 {
            return self.kept_singly(from, to);
        }
        self.at += length;
    }

    /// The same where some are dropped, or at the end of the definition.
    #[cold]
    #[inline(never)]
    fn kept_singly(&mut self, from: usize, to: usize) {
        for &x in self.def[from..to].iter().filter(|&&x| x >= 32) {
            self.out[self.at] = x;
            self.at += 1;
        }
    }

    /// A text of that place and length, behind a word.
    #[inline]
    fn text(&mut self, place: usize, length: usize) {
        self.put(b" \"");
        self.kept(place, place + length);
        self.put(b"\"\r\n");
    }

    /// Where the next number stands, without the dropped bytes behind it.
    #[inline]
    fn next(&mut self) -> (usize, usize) {
        let Some((&(from, to), rest)) = self.numbers.split_first() else { return (0, 0) };
        self.numbers = rest;
        let mut to = to as usize;
        while to > from as usize && self.def[to - 1] < 32 {
            to -= 1;
        }
        (from as usize, to)
    }

    /// Writes the next number, and answers where it stands.
    #[inline]
    fn number(&mut self) -> (usize, usize) {
        let (from, to) = self.next();
        self.kept(from, to);
        (from, to)
    }

    /// From `SSS` to `RECORD`: DATE, TIME, ORIGIN, USER, STANDARD NAMES in this order, whatever theirs was.
    fn heading(&mut self, heading: &Heading) {
        self.put(b"SSS\r\nVERSION 1.1\r\n");
        for (which, text) in heading.texts.iter().enumerate() {
            let &Some((place, length)) = text else { continue };
            match which {
                0 => self.put(b"DATE"),
                1 => self.put(b"TIME"),
                2 => self.put(b"ORIGIN"),
                _ => self.put(b"USER"),
            }
            self.text(place, length);
        }
        if heading.standard_names {
            self.put(b"STANDARD NAMES\r\n");
        }
        self.put(b"SURVEY\r\n");
        if let Some((place, length)) = heading.title {
            self.put(b"TITLE");
            self.text(place, length);
        }
        self.put(b"RECORD ");
        self.kept(heading.letter, heading.letter + 1);
        self.put(b"\r\n");
    }

    fn variable(&mut self, row: &Row, lines: &[Line]) {
        self.put(b"VARIABLE ");
        self.number();
        self.put(b"\r\nNAME");
        self.text(row[column::NAME] as usize, row[column::NAME_LENGTH] as usize);
        self.put(b"LABEL");
        self.text(row[column::LABEL] as usize, row[column::LABEL_LENGTH] as usize);
        let kind = row[column::TYPE];
        match kind {
            SINGLE => self.put(b"TYPE SINGLE\r\nPOSITION "),
            MULTIPLE => self.put(b"TYPE MULTIPLE\r\nPOSITION "),
            QUANTITY => self.put(b"TYPE QUANTITY\r\nPOSITION "),
            CHARACTER => self.put(b"TYPE CHARACTER\r\nPOSITION "),
            _ => self.put(b"TYPE LOGICAL\r\nPOSITION "),
        }
        let start = self.number();
        self.put(b" TO ");
        let (from, to) = Some(self.next()).filter(|&finish| finish != (0, 0)).unwrap_or(start);
        self.kept(from, to);
        self.put(b"\r\n");
        if row[column::SUBFIELDS] > 0 {
            self.spread(row);
        }
        if kind == CHARACTER {
            self.put(b"SIZE ");
            self.number();
            self.put(b"\r\n");
        } else if kind != LOGICAL {
            self.values(row, lines);
        }
        self.put(b"END VARIABLE\r\n");
    }

    fn spread(&mut self, row: &Row) {
        self.put(b"SPREAD ");
        self.number();
        self.put(b" OF ");
        match self.next() {
            (0, 0) => row[column::SUBWIDTH].to_string().bytes().for_each(|digit| self.put(&[digit])),
            (from, to) => self.kept(from, to),
        }
        self.put(b"\r\n");
    }

    fn values(&mut self, row: &Row, lines: &[Line]) {
        self.put(b"VALUES\r\n");
        if row[column::RANGE] == 1 {
            self.number();
            self.put(b" TO ");
            self.number();
            if !lines.is_empty() {
                self.put(b" WITH");
            }
            self.put(b"\r\n");
        }
        for &[_, special, place, length] in lines {
            let (place, end) = (place as usize, (place + length) as usize);
            let (from, to) = self.next();
            // Mostly number and text stand there as they are written.
            if to + 2 == place && self.def[to] == b' ' {
                self.kept(from, end + 1);
            } else {
                self.kept(from, to);
                self.put(b" \"");
                self.kept(place, end);
                self.put(b"\"");
            }
            if special == 1 {
                self.put(b" SPECIAL");
            }
            self.put(b"\r\n");
        }
        self.put(b"END VALUES\r\n");
    }
}
