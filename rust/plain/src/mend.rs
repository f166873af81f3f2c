//! Mending a damaged data file: one terminator, one length, no byte below 32.

use crate::file::Terminator;
use crate::scan::Lows;
use crate::table::view;

/// What is wrong at a place, as the list names it.
const DROPPED: i64 = 1;
const BYTE: i64 = 2;
const PAD: i64 = 3;
const TERMINATOR: i64 = 4;

/// A piece of a file: the bytes up to a boundary or the end, and that boundary.
struct Piece {
    start: usize,
    end: usize,
    boundary: Option<Terminator>,
    /// How many bytes below 32 are in the pieces up to this one.
    lows: usize,
}

/// What one look at a file finds.
#[derive(Default)]
struct Survey {
    pieces: Vec<Piece>,
    /// The bytes below 32 that are in no boundary.
    lows: Vec<usize>,
    /// The pieces that are not empty, the longest of them, and how many are as long.
    kept: usize,
    longest: usize,
    longest_ones: usize,
    /// The first boundary.
    first: Option<Terminator>,
    /// The changes but for the padding.
    entries: usize,
}

impl Survey {
    /// Looks at a file; None as soon as it has more than `most` changes.
    fn of(data: &[u8], most: usize) -> Option<Survey> {
        let mut survey = Survey::default();
        let mut lows = Lows::new(data, 0);
        let mut start = 0;
        loop {
            let place = lows.next();
            let boundary = match data.get(place) {
                None if start >= data.len() => return Some(survey),
                None => None,
                // The second byte of a boundary.
                Some(_) if place < start => continue,
                Some(b'\r' | b'\n') => Some(Terminator::boundary(data, place)),
                Some(_) => {
                    survey.lows.push(place);
                    survey.entries += 1;
                    if survey.entries > most {
                        return None;
                    }
                    continue;
                }
            };
            survey.add(Piece { start, end: place, boundary, lows: survey.lows.len() });
            start = place + boundary.map_or(0, Terminator::length);
            if survey.entries > most {
                return None;
            }
        }
    }

    #[inline]
    fn add(&mut self, piece: Piece) {
        self.first = self.first.or(piece.boundary);
        let length = piece.end - piece.start;
        if length == 0 {
            self.entries += 1;
        } else {
            self.kept += 1;
            if length > self.longest {
                (self.longest, self.longest_ones) = (length, 0);
            }
            self.longest_ones += (length == self.longest) as usize;
            self.entries += (piece.boundary.is_none() || piece.boundary != self.first) as usize;
        }
        self.pieces.push(piece);
    }
}

/// Mends a data file: every kept record padded to the longest and at least to L, bytes below 32 as spaces, the first terminator met
/// behind each. The list gets three numbers a change: its kind (1 dropped, 2 byte, 3 pad, 4 terminator), the record in the input from
/// 1, the byte place in the input. Answers 0, the bytes, the changes; 20; 70 output or list too short.
pub fn mend(table: &[i64], data: &[u8], out: &mut [u8], list: &mut [i64]) -> [i64; 4] {
    let Some(t) = view(table) else { return [20, 0, 0, 0] };
    let Some(survey) = Survey::of(data, list.len() / 3) else { return [70, 0, 0, 0] };
    let width = survey.longest.max(t.least);
    let padded = survey.kept - if width == survey.longest { survey.longest_ones } else { 0 };
    let entries = survey.entries + padded;
    let terminator = survey.first.unwrap_or(Terminator::CrLf);
    let total = survey.kept as u128 * (width as u128 + terminator.length() as u128);
    if (out.len() as u128) < total || (list.len() as u128) < 3 * entries as u128 {
        return [70, 0, 0, 0];
    }
    if entries == 0 {
        out[..data.len()].copy_from_slice(data);
    } else {
        rewrite(&survey, data, width, terminator, out, list.as_chunks_mut().0);
    }
    [0, total as i64, entries as i64, 0]
}

/// Writes the records and the list of changes, for both of which there is room.
fn rewrite(survey: &Survey, data: &[u8], width: usize, terminator: Terminator, out: &mut [u8], list: &mut [[i64; 3]]) {
    let mut list = list.iter_mut();
    let mut note = |kind: i64, record: usize, place: usize| {
        if let Some(entry) = list.next() {
            *entry = [kind, record as i64, place as i64];
        }
    };
    let mut records = out.chunks_exact_mut(width + terminator.length());
    let mut before = 0;
    for (i, piece) in survey.pieces.iter().enumerate() {
        let length = piece.end - piece.start;
        if length == 0 {
            note(DROPPED, i + 1, piece.end);
            continue;
        }
        let Some(record) = records.next() else { return };
        record[..length].copy_from_slice(&data[piece.start..piece.end]);
        for &low in &survey.lows[before..piece.lows] {
            record[low - piece.start] = b' ';
            note(BYTE, i + 1, low);
        }
        before = piece.lows;
        if length < width {
            record[length..width].fill(b' ');
            note(PAD, i + 1, piece.end);
        }
        record[width..].copy_from_slice(terminator.bytes());
        if piece.boundary != Some(terminator) {
            note(TERMINATOR, i + 1, piece.end);
        }
    }
}
