//! Data files: the next record, and the judgement of a whole file.

use crate::field::fault;
use crate::ready::{Column, all_legal};
use crate::scan::{find, find_low, lanes};
use crate::table::{Table, view};

/// The next record of a file.
#[derive(Clone, Copy, Debug, PartialEq, Eq)]
pub enum NextRecord {
    /// At or past the end of the data.
    None,
    /// A record with its terminator.
    Ended { start: usize, end: usize, next: usize },
    /// The last record, without one.
    NotEnded { start: usize, end: usize },
}

/// What judging a file answers. `number` 0: `record` is the count of records. Otherwise `record` counts from 1 (0 for 20),
/// `row` is the row of 241 to 243, and `place` the byte of 23, 241 and 243 in its record, or the number of 242.
#[derive(Clone, Copy, Debug, PartialEq, Eq)]
pub struct FileJudgement {
    pub number: u32,
    pub record: usize,
    pub row: usize,
    pub place: i64,
}

impl FileJudgement {
    /// The four numbers that a call answers with.
    pub fn numbers(self) -> [i64; 4] {
        [self.number as i64, self.record as i64, self.row as i64, self.place]
    }
}

/// The file's terminator: the first CR or LF, with the other one where it adjoins. By their numbers in the calls.
#[derive(Clone, Copy, PartialEq, Eq)]
pub(crate) enum Terminator {
    CrLf = 1,
    LfCr = 2,
    Cr = 3,
    Lf = 4,
}

impl Terminator {
    pub fn numbered(number: u64) -> Option<Terminator> {
        [Terminator::CrLf, Terminator::LfCr, Terminator::Cr, Terminator::Lf].into_iter().find(|t| *t as u64 == number)
    }

    /// Its bytes.
    #[inline]
    pub fn bytes(self) -> &'static [u8] {
        match self {
            Terminator::CrLf => b"\r\n",
            Terminator::LfCr => b"\n\r",
            Terminator::Cr => b"\r",
            Terminator::Lf => b"\n",
        }
    }

    /// The boundary that starts at this CR or LF.
    #[inline]
    pub fn boundary(data: &[u8], at: usize) -> Terminator {
        let next = data.get(at + 1);
        match data[at] {
            b'\r' if next == Some(&b'\n') => Terminator::CrLf,
            b'\r' => Terminator::Cr,
            _ if next == Some(&b'\r') => Terminator::LfCr,
            _ => Terminator::Lf,
        }
    }

    /// The first CR or LF from `from` on, and the boundary that it starts.
    pub fn of(data: &[u8], from: usize) -> Option<(usize, Terminator)> {
        let at = find(data, from, |v| lanes::equal(v, b'\r') | lanes::equal(v, b'\n'));
        (at < data.len()).then(|| (at, Terminator::boundary(data, at)))
    }

    #[inline]
    pub fn length(self) -> usize {
        1 + (self as usize <= Terminator::LfCr as usize) as usize
    }

    #[inline]
    fn at(self, data: &[u8], place: usize) -> bool {
        let bytes = self.bytes();
        data[place] == bytes[0] && (bytes.len() == 1 || data.get(place + 1) == bytes.get(1))
    }

    /// The first full terminator from `from` on.
    fn next(self, data: &[u8], from: usize) -> Option<usize> {
        let mut place = from;
        loop {
            place = find(data, place, |v| lanes::equal(v, self.bytes()[0]));
            if place >= data.len() {
                return None;
            }
            if self.at(data, place) {
                return Some(place);
            }
            place += 1;
        }
    }
}

/// The record that starts at `from`, cut at the next full terminator of the file.
pub fn next_record(data: &[u8], from: u64) -> NextRecord {
    if from >= data.len() as u64 {
        return NextRecord::None;
    }
    let start = from as usize;
    match Terminator::of(data, 0).and_then(|(_, t)| Some((t.next(data, start)?, t))) {
        Some((end, t)) => NextRecord::Ended { start, end, next: end + t.length() },
        None => NextRecord::NotEnded { start, end: data.len() },
    }
}

/// Judges a file: 20, then record by record 30, 31, 22, 23, 241 to 243.
pub fn judge_file(table: &[i64], data: &[u8]) -> FileJudgement {
    match view(table) {
        Some(t) => judge_whole(&t, data),
        None => FileJudgement { number: 20, record: 0, row: 0, place: 0 },
    }
}

/// Judges a file under a table that was tested.
pub(crate) fn judge_whole(t: &Table, data: &[u8]) -> FileJudgement {
    let columns = Column::all(t);
    judge_whole_by(t, data, |record| all_legal(&columns, record))
}

/// Why a file is judged no further.
pub(crate) enum Stop {
    /// The lowest row whose field is illegal.
    Illegal(usize),
    /// There is no room for what is made of the records.
    Room,
}

/// Judges a file by what tells whether the rows of a record are legal that is long enough and has no byte below 32; what it is given
/// goes on behind the record's end. The judgement is 60 where that finds no room.
pub(crate) fn judge_whole_by(t: &Table, data: &[u8], rows: impl FnMut(&[u8]) -> Result<(), Stop>) -> FileJudgement {
    if data.is_empty() {
        return FileJudgement { number: 0, record: 0, row: 0, place: 0 };
    }
    match Terminator::of(data, 0) {
        Some((first_end, terminator)) => judge_records(t, data, terminator, first_end as u64, true, rows),
        None => FileJudgement { number: 30, record: 1, row: 0, place: 0 },
    }
}

/// Judges a part of a file that begins at a record's start: 20, 29 for a terminator other than 1 CR LF, 2 LF CR, 3 CR, 4 LF, then
/// as `judge_file`, with the records counted in the part. `first` is the length of the file's first record. A record at the end
/// that has no terminator is left alone where `last` is 0, else it is 30.
pub fn judge_part(table: &[i64], data: &[u8], terminator: u64, first: u64, last: u64) -> [i64; 4] {
    let Some(t) = view(table) else { return [20, 0, 0, 0] };
    let Some(terminator) = Terminator::numbered(terminator) else { return [29, 0, 0, 0] };
    let columns = Column::all(&t);
    judge_records(&t, data, terminator, first, last != 0, |record| all_legal(&columns, record)).numbers()
}

/// Judges records of this length, cut at this terminator. What has none at the end is 30 if it is the file's last.
#[inline]
fn judge_records(
    t: &Table,
    data: &[u8],
    terminator: Terminator,
    length: u64,
    last: bool,
    mut rows: impl FnMut(&[u8]) -> Result<(), Stop>,
) -> FileJudgement {
    let refused = |number, record, row, place| FileJudgement { number, record, row, place };
    let mut start = 0;
    let mut count = 0;
    while start < data.len() {
        count += 1;
        // The first byte below 32 is the record's end, or a byte that mustn't be there.
        let mut low = None;
        let mut place = find_low(data, start);
        if place < data.len() && !terminator.at(data, place) {
            low = Some(place - start);
            place = terminator.next(data, place + 1).unwrap_or(data.len());
        }
        if place == data.len() {
            return if last { refused(30, count, 0, 0) } else { refused(0, count - 1, 0, 0) };
        }
        let record = &data[start..place];
        if record.len() as u64 != length {
            return refused(31, count, 0, 0);
        }
        if record.len() < t.least {
            return refused(22, count, 0, 0);
        }
        if let Some(place) = low {
            return refused(23, count, 0, place as i64);
        }
        match rows(&data[start..]) {
            Ok(()) => {}
            Err(Stop::Illegal(row)) => {
                let fault = fault(&t.rows[row], t.lines_of(&t.rows[row]), record);
                return refused(fault.number, count, row, fault.beside);
            }
            Err(Stop::Room) => return refused(60, count, 0, 0),
        }
        start = place + terminator.length();
    }
    refused(0, count, 0, 0)
}
