//! A data file judged in parts: block by block as it comes, or its parts apart, on as many threads as there are.

use crate::calls;
use crate::survey::Definition;
use crate::table::terminator;
use crate::{FileFault, Number};

/// What ends each record of a file.
#[derive(Clone, Copy, Debug, PartialEq, Eq)]
pub enum Terminator {
    /// CR LF
    CrLf,
    /// LF CR
    LfCr,
    /// CR
    Cr,
    /// LF
    Lf,
}

impl Terminator {
    /// Its number, as [`calls::judge_part`] takes it.
    pub const fn number(self) -> Number {
        match self {
            Terminator::CrLf => terminator::CR_LF,
            Terminator::LfCr => terminator::LF_CR,
            Terminator::Cr => terminator::CR,
            Terminator::Lf => terminator::LF,
        }
    }

    /// Its bytes.
    pub const fn bytes(self) -> &'static [u8] {
        match self {
            Terminator::CrLf => b"\r\n",
            Terminator::LfCr => b"\n\r",
            Terminator::Cr => b"\r",
            Terminator::Lf => b"\n",
        }
    }
}

/// How a file is cut: its terminator, and the length of its first record.
///
/// ```
/// use zarfolin::{Shape, Terminator};
/// let shape = Shape::of(b" 7\r\n 8\r\n").unwrap();
/// assert_eq!((shape.terminator, shape.first), (Terminator::CrLf, 2));
/// assert_eq!(Shape::of(b" 7"), None);
/// ```
#[derive(Clone, Copy, Debug, PartialEq, Eq)]
pub struct Shape {
    /// What ends each record.
    pub terminator: Terminator,
    /// The bytes of the first record, without its terminator.
    pub first: usize,
}

impl Shape {
    /// That of a file, by its first CR or LF; none where it has neither.
    pub fn of(data: &[u8]) -> Option<Shape> {
        let cut = calls::next_record(data, 0).filter(|cut| cut.ended)?;
        let terminator = match data[cut.end..cut.next] {
            [b'\r', _] => Terminator::CrLf,
            [b'\n', _] => Terminator::LfCr,
            [b'\r'] => Terminator::Cr,
            _ => Terminator::Lf,
        };
        Some(Shape { terminator, first: cut.end })
    }

    /// The bytes of a sound record with its terminator.
    pub const fn stride(self) -> usize {
        self.first + self.terminator.bytes().len()
    }
}

/// A part judged behind so many records: its count, or its fault counted on.
fn judge(definition: &Definition, shape: Shape, data: &[u8], last: bool, before: u64) -> Result<u64, FileFault> {
    let Shape { terminator, first } = shape;
    calls::judge_part(definition.table(), data, terminator.number(), first as u64, last as u64)
        .map_err(|fault| behind(fault, before))
}

/// A fault of a part that stands behind so many records, counted in the file.
fn behind(fault: FileFault, before: u64) -> FileFault {
    FileFault { record: if fault.record == 0 { 0 } else { before + fault.record }, ..fault }
}

/// A data file that is judged as it comes: nothing of it is kept but a count. [`Definition::blocks`] makes one.
///
/// ```
/// # let text = std::fs::read("../../examples/counter/survey.sss").unwrap();
/// # let definition = zarfolin::Definition::read(&text).unwrap();
/// use std::io::Read;
/// let mut file = std::fs::File::open("../../examples/counter/survey.asc").unwrap();
/// let mut blocks = definition.blocks();
/// let (mut room, mut held) = (vec![0; 64], 0);
/// let count = loop {
///     if held == room.len() {
///         room.resize(2 * held, 0); // no record ends in so much
///     }
///     let got = file.read(&mut room[held..]).unwrap();
///     held += got;
///     if got == 0 {
///         break blocks.end(&room[..held]);
///     }
///     let done = match blocks.block(&room[..held]) {
///         Ok(done) => done,
///         Err(fault) => break Err(fault),
///     };
///     room.copy_within(done..held, 0);
///     held -= done;
/// };
/// assert_eq!(count, Ok(4));
/// ```
#[derive(Clone)]
pub struct Blocks<'a> {
    definition: &'a Definition<'a>,
    /// Once the file's first record has ended, and what stands behind it tells its terminator.
    shape: Option<Shape>,
    count: u64,
}

impl Blocks<'_> {
    /// Judges the records that end in this block. Answers how many of its bytes are done with: what is left begins the next block,
    /// and where nothing is done with, more is to be read behind it.
    pub fn block(&mut self, data: &[u8]) -> Result<usize, FileFault> {
        if self.shape.is_none() {
            // A lone CR or LF at the end of the block may be half of a pair.
            self.shape =
                Shape::of(data).filter(|shape| shape.terminator.bytes().len() == 2 || shape.stride() < data.len());
        }
        let Some(shape) = self.shape else { return Ok(0) };
        let count = judge(self.definition, shape, data, false, self.count)?;
        self.count += count;
        Ok(count as usize * shape.stride())
    }

    /// Judges what is left of the file: the count of all its records, or its first fault.
    pub fn end(self, data: &[u8]) -> Result<u64, FileFault> {
        match self.shape {
            Some(shape) => Ok(self.count + judge(self.definition, shape, data, true, self.count)?),
            // Nothing of it was done with.
            None => calls::judge_file(self.definition.table(), data),
        }
    }

    /// The records judged so far.
    pub fn count(&self) -> u64 {
        self.count
    }
}

/// A data file cut into parts that can be judged apart. [`Definition::parts`] makes them.
///
/// ```
/// # let text = std::fs::read("../../examples/counter/survey.sss").unwrap();
/// # let definition = zarfolin::Definition::read(&text).unwrap();
/// # let data = std::fs::read("../../examples/counter/survey.asc").unwrap();
/// let parts = definition.parts(&data, 2);
/// let answers: Vec<_> = std::thread::scope(|scope| {
///     let parts = &parts;
///     let threads: Vec<_> = (0..parts.len()).map(|part| scope.spawn(move || parts.judge(part))).collect();
///     threads.into_iter().map(|thread| thread.join().unwrap()).collect()
/// });
/// assert_eq!(parts.whole(&answers), definition.judge(&data));
/// ```
#[derive(Clone)]
pub struct Parts<'a> {
    definition: &'a Definition<'a>,
    data: &'a [u8],
    shape: Option<Shape>,
    /// The bytes of each part but the last: whole records, if those of the file have one length.
    size: usize,
}

impl Parts<'_> {
    /// How many parts there are: at most as many as were asked for, and one at least.
    pub fn len(&self) -> usize {
        self.data.len().div_ceil(self.size).max(1)
    }

    /// Never: an empty file is one part.
    pub fn is_empty(&self) -> bool {
        false
    }

    /// Judges one part by itself: the records that end in it, or its fault, counted in the part.
    pub fn judge(&self, part: usize) -> Result<u64, FileFault> {
        let from = self.start(part);
        let to = self.start(part + 1);
        match self.shape {
            Some(shape) => judge(self.definition, shape, &self.data[from..to], to == self.data.len(), 0),
            None => calls::judge_file(self.definition.table(), &self.data[from..to]),
        }
    }

    /// The file's own answer, from those of its parts in their order: the count of its records, or its first fault. A part that is
    /// missing at the end is judged here, and so is the rest of the file where a record goes on beyond its part.
    pub fn whole(&self, answers: &[Result<u64, FileFault>]) -> Result<u64, FileFault> {
        let mut before = 0;
        for part in 0..self.len() {
            let answer = answers.get(part).copied().unwrap_or_else(|| self.judge(part));
            let count = answer.map_err(|fault| behind(fault, before))?;
            before += count;
            let Some(shape) = self.shape else { continue };
            // The next part was judged as one that begins where this one left off.
            let left_off = self.start(part) + count as usize * shape.stride();
            if left_off != self.start(part + 1) {
                return Ok(before + judge(self.definition, shape, &self.data[left_off..], true, before)?);
            }
        }
        Ok(before)
    }

    fn start(&self, part: usize) -> usize {
        part.saturating_mul(self.size).min(self.data.len())
    }
}

impl<'t> Definition<'t> {
    /// A data file to be judged as it comes, block by block: for one that doesn't fit in memory.
    pub fn blocks(&self) -> Blocks<'_> {
        Blocks { definition: self, shape: None, count: 0 }
    }

    /// A data file as so many parts, or fewer, that can be judged apart, on threads of their own.
    pub fn parts<'a>(&'a self, data: &'a [u8], count: usize) -> Parts<'a> {
        let shape = Shape::of(data);
        let size = match shape {
            Some(shape) => data.len().div_ceil(shape.stride()).div_ceil(count.max(1)) * shape.stride(),
            None => data.len().max(1),
        };
        Parts { definition: self, data, shape, size }
    }
}
