//! A data file as it comes, in blocks that begin where a record does. In memory stand a block and what is left of the one before.
//!
//! A block knows the file's terminator: the library finds a record's end by the terminator that the first CR or LF of its data settles,
//! and in a block that could be a stray one. So three bytes stand in front of each block: the file's terminator, and spaces.

use crate::input::Input;
use crate::status::Failure;
use zarfolin::{Shape, calls};

/// The bytes in front of a block.
const FRONT: usize = 3;

/// What is read at a time.
pub const BLOCK: usize = 4 << 20;

/// A stretch of a data file that begins where a record does.
pub struct Block {
    room: Vec<u8>,
    /// Nothing of the feed follows.
    pub last: bool,
    /// The feed is a part of the file, and more of that follows.
    open: bool,
}

/// A record of a block.
#[derive(Clone, Copy, Debug, PartialEq, Eq)]
pub struct Cut {
    /// Where it starts and ends in the block.
    pub start: usize,
    pub end: usize,
    /// Where the next one starts.
    pub next: usize,
    /// Whether its terminator is there.
    pub ended: bool,
}

impl Block {
    pub fn new() -> Block {
        Block { room: vec![b' '; FRONT], last: false, open: false }
    }

    pub fn bytes(&self) -> &[u8] {
        &self.room[FRONT..]
    }

    pub fn bytes_mut(&mut self) -> &mut [u8] {
        &mut self.room[FRONT..]
    }

    pub fn len(&self) -> usize {
        self.room.len() - FRONT
    }

    /// Whether the file ends where the block does: then a record that has no end there has none at all.
    pub fn ends_file(&self) -> bool {
        self.last && !self.open
    }

    /// Forgets all bytes from a place on.
    fn truncate(&mut self, length: usize) {
        self.room.truncate(FRONT + length);
    }

    /// Forgets the bytes before a place.
    pub fn done_with(&mut self, place: usize) {
        self.room.drain(FRONT..FRONT + place);
    }

    fn push(&mut self, bytes: &[u8]) {
        self.room.extend_from_slice(bytes);
    }

    /// Puts the block that follows in the file behind this one.
    pub fn append(&mut self, next: &Block) {
        self.push(next.bytes());
        (self.last, self.open) = (next.last, next.open);
    }

    /// Reads so many bytes more, or to the end.
    fn read(&mut self, input: &mut Input, count: usize) -> Result<(), Failure> {
        let held = self.room.len();
        self.room.resize(held + count, 0);
        let got = input.fill(&mut self.room[held..])?;
        self.room.truncate(held + got);
        self.last = got < count;
        Ok(())
    }

    /// The record that starts at a place, by the file's terminator: the library's cut.
    pub fn cut(&self, at: usize) -> Option<Cut> {
        let cut = calls::next_record(&self.room, FRONT + at)?;
        Some(Cut { start: cut.start - FRONT, end: cut.end - FRONT, next: cut.next - FRONT, ended: cut.ended })
    }

    /// Puts the file's terminator in front.
    fn settle(&mut self, shape: Shape) {
        self.room[..FRONT].fill(b' ');
        let bytes = shape.terminator.bytes();
        self.room[..bytes.len()].copy_from_slice(bytes);
    }
}

/// A data file that is read block by block.
pub struct Feed {
    input: Input,
    /// How it is cut; none where it has neither CR nor LF.
    pub shape: Option<Shape>,
    /// What was read to find that, and is not given out yet.
    ahead: Block,
    /// The bytes of a block: whole records, where they have one length.
    size: usize,
    /// It is a part of a file, and more of that follows.
    open: bool,
}

impl Feed {
    /// Reads as far as the first record's end.
    pub fn new(mut input: Input, block: usize) -> Result<Feed, Failure> {
        let mut ahead = Block::new();
        ahead.read(&mut input, block)?;
        loop {
            let shape = Shape::of(ahead.bytes());
            // A lone CR or LF at the end of what is read may be half of a pair.
            let certain = shape.filter(|s| ahead.last || s.terminator.bytes().len() == 2 || s.stride() < ahead.len());
            if certain.is_some() || ahead.last {
                return Ok(Feed::of(input, certain, ahead, block));
            }
            let more = ahead.len();
            ahead.read(&mut input, more)?;
        }
    }

    /// A file of which the shape is known, from where the input stands to the input's end; `open` where more of the file follows.
    pub fn from_here(input: Input, shape: Shape, block: usize, open: bool) -> Feed {
        Feed { open, ..Feed::of(input, Some(shape), Block::new(), block) }
    }

    fn of(input: Input, shape: Option<Shape>, ahead: Block, block: usize) -> Feed {
        let size = shape.map_or(block, |shape| block.div_ceil(shape.stride()) * shape.stride());
        Feed { input, shape, ahead, size, open: false }
    }

    pub fn input(&self) -> &Input {
        &self.input
    }

    /// Fills a block that holds nothing, or has yet to be done with, with as much again.
    pub fn fill(&mut self, block: &mut Block) -> Result<(), Failure> {
        // With no end of a record in sight, all that was read is one block.
        let want = if self.shape.is_some() { self.size.max(block.len()) } else { self.ahead.len() };
        let from_ahead = want.min(self.ahead.len());
        block.push(&self.ahead.bytes()[..from_ahead]);
        self.ahead.done_with(from_ahead);
        if self.ahead.len() > 0 {
            block.last = false;
        } else if self.ahead.last {
            block.last = true;
        } else {
            block.read(&mut self.input, want - from_ahead)?;
        }
        block.open = self.open;
        if let Some(shape) = self.shape {
            block.settle(shape);
        }
        Ok(())
    }

    /// A block for `fill`, its memory taken from one that is done with.
    pub fn clear(block: &mut Block) {
        block.truncate(0);
        block.last = false;
    }
}

#[cfg(test)]
mod tests {
    use super::*;
    use zarfolin::Terminator;

    fn block(shape: Shape, bytes: &[u8]) -> Block {
        let mut block = Block::new();
        block.push(bytes);
        block.settle(shape);
        block
    }

    /// Where a stray CR or LF comes before the file's terminator, or adjoins it, the library must still cut by the latter.
    #[test]
    fn a_stray_line_end_settles_nothing() {
        let ends = |terminator, bytes: &[u8]| {
            let cut = block(Shape { terminator, first: 2 }, bytes).cut(0).unwrap();
            (cut.start, cut.end, cut.next, cut.ended)
        };
        assert_eq!(ends(Terminator::CrLf, b"a\nb\r\nc\r\n"), (0, 3, 5, true));
        assert_eq!(ends(Terminator::Cr, b"\na\rb"), (0, 2, 3, true));
        assert_eq!(ends(Terminator::Lf, b"\ra\nb"), (0, 2, 3, true));
        assert_eq!(ends(Terminator::LfCr, b"a\r\n\r"), (0, 2, 4, true));
        assert_eq!(ends(Terminator::CrLf, b"ab\r"), (0, 3, 3, false));
    }
}
