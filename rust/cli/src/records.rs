//! The records of a data file one after the other, sound or not, each cut by the library: for those who change or compare them.

use crate::feed::{Block, Cut, Feed};
use crate::input::Input;
use crate::progress::Progress;
use crate::status::Failure;
use zarfolin::Shape;

/// A data file, record by record. In memory stands a block.
pub struct Records {
    feed: Feed,
    block: Block,
    at: usize,
    count: u64,
    /// The bytes before the block.
    before: u64,
    progress: Option<Progress>,
}

/// A record, with the bytes that end it.
pub struct Record<'a> {
    /// From 1.
    pub number: u64,
    whole: &'a mut [u8],
    length: usize,
}

impl Record<'_> {
    pub fn bytes(&self) -> &[u8] {
        &self.whole[..self.length]
    }

    pub fn bytes_mut(&mut self) -> &mut [u8] {
        &mut self.whole[..self.length]
    }

    /// With its terminator, where that is there.
    pub fn whole(&self) -> &[u8] {
        self.whole
    }
}

impl Records {
    pub fn new(input: Input, block: usize) -> Result<Records, Failure> {
        Ok(Records { feed: Feed::new(input, block)?, block: Block::new(), at: 0, count: 0, before: 0, progress: None })
    }

    /// Tells how far it has come, for those who print nothing meanwhile.
    pub fn telling(self) -> Records {
        let progress = Some(Progress::new(self.input().size));
        Records { progress, ..self }
    }

    pub fn shape(&self) -> Option<Shape> {
        self.feed.shape
    }

    pub fn input(&self) -> &Input {
        self.feed.input()
    }

    /// The next record, or nothing at the end.
    pub fn next(&mut self) -> Result<Option<Record<'_>>, Failure> {
        let Some(cut) = self.cut()? else { return Ok(None) };
        self.at = cut.next;
        self.count += 1;
        let whole = &mut self.block.bytes_mut()[cut.start..cut.next];
        Ok(Some(Record { number: self.count, whole, length: cut.end - cut.start }))
    }

    /// Reads on where the block ends within a record, and more follows.
    fn cut(&mut self) -> Result<Option<Cut>, Failure> {
        loop {
            let cut = self.block.cut(self.at);
            if self.block.last || cut.is_some_and(|cut| cut.ended) {
                return Ok(cut);
            }
            self.block.done_with(self.at);
            self.before += self.at as u64;
            self.at = 0;
            if let Some(progress) = &mut self.progress {
                progress.tell(self.count, self.before);
            }
            self.feed.fill(&mut self.block)?;
        }
    }
}
