//! A data file judged from its first byte to its last, in blocks, on one thread or several. However many there are, what is found is
//! what one thread finds: a block that was judged apart counts only where the block before left off just where it begins.

use crate::faults::Fault;
use crate::feed::{Block, Feed};
use crate::judge::{Asked, Judged, judge, judge_unshaped};
use crate::progress::Progress;
use crate::status::Failure;
use std::collections::BTreeMap;
use std::panic::{AssertUnwindSafe, catch_unwind};
use std::sync::Mutex;
use std::sync::mpsc::{Receiver, Sender, channel};
use std::thread;
use zarfolin::{Definition, Shape};

/// Of a whole file.
#[derive(Clone, Copy, Debug, Default, PartialEq, Eq)]
pub struct Count {
    pub records: u64,
    pub faulty: u64,
    pub faults: u64,
    /// The bytes that were done with.
    pub bytes: u64,
}

/// Where the faults go, in their order. It answers whether to go on.
pub type Told<'a> = dyn FnMut(Fault) -> Result<bool, Failure> + 'a;

/// Judges all that a feed gives.
pub struct Scan<'a> {
    pub definition: &'a Definition<'a>,
    pub asked: Asked,
    pub jobs: usize,
    pub progress: Progress,
}

impl Scan<'_> {
    /// Counts on from what stands before the feed.
    pub fn run(&mut self, feed: Feed, mut count: Count, told: &mut Told) -> Result<Count, Failure> {
        match feed.shape {
            Some(shape) if self.jobs > 1 => self.on_threads(feed, shape, &mut count, told)?,
            _ => self.on_one(feed, Block::new(), &mut count, told)?,
        }
        Ok(count)
    }

    /// Takes what came of a block into the count. Answers whether to go on.
    fn take(&mut self, judged: Judged, count: &mut Count, told: &mut Told) -> Result<bool, Failure> {
        let mut before = None;
        for mut fault in judged.faults {
            fault.record += count.records;
            count.faulty += u64::from(before != Some(fault.record));
            count.faults += 1;
            before = Some(fault.record);
            if !told(fault)? || self.asked == Asked::First {
                return Ok(false);
            }
        }
        count.records += judged.records;
        count.bytes += judged.done as u64;
        self.progress.tell(count.records, count.bytes);
        Ok(true)
    }

    /// Block after block; what one leaves begins the next.
    fn on_one(&mut self, mut feed: Feed, mut block: Block, count: &mut Count, told: &mut Told) -> Result<(), Failure> {
        while !block.last {
            feed.fill(&mut block)?;
            let judged = match feed.shape {
                Some(shape) => judge(self.definition, shape, &block, self.asked)?,
                None => judge_unshaped(self.definition, &block, self.asked)?,
            };
            block.done_with(judged.done);
            if !self.take(judged, count, told)? {
                return Ok(());
            }
        }
        Ok(())
    }

    fn on_threads(&mut self, feed: Feed, shape: Shape, count: &mut Count, told: &mut Told) -> Result<(), Failure> {
        let (definition, asked, jobs) = (self.definition, self.asked, self.jobs);
        let (give, take) = channel();
        let take = Mutex::new(take);
        thread::scope(|scope| {
            let (results, from_threads) = channel();
            for _ in 0..jobs {
                let (take, results) = (&take, results.clone());
                scope.spawn(move || judge_all(definition, shape, asked, take, &results));
            }
            drop(results);
            // When the merge ends, however it ends, nothing more is given, and the threads end.
            self.merge(feed, shape, Work { give, given: 0, all_given: false }, &from_threads, count, told)
        })
    }

    /// Reads the blocks, hands them out, and takes what came of them in their order.
    fn merge(
        &mut self,
        mut feed: Feed,
        shape: Shape,
        mut work: Work,
        results: &Receiver<Done>,
        count: &mut Count,
        told: &mut Told,
    ) -> Result<(), Failure> {
        let mut taken = 0;
        let mut waiting = BTreeMap::new();
        // Some blocks more than threads, so that none waits for the reading; and no more, so that memory has a bound.
        let mut spare: Vec<Block> = (0..self.jobs + 2).map(|_| Block::new()).collect();
        // What the last block left: from then on the blocks begin elsewhere than they were judged from.
        let mut left: Option<Block> = None;
        while taken < work.given || !work.all_given {
            work.give_all(&mut feed, &mut spare)?;
            let (block, judged) = next_of(&mut waiting, results, taken)?;
            taken += 1;
            let (judged, block) = match left.take() {
                None => (judged?, block),
                Some(mut rest) => {
                    rest.append(&block);
                    spare.push(block);
                    (judge(self.definition, shape, &rest, self.asked)?, rest)
                }
            };
            let done = judged.done;
            let go_on = self.take(judged, count, told)?;
            left = self.leave(block, done, &mut spare);
            if !go_on {
                return Ok(());
            }
        }
        Ok(())
    }

    /// A block that is done with can be filled again; what is left of another goes before the next one.
    fn leave(&self, mut block: Block, done: usize, spare: &mut Vec<Block>) -> Option<Block> {
        if done < block.len() {
            block.done_with(done);
            return Some(block);
        }
        if spare.len() < self.jobs + 2 {
            spare.push(block);
        }
        None
    }
}

type Done = (u64, Block, Result<Judged, Failure>);

/// What came of the block of this number, once it is there.
fn next_of(
    waiting: &mut BTreeMap<u64, (Block, Result<Judged, Failure>)>,
    results: &Receiver<Done>,
    number: u64,
) -> Result<(Block, Result<Judged, Failure>), Failure> {
    loop {
        if let Some(done) = waiting.remove(&number) {
            return Ok(done);
        }
        let (number, block, judged) =
            results.recv().map_err(|_| Failure::Library("a thread ended before its work".into()))?;
        waiting.insert(number, (block, judged));
    }
}

/// Hands out blocks to be judged, in the order of the file.
struct Work {
    give: Sender<(u64, Block)>,
    given: u64,
    all_given: bool,
}

impl Work {
    /// Fills the blocks that are to spare and hands them out, as far as the file goes.
    fn give_all(&mut self, feed: &mut Feed, spare: &mut Vec<Block>) -> Result<(), Failure> {
        while let (false, Some(mut block)) = (self.all_given, spare.pop()) {
            Feed::clear(&mut block);
            feed.fill(&mut block)?;
            self.all_given = block.last;
            // It fails only where every thread has ended, which `next_of` then tells.
            let _ = self.give.send((self.given, block));
            self.given += 1;
        }
        Ok(())
    }
}

/// What a thread does: judges block after block, until there are no more.
fn judge_all(
    definition: &Definition,
    shape: Shape,
    asked: Asked,
    work: &Mutex<Receiver<(u64, Block)>>,
    results: &Sender<Done>,
) {
    loop {
        let next = work.lock().map(|work| work.recv());
        let Ok(Ok((number, block))) = next else { return };
        // A panic here would leave the others waiting for this block.
        let judged = catch_unwind(AssertUnwindSafe(|| judge(definition, shape, &block, asked)))
            .unwrap_or_else(|_| Err(Failure::Library("a thread panicked".into())));
        if results.send((number, block, judged)).is_err() {
            return;
        }
    }
}

#[cfg(test)]
mod tests {
    use super::*;
    use crate::input::Input;

    const TEXT: &[u8] = b"SSS VERSION 1.1 SURVEY RECORD R
        VARIABLE 1 NAME \"a\" LABEL \"\" TYPE SINGLE POSITION 1 TO 2 VALUES 1 TO 12 END VALUES END VARIABLE
        VARIABLE 2 NAME \"b\" LABEL \"\" TYPE LOGICAL POSITION 3 END VARIABLE
        END RECORD END SURVEY END SSS";

    /// Sound ones, and each kind of damage: fields, low bytes, lengths, line ends of another kind, no end, nothing.
    const FILES: &[&[u8]] = &[
        b"",
        b" 11\r\n 21\r\n 31\r\n 41\r\n 51\r\n",
        b" 11\n 21\n131\n 4x\n 51\n",
        b" 11\r\n 2\t\r\n 311\r\n 4x\r\n 1\r\n 11\r\n",
        b" 11\r\n 21\n 31\r\n 41\r 51\r\n131\r\n",
        b" 11\r 21\r\n31\r 41\r",
        b" 11\n\r 21\n\n\r31\n\r 4",
        b" 1\r\n 2\r\n",
        b" 11\r\n 21\r",
        b"no end at all",
        b"\n\n\n 11\n",
        b" 11\r\n 11\n 11\n 11\n 11\n 11\n 11\n 11\n",
    ];

    fn run(definition: &Definition, data: &[u8], block: usize, jobs: usize, asked: Asked) -> (Vec<Fault>, Count) {
        let mut scan = Scan { definition, asked, jobs, progress: Progress::new(None) };
        let mut faults = Vec::new();
        let feed = Feed::new(Input::of(data), block).unwrap();
        let told = &mut |fault: Fault| {
            faults.push(fault);
            Ok(true)
        };
        let count = scan.run(feed, Count::default(), told).unwrap();
        (faults, count)
    }

    #[test]
    fn blocks_and_threads_find_what_one_run_finds() {
        let definition = Definition::read(TEXT).unwrap();
        for data in FILES {
            let whole = run(&definition, data, 1 << 20, 1, Asked::All);
            assert_eq!(whole.1.bytes, data.len() as u64, "{data:?}");
            for block in 1..=data.len() + 1 {
                for jobs in [1, 3] {
                    assert_eq!(run(&definition, data, block, jobs, Asked::All), whole, "{data:?} {block} {jobs}");
                }
            }
        }
    }

    /// The first fault is the one that the library's call on the whole file names, and without one the counts agree.
    #[test]
    fn the_first_fault_is_the_files_own() {
        let definition = Definition::read(TEXT).unwrap();
        for data in FILES {
            for (block, jobs) in [(1 << 20, 1), (7, 1), (7, 2)] {
                let (faults, count) = run(&definition, data, block, jobs, Asked::First);
                match definition.judge(data) {
                    Ok(records) => assert_eq!((faults.len(), count.records), (0, records), "{data:?}"),
                    Err(due) => {
                        let [found] = &faults[..] else { panic!("{data:?}: {faults:?}") };
                        let found = (found.record, found.refusal, found.row, found.place, found.number);
                        assert_eq!(
                            found,
                            (due.record, due.fault.refusal, due.fault.row, due.fault.place, due.fault.number)
                        );
                    }
                }
            }
        }
    }
}
