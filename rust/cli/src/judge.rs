//! A block judged: how many records end in it, how far it is done with, and every fault. Each verdict is an answer of the library's
//! part call, which names the first fault of what it is given: behind a faulty record it is asked again.

use crate::faults::{Fault, Inquiry, ruled_out};
use crate::feed::Block;
use crate::status::Failure;
use zarfolin::{Definition, FileFault, Refusal, Shape, calls};

/// What came of a block. Records count from 1 in it.
#[derive(Debug, Default, PartialEq, Eq)]
pub struct Judged {
    pub records: u64,
    /// The bytes that are done with; the rest begins a record that does not end here.
    pub done: usize,
    pub faults: Vec<Fault>,
}

/// How much is asked.
#[derive(Clone, Copy, Debug, PartialEq, Eq)]
pub enum Asked {
    /// The first fault, as the file's judgement names it; nothing behind it is judged.
    First,
    /// Every fault of every record.
    All,
}

pub fn judge(definition: &Definition, shape: Shape, block: &Block, asked: Asked) -> Result<Judged, Failure> {
    let inquiry = Inquiry { definition, shape };
    let mut judged = Judged::default();
    loop {
        let rest = &block.bytes()[judged.done..];
        let (terminator, first) = (shape.terminator.number(), shape.first as u64);
        let fault = match calls::judge_part(definition.table(), rest, terminator, first, block.ends_file() as u64) {
            Ok(count) => {
                judged.records += count;
                judged.done += count as usize * shape.stride();
                return Ok(judged);
            }
            Err(fault) => fault,
        };
        let ended = one_faulty(&inquiry, block, fault, asked, &mut judged)?;
        if asked == Asked::First || !ended {
            return Ok(judged);
        }
    }
}

/// The faulty record of what is left of a block, and those before it. Answers whether it has its terminator.
fn one_faulty(
    inquiry: &Inquiry,
    block: &Block,
    found: FileFault,
    asked: Asked,
    judged: &mut Judged,
) -> Result<bool, Failure> {
    let FileFault { record, fault, .. } = found;
    if record == 0 || matches!(fault.refusal, Refusal::Table | Refusal::Terminator) {
        return Err(ruled_out(fault.refusal));
    }
    // Those before it are sound: each has the length of the first.
    let start = judged.done + (record - 1) as usize * inquiry.shape.stride();
    let cut = block.cut(start).ok_or_else(|| ruled_out(fault.refusal))?;
    judged.records += record;
    judged.done = cut.next;
    let bytes = &block.bytes()[cut.start..cut.end];
    let mut faults = inquiry.all(judged.records, bytes, fault)?;
    if asked == Asked::First {
        faults.truncate(1);
    }
    judged.faults.append(&mut faults);
    Ok(cut.ended)
}

/// A file that has neither CR nor LF: nothing, or one record without a terminator.
pub fn judge_unshaped(definition: &Definition, block: &Block, asked: Asked) -> Result<Judged, Failure> {
    match definition.judge(block.bytes()) {
        Ok(0) => Ok(Judged { done: block.len(), ..Judged::default() }),
        Ok(_) => Err(Failure::Library("records without an end were counted".into())),
        Err(FileFault { fault, .. }) => {
            // Its own length is the first record's, and any terminator will do to ask what else is wrong with it.
            let shape = Shape { terminator: zarfolin::Terminator::CrLf, first: block.len() };
            let mut faults = Inquiry { definition, shape }.all(1, block.bytes(), fault)?;
            if asked == Asked::First {
                faults.truncate(1);
            }
            Ok(Judged { records: 1, done: block.len(), faults })
        }
    }
}
