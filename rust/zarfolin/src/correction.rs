//! A correction of a record, as the library takes it.

use crate::table::value;
use crate::{Number, Refusal};

/// The value that a correction gives.
#[repr(C)]
#[derive(Clone, Copy, Debug, Default, PartialEq, Eq)]
pub struct Given {
    /// Its kind: [`value::MISSING`], [`value::NUMBER`] or [`value::TRUTH`]. Any other is refused.
    pub kind: u64,
    /// The number, scaled by the row's decimals, or the truth, 0 or 1; beside missing it is not looked at.
    pub number: i64,
}

/// A correction of one row: 32 bytes, just as C has it. [`calls::correct`](crate::calls::correct) marks it.
#[repr(C)]
#[derive(Clone, Copy, Debug, Default, PartialEq, Eq)]
pub struct Correction {
    /// The row, from 0.
    pub row: u64,
    /// Its new value.
    pub value: Given,
    /// 0 once it is done, or the number of the refusal. What it held before is not looked at.
    pub mark: Number,
}

const _: () = assert!(size_of::<Correction>() == 32 && align_of::<Correction>() == 8);

impl Correction {
    const fn of(row: u64, kind: i64, number: i64) -> Correction {
        Correction { row, value: Given { kind: kind as u64, number }, mark: 0 }
    }

    /// Nothing: spaces.
    pub const fn missing(row: u64) -> Correction {
        Correction::of(row, value::MISSING, 0)
    }

    /// A SINGLE's category, or a QUANTITY scaled by its decimals.
    pub const fn number(row: u64, number: i64) -> Correction {
        Correction::of(row, value::NUMBER, number)
    }

    /// A LOGICAL's truth.
    pub const fn truth(row: u64, truth: bool) -> Correction {
        Correction::of(row, value::TRUTH, truth as i64)
    }

    /// What its mark says: done, or why it was refused.
    pub fn done(&self) -> Result<(), Refusal> {
        Refusal::of(self.mark).map_or(Ok(()), Err)
    }
}
