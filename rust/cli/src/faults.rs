//! All that is wrong with one record. The library names the first fault of a record by the rule's order; the further ones are its
//! answers too, on the same record asked again.

use crate::status::Failure;
use zarfolin::{Definition, FileFault, RecordFault, Refusal, Shape, Values, calls};

/// One fault, with what a message needs of the record, which may be gone by then.
#[derive(Clone, Debug, PartialEq, Eq)]
pub struct Fault {
    /// From 1.
    pub record: u64,
    pub refusal: Refusal,
    pub row: Option<usize>,
    /// A byte of the record, from 0.
    pub place: Option<usize>,
    /// What stands there.
    pub byte: Option<u8>,
    /// The number, scaled, that is not legal.
    pub number: Option<i64>,
    /// The bytes of the record.
    pub length: usize,
    /// The field's bytes around the place.
    pub field: Excerpt,
}

/// Some bytes of a field.
#[derive(Clone, Debug, Default, PartialEq, Eq)]
pub struct Excerpt {
    pub bytes: Box<[u8]>,
    /// Whether there is more of the field before and behind them.
    pub cut: (bool, bool),
}

/// The most bytes of a field that a message shows on either side of its fault.
const AROUND: usize = 40;

impl Excerpt {
    fn of(record: &[u8], columns: std::ops::Range<usize>, place: usize) -> Excerpt {
        let columns = columns.start.min(record.len())..columns.end.min(record.len());
        let from = columns.start.max(place.saturating_sub(AROUND));
        let to = columns.end.min(place + AROUND).max(from);
        Excerpt { bytes: record[from..to].into(), cut: (from > columns.start, to < columns.end) }
    }
}

/// Asks about the faults of one record.
pub struct Inquiry<'a> {
    pub definition: &'a Definition<'a>,
    pub shape: Shape,
}

impl Inquiry<'_> {
    /// All faults of a record, of which the file's judgement named the first.
    pub fn all(&self, number: u64, record: &[u8], first: RecordFault) -> Result<Vec<Fault>, Failure> {
        let mut faults = vec![self.told(number, record, &first)];
        match first.refusal {
            Refusal::Unended => {
                // As if its terminator were there: what is wrong with it besides?
                if let Some(next) = self.ended(record)? {
                    faults.extend(self.all(number, record, next)?);
                }
            }
            // The columns of a record of another length can't be trusted, nor those of one that is too short.
            Refusal::Length | Refusal::Short => {}
            Refusal::LowByte => {
                self.low_bytes(number, record, &first, &mut faults)?;
                faults.extend(self.fields(number, record)?);
            }
            Refusal::Stray | Refusal::NotLegal | Refusal::Point => {
                faults = self.fields(number, record)?;
            }
            other => return Err(ruled_out(other)),
        }
        Ok(faults)
    }

    fn told(&self, record: u64, bytes: &[u8], fault: &RecordFault) -> Fault {
        self.fault(record, bytes, fault.refusal, (fault.row, fault.place, fault.number))
    }

    fn fault(
        &self,
        record: u64,
        bytes: &[u8],
        refusal: Refusal,
        beside: (Option<usize>, Option<usize>, Option<i64>),
    ) -> Fault {
        let (row, place, number) = beside;
        let variable = row.and_then(|row| self.definition.variable(row));
        let field = variable.map(|variable| {
            let columns = variable.places();
            let start = columns.start;
            Excerpt::of(bytes, columns, place.unwrap_or(start))
        });
        let byte = place.and_then(|place| bytes.get(place).copied());
        Fault { record, refusal, row, place, byte, number, length: bytes.len(), field: field.unwrap_or_default() }
    }

    /// The first fault of a record that lacks its terminator, were it there.
    fn ended(&self, record: &[u8]) -> Result<Option<RecordFault>, Failure> {
        let whole = [record, self.shape.terminator.bytes()].concat();
        let (terminator, first) = (self.shape.terminator.number(), self.shape.first as u64);
        match calls::judge_part(self.definition.table(), &whole, terminator, first, 1) {
            Ok(1) => Ok(None),
            Err(FileFault { record: 1, fault, .. }) if fault.refusal != Refusal::Unended => Ok(Some(fault)),
            _ => Err(Failure::Library("a record with its terminator has none".into())),
        }
    }

    /// The bytes below 32 behind the first: each is found once those before it are spaces, in a copy.
    fn low_bytes(
        &self,
        number: u64,
        record: &[u8],
        first: &RecordFault,
        faults: &mut Vec<Fault>,
    ) -> Result<(), Failure> {
        let mut copy = record.to_vec();
        let mut fault = *first;
        loop {
            let place = fault.place.filter(|&place| place < copy.len() && copy[place] < 32);
            copy[place.ok_or_else(|| ruled_out(fault.refusal))?] = b' ';
            match self.definition.judge_record(&copy) {
                Err(next) if next.refusal == Refusal::LowByte => fault = next,
                _ => return Ok(()),
            }
            faults.push(self.told(number, record, &fault));
        }
    }

    /// The fields that hold no legal value. One that a byte below 32 spoils is told by that byte.
    fn fields(&self, number: u64, record: &[u8]) -> Result<Vec<Fault>, Failure> {
        let values = Values::read(self.definition, record).map_err(ruled_out)?;
        let low = |place: Option<usize>| place.is_some_and(|place| record[place] < 32);
        let mut faults = Vec::new();
        for (variable, error) in values.faults().filter(|(_, error)| !low(error.place)) {
            let (row, place, value) = (Some(variable.row()), error.place, error.number);
            faults.push(self.fault(number, record, error.refusal, (row, place, value)));
        }
        Ok(faults)
    }
}

/// An answer that the library's contract rules out for what it was asked.
pub fn ruled_out(refusal: Refusal) -> Failure {
    Failure::Library(format!("the library answered what it cannot: {refusal}"))
}

#[cfg(test)]
mod tests {
    use super::*;
    use zarfolin::Terminator;

    const TEXT: &[u8] = b"SSS VERSION 1.1 SURVEY RECORD R
        VARIABLE 1 NAME \"a\" LABEL \"\" TYPE SINGLE POSITION 1 TO 2 VALUES 1 TO 12 END VALUES END VARIABLE
        VARIABLE 2 NAME \"b\" LABEL \"\" TYPE LOGICAL POSITION 4 END VARIABLE
        END RECORD END SURVEY END SSS";

    fn numbers(record: &[u8], first: Refusal) -> Vec<(u64, Option<usize>)> {
        let definition = Definition::read(TEXT).unwrap();
        let inquiry = Inquiry { definition: &definition, shape: Shape { terminator: Terminator::Lf, first: 4 } };
        let whole = [record, b"\n"].concat();
        let fault = match calls::judge_part(
            definition.table(),
            &whole[..record.len() + usize::from(first != Refusal::Unended)],
            4,
            4,
            1,
        ) {
            Err(fault) => fault.fault,
            Ok(_) => panic!("sound"),
        };
        assert_eq!(fault.refusal, first);
        inquiry.all(1, record, fault).unwrap().iter().map(|f| (f.refusal.number(), f.row.or(f.place))).collect()
    }

    #[test]
    fn every_fault_of_a_record_is_told() {
        assert_eq!(numbers(b"13x2", Refusal::NotLegal), [(242, Some(0)), (241, Some(1))]);
        // A low byte in a field is told once, one in the filler too; a field that is faulty besides is told by itself.
        assert_eq!(numbers(b"\x01 \x022", Refusal::LowByte), [(23, Some(0)), (23, Some(2)), (241, Some(1))]);
        assert_eq!(numbers(b" 1x2", Refusal::Unended), [(30, None), (241, Some(1))]);
        assert_eq!(numbers(b" 1x1", Refusal::Unended), [(30, None)]);
        assert_eq!(numbers(b"13x1x", Refusal::Length), [(31, None)]);
        assert_eq!(numbers(b"13x", Refusal::Unended), [(30, None), (31, None)]);
    }
}
