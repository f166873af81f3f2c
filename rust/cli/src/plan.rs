//! A data file judged in parts, by any engine that runs commands on many machines: a plan of parts, the answer of each, and the answers
//! put together. A plan is arithmetic on the first record's length; whether each part begins where a record does is known only when
//! the answers are put together, and where one does not, the rest of the file is judged in its order.

use crate::faults::{Excerpt, Fault};
use crate::scan::Count;
use std::fmt;
use zarfolin::{Refusal, Shape, Terminator};

/// A part of a file: a line of a plan, and one word of a command line.
#[derive(Clone, Copy, Debug, PartialEq, Eq)]
pub struct Part {
    /// From 1.
    pub number: u64,
    pub of: u64,
    pub place: u64,
    pub length: u64,
    /// None where the file has neither CR nor LF; it is then one part.
    pub shape: Option<Shape>,
}

/// Cuts a file of this length.
pub fn plan(size: u64, shape: Option<Shape>, block: u64) -> impl Iterator<Item = Part> {
    let stride = shape.map_or(size.max(1), |shape| shape.stride() as u64);
    let length = block.div_ceil(stride).saturating_mul(stride);
    let of = size.div_ceil(length).max(1);
    (0..of).map(move |i| Part { number: i + 1, of, place: i * length, length: length.min(size - i * length), shape })
}

const TERMINATORS: [(&str, Terminator); 4] =
    [("CRLF", Terminator::CrLf), ("LFCR", Terminator::LfCr), ("CR", Terminator::Cr), ("LF", Terminator::Lf)];

/// `2/4:268435440+268435440:41:CRLF`: the part, its place and length, the first record's length and the terminator.
impl fmt::Display for Part {
    fn fmt(&self, f: &mut fmt::Formatter) -> fmt::Result {
        write!(f, "{}/{}:{}+{}:", self.number, self.of, self.place, self.length)?;
        match self.shape {
            None => write!(f, "-:-"),
            Some(shape) => {
                let word = TERMINATORS.iter().find(|(_, terminator)| *terminator == shape.terminator);
                write!(f, "{}:{}", shape.first, word.map_or("-", |(word, _)| word))
            }
        }
    }
}

impl Part {
    pub fn parse(word: &str) -> Option<Part> {
        let [numbers, places, first, terminator] = word.split(':').collect::<Vec<_>>().try_into().ok()?;
        let (number, of) = numbers.split_once('/')?;
        let (place, length) = places.split_once('+')?;
        let shape = match (first, terminator) {
            ("-", "-") => None,
            _ => {
                let (_, terminator) = TERMINATORS.iter().find(|(word, _)| *word == terminator)?;
                // A plan has no record that is longer than its file.
                Some(Shape {
                    terminator: *terminator,
                    first: first.parse().ok().filter(|&first: &usize| first < 1 << 40)?,
                })
            }
        };
        let (number, of) = (number.parse().ok()?, of.parse().ok()?);
        let part = Part { number, of, place: place.parse().ok()?, length: length.parse().ok()?, shape };
        (1..=of).contains(&number).then_some(part)
    }

    pub fn is_last(&self) -> bool {
        self.number == self.of
    }

    pub fn end(&self) -> u64 {
        self.place.saturating_add(self.length)
    }
}

/// What was found in a part: its count, and its faults, counted in the part.
#[derive(Clone, Debug, PartialEq, Eq)]
pub struct Answer {
    pub part: Part,
    pub count: Count,
    pub faults: Vec<Fault>,
}

/// The line of a fault. Every line names its part: an engine may put the answers in any order.
pub fn fault_line(part: &Part, fault: &Fault) -> String {
    let or_none = |n: Option<i128>| n.map_or("-".into(), |n| n.to_string());
    let wide = |n: Option<usize>| n.map(|n| n as i128);
    let cut = |cut: bool| if cut { "+" } else { "-" };
    let bytes: String = fault.field.bytes.iter().map(|byte| format!("{byte:02x}")).collect();
    [
        "fault".into(),
        part.number.to_string(),
        fault.record.to_string(),
        fault.refusal.number().to_string(),
        or_none(wide(fault.row)),
        or_none(wide(fault.place)),
        or_none(fault.byte.map(i128::from)),
        or_none(fault.number.map(i128::from)),
        fault.length.to_string(),
        format!("{}{}", cut(fault.field.cut.0), cut(fault.field.cut.1)),
        bytes,
    ]
    .join("\t")
}

/// The last line of a part's answer.
pub fn part_line(part: &Part, count: &Count) -> String {
    format!("part\t{part}\t{}\t{}\t{}\t{}", count.records, count.bytes, count.faulty, count.faults)
}

/// Answers as they come, in any order.
#[derive(Default)]
pub struct Answers {
    parts: Vec<(Part, Count)>,
    faults: Vec<(u64, Fault)>,
}

impl Answers {
    /// Takes a line; nothing where it is none of an answer.
    pub fn take(&mut self, line: &str) -> Option<()> {
        let cells: Vec<_> = line.split('\t').collect();
        match cells[..] {
            ["part", part, records, bytes, faulty, faults] => {
                let number = |cell: &str| cell.parse::<u64>().ok();
                let count = Count {
                    records: number(records)?,
                    bytes: number(bytes)?,
                    faulty: number(faulty)?,
                    faults: number(faults)?,
                };
                self.parts.push((Part::parse(part)?, count));
            }
            ["fault", part, record, number, row, place, byte, value, length, cut, bytes] => {
                let refusal = Refusal::of(number.parse().ok()?)?;
                let fault = Fault {
                    record: record.parse().ok()?,
                    refusal,
                    row: maybe(row)?,
                    place: maybe(place)?,
                    byte: maybe(byte)?,
                    number: maybe(value)?,
                    length: length.parse().ok()?,
                    field: excerpt(cut, bytes)?,
                };
                self.faults.push((part.parse().ok()?, fault));
            }
            _ => return None,
        }
        Some(())
    }

    /// The parts in their order, each once, from the file's first byte to its last; or what is wrong with them.
    pub fn in_order(mut self) -> Result<Vec<Answer>, String> {
        self.parts.sort_by_key(|(part, _)| part.number);
        self.faults.sort_by_key(|(part, fault)| (*part, fault.record));
        let of = self.parts.first().map_or(0, |(part, _)| part.of);
        let mut faults = self.faults.into_iter().peekable();
        let mut answers: Vec<Answer> = Vec::new();
        for (part, count) in self.parts {
            let (number, place) = answers.last().map_or((1, 0), |a| (a.part.number + 1, a.part.end()));
            if (part.number, part.of, part.place) != (number, of, place) {
                return Err(format!("the answer of part {number} of {of} is missing, or there twice"));
            }
            let mut own = Vec::new();
            while let Some((_, fault)) = faults.next_if(|(of, _)| *of == part.number) {
                own.push(fault);
            }
            if own.len() as u64 != count.faults {
                return Err(format!(
                    "part {number} found {} faults, and {} of them came here",
                    count.faults,
                    own.len()
                ));
            }
            answers.push(Answer { part, count, faults: own });
        }
        match answers.last() {
            Some(answer) if answer.part.is_last() && faults.next().is_none() => Ok(answers),
            last => Err(format!("the answer of part {} of {of} is missing", last.map_or(1, |a| a.part.number + 1))),
        }
    }
}

fn maybe<T: std::str::FromStr>(cell: &str) -> Option<Option<T>> {
    if cell == "-" { Some(None) } else { cell.parse().ok().map(Some) }
}

fn excerpt(cut: &str, bytes: &str) -> Option<Excerpt> {
    let cut = match cut {
        "--" => (false, false),
        "+-" => (true, false),
        "-+" => (false, true),
        "++" => (true, true),
        _ => return None,
    };
    let pairs = bytes.as_bytes().chunks(2);
    let byte = |pair: &[u8]| u8::from_str_radix(std::str::from_utf8(pair).ok()?, 16).ok();
    Some(Excerpt { bytes: pairs.map(byte).collect::<Option<_>>()?, cut })
}

#[cfg(test)]
mod tests {
    use super::*;

    const SHAPE: Shape = Shape { terminator: Terminator::CrLf, first: 8 };

    #[test]
    fn a_plan_covers_the_file_with_whole_records() {
        for size in [0, 1, 10, 99, 100, 101] {
            let parts: Vec<_> = plan(size, Some(SHAPE), 25).collect();
            assert!(parts.iter().all(|p| p.place % 10 == 0 && (p.length == 30 || p.is_last())), "{parts:?}");
            assert_eq!(parts.iter().map(|p| p.length).sum::<u64>(), size);
            assert!(parts.iter().all(|p| Part::parse(&p.to_string()) == Some(*p)));
        }
        let unshaped: Vec<_> = plan(7, None, 2).map(|p| p.to_string()).collect();
        assert_eq!(unshaped, ["1/1:0+7:-:-"]);
        for wrong in [
            "",
            "1/1",
            "0/1:0+7:3:LF",
            "2/1:0+7:3:LF",
            "1/1:0+7:3:X",
            "1/1:0+7:18446744073709551615:LF",
            "1/1:0+7:-:LF",
        ] {
            assert_eq!(Part::parse(wrong), None, "{wrong}");
        }
    }

    #[test]
    fn answers_in_any_order_are_put_in_theirs() {
        let parts: Vec<_> = plan(50, Some(SHAPE), 20).collect();
        let field = Excerpt { bytes: (*b"a\xff").into(), cut: (true, false) };
        let fault = Fault {
            record: 2,
            refusal: Refusal::Stray,
            row: Some(1),
            place: Some(3),
            byte: Some(255),
            number: None,
            length: 8,
            field,
        };
        let count = |faults| Count { records: 2, bytes: 20, faulty: faults, faults };
        let mut lines: Vec<_> = parts.iter().map(|p| part_line(p, &count(u64::from(p.number == 2)))).collect();
        lines.push(fault_line(&parts[1], &fault));
        let merge = |lines: &[String]| {
            let mut answers = Answers::default();
            lines.iter().for_each(|line| answers.take(line).unwrap());
            answers.in_order()
        };
        lines.reverse();
        let answers = merge(&lines).unwrap();
        assert_eq!(answers.iter().map(|a| a.part).collect::<Vec<_>>(), parts);
        assert_eq!(answers[1].faults, [fault]);
        // One line less, of whichever kind, is found.
        for left_out in 0..lines.len() {
            let mut fewer = lines.clone();
            fewer.remove(left_out);
            assert!(merge(&fewer).is_err(), "{left_out}");
        }
        assert!(merge(&[]).is_err());
        assert_eq!(Answers::default().take("part\tx"), None);
    }
}
