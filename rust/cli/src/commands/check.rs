//! `check DEF [DATA]`: the definition, then every fault of every record. On many threads with `--jobs`, on many machines by a plan of
//! parts: what is told is the same.

use super::{Command, FORMAT, Text, format};
use crate::args::{Given, Opt};
use crate::codebook::Codebook;
use crate::faults::Fault;
use crate::feed::{BLOCK, Feed};
use crate::input::{self, Input};
use crate::judge::Asked;
use crate::plan::{self, Answers, Part};
use crate::printer::Printer;
use crate::progress::Progress;
use crate::report::Report;
use crate::scan::{Count, Scan};
use crate::status::{Failure, Outcome, Status};
use std::ffi::OsString;
use zarfolin::Definition;

const FIRST: Opt =
    Opt { long: "--first", short: None, value: None, help: "the first fault alone, by the rule's order" };
const LIMIT: Opt =
    Opt { long: "--limit", short: None, value: Some("N"), help: "tell at most N faults; all are counted" };
const JOBS: Opt = Opt { long: "--jobs", short: Some(b'j'), value: Some("N"), help: "judge on N threads, 64 at most" };
const PLAN: Opt =
    Opt { long: "--plan", short: None, value: None, help: "print parts that can be judged apart, one a line" };
const SIZE: Opt =
    Opt { long: "--block", short: None, value: Some("SIZE"), help: "with --plan: the bytes of a part (256M)" };
const PART: Opt =
    Opt { long: "--part", short: None, value: Some("PART"), help: "judge one part of a plan; print its answer" };
const MERGE: Opt = Opt {
    long: "--merge",
    short: None,
    value: None,
    help: "read all parts' answers on standard input; tell what one run would",
};

pub const COMMAND: Command = Command {
    name: "check",
    usage: "[OPTION..] DEF [DATA]",
    summary: "judge a definition, and every record of its data: all faults, in words",
    options: &[FIRST, LIMIT, FORMAT, JOBS, PLAN, SIZE, PART, MERGE],
    run,
};

/// The most threads: each has a block in memory.
const MOST_JOBS: u64 = 64;

fn run(given: &Given) -> Outcome {
    let modes = [PLAN, PART, MERGE].iter().filter(|mode| given.has(mode.long)).count();
    let paths: Vec<_> = given.words.iter().map(OsString::as_os_str).collect();
    if modes > 1 || !(1..=2).contains(&paths.len()) || (modes == 1 && paths.len() != 2) {
        return Err(Failure::Usage("one DEF and at most one DATA; a plan, a part and a merge need both".into()));
    }
    if given.has(SIZE.long) && !given.has(PLAN.long) {
        return Err(Failure::Usage("--block goes with --plan".into()));
    }
    input::one_standard_input(&paths)?;
    let text = Text::open(paths[0])?;
    let data = paths.get(1).map(|path| Input::open(path)).transpose()?;
    let mut printer = Printer::new();
    let limit = given.count(LIMIT.long)?;
    let jobs = given.count(JOBS.long)?.unwrap_or(1).min(MOST_JOBS) as usize;
    let mut report = Report { format: format(given)?, printer: &mut printer, limit, hidden: 0 };
    let status = match Definition::read(&text.bytes) {
        Err(error) => {
            report.definition_refused(&text.input.name, &text.bytes, &error)?;
            Status::Definition
        }
        Ok(definition) => {
            let check = Check { given, jobs, book: Codebook::new(&definition) };
            match data {
                Some(data) => check.data(data, &mut report)?,
                None => check.definition(&text, &mut report)?,
            }
        }
    };
    printer.end()?;
    Ok(status)
}

struct Check<'a> {
    given: &'a Given,
    jobs: usize,
    book: Codebook<'a>,
}

impl Check<'_> {
    fn definition(&self, text: &Text, report: &mut Report) -> Outcome {
        report.definition_sound(&text.input.name, &self.book)?;
        Ok(Status::Done)
    }

    fn data(&self, data: Input, report: &mut Report) -> Outcome {
        if self.given.has(PLAN.long) {
            return self.plan(data, report);
        }
        if let Some(part) = self.given.text(PART.long)? {
            let parsed = Part::parse(part);
            return self.part(
                data,
                parsed.ok_or_else(|| Failure::Usage(format!("{part} is no part of a plan")))?,
                report,
            );
        }
        if self.given.has(MERGE.long) {
            return self.merge(data, report);
        }
        let name = data.name.clone();
        let mut scan = self.scan(data.size);
        let feed = Feed::new(data, BLOCK)?;
        let shape = feed.shape;
        let told = &mut |fault: Fault| report.fault(&name, &self.book, shape, &fault).map(|()| true);
        let count = scan.run(feed, Count::default(), told)?;
        self.summary(&name, &count, report)
    }

    fn summary(&self, name: &str, count: &Count, report: &mut Report) -> Outcome {
        report.summary(name, count, self.given.has(FIRST.long))?;
        Ok(if count.faults == 0 { Status::Done } else { Status::Faulty })
    }

    fn scan(&self, size: Option<u64>) -> Scan<'_> {
        let asked = if self.given.has(FIRST.long) { Asked::First } else { Asked::All };
        Scan { definition: self.book.definition, asked, jobs: self.jobs, progress: Progress::new(size) }
    }

    fn plan(&self, data: Input, report: &mut Report) -> Outcome {
        let size = sized(&data)?;
        let block = self.given.size(SIZE.long)?.unwrap_or(256 << 20);
        let feed = Feed::new(data, BLOCK)?;
        for part in plan::plan(size, feed.shape, block) {
            report.printer.line(&part.to_string())?;
        }
        Ok(Status::Done)
    }

    /// Judges a part and prints its answer. Its faults are told by the merge, and are no failure of this run.
    fn part(&self, mut data: Input, part: Part, report: &mut Report) -> Outcome {
        if self.given.has(FIRST.long) {
            return Err(Failure::Usage("--first goes with --merge, not with a part".into()));
        }
        if sized(&data)? < part.end() {
            return Err(Failure::Input(format!("{}: shorter than its plan", data.name)));
        }
        let mut scan = self.scan(Some(part.length));
        let feed = match part.shape {
            Some(shape) => {
                data.part(part.place, part.length)?;
                Feed::from_here(data, shape, BLOCK, !part.is_last())
            }
            None => Feed::new(data, BLOCK)?,
        };
        let told = &mut |fault: Fault| report.printer.line(&plan::fault_line(&part, &fault)).map(|()| true);
        let count = scan.run(feed, Count::default(), told)?;
        report.printer.line(&plan::part_line(&part, &count))?;
        Ok(Status::Done)
    }

    /// Puts the answers together. Where a part does not begin where the one before left off, the rest is judged here.
    fn merge(&self, mut data: Input, report: &mut Report) -> Outcome {
        let size = sized(&data)?;
        let answers = answers()?.in_order().map_err(|why| Failure::Input(format!("the answers: {why}")))?;
        if answers.last().is_none_or(|last| last.part.end() != size) {
            return Err(Failure::Input(format!("{}: not as long as its plan", data.name)));
        }
        let name = data.name.clone();
        let shape = answers[0].part.shape;
        let first = self.given.has(FIRST.long);
        let mut count = Count::default();
        for answer in answers {
            if count.bytes != answer.part.place {
                break;
            }
            for mut fault in answer.faults {
                fault.record += count.records;
                report.fault(&name, &self.book, shape, &fault)?;
                if first {
                    return Ok(Status::Faulty);
                }
            }
            count.records += answer.count.records;
            count.bytes += answer.count.bytes;
            count.faulty += answer.count.faulty;
            count.faults += answer.count.faults;
        }
        if let (true, Some(shape)) = (count.bytes < size, shape) {
            data.part(count.bytes, size - count.bytes)?;
            let feed = Feed::from_here(data, shape, BLOCK, false);
            let told = &mut |fault: Fault| report.fault(&name, &self.book, Some(shape), &fault).map(|()| true);
            count = self.scan(Some(size)).run(feed, count, told)?;
        }
        self.summary(&name, &count, report)
    }
}

/// A file's length: parts are cut by it.
fn sized(data: &Input) -> Result<u64, Failure> {
    data.size.ok_or_else(|| Failure::Usage(format!("{}: parts are of a file, whose length is known", data.name)))
}

/// The answers of all parts, from standard input.
fn answers() -> Result<Answers, Failure> {
    let mut answers = Answers::default();
    for line in std::io::stdin().lines() {
        let line = line.map_err(|error| Failure::input("standard input", &error))?;
        answers.take(&line).ok_or_else(|| Failure::Input(format!("standard input: no line of an answer: {line}")))?;
    }
    Ok(answers)
}
