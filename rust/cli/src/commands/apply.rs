//! `apply DEF DATA FIXES.csv`: a list of corrections, each marked done or refused. A refusal stops nothing: what the single writes in
//! the list's order leave is what the new file has.

use super::{Command, FORMAT, IN_PLACE, OUTPUT, Text, format, output, output_is_standard, words};
use crate::args::Given;
use crate::codebook::Codebook;
use crate::feed::BLOCK;
use crate::fixes::{self, Fix};
use crate::input::Input;
use crate::json::Object;
use crate::output::Output;
use crate::printer::{Format, Printer};
use crate::records::Records;
use crate::status::{Failure, Outcome, Status};
use crate::texts;
use crate::values::Wanted;
use std::collections::BTreeMap;
use std::io::Write;
use zarfolin::{Correction, Definition, Refusal, Variable};

pub const COMMAND: Command = Command {
    name: "apply",
    usage: "DEF DATA FIXES.csv (-o OUT | --in-place) [--format FORMAT]",
    summary: "apply a list of corrections, record,variable,value a line; each is marked done or refused",
    options: &[OUTPUT, IN_PLACE, FORMAT],
    run,
};

/// The most bytes of a list: it is held in memory.
const MOST: usize = 256 << 20;

fn run(given: &Given) -> Outcome {
    let [definition, path, list] = words(given)?;
    let format = format(given)?;
    let text = Text::open(definition)?;
    let records = Records::new(Input::open(path)?, BLOCK)?;
    let mut list = Input::open(list)?;
    let bytes = list.up_to(MOST + 1)?;
    if bytes.len() > MOST {
        return Err(Failure::Input(format!("{}: longer than {MOST} bytes", list.name)));
    }
    let Some(definition) = text.definition() else { return Ok(Status::Definition) };
    let book = Codebook::new(&definition);
    let fixes = match fixes::parse(&bytes) {
        Ok(fixes) => fixes,
        Err(why) => return super::refuse(&format!("{}: {why}", list.name)),
    };
    let mut wishes: Vec<_> = fixes.iter().map(|fix| Wish::of(&book, fix)).collect();
    let out = output(given, path, &[&text.input, records.input(), &list])?;
    copy(&definition, records.telling(), &mut wishes, out)?;
    let told: String = wishes.iter().map(|wish| wish.told(&book, format, &list.name) + "\n").collect();
    if output_is_standard(given) {
        let _ = std::io::stderr().write_all(told.as_bytes());
    } else {
        let mut printer = Printer::new();
        printer.bytes(told.as_bytes())?;
        printer.end()?;
    }
    Ok(if wishes.iter().all(|wish| wish.mark == Mark::Done) { Status::Done } else { Status::Refused })
}

/// What became of a correction.
#[derive(Clone, Debug, PartialEq, Eq)]
enum Mark {
    Done,
    /// By the library.
    Refused(Refusal),
    /// It can't be put to the library: no such record or variable, no value at all.
    Meaningless(String),
}

impl Mark {
    /// The rule's number, where the library gave one; and the words.
    fn told(&self) -> (Option<u64>, String) {
        match self {
            Mark::Done => (Some(0), "done".into()),
            Mark::Refused(refusal) => (Some(refusal.number()), format!("refused: {refusal}")),
            Mark::Meaningless(why) => (None, format!("refused: {why}")),
        }
    }
}

/// A correction with what it means.
struct Wish<'a> {
    line: usize,
    record: u64,
    change: Option<(Variable<'a>, Wanted)>,
    mark: Mark,
}

impl<'a> Wish<'a> {
    fn of(book: &Codebook<'a>, fix: &Fix) -> Wish<'a> {
        let (line, nowhere) =
            (fix.line, |why: String| Wish { line: fix.line, record: 0, change: None, mark: Mark::Meaningless(why) });
        let [record, variable, value] = &fix.fields[..] else {
            return nowhere(format!(
                "record,variable,value was due, and {} stand there",
                texts::counted(fix.fields.len() as u64, "field", "fields")
            ));
        };
        let Some(record) = record.parse().ok().filter(|&record: &u64| record > 0) else {
            return nowhere(format!("{record}: a record's number, from 1, was due"));
        };
        let change = book.find(variable).and_then(|variable| Ok((variable, Wanted::of(&variable, value)?)));
        match change {
            Ok(change) => {
                Wish { line, record, change: Some(change), mark: Mark::Meaningless("there is no such record".into()) }
            }
            Err(why) => Wish { record, ..nowhere(why) },
        }
    }

    /// For the library's list, which takes numbers, truths and missing alone.
    fn correction(&self) -> Option<Correction> {
        let (variable, wanted) = self.change.as_ref()?;
        let row = variable.row() as u64;
        match wanted {
            Wanted::Missing => Some(Correction::missing(row)),
            Wanted::Number(number) => Some(Correction::number(row, *number)),
            Wanted::Truth(truth) => Some(Correction::truth(row, *truth)),
            Wanted::Set(_) | Wanted::Text(_) => None,
        }
    }

    /// By a write of its own.
    fn write(&mut self, definition: &Definition, record: &mut [u8]) {
        if let Some((variable, wanted)) = &self.change {
            self.mark(definition.write(variable.row(), wanted.value(), record));
        }
    }

    fn mark(&mut self, done: Result<(), Refusal>) {
        self.mark = done.map_or_else(Mark::Refused, |()| Mark::Done);
    }

    fn told(&self, book: &Codebook, format: Format, name: &str) -> String {
        let (number, words) = self.mark.told();
        let variable = self.change.as_ref().map(|(variable, _)| variable);
        match format {
            Format::Text => {
                let record = (self.record > 0).then(|| format!("record {}", texts::count(self.record)));
                let place: Vec<_> = record.into_iter().chain(variable.map(|variable| book.called(variable))).collect();
                let gap = if place.is_empty() { "" } else { ": " };
                format!("{name}:{}: {}{gap}{words}", self.line, place.join(", "))
            }
            Format::Tsv => {
                let cell = |n: Option<u64>| n.map_or(String::new(), |n| n.to_string());
                let (row, ident) = (variable.map(|v| v.row() as u64), variable.map(|v| v.ident().into()));
                format!(
                    "{}\t{}\t{}\t{}\t{}\t{}",
                    self.line,
                    self.record,
                    cell(row),
                    cell(ident),
                    cell(number),
                    texts::tsv(words.as_bytes())
                )
            }
            Format::Jsonl => {
                let object = Object::new().number("line", self.line as u64).number("record", self.record);
                let object =
                    object.maybe("row", variable.map(|v| v.row() as u64)).maybe("ident", variable.map(|v| v.ident()));
                object.maybe("mark", number).text("words", &words).end()
            }
        }
    }
}

/// Copies the file, each record with its corrections.
fn copy(definition: &Definition, mut records: Records, wishes: &mut [Wish], mut out: Output) -> Result<(), Failure> {
    let mut by_record: BTreeMap<u64, Vec<usize>> = BTreeMap::new();
    for (at, wish) in wishes.iter().enumerate().filter(|(_, wish)| wish.change.is_some()) {
        by_record.entry(wish.record).or_default().push(at);
    }
    while let Some(mut record) = records.next()? {
        if let Some(own) = by_record.get(&record.number) {
            correct(definition, record.bytes_mut(), own, wishes);
        }
        out.write(record.whole())?;
    }
    out.commit()
}

/// The corrections of one record in their order: as many as the library's list takes in one call, a set or a text by its own.
fn correct(definition: &Definition, record: &mut [u8], own: &[usize], wishes: &mut [Wish]) {
    let listed: Vec<_> = own.iter().map(|&at| (at, wishes[at].correction())).collect();
    for stretch in listed.chunk_by(|(_, a), (_, b)| a.is_some() == b.is_some()) {
        let mut list: Vec<_> = stretch.iter().filter_map(|(_, correction)| *correction).collect();
        if list.is_empty() {
            stretch.iter().for_each(|(at, _)| wishes[*at].write(definition, record));
            continue;
        }
        // 22 turns the whole list away.
        let all = definition.correct(&mut list, record);
        for ((at, _), correction) in stretch.iter().zip(&list) {
            wishes[*at].mark(all.and_then(|()| correction.done()));
        }
    }
}
