//! `set DEF DATA RECORD VAR=VALUE..`: values of one record written anew. Either all are, or nothing is.

use super::{Command, IN_PLACE, OUTPUT, Text, output, output_is_standard, refuse};
use crate::args::Given;
use crate::codebook::Codebook;
use crate::feed::BLOCK;
use crate::input::{self, Input};
use crate::printer::Printer;
use crate::records::Records;
use crate::status::{Failure, Outcome, Status};
use crate::texts;
use crate::values::Wanted;
use crate::words::columns;
use std::ffi::OsString;
use zarfolin::Variable;

pub const COMMAND: Command = Command {
    name: "set",
    usage: "DEF DATA RECORD VAR=VALUE.. (-o OUT | --in-place)",
    summary: "write values of one record: VAR= is missing, VAR=1;4 a set, VAR=none the empty set",
    options: &[OUTPUT, IN_PLACE],
    run,
};

fn run(given: &Given) -> Outcome {
    let [definition, data, record, assignments @ ..] = &given.words[..] else {
        return Err(Failure::Usage("DEF, DATA, RECORD and VAR=VALUE are due".into()));
    };
    if assignments.is_empty() {
        return Err(Failure::Usage("VAR=VALUE is due".into()));
    }
    input::one_standard_input(&[definition, data])?;
    let number = record.to_str().and_then(|word| word.parse().ok()).filter(|&number: &u64| number > 0);
    let number = number
        .ok_or_else(|| Failure::Usage(format!("{}: a record's number, from 1, was due", record.to_string_lossy())))?;
    let text = Text::open(definition)?;
    let records = Records::new(Input::open(data)?, BLOCK)?;
    let Some(definition) = text.definition() else { return Ok(Status::Definition) };
    let book = Codebook::new(&definition);
    let mut changes = Vec::new();
    for word in assignments {
        let (variable, value) = assignment(&book, word)?;
        match Wanted::of(&variable, &value) {
            Ok(wanted) => changes.push(Change { variable, wanted, before: Vec::new(), after: Vec::new() }),
            Err(why) => return refuse(&format!("{}: {why}", book.called(&variable))),
        }
    }
    let out = output(given, data, &[&text.input, records.input()])?;
    let mut set = Set { book: &book, number, changes };
    let status = set.copy(records.telling(), out)?;
    if status == Status::Done && !output_is_standard(given) {
        set.tell()?;
    }
    Ok(status)
}

/// `VAR=VALUE`. A name may have an equals sign in it; a row or an ident never has, so the first one counts.
fn assignment<'a>(book: &Codebook<'a>, word: &OsString) -> Result<(Variable<'a>, String), Failure> {
    let text = word.to_str().ok_or_else(|| Failure::Usage(format!("{}: is no text", word.to_string_lossy())))?;
    let (variable, value) = text.split_once('=').ok_or_else(|| Failure::Usage(format!("{text}: VAR=VALUE was due")))?;
    let variable = book.find(variable).map_err(Failure::Usage)?;
    Ok((variable, value.to_string()))
}

struct Change<'a> {
    variable: Variable<'a>,
    wanted: Wanted,
    before: Vec<u8>,
    after: Vec<u8>,
}

struct Set<'a> {
    book: &'a Codebook<'a>,
    number: u64,
    changes: Vec<Change<'a>>,
}

impl Set<'_> {
    /// Copies the file, with one record changed. Whatever is refused leaves no new file.
    fn copy(&mut self, mut records: Records, mut out: crate::output::Output) -> Outcome {
        let mut count = 0;
        let name = records.input().name.clone();
        while let Some(mut record) = records.next()? {
            count = record.number;
            let written = if count == self.number { self.write(record.bytes_mut()) } else { Ok(()) };
            if let Err(why) = written {
                return refuse(&format!("{name}: record {}, {why}", texts::count(count)));
            }
            out.write(record.whole())?;
        }
        if count < self.number {
            return refuse(&format!(
                "{name}: there is no record {}: it has {}",
                self.number,
                texts::counted(count, "record", "records")
            ));
        }
        out.commit()?;
        Ok(Status::Done)
    }

    fn write(&mut self, record: &mut [u8]) -> Result<(), String> {
        for change in &mut self.changes {
            let (variable, places) = (&change.variable, change.variable.places());
            change.before = record.get(places.clone()).unwrap_or_default().to_vec();
            let written = self.book.definition.write(variable.row(), change.wanted.value(), record);
            written.map_err(|refusal| format!("{}: {refusal}", self.book.called(variable)))?;
            change.after = record[places].to_vec();
        }
        Ok(())
    }

    fn tell(&self) -> Result<(), Failure> {
        let mut printer = Printer::new();
        for change in &self.changes {
            let (before, after) = (texts::shown(&change.before), texts::shown(&change.after));
            let (called, columns) = (self.book.called(&change.variable), columns(&change.variable));
            let record = texts::count(self.number);
            printer.line(&format!("record {record}, {called}, {columns}: `{before}` is now `{after}`"))?;
        }
        printer.end()
    }
}
