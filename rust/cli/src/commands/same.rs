//! `same DEF A B`: whether two data files say the same: record by record, all variables read equal, however they are written.

use super::{Command, FORMAT, Text, format, words};
use crate::args::Given;
use crate::codebook::Codebook;
use crate::feed::BLOCK;
use crate::input::Input;
use crate::json::Object;
use crate::printer::{Format, Printer};
use crate::records::Records;
use crate::status::{Failure, Outcome, Status};
use crate::texts;
use crate::values::shown;
use zarfolin::{ReadError, Value, Values, Variable};

pub const COMMAND: Command = Command {
    name: "same",
    usage: "[OPTION..] DEF A B",
    summary: "tell where two data files of one definition say something else",
    options: &[FORMAT],
    run,
};

fn run(given: &Given) -> Outcome {
    let [definition, one, other] = words(given)?;
    let format = format(given)?;
    let text = Text::open(definition)?;
    let mut files = [Records::new(Input::open(one)?, BLOCK)?, Records::new(Input::open(other)?, BLOCK)?];
    let Some(definition) = text.definition() else { return Ok(Status::Definition) };
    let names = [files[0].input().name.clone(), files[1].input().name.clone()];
    let mut compare =
        Compare { book: &Codebook::new(&definition), format, names, printer: Printer::new(), differences: 0 };
    compare.all(&mut files)?;
    compare.printer.end()?;
    Ok(if compare.differences == 0 { Status::Done } else { Status::Faulty })
}

struct Compare<'a> {
    book: &'a Codebook<'a>,
    format: Format,
    names: [String; 2],
    printer: Printer,
    differences: u64,
}

impl Compare<'_> {
    fn all(&mut self, files: &mut [Records; 2]) -> Result<(), Failure> {
        let [one, other] = files;
        let mut count = 0;
        loop {
            match (one.next()?, other.next()?) {
                (Some(a), Some(b)) => {
                    count = a.number;
                    self.records(count, a.bytes(), b.bytes())?;
                }
                (None, None) => break,
                (a, _) => {
                    self.differences += 1;
                    self.ends(count, usize::from(a.is_some()))?;
                    break;
                }
            }
        }
        if self.format == Format::Text && self.differences == 0 {
            let [a, b] = &self.names;
            let well = self.printer.paint.well("say the same");
            self.printer.line(&format!("{a} and {b}: {}: they {well}.", texts::counted(count, "record", "records")))?;
        }
        Ok(())
    }

    /// One file ends behind record `count`, the other goes on.
    fn ends(&mut self, count: u64, shorter: usize) -> Result<(), Failure> {
        let (ends, goes_on) = (&self.names[shorter], &self.names[1 - shorter]);
        let line = match self.format {
            Format::Text => format!("{ends} ends with record {}, {goes_on} goes on", texts::count(count)),
            Format::Tsv => format!("{count}\t\t\tend\t{}", texts::tsv(ends.as_bytes())),
            Format::Jsonl => Object::new().number("records", count).text("ends", ends).end(),
        };
        self.printer.line(&line)
    }

    fn records(&mut self, number: u64, one: &[u8], other: &[u8]) -> Result<(), Failure> {
        let (one, other) = (Values::read(self.book.definition, one), Values::read(self.book.definition, other));
        let (one, other) = match (one, other) {
            (Ok(one), Ok(other)) => (one, other),
            (one, other) => {
                self.differences += 1;
                let said = |values: Result<Values, zarfolin::Refusal>| {
                    values.map_or_else(|refusal| refusal.to_string(), |_| "it can be read".into())
                };
                return self.tell(number, None, [said(one), said(other)]);
            }
        };
        for ((variable, a), (_, b)) in one.iter().zip(other.iter()) {
            // A field that holds no legal value says nothing, so it can't say the same.
            if a.is_err() || a != b {
                self.differences += 1;
                self.tell(number, Some(&variable), [said(&variable, a), said(&variable, b)])?;
            }
        }
        Ok(())
    }

    fn tell(&mut self, number: u64, variable: Option<&Variable>, values: [String; 2]) -> Result<(), Failure> {
        let [a, b] = &values;
        let line = match self.format {
            Format::Text => {
                let called = variable.map_or(String::new(), |variable| format!(", {}", self.book.called(variable)));
                let place = self.printer.paint.place(&format!("record {}{called}", texts::count(number)));
                format!("{place}: {a} in {}, {b} in {}", self.names[0], self.names[1])
            }
            Format::Tsv => {
                let (row, ident) =
                    variable.map_or_else(Default::default, |v| (v.row().to_string(), v.ident().to_string()));
                format!("{number}\t{row}\t{ident}\t{}\t{}", texts::tsv(a.as_bytes()), texts::tsv(b.as_bytes()))
            }
            Format::Jsonl => {
                let object = Object::new().number("record", number).maybe("row", variable.map(|v| v.row() as u64));
                object.maybe("ident", variable.map(|v| v.ident())).text("a", a).text("b", b).end()
            }
        };
        self.printer.line(&line)
    }
}

fn said(variable: &Variable, value: Result<Value, ReadError>) -> String {
    match value {
        Ok(Value::Missing) => "missing".into(),
        Ok(value) => shown(variable, &value),
        Err(error) => error.refusal.to_string(),
    }
}
