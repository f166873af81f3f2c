//! What `check` finds, told in one of three formats. Text is for people; TSV and JSON keep the rule's numbers, places from 0, and one
//! fault a line.

use crate::codebook::Codebook;
use crate::excerpt::Spot;
use crate::faults::Fault;
use crate::json::Object;
use crate::printer::{Format, Printer};
use crate::scan::Count;
use crate::status::Failure;
use crate::texts;
use crate::words::{self, Data};
use zarfolin::{DefinitionError, Shape};

pub struct Report<'a> {
    pub format: Format,
    pub printer: &'a mut Printer,
    /// The most faults that are told; all are counted.
    pub limit: Option<u64>,
    /// Those that were not told.
    pub hidden: u64,
}

impl Report<'_> {
    pub fn definition_refused(&mut self, name: &str, text: &[u8], error: &DefinitionError) -> Result<(), Failure> {
        let spot = Spot::of(text, error.place);
        let number = error.refusal.number();
        let line = match self.format {
            Format::Text => words::definition(name, text, error, self.printer.paint),
            Format::Tsv => format!(
                "definition\t{}\t{number}\t{}\t{}\t{}",
                texts::tsv(name.as_bytes()),
                error.place,
                spot.line,
                spot.column
            ),
            Format::Jsonl => Object::new()
                .text("file", name)
                .number("number", number)
                .number("place", error.place as u64)
                .number("line", spot.line as u64)
                .number("column", spot.column as u64)
                .end(),
        };
        self.printer.line(&line)
    }

    pub fn definition_sound(&mut self, name: &str, book: &Codebook) -> Result<(), Failure> {
        let variables = book.definition.variables().len() as u64;
        let length = book.definition.record_length() as u64;
        let line = match self.format {
            Format::Text => format!(
                "{name}: {}, records of {} or more: {}.",
                texts::counted(variables, "variable", "variables"),
                texts::counted(length, "byte", "bytes"),
                self.printer.paint.well("the definition is sound")
            ),
            Format::Tsv => format!("variables\t{}\t{variables}\t{length}", texts::tsv(name.as_bytes())),
            Format::Jsonl => {
                Object::new().text("file", name).number("variables", variables).number("length", length).end()
            }
        };
        self.printer.line(&line)
    }

    /// Tells a fault, unless so many were told already.
    pub fn fault(&mut self, name: &str, book: &Codebook, shape: Option<Shape>, fault: &Fault) -> Result<(), Failure> {
        match &mut self.limit {
            Some(0) => {
                self.hidden += 1;
                return Ok(());
            }
            Some(limit) => *limit -= 1,
            None => {}
        }
        let line = match self.format {
            Format::Text => Data { name, book, shape }.fault(fault, self.printer.paint),
            Format::Tsv => tsv(name, book, fault),
            Format::Jsonl => jsonl(name, book, fault),
        };
        self.printer.line(&line)
    }

    /// The last line. After `--first` nothing is known of the records behind a fault.
    pub fn summary(&mut self, name: &str, count: &Count, first_only: bool) -> Result<(), Failure> {
        let sound = count.faults == 0;
        let line = match self.format {
            Format::Text if sound => {
                let records = texts::counted(count.records, "record", "records");
                format!("{name}: {records}: {}.", self.printer.paint.well("all are sound"))
            }
            _ if first_only && !sound => return Ok(()),
            Format::Text => text_summary(name, count, self.hidden),
            Format::Tsv => {
                format!(
                    "records\t{}\t{}\t{}\t{}",
                    texts::tsv(name.as_bytes()),
                    count.records,
                    count.faulty,
                    count.faults
                )
            }
            Format::Jsonl => Object::new()
                .text("file", name)
                .number("records", count.records)
                .number("faulty", count.faulty)
                .number("faults", count.faults)
                .end(),
        };
        self.printer.line(&line)
    }
}

fn text_summary(name: &str, count: &Count, hidden: u64) -> String {
    let records = texts::counted(count.records, "record", "records");
    let are = if count.faulty == 1 { "is" } else { "are" };
    let faults = texts::counted(count.faults, "fault", "faults");
    let rest = if hidden > 0 { format!("; {} not shown", texts::count(hidden)) } else { String::new() };
    format!("{name}: {} of {records} {are} faulty, with {faults}{rest}.", texts::count(count.faulty))
}

/// Nothing is an empty field.
fn tsv(name: &str, book: &Codebook, fault: &Fault) -> String {
    let or_empty = |n: Option<i128>| n.map_or(String::new(), |n| n.to_string());
    let ident = ident(book, fault);
    [
        "fault".into(),
        texts::tsv(name.as_bytes()),
        fault.refusal.number().to_string(),
        fault.record.to_string(),
        or_empty(fault.row.map(|n| n as i128)),
        or_empty(ident.map(i128::from)),
        or_empty(fault.place.map(|n| n as i128)),
        or_empty(fault.number.map(i128::from)),
        texts::tsv(&fault.field.bytes),
    ]
    .join("\t")
}

fn jsonl(name: &str, book: &Codebook, fault: &Fault) -> String {
    let object = Object::new()
        .text("file", name)
        .number("number", fault.refusal.number())
        .number("record", fault.record)
        .maybe("row", fault.row.map(|n| n as u64))
        .maybe("ident", ident(book, fault))
        .maybe("place", fault.place.map(|n| n as u64))
        .maybe("value", fault.number);
    match fault.row {
        Some(_) => object.bytes("field", &fault.field.bytes).end(),
        None => object.end(),
    }
}

fn ident(book: &Codebook, fault: &Fault) -> Option<u16> {
    fault.row.and_then(|row| book.definition.variable(row)).map(|variable| variable.ident())
}
