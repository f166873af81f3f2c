//! `list DEF DATA`: the values, record by record. What a record or a field has wrong with it is told in its place.

use super::show::{VARIABLES, selected};
use super::{Command, FORMAT, Text, format, lister, words};
use crate::args::{Given, Opt};
use crate::codebook::{Codebook, decimals};
use crate::faults::{Fault, Inquiry, ruled_out};
use crate::feed::BLOCK;
use crate::input::Input;
use crate::json::{self, Object};
use crate::printer::{Format, Printer};
use crate::records::{Record, Records};
use crate::status::{Failure, Outcome, Status};
use crate::texts;
use crate::values::{scaled, shown};
use crate::words::{Data, field_fault};
use zarfolin::{ReadError, Refusal, Shape, Terminator, Value, Values, Variable, calls};

const RECORDS: Opt = Opt { long: "--records", short: Some(b'r'), value: Some("1-20,.."), help: "these records alone" };
const RAW: Opt =
    Opt { long: "--raw", short: None, value: None, help: "texts as the bytes that they are (text and tsv)" };
const FORMATS: Opt = Opt {
    long: "--format",
    short: None,
    value: Some("FORMAT"),
    help: "text (for people), tsv, jsonl, or lister (as the lister has it)",
};

pub const COMMAND: Command = Command {
    name: "list",
    usage: "[OPTION..] DEF DATA",
    summary: "list the values of each record",
    options: &[RECORDS, VARIABLES, FORMATS, RAW],
    run,
};

fn run(given: &Given) -> Outcome {
    let [definition, data] = words(given)?;
    if given.value(FORMAT.long).is_some_and(|word| word == "lister") {
        if [RECORDS, VARIABLES, RAW].iter().any(|option| given.has(option.long)) {
            return Err(Failure::Usage("--format lister lists all, as the lister does".into()));
        }
        return lister::list(definition, data);
    }
    let (format, raw) = (format(given)?, given.has(RAW.long));
    if raw && format == Format::Jsonl {
        return Err(Failure::Usage("--raw bytes are no JSON".into()));
    }
    let wanted = given.text(RECORDS.long)?.map_or(Ok(Wanted::all()), Wanted::parse)?;
    let text = Text::open(definition)?;
    let records = Records::new(Input::open(data)?, BLOCK)?;
    let Some(definition) = text.definition() else { return Ok(Status::Definition) };
    let book = Codebook::new(&definition);
    let variables = selected(given, &book)?;
    let mut listing = Listing { book: &book, variables, format, raw, printer: Printer::new() };
    let status = listing.all(records, &wanted)?;
    listing.printer.end()?;
    Ok(status)
}

/// The records that are asked for.
struct Wanted(Vec<(u64, u64)>);

impl Wanted {
    fn all() -> Wanted {
        Wanted(vec![(1, u64::MAX)])
    }

    /// `1-20,25,30-`
    fn parse(list: &str) -> Result<Wanted, Failure> {
        let range = |word: &str| {
            let (from, to) = word.split_once('-').unwrap_or((word, word));
            let from: u64 = from.parse().ok().filter(|&from| from > 0)?;
            let to = if to.is_empty() { u64::MAX } else { to.parse().ok()? };
            (from <= to).then_some((from, to))
        };
        let ranges: Option<Vec<_>> = list.split(',').map(range).collect();
        ranges
            .map(Wanted)
            .ok_or_else(|| Failure::Usage(format!("--records {list}: records such as 1-20,25,30- were due")))
    }

    fn has(&self, record: u64) -> bool {
        self.0.iter().any(|&(from, to)| (from..=to).contains(&record))
    }

    fn last(&self) -> u64 {
        self.0.iter().map(|&(_, to)| to).max().unwrap_or(0)
    }
}

struct Listing<'a> {
    book: &'a Codebook<'a>,
    variables: Vec<Variable<'a>>,
    format: Format,
    raw: bool,
    printer: Printer,
}

impl Listing<'_> {
    fn all(&mut self, mut records: Records, wanted: &Wanted) -> Outcome {
        let mut status = Status::Done;
        let (shape, name) = (records.shape(), records.input().name.clone());
        while let Some(record) = records.next()? {
            if wanted.has(record.number) && !self.one(&record, shape, &name)? {
                status = Status::Faulty;
            }
            if record.number >= wanted.last() {
                break;
            }
        }
        Ok(status)
    }

    /// Lists a record. Answers whether it is sound, in all its fields, listed or not.
    fn one(&mut self, record: &Record, shape: Option<Shape>, name: &str) -> Result<bool, Failure> {
        let faults = self.judge(record, shape)?;
        let of_record: Vec<_> = faults.iter().filter(|fault| fault.row.is_none()).collect();
        let values = match Values::read(self.book.definition, record.bytes()) {
            Ok(values) => Some(values),
            Err(Refusal::Short) => None,
            Err(refusal) => return Err(ruled_out(refusal)),
        };
        match self.format {
            Format::Text => self.people(record, shape, name, &of_record, values.as_ref())?,
            Format::Tsv => self.tsv(record, &of_record, values.as_ref())?,
            Format::Jsonl => self.jsonl(record, &of_record, values.as_ref())?,
        }
        Ok(faults.is_empty())
    }

    /// All faults of a record, as it stands in its file.
    fn judge(&self, record: &Record, shape: Option<Shape>) -> Result<Vec<Fault>, Failure> {
        let definition = self.book.definition;
        // A file with no end of a record is one record; what it lacks is any terminator.
        let shape = shape.unwrap_or(Shape { terminator: Terminator::CrLf, first: record.bytes().len() });
        let (terminator, first) = (shape.terminator.number(), shape.first as u64);
        match calls::judge_part(definition.table(), record.whole(), terminator, first, 1) {
            Ok(_) => Ok(Vec::new()),
            Err(found) => Inquiry { definition, shape }.all(record.number, record.bytes(), found.fault),
        }
    }

    fn people(
        &mut self,
        record: &Record,
        shape: Option<Shape>,
        name: &str,
        faults: &[&Fault],
        values: Option<&Values>,
    ) -> Result<(), Failure> {
        let paint = self.printer.paint;
        self.printer.line(&paint.place(&format!("record {}", texts::count(record.number))))?;
        let data = Data { name, book: self.book, shape };
        for fault in faults {
            self.printer.line(&format!("    {}", paint.wrong(&data.record_fault(fault))))?;
        }
        let Some(values) = values else { return Ok(()) };
        let names: Vec<_> = self.variables.iter().map(|variable| texts::decoded_line(variable.name())).collect();
        let width = names.iter().map(|name| name.chars().count()).max().unwrap_or(0).min(24);
        for (variable, name) in self.variables.iter().zip(&names) {
            self.printer.bytes(format!("    {:>4}  {name:<width$}  ", variable.ident()).as_bytes())?;
            let line = match value(values, variable)? {
                Ok(Value::Text(text)) if self.raw => text.to_vec(),
                Ok(value) => with_labels(variable, &value).into_bytes(),
                Err(error) => paint.wrong(&wrong(variable, &error, record.bytes())).into_bytes(),
            };
            self.printer.bytes(&line)?;
            self.printer.bytes(b"\n")?;
        }
        Ok(())
    }

    /// A line a value: record, row, ident, name, kind, value; behind a number its decimals, by which it is scaled. A fault's kind is
    /// `fault`, its value the rule's number, and behind it stands the place or the value.
    fn tsv(&mut self, record: &Record, faults: &[&Fault], values: Option<&Values>) -> Result<(), Failure> {
        for fault in faults {
            let place = fault.place.map_or(String::new(), |place| place.to_string());
            self.printer.line(&format!("{}\t\t\t\tfault\t{}\t{place}", record.number, fault.refusal.number()))?;
        }
        let Some(values) = values else { return Ok(()) };
        for variable in &self.variables {
            let (row, ident) = (variable.row(), variable.ident());
            let name = texts::tsv_text(self.book.name(row));
            self.printer.bytes(format!("{}\t{row}\t{ident}\t{name}\t", record.number).as_bytes())?;
            let line = match value(values, variable)? {
                Ok(Value::Text(text)) if self.raw => [b"text\t", text].concat(),
                Ok(Value::Text(text)) => format!("text\t{}", texts::tsv(text)).into_bytes(),
                Ok(Value::Number(number)) => format!("number\t{number}\t{}", decimals(variable)).into_bytes(),
                Ok(value) => format!("{}\t{}", kind(&value), shown(variable, &value)).into_bytes(),
                Err(error) => {
                    let beside = error.place.map(|n| n as i64).or(error.number).unwrap_or_default();
                    format!("fault\t{}\t{beside}", error.refusal.number()).into_bytes()
                }
            };
            self.printer.bytes(&line)?;
            self.printer.bytes(b"\n")?;
        }
        Ok(())
    }

    /// A line a record. Numbers are the rule's: scaled by the decimals that stand beside them.
    fn jsonl(&mut self, record: &Record, faults: &[&Fault], values: Option<&Values>) -> Result<(), Failure> {
        let told = faults.iter().map(|fault| {
            Object::new().number("number", fault.refusal.number()).maybe("place", fault.place.map(|n| n as u64)).end()
        });
        let mut object = Object::new().number("record", record.number);
        if !faults.is_empty() {
            object = object.json("faults", &json::list(told));
        }
        let mut items = Vec::new();
        if let Some(values) = values {
            for variable in &self.variables {
                items.push(self.jsonl_value(variable, &value(values, variable)?));
            }
        }
        self.printer.line(&object.json("values", &json::list(items)).end())
    }

    fn jsonl_value(&self, variable: &Variable, value: &Result<Value, ReadError>) -> String {
        let object = Object::new().number("row", variable.row() as u64).number("ident", variable.ident());
        let object = object.text("name", self.book.name(variable.row()));
        let object = match value {
            Ok(value) => object.text("kind", kind(value)),
            Err(error) => return fault_object(object, error).end(),
        };
        match value {
            Ok(Value::Number(number)) => object.number("value", *number).number("decimals", decimals(variable)),
            Ok(Value::Set(codes)) => object.json("value", &json::list(codes.iter().map(i64::to_string))),
            Ok(Value::Text(text)) => object.bytes("value", text),
            Ok(Value::Truth(truth)) => object.truth("value", *truth),
            _ => object,
        }
        .end()
    }
}

fn fault_object(object: Object, error: &ReadError) -> Object {
    let object = object.text("kind", "fault").number("number", error.refusal.number());
    object.maybe("place", error.place.map(|n| n as u64)).maybe("value", error.number)
}

/// The value of a variable, or what is wrong with its field.
fn value<'a>(values: &'a Values, variable: &Variable) -> Result<Result<Value<'a>, ReadError>, Failure> {
    values.get(variable.row()).ok_or_else(|| ruled_out(Refusal::Row))
}

fn kind(value: &Value) -> &'static str {
    match value {
        Value::Missing => "missing",
        Value::Number(_) => "number",
        Value::Set(_) => "set",
        Value::Text(_) => "text",
        Value::Truth(_) => "truth",
    }
}

fn wrong(variable: &Variable, error: &ReadError, record: &[u8]) -> String {
    let at = error.place.map(|place| (place, record[place]));
    format!("?? {}", field_fault(variable, error.refusal, at, error.number))
}

/// A value, and what the definition calls it.
fn with_labels(variable: &Variable, value: &Value) -> String {
    let label = |number: i64| {
        let line = variable.values().find(|line| line.number == number);
        line.map(|line| texts::decoded_line(line.text))
    };
    let labels: Vec<_> = match value {
        Value::Missing => return "(missing)".into(),
        Value::Number(number) => label(*number).into_iter().collect(),
        Value::Set(codes) => {
            codes.iter().filter_map(|&code| Some(format!("{} {}", scaled(code, 0), label(code)?))).collect()
        }
        _ => Vec::new(),
    };
    let words = shown(variable, value);
    if labels.is_empty() { words } else { format!("{words}  ({})", labels.join(", ")) }
}

#[cfg(test)]
mod tests {
    use super::*;

    #[test]
    fn records_asked_for() {
        let wanted = Wanted::parse("2-3,7,9-").unwrap();
        assert_eq!((1..=10).filter(|&n| wanted.has(n)).collect::<Vec<_>>(), [2, 3, 7, 9, 10]);
        assert_eq!((wanted.last(), Wanted::parse("2-3").unwrap().last()), (u64::MAX, 3));
        for wrong in ["", "0", "3-2", "a", "1-2-3", "-3", "1,"] {
            assert!(Wanted::parse(wrong).is_err(), "{wrong}");
        }
    }
}
