//! `list --format lister`: byte for byte what the lister prints, its limits among it. The lister is document 01's own program, with
//! fixed names and no exit status but 0; here files have names, and the status tells.

use crate::faults::ruled_out;
use crate::input::Input;
use crate::printer::Printer;
use crate::status::{Failure, Outcome, Status};
use std::ffi::OsStr;
use std::io::Write;
use zarfolin::{Definition, FileFault, Value, calls};

/// The most bytes of either file, and the numbers of the table: document 01, "Data files and the lister".
const MOST: usize = 65_536;
const TABLE: usize = 8_192;

pub fn list(definition: &OsStr, data: &OsStr) -> Outcome {
    let mut printer = Printer::new();
    let outcome = match (file(definition), file(data)) {
        (Err(failure), _) | (_, Err(failure)) => {
            printer.line("no file")?;
            Err(failure)
        }
        (Ok(text), Ok(bytes)) if text.len() > MOST || bytes.len() > MOST => {
            printer.line("too long")?;
            Err(Failure::Input("the lister takes files of at most 65,536 bytes".into()))
        }
        (Ok(text), Ok(bytes)) => survey(&text, &bytes, &mut printer),
    };
    printer.end()?;
    outcome
}

fn file(path: &OsStr) -> Result<Vec<u8>, Failure> {
    Input::open(path)?.up_to(MOST + 1)
}

fn survey(text: &[u8], data: &[u8], printer: &mut Printer) -> Outcome {
    // The room that the lister has: a larger table is refusal 10.
    if let Err(error) = calls::read_definition(text, &mut [0; TABLE]) {
        printer.line(&format!("definition {} {}", error.refusal.number(), error.place))?;
        return Ok(Status::Definition);
    }
    let definition = Definition::read(text).map_err(|error| ruled_out(error.refusal))?;
    let verdict = definition.judge(data);
    let sound = match &verdict {
        Ok(count) => *count,
        Err(fault) => fault.record.saturating_sub(1),
    };
    for record in definition.records(data).take(sound as usize) {
        let values = record.values().map_err(ruled_out)?;
        for (variable, value) in values.iter() {
            let value = value.map_err(|error| ruled_out(error.refusal))?;
            printer.bytes(&line(record.number(), variable.ident(), &value))?;
        }
    }
    match verdict {
        Ok(count) => {
            printer.line(&format!("ok {count}"))?;
            Ok(Status::Done)
        }
        Err(FileFault { record, fault, .. }) => {
            let ident = fault.row.and_then(|row| definition.variable(row)).map_or(0, |variable| variable.ident());
            printer.line(&format!("fault {} {record} {ident}", fault.refusal.number()))?;
            Ok(Status::Faulty)
        }
    }
}

/// Record, ident, letter and value.
fn line(record: u64, ident: u16, value: &Value) -> Vec<u8> {
    let mut line = format!("{record} {ident} ").into_bytes();
    // Writing to memory never fails.
    let _ = match value {
        Value::Missing => write!(line, "M"),
        Value::Number(number) => write!(line, "N {number}"),
        Value::Set([]) => write!(line, "S -"),
        Value::Set(codes) => write!(line, "S {}", codes.iter().map(i64::to_string).collect::<Vec<_>>().join(",")),
        Value::Text(text) => write!(line, "T ").and_then(|()| line.write_all(text)),
        Value::Truth(truth) => write!(line, "L {}", u8::from(*truth)),
    };
    line.push(b'\n');
    line
}
