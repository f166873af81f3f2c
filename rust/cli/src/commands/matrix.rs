//! `matrix DEF DATA`: a file as a matrix of 64-bit floats, for statistics. The library writes it in one call and 16 MiB at most, so the
//! data is held in memory.

use super::{Command, OUTPUT, Text, output_is_standard, print, words};
use crate::args::Given;
use crate::codebook::Codebook;
use crate::faults::{Inquiry, ruled_out};
use crate::input::Input;
use crate::output::Output;
use crate::printer::Paint;
use crate::status::{Failure, Outcome, Status};
use crate::texts;
use crate::words::Data;
use std::io::{IsTerminal, Write};
use zarfolin::table::limit::MAX_MATRIX;
use zarfolin::{Definition, FileFault, Refusal, Shape, Terminator};

pub const COMMAND: Command = Command {
    name: "matrix",
    usage: "DEF DATA -o OUT",
    summary: "write the values as a matrix of 64-bit floats, with presence bytes and column summaries",
    options: &[OUTPUT],
    run,
};

/// The most bytes of data that are held.
const MOST: usize = 4 << 30;

fn run(given: &Given) -> Outcome {
    let [definition, path] = words(given)?;
    let to = given.value(OUTPUT.long).ok_or_else(|| Failure::Usage("-o OUT is due".into()))?;
    let text = Text::open(definition)?;
    let mut input = Input::open(path)?;
    let data = input.up_to(MOST + 1)?;
    if data.len() > MOST {
        return Err(Failure::Input(format!("{}: longer than {} bytes", input.name, texts::count(MOST as u64))));
    }
    let Some(definition) = text.definition() else { return Ok(Status::Definition) };
    let mut bytes = vec![0; MAX_MATRIX];
    let matrix = match definition.matrix(&data, &mut bytes) {
        Ok(matrix) => matrix,
        Err(fault) => return told(&definition, &text, &input.name, &data, fault),
    };
    let mut out = Output::create(to, &[&text.input, &input])?;
    out.write(&bytes[..matrix.total])?;
    out.commit()?;
    if output_is_standard(given) {
        return Ok(Status::Done);
    }
    let records = texts::counted(matrix.records, "record", "records");
    let columns = texts::counted(matrix.columns as u64, "column", "columns");
    print(&format!("{}: {records}, {columns}, {} bytes.", input.name, texts::count(matrix.total as u64)))
}

/// Why there is no matrix: the definition has no column, the data makes too many bytes, or its first faulty record has these faults.
fn told(definition: &Definition, text: &Text, name: &str, data: &[u8], fault: FileFault) -> Outcome {
    let refusal = fault.fault.refusal;
    match refusal {
        Refusal::NoColumn => {
            let _ = writeln!(std::io::stderr(), "{}: {refusal}", text.input.name);
            Ok(Status::Definition)
        }
        Refusal::MatrixSize => Err(Failure::Output(format!("{name}: {refusal}"))),
        _ => first_faulty(definition, name, data, fault),
    }
}

/// Tells every fault of the first record that has one.
pub fn first_faulty(definition: &Definition, name: &str, data: &[u8], fault: FileFault) -> Outcome {
    let refusal = fault.fault.refusal;
    let record = definition.records(data).find(|record| record.number() == fault.record);
    let record = record.ok_or_else(|| ruled_out(refusal))?;
    let shape = Shape::of(data);
    let inquiry = Inquiry {
        definition,
        shape: shape.unwrap_or(Shape { terminator: Terminator::CrLf, first: record.bytes().len() }),
    };
    let book = Codebook::new(definition);
    let paint = Paint::of(std::io::stderr().is_terminal());
    let words = Data { name, book: &book, shape };
    for fault in inquiry.all(fault.record, record.bytes(), fault.fault)? {
        let _ = writeln!(std::io::stderr(), "{}", words.fault(&fault, paint));
    }
    Ok(Status::Faulty)
}
