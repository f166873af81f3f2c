//! `normal DEF DATA`: every record in its normal form, so that records that say the same have the same bytes, filler aside. A record
//! that is faulty has none: it is told, and no new file is written.

use super::{Command, IN_PLACE, OUTPUT, Text, output, output_is_standard, print, words};
use crate::args::Given;
use crate::codebook::Codebook;
use crate::faults::Inquiry;
use crate::feed::BLOCK;
use crate::input::Input;
use crate::output::Output;
use crate::printer::Paint;
use crate::records::Records;
use crate::status::{Failure, Outcome, Status};
use crate::texts;
use crate::words::Data;
use std::io::{IsTerminal, Write};
use zarfolin::{RecordFault, Refusal, Shape, Terminator};

pub const COMMAND: Command = Command {
    name: "normal",
    usage: "DEF DATA (-o OUT | --in-place)",
    summary: "write every value as the writer would: records that say the same get the same bytes",
    options: &[OUTPUT, IN_PLACE],
    run,
};

fn run(given: &Given) -> Outcome {
    let [definition, data] = words(given)?;
    let text = Text::open(definition)?;
    let records = Records::new(Input::open(data)?, BLOCK)?;
    let Some(definition) = text.definition() else { return Ok(Status::Definition) };
    let out = output(given, data, &[&text.input, records.input()])?;
    let name = records.input().name.clone();
    let book = Codebook::new(&definition);
    match copy(&book, records.telling(), out)? {
        Ok((count, changed)) if !output_is_standard(given) => {
            let records = texts::counted(count, "record", "records");
            print(&format!("{name}: {records}, {} written anew.", texts::count(changed)))
        }
        Ok(_) => Ok(Status::Done),
        Err(faulty) => faulty.told(&book, &text, &name),
    }
}

/// Copies the file, each record in its normal form: how many there are, and how many of them were not in it. Or the first that has none.
fn copy(book: &Codebook, mut records: Records, mut out: Output) -> Result<Result<(u64, u64), Faulty>, Failure> {
    let (mut count, mut changed) = (0, 0);
    let shape = records.shape();
    while let Some(mut record) = records.next()? {
        let before = record.bytes().to_vec();
        if let Err(fault) = book.definition.normal(record.bytes_mut()) {
            return Ok(Err(Faulty { number: record.number, bytes: before, fault, shape }));
        }
        count = record.number;
        changed += u64::from(before != record.bytes());
        out.write(record.whole())?;
    }
    out.commit()?;
    Ok(Ok((count, changed)))
}

/// A record that has no normal form.
struct Faulty {
    number: u64,
    bytes: Vec<u8>,
    fault: RecordFault,
    shape: Option<Shape>,
}

impl Faulty {
    fn told(&self, book: &Codebook, text: &Text, name: &str) -> Outcome {
        // Two variables share a byte: no data can mend that.
        if self.fault.refusal == Refusal::Shared {
            let _ = writeln!(std::io::stderr(), "{}: {}", text.input.name, self.fault.refusal);
            return Ok(Status::Definition);
        }
        let shape = self.shape.unwrap_or(Shape { terminator: Terminator::CrLf, first: self.bytes.len() });
        let inquiry = Inquiry { definition: book.definition, shape };
        let paint = Paint::of(std::io::stderr().is_terminal());
        let data = Data { name, book, shape: self.shape };
        for fault in inquiry.all(self.number, &self.bytes, self.fault)? {
            let _ = writeln!(std::io::stderr(), "{}", data.fault(&fault, paint));
        }
        Ok(Status::Faulty)
    }
}
