//! `export DEF DATA`: a file as comma-separated text, for spreadsheets. The library writes it in one call, so data and text are held in
//! memory.

use super::matrix::first_faulty;
use super::{Command, OUTPUT, Text, output_is_standard, print, words};
use crate::args::Given;
use crate::faults::ruled_out;
use crate::input::Input;
use crate::output::Output;
use crate::status::{Failure, Outcome, Status};
use crate::texts;
use zarfolin::calls::Exported;
use zarfolin::{Definition, Refusal};

pub const COMMAND: Command = Command {
    name: "export",
    usage: "DEF DATA -o OUT",
    summary: "write the values as comma-separated text (RFC 4180), up to the first faulty record",
    options: &[OUTPUT],
    run,
};

/// The most bytes of data, and of text, that are held.
const MOST: usize = 4 << 30;

fn run(given: &Given) -> Outcome {
    let [definition, path] = words(given)?;
    let to = given.value(OUTPUT.long).ok_or_else(|| Failure::Usage("-o OUT is due".into()))?;
    let text = Text::open(definition)?;
    let mut input = Input::open(path)?;
    let data = input.up_to(MOST + 1)?;
    if data.len() > MOST {
        return Err(Failure::Input(format!("{}: longer than {} bytes", input.name, texts::count(MOST as u64))));
    }
    let Some(definition) = text.definition() else { return Ok(Status::Definition) };
    let (bytes, exported) = export(&definition, &data, &input.name)?;
    let mut out = Output::create(to, &[&text.input, &input])?;
    out.write(&bytes[..exported.length])?;
    out.commit()?;
    if let Some(fault) = exported.fault {
        return first_faulty(&definition, &input.name, &data, fault);
    }
    if output_is_standard(given) {
        return Ok(Status::Done);
    }
    let records = texts::counted(exported.records, "record", "records");
    print(&format!("{}: {records}, {} bytes.", input.name, texts::count(exported.length as u64)))
}

/// The text, in a buffer that may be longer. How long it is the library alone knows: where the room was too little there is more the
/// next time.
fn export(definition: &Definition, data: &[u8], name: &str) -> Result<(Vec<u8>, Exported), Failure> {
    let mut room = 2 * data.len() + (1 << 16);
    while room <= MOST {
        let mut out = vec![0; room];
        match definition.export(data, &mut out) {
            Ok(exported) => return Ok((out, exported)),
            Err(Refusal::ExportRoom) => room *= 4,
            Err(refusal) => return Err(ruled_out(refusal)),
        }
    }
    Err(Failure::Output(format!("{name}: the text would be longer than {} bytes", texts::count(MOST as u64))))
}
