//! `clean DEF`: the definition written anew, in one order, a statement a line. The library writes it in one call.

use super::{Command, Text, print, words};
use crate::args::{Given, Opt};
use crate::faults::ruled_out;
use crate::output::Output;
use crate::status::{Failure, Outcome, Status};
use crate::texts;
use std::ffi::OsStr;
use std::io::Write;
use zarfolin::Refusal;

const OUTPUT: Opt = Opt {
    long: "--output",
    short: Some(b'o'),
    value: Some("OUT"),
    help: "the clean definition; where it is not named, or -, standard output",
};

pub const COMMAND: Command = Command {
    name: "clean",
    usage: "DEF [-o OUT]",
    summary: "write the definition clean: a statement a line, in one order, no comments or notes",
    options: &[OUTPUT],
    run,
};

fn run(given: &Given) -> Outcome {
    let [path] = words(given)?;
    let to = given.value(OUTPUT.long).unwrap_or(OsStr::new("-"));
    let text = Text::open(path)?;
    let Some(definition) = text.definition() else { return Ok(Status::Definition) };
    let name = &text.input.name;
    let clean = match definition.clean() {
        Ok(clean) => clean,
        Err(Refusal::CleanSize) => return Err(Failure::Output(format!("{name}: {}", Refusal::CleanSize))),
        // One in XML is no 1.1 text to the library.
        Err(Refusal::Token) if definition.is_xml() => {
            let _ = writeln!(
                std::io::stderr(),
                "{name}: a definition in XML has no clean form, which is of version 1.1 [2]"
            );
            return Ok(Status::Definition);
        }
        Err(refusal) => return Err(ruled_out(refusal)),
    };
    let mut out = Output::create(to, &[&text.input])?;
    out.write(&clean)?;
    out.commit()?;
    if to == "-" {
        return Ok(Status::Done);
    }
    let variables = texts::counted(definition.variables().len() as u64, "variable", "variables");
    let (before, after) = (texts::count(text.bytes.len() as u64), texts::count(clean.len() as u64));
    print(&format!("{name}: {variables}, {after} bytes of {before}."))
}
