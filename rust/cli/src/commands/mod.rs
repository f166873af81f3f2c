//! The commands. One that comes is a file here and a line in `ALL`: help, usage and completion go by that list, and what is not in it
//! is not named anywhere.

mod apply;
mod check;
mod clean;
mod completion;
mod explain;
mod export;
mod import;
mod list;
mod lister;
mod matrix;
mod mend;
mod normal;
mod same;
mod set;
mod show;

use crate::args::{Given, Opt};
use crate::help;
use crate::input::{self, Input};
use crate::output::Output;
use crate::printer::{Format, Paint, Printer};
use crate::status::{Failure, Outcome, Status};
use crate::words;
use std::ffi::{OsStr, OsString};
use std::io::{IsTerminal, Write};
use zarfolin::Definition;

pub struct Command {
    pub name: &'static str,
    /// What stands behind the name.
    pub usage: &'static str,
    pub summary: &'static str,
    pub options: &'static [Opt],
    run: fn(&Given) -> Outcome,
}

/// In the order of `--help`.
pub const ALL: &[&Command] = &[
    &check::COMMAND,
    &show::COMMAND,
    &list::COMMAND,
    &set::COMMAND,
    &apply::COMMAND,
    &normal::COMMAND,
    &mend::COMMAND,
    &matrix::COMMAND,
    &export::COMMAND,
    &import::COMMAND,
    &clean::COMMAND,
    &same::COMMAND,
    &explain::COMMAND,
    &completion::COMMAND,
];

pub fn find(name: &str) -> Option<&'static Command> {
    ALL.iter().find(|command| command.name == name).copied()
}

impl Command {
    pub fn run(&self, words: Vec<OsString>) -> Outcome {
        if words.iter().take_while(|word| *word != "--").any(|word| word == "--help" || word == "-h") {
            return print(&help::one(self));
        }
        let ran = Given::parse(words, self.options).and_then(|given| (self.run)(&given));
        ran.map_err(|failure| match failure {
            Failure::Usage(words) => {
                Failure::Usage(format!("{}: {words}\nusage: zarfolin {} {}", self.name, self.name, self.usage))
            }
            other => other,
        })
    }
}

/// Prints one text, and is done.
fn print(text: &str) -> Outcome {
    let mut printer = Printer::new();
    printer.line(text)?;
    printer.end()?;
    Ok(Status::Done)
}

const FORMAT: Opt =
    Opt { long: "--format", short: None, value: Some("FORMAT"), help: "text (for people), tsv or jsonl" };
const OUTPUT: Opt =
    Opt { long: "--output", short: Some(b'o'), value: Some("OUT"), help: "the new data; - is standard output" };
const IN_PLACE: Opt =
    Opt { long: "--in-place", short: None, value: None, help: "the new data takes the place of DATA" };

fn format(given: &Given) -> Result<Format, Failure> {
    given.value(FORMAT.long).map_or(Ok(Format::Text), Format::parse)
}

/// Just so many words.
fn words<const N: usize>(given: &Given) -> Result<[&OsStr; N], Failure> {
    let words: Vec<_> = given.words.iter().map(OsString::as_os_str).collect();
    let found = words.len();
    let words: [&OsStr; N] = words.try_into().map_err(|_| Failure::Usage(format!("words due: {N}, given: {found}")))?;
    input::one_standard_input(&words)?;
    Ok(words)
}

/// A definition's file, to be read by the library.
struct Text {
    input: Input,
    bytes: Vec<u8>,
}

impl Text {
    fn open(path: &OsStr) -> Result<Text, Failure> {
        let (input, bytes) = input::definition(path)?;
        Ok(Text { input, bytes })
    }

    /// What it defines; or nothing, once standard error has told why it is refused.
    fn definition(&self) -> Option<Definition<'_>> {
        let error = match Definition::read(&self.bytes) {
            Ok(definition) => return Some(definition),
            Err(error) => error,
        };
        let paint = Paint::of(std::io::stderr().is_terminal());
        let _ = writeln!(std::io::stderr(), "{}", words::definition(&self.input.name, &self.bytes, &error, paint));
        None
    }
}

/// Where the new data goes: to OUT, or to the place of the old.
fn output(given: &Given, data: &OsStr, inputs: &[&Input]) -> Result<Output, Failure> {
    match (given.value(OUTPUT.long), given.has(IN_PLACE.long)) {
        (Some(out), false) => Output::create(out, inputs).map_err(|failure| match failure {
            Failure::Usage(words) => Failure::Usage(format!("{words}; --in-place replaces DATA")),
            other => other,
        }),
        (None, true) => Output::in_place(data),
        (Some(_), true) => Err(Failure::Usage("-o and --in-place exclude each other".into())),
        (None, false) => Err(Failure::Usage("-o OUT or --in-place is due".into())),
    }
}

/// Whether the new data goes to standard output, so that nothing else may.
fn output_is_standard(given: &Given) -> bool {
    given.value(OUTPUT.long).is_some_and(|out| out == "-")
}

/// Says why something was refused, on standard error.
fn refuse(message: &str) -> Outcome {
    let _ = writeln!(std::io::stderr(), "zarfolin: {message}");
    Ok(Status::Refused)
}
