//! What the program says of itself. Everything comes from the list of commands, so that nothing is named that is not there.

use crate::commands::{self, Command};
use crate::printer::Printer;
use crate::status::{Failure, Outcome, Status};
use std::ffi::OsString;

pub const USAGE: &str = "usage: zarfolin COMMAND ARGUMENT..; zarfolin --help lists the commands";

const TRUST: &str = "\
Every verdict, value and written byte comes from a call of the proved library. The program itself opens files, picks
records and rows, words messages and renames output; it has no reader of Triple-S of its own.";

const COMMON: &str = "\
DEF and DATA are file names; - is standard input. VAR is an ident (203), a row (@13, from 0), or a name that just one
variable has. Exit status: 0 sound or done; 1 the data has faults, or two files differ; 2 the definition is refused;
3 a value or correction is refused; 64 usage; 66 no input; 73, 74 an output can't be created, written; 70 the library
answered what its contract rules out.";

/// `zarfolin --help [COMMAND]`
pub fn of(words: &[OsString]) -> Outcome {
    let mut printer = Printer::new();
    match words {
        [] => printer.line(&whole())?,
        [word, ..] => {
            let name = word.to_string_lossy();
            let command = commands::find(&name).ok_or_else(|| Failure::Usage(format!("no such command: {name}")))?;
            printer.line(&one(command))?;
        }
    }
    printer.end()?;
    Ok(Status::Done)
}

fn whole() -> String {
    let lines: Vec<_> = commands::ALL.iter().map(|c| format!("  {:<11} {}", c.name, c.summary)).collect();
    format!(
        "zarfolin reads, judges and corrects Triple-S survey files: a definition (.sss or .xml) and its data (.asc).\n\n{}\n\n\
         zarfolin COMMAND --help tells a command's options.\n\n{COMMON}\n\n{TRUST}",
        lines.join("\n")
    )
}

/// A command's own page.
pub fn one(command: &Command) -> String {
    let width = command.options.iter().map(|o| option(o).len()).max().unwrap_or(0);
    let options: Vec<_> = command.options.iter().map(|o| format!("  {:<width$}  {}", option(o), o.help)).collect();
    let gap = if options.is_empty() { "" } else { "\n\n" };
    format!("usage: zarfolin {} {}\n{}{gap}{}", command.name, command.usage, command.summary, options.join("\n"))
}

fn option(option: &crate::args::Opt) -> String {
    let short = option.short.map_or(String::new(), |short| format!("-{}, ", short as char));
    let value = option.value.map_or(String::new(), |value| format!(" {value}"));
    format!("{short}{}{value}", option.long)
}

/// The version of the face, the commit, and what proved the library.
pub fn version() -> Outcome {
    let mut printer = Printer::new();
    let (kit, logic) = env!("ZARFOLIN_KIT").split_once(" logic ").unwrap_or((env!("ZARFOLIN_KIT"), "unknown"));
    let commit = env!("ZARFOLIN_COMMIT");
    printer.line(&format!("zarfolin {}, commit {commit}, kit {kit}, logic {logic}", zarfolin::VERSION))?;
    printer.end()?;
    Ok(Status::Done)
}
