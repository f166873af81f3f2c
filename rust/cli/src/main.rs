//! `zarfolin`, the program for the desk: checks, shows, lists and corrects Triple-S survey files.
//!
//! The line of trust: every verdict, every value and every written byte comes from a call of the proved library, through the crate
//! `zarfolin`. What stands here opens files, picks records and rows, words messages and renames output; it has no reader of Triple-S
//! of its own. `commands` has the commands, one file each; what they share stands beside it, one matter a file.

mod args;
mod codebook;
mod commands;
mod excerpt;
mod faults;
mod feed;
mod fields;
mod fixes;
mod help;
mod input;
mod json;
mod judge;
mod output;
mod plan;
mod printer;
mod progress;
mod records;
mod report;
mod scan;
mod status;
mod texts;
mod values;
mod words;

use status::{Failure, Outcome};
use std::ffi::OsString;
use std::io::Write;

fn main() {
    let code = match run(std::env::args_os().skip(1).collect()) {
        Ok(status) => status.code(),
        Err(failure) => {
            if let Some(message) = failure.message() {
                // Where standard error can't be written to, the status tells.
                let _ = writeln!(std::io::stderr(), "zarfolin: {message}");
            }
            failure.code()
        }
    };
    std::process::exit(code);
}

fn run(mut words: Vec<OsString>) -> Outcome {
    if zarfolin::calls::version() != zarfolin::VERSION {
        return Err(Failure::Library("the library is of another version than the program".into()));
    }
    if words.is_empty() {
        return Err(Failure::Usage(format!("a command is due\n{}", help::USAGE)));
    }
    let word = words.remove(0);
    match word.to_str() {
        Some("--help" | "-h" | "help") => help::of(&words),
        Some("--version") => help::version(),
        name => match commands::find(name.unwrap_or_default()) {
            Some(command) => command.run(words),
            None => Err(Failure::Usage(format!("no such command: {}\n{}", word.to_string_lossy(), help::USAGE))),
        },
    }
}
