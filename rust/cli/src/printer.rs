//! Standard output, where what is found is told: text for people in colour on a terminal, TSV or JSON for programs.

use crate::status::Failure;
use std::ffi::OsStr;
use std::io::{self, BufWriter, IsTerminal, Write};

/// How it is told.
#[derive(Clone, Copy, Debug, PartialEq, Eq)]
pub enum Format {
    Text,
    Tsv,
    Jsonl,
}

impl Format {
    pub fn parse(word: &OsStr) -> Result<Format, Failure> {
        match word.to_str() {
            Some("text") => Ok(Format::Text),
            Some("tsv") => Ok(Format::Tsv),
            Some("jsonl") => Ok(Format::Jsonl),
            _ => Err(Failure::Usage(format!("--format {}: text, tsv or jsonl was due", word.to_string_lossy()))),
        }
    }
}

/// The colours of a terminal; nothing elsewhere, nor where NO_COLOR is set.
#[derive(Clone, Copy, Debug, Default)]
pub struct Paint {
    on: bool,
}

impl Paint {
    pub fn of(terminal: bool) -> Paint {
        let set = |name| std::env::var_os(name).is_some_and(|value| !value.is_empty());
        let dumb = std::env::var_os("TERM").is_some_and(|term| term == "dumb");
        Paint { on: terminal && !dumb && !set("NO_COLOR") }
    }

    fn with(self, code: &str, words: &str) -> String {
        if self.on { format!("\x1b[{code}m{words}\x1b[0m") } else { words.into() }
    }

    /// Where something is.
    pub fn place(self, words: &str) -> String {
        self.with("1", words)
    }

    /// What is wrong.
    pub fn wrong(self, words: &str) -> String {
        self.with("31", words)
    }

    /// What is well.
    pub fn well(self, words: &str) -> String {
        self.with("32", words)
    }
}

pub struct Printer {
    out: BufWriter<io::Stdout>,
    pub paint: Paint,
}

impl Printer {
    pub fn new() -> Printer {
        let out = io::stdout();
        let paint = Paint::of(out.is_terminal());
        Printer { out: BufWriter::with_capacity(1 << 16, out), paint }
    }

    pub fn bytes(&mut self, bytes: &[u8]) -> Result<(), Failure> {
        self.out.write_all(bytes).map_err(refused)
    }

    pub fn line(&mut self, line: &str) -> Result<(), Failure> {
        self.bytes(line.as_bytes())?;
        self.bytes(b"\n")
    }

    /// Everything said so far reaches whoever reads; only then is it known that it could be written.
    pub fn end(&mut self) -> Result<(), Failure> {
        self.out.flush().map_err(refused)
    }
}

/// What is left unsaid by a run that failed stays unsaid: it must not come out behind the message, nor fail a second time.
impl Drop for Printer {
    fn drop(&mut self) {
        let out = std::mem::replace(&mut self.out, BufWriter::with_capacity(0, io::stdout()));
        let _ = out.into_parts();
    }
}

fn refused(error: io::Error) -> Failure {
    Failure::output("standard output", &error)
}
