//! How a run ends: with what was found, or with why it could not be done; and the exit status of each. The statuses from 64 on are
//! those of sysexits.h, so that a script can tell a faulty file from one that could not be read.

use std::io;

/// What was found.
#[derive(Clone, Copy, Debug, PartialEq, Eq)]
pub enum Status {
    /// Sound, or done.
    Done,
    /// The data has faults, or two files differ.
    Faulty,
    /// The definition is refused.
    Definition,
    /// A value or a correction is refused.
    Refused,
}

impl Status {
    pub fn code(self) -> i32 {
        match self {
            Status::Done => 0,
            Status::Faulty => 1,
            Status::Definition => 2,
            Status::Refused => 3,
        }
    }
}

/// Why it could not be done.
#[derive(Clone, Debug, PartialEq, Eq)]
pub enum Failure {
    /// The command line asks for what there is not.
    Usage(String),
    /// An input can't be opened or read.
    Input(String),
    /// The library answered what its contract rules out.
    Library(String),
    /// An output can't be created.
    Create(String),
    /// An output can't be written.
    Output(String),
    /// Whoever read the output has gone: nothing is left to say, nor anyone to say it to.
    Pipe,
}

impl Failure {
    pub fn code(&self) -> i32 {
        match self {
            Failure::Usage(_) => 64,
            Failure::Input(_) => 66,
            Failure::Library(_) => 70,
            Failure::Create(_) => 73,
            Failure::Output(_) => 74,
            // As a program that the signal ends: 128 and its number.
            Failure::Pipe => 128 + 13,
        }
    }

    pub fn message(&self) -> Option<&str> {
        match self {
            Failure::Usage(words) | Failure::Input(words) | Failure::Library(words) => Some(words),
            Failure::Create(words) | Failure::Output(words) => Some(words),
            Failure::Pipe => None,
        }
    }

    pub fn input(name: &str, error: &io::Error) -> Failure {
        Failure::Input(format!("{name}: {}", reason(error)))
    }

    pub fn output(name: &str, error: &io::Error) -> Failure {
        match error.kind() {
            io::ErrorKind::BrokenPipe => Failure::Pipe,
            _ => Failure::Output(format!("{name}: {}", reason(error))),
        }
    }
}

pub type Outcome = Result<Status, Failure>;

/// An error of the system in its words, without the number that Rust puts behind them.
pub fn reason(error: &io::Error) -> String {
    let words = error.to_string();
    words.split(" (os error").next().unwrap_or(&words).to_string()
}

#[cfg(test)]
mod tests {
    use super::*;

    #[test]
    fn a_reader_that_has_gone_is_no_fault_of_writing() {
        assert_eq!(Failure::output("x", &io::Error::from(io::ErrorKind::BrokenPipe)), Failure::Pipe);
        let full = Failure::output("x", &io::Error::from_raw_os_error(28));
        assert_eq!((full.code(), full.message()), (74, Some("x: No space left on device")));
    }
}
