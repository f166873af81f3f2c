//! How far long work has come: on standard error, where that is a terminal, once a second has passed.

use crate::texts;
use std::io::{self, IsTerminal, Write};
use std::time::{Duration, Instant};

/// Between two tellings, and before the first.
const EVERY: Duration = Duration::from_secs(1);

pub struct Progress {
    on: bool,
    size: Option<u64>,
    started: Instant,
    told: Instant,
    shown: bool,
}

impl Progress {
    /// Of a file of this length, where it is known.
    pub fn new(size: Option<u64>) -> Progress {
        let now = Instant::now();
        Progress { on: io::stderr().is_terminal(), size, started: now, told: now, shown: false }
    }

    pub fn tell(&mut self, records: u64, bytes: u64) {
        if !self.on || self.told.elapsed() < EVERY {
            return;
        }
        self.told = Instant::now();
        self.shown = true;
        let line = line(records, bytes, self.size, self.started.elapsed());
        // A terminal that can't be written to is no reason to stop.
        let _ = write!(io::stderr(), "\r\x1b[K{line}");
    }

    /// Leaves the line as it was found.
    fn end(&mut self) {
        if std::mem::take(&mut self.shown) {
            let _ = write!(io::stderr(), "\r\x1b[K");
        }
    }
}

/// However the work ends, what is said next begins a line.
impl Drop for Progress {
    fn drop(&mut self) {
        self.end();
    }
}

fn line(records: u64, bytes: u64, size: Option<u64>, since: Duration) -> String {
    let rate = bytes as f64 / since.as_secs_f64();
    let mut line = format!("{} records, {:.1} MB/s", texts::count(records), rate / 1e6);
    if let Some(size) = size.filter(|&size| size >= bytes && bytes > 0) {
        let rest = (size - bytes) as f64 / rate;
        line += &format!(", {} %, {:.0} s left", bytes * 100 / size.max(1), rest.ceil());
    }
    line
}

#[cfg(test)]
mod tests {
    use super::*;

    #[test]
    fn what_is_told() {
        let second = Duration::from_secs(2);
        assert_eq!(line(12_000, 20_000_000, Some(50_000_000), second), "12,000 records, 10.0 MB/s, 40 %, 3 s left");
        assert_eq!(line(1, 1_000_000, None, second), "1 records, 0.5 MB/s");
    }
}
