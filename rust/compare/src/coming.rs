//! The calls of document 02 that the library will get, as a trait: what each takes and gives, over slices. The plain Rust and the
//! naive one stand behind it now, and are held against each other; the library joins them as each request lands (its call then stands
//! in [`Face`](crate::face::Face) too; all do now).

use crate::naive_02;
use zarfolin_plain as plain;

pub use crate::face::Correction;

pub trait Coming {
    fn name(&self) -> &'static str;
    fn judge_part(&self, table: &[i64], data: &[u8], terminator: u64, first: u64, last: u64) -> [i64; 4];
    fn correct(&self, table: &[i64], corrections: &mut [Correction], record: &mut [u8]) -> u64;
    fn normal(&self, table: &[i64], record: &mut [u8]) -> [i64; 4];
    fn mend(&self, table: &[i64], data: &[u8], out: &mut [u8], list: &mut [i64]) -> [i64; 4];
    fn matrix(&self, table: &[i64], data: &[u8], out: &mut [u8]) -> [i64; 4];
    fn write_definition(&self, def: &[u8], table: &[i64], out: &mut [u8]) -> [i64; 4];
    fn export(&self, def: &[u8], table: &[i64], data: &[u8], out: &mut [u8]) -> [i64; 5];
    fn import(&self, def: &[u8], table: &[i64], text: &[u8], out: &mut [u8]) -> [i64; 4];
}

/// The plain Rust.
pub struct Plain;

impl Coming for Plain {
    fn name(&self) -> &'static str {
        "plain Rust"
    }

    fn judge_part(&self, table: &[i64], data: &[u8], terminator: u64, first: u64, last: u64) -> [i64; 4] {
        plain::judge_part(table, data, terminator, first, last)
    }

    fn correct(&self, table: &[i64], corrections: &mut [Correction], record: &mut [u8]) -> u64 {
        crate::face::Face::correct(&crate::face::Plain, table, corrections, record)
    }

    fn normal(&self, table: &[i64], record: &mut [u8]) -> [i64; 4] {
        plain::normal(table, record)
    }

    fn mend(&self, table: &[i64], data: &[u8], out: &mut [u8], list: &mut [i64]) -> [i64; 4] {
        plain::mend(table, data, out, list)
    }

    fn matrix(&self, table: &[i64], data: &[u8], out: &mut [u8]) -> [i64; 4] {
        plain::matrix(table, data, out)
    }

    fn write_definition(&self, def: &[u8], table: &[i64], out: &mut [u8]) -> [i64; 4] {
        plain::write_definition(def, table, out)
    }

    fn export(&self, def: &[u8], table: &[i64], data: &[u8], out: &mut [u8]) -> [i64; 5] {
        plain::export(def, table, data, out)
    }

    fn import(&self, def: &[u8], table: &[i64], text: &[u8], out: &mut [u8]) -> [i64; 4] {
        plain::import(def, table, text, out)
    }
}

/// The naive Rust.
pub struct Naive;

impl Coming for Naive {
    fn name(&self) -> &'static str {
        "naive Rust"
    }

    fn judge_part(&self, table: &[i64], data: &[u8], terminator: u64, first: u64, last: u64) -> [i64; 4] {
        naive_02::judge_part(table, data, terminator, first, last)
    }

    fn correct(&self, table: &[i64], corrections: &mut [Correction], record: &mut [u8]) -> u64 {
        naive_02::correct(table, corrections, record)
    }

    fn normal(&self, table: &[i64], record: &mut [u8]) -> [i64; 4] {
        naive_02::normal(table, record)
    }

    fn mend(&self, table: &[i64], data: &[u8], out: &mut [u8], list: &mut [i64]) -> [i64; 4] {
        naive_02::mend(table, data, out, list)
    }

    fn matrix(&self, table: &[i64], data: &[u8], out: &mut [u8]) -> [i64; 4] {
        naive_02::matrix(table, data, out)
    }

    fn write_definition(&self, def: &[u8], table: &[i64], out: &mut [u8]) -> [i64; 4] {
        naive_02::write_definition(def, table, out)
    }

    fn export(&self, def: &[u8], table: &[i64], data: &[u8], out: &mut [u8]) -> [i64; 5] {
        naive_02::export(def, table, data, out)
    }

    fn import(&self, def: &[u8], table: &[i64], text: &[u8], out: &mut [u8]) -> [i64; 4] {
        naive_02::import(def, table, text, out)
    }
}

/// Both sides.
pub fn sides() -> [&'static dyn Coming; 2] {
    [&Plain, &Naive]
}

/// What the plain Rust is held against ([`other`](crate::face::other)), behind the same trait.
pub struct Landed(Box<dyn crate::face::Face>);

impl Landed {
    pub fn start() -> Landed {
        Landed(crate::face::other())
    }
}

impl Coming for Landed {
    fn name(&self) -> &'static str {
        self.0.name()
    }

    fn judge_part(&self, table: &[i64], data: &[u8], terminator: u64, first: u64, last: u64) -> [i64; 4] {
        let mut answer = [0; 4];
        self.0.judge_part(table, data, terminator, first, last, &mut answer);
        answer
    }

    fn correct(&self, table: &[i64], corrections: &mut [Correction], record: &mut [u8]) -> u64 {
        self.0.correct(table, corrections, record)
    }

    fn normal(&self, table: &[i64], record: &mut [u8]) -> [i64; 4] {
        let mut answer = [0; 4];
        self.0.normal(table, record, &mut answer);
        answer
    }

    fn mend(&self, table: &[i64], data: &[u8], out: &mut [u8], list: &mut [i64]) -> [i64; 4] {
        let mut answer = [0; 4];
        self.0.mend(table, data, out, list, &mut answer);
        answer
    }

    fn matrix(&self, table: &[i64], data: &[u8], out: &mut [u8]) -> [i64; 4] {
        let mut answer = [0; 4];
        self.0.matrix(table, data, out, &mut answer);
        answer
    }

    fn write_definition(&self, def: &[u8], table: &[i64], out: &mut [u8]) -> [i64; 4] {
        let mut answer = [-7; 4];
        let number = self.0.write_definition(def, table, out, &mut answer);
        assert_eq!(number as i64, answer[0]);
        answer
    }

    fn export(&self, def: &[u8], table: &[i64], data: &[u8], out: &mut [u8]) -> [i64; 5] {
        let mut answer = [0; 5];
        self.0.export(def, table, data, out, &mut answer);
        answer
    }

    fn import(&self, def: &[u8], table: &[i64], text: &[u8], out: &mut [u8]) -> [i64; 4] {
        let mut answer = [-7; 4];
        let number = self.0.import(def, table, text, out, &mut answer);
        assert_eq!(number as i64, answer[0]);
        answer
    }
}
