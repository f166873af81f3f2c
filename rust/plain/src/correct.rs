//! A list of corrections of one record in one call.

use crate::table::view;
use crate::write::{put_missing, put_number, put_truth};

/// One correction: a row and its new value. Kinds are those of reading: 0 missing, 1 a number, 4 a truth. The call marks it: 0 done,
/// or the number that refused it.
#[repr(C)]
#[derive(Clone, Copy, Debug, Default, PartialEq, Eq)]
pub struct Correction {
    pub row: u64,
    pub kind: u64,
    pub number: i64,
    pub mark: u64,
}

/// Writes the corrections in their order and marks each one 0, 21, 26 or 27, past every refusal. 20 and 22 turn the whole call away,
/// with every mark kept.
pub fn correct(table: &[i64], corrections: &mut [Correction], record: &mut [u8]) -> u64 {
    let Some(t) = view(table) else { return 20 };
    if record.len() < t.least {
        return 22;
    }
    for c in corrections {
        c.mark = match t.rows.get(usize::try_from(c.row).unwrap_or(usize::MAX)) {
            None => 21,
            Some(row) => {
                let done = match c.kind {
                    0 => {
                        put_missing(&t, row, record);
                        Ok(())
                    }
                    1 => put_number(&t, row, c.number, record),
                    4 => put_truth(row, c.number, record),
                    _ => Err(26),
                };
                done.err().unwrap_or(0) as u64
            }
        };
    }
    0
}
