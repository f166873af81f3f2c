//! The face as a trait: what the exported calls take and give, over slices.

use zarfolin_plain as plain;

/// One correction, as it stands at the C face: 32 bytes.
pub use plain::Correction;

pub trait Face {
    fn name(&self) -> &'static str;
    fn read_definition(&self, def: &[u8], table: &mut [i64], answer: &mut [i64; 4]) -> u64;
    fn read_value(&self, table: &[i64], row: u64, record: &[u8], list: &mut [i64], answer: &mut [i64; 4]) -> u64;
    fn judge_record(&self, table: &[i64], record: &[u8], answer: &mut [i64; 4]) -> u64;
    fn write_missing(&self, table: &[i64], row: u64, record: &mut [u8]) -> u64;
    fn write_number(&self, table: &[i64], row: u64, number: i64, record: &mut [u8]) -> u64;
    fn write_truth(&self, table: &[i64], row: u64, truth: u8, record: &mut [u8]) -> u64;
    fn write_set(&self, table: &[i64], row: u64, list: &[i64], record: &mut [u8]) -> u64;
    fn write_text(&self, table: &[i64], row: u64, text: &[u8], record: &mut [u8]) -> u64;
    fn judge_file(&self, table: &[i64], data: &[u8], answer: &mut [i64; 4]) -> u64;
    fn next_record(&self, data: &[u8], from: u64, answer: &mut [i64; 4]) -> u64;
    fn read_record(&self, t: &[i64], record: &[u8], out: &mut [i64], list: &mut [i64], answer: &mut [i64; 4]) -> u64;
    fn decode_text(&self, def: &[u8], place: u64, length: u64, list: &mut [i64], answer: &mut [i64; 4]) -> u64;
    fn judge_part(&self, t: &[i64], data: &[u8], end: u64, first: u64, last: u64, answer: &mut [i64; 4]) -> u64;
    fn correct(&self, table: &[i64], corrections: &mut [Correction], record: &mut [u8]) -> u64;
    fn normal(&self, table: &[i64], record: &mut [u8], answer: &mut [i64; 4]) -> u64;
    fn mend(&self, t: &[i64], data: &[u8], out: &mut [u8], list: &mut [i64], answer: &mut [i64; 4]) -> u64;
    fn matrix(&self, t: &[i64], data: &[u8], out: &mut [u8], answer: &mut [i64; 4]) -> u64;
    fn export(&self, def: &[u8], t: &[i64], data: &[u8], out: &mut [u8], answer: &mut [i64; 5]) -> u64;
    fn write_definition(&self, def: &[u8], t: &[i64], out: &mut [u8], answer: &mut [i64; 4]) -> u64;
    fn import(&self, def: &[u8], t: &[i64], text: &[u8], out: &mut [u8], answer: &mut [i64; 4]) -> u64;
}

/// The plain Rust implementation.
pub struct Plain;

#[inline]
fn give(answer: &mut [i64; 4], numbers: [i64; 4]) -> u64 {
    *answer = numbers;
    numbers[0] as u64
}

impl Face for Plain {
    fn name(&self) -> &'static str {
        "plain Rust"
    }

    fn read_definition(&self, def: &[u8], table: &mut [i64], answer: &mut [i64; 4]) -> u64 {
        let d = plain::read_definition(def, table);
        give(answer, [d.number as i64, d.place as i64, d.variables as i64, d.lines as i64])
    }

    fn read_value(&self, table: &[i64], row: u64, record: &[u8], list: &mut [i64], answer: &mut [i64; 4]) -> u64 {
        let numbers = match plain::read_value(table, row, record, list) {
            Err(refused) => [refused.number as i64, refused.beside, 0, 0],
            Ok(plain::Value::Missing) => [0, 0, 0, 0],
            Ok(plain::Value::Number(n)) => [0, 1, n, 0],
            Ok(plain::Value::Set(count)) => [0, 2, count as i64, 0],
            Ok(plain::Value::Text(place, length)) => [0, 3, place as i64, length as i64],
            Ok(plain::Value::Truth(truth)) => [0, 4, truth as i64, 0],
        };
        give(answer, numbers)
    }

    fn judge_record(&self, table: &[i64], record: &[u8], answer: &mut [i64; 4]) -> u64 {
        give(answer, plain::judge_record(table, record).numbers())
    }

    fn write_missing(&self, table: &[i64], row: u64, record: &mut [u8]) -> u64 {
        plain::write_missing(table, row, record) as u64
    }

    fn write_number(&self, table: &[i64], row: u64, number: i64, record: &mut [u8]) -> u64 {
        plain::write_number(table, row, number, record) as u64
    }

    fn write_truth(&self, table: &[i64], row: u64, truth: u8, record: &mut [u8]) -> u64 {
        plain::write_truth(table, row, truth, record) as u64
    }

    fn write_set(&self, table: &[i64], row: u64, list: &[i64], record: &mut [u8]) -> u64 {
        plain::write_set(table, row, list, record) as u64
    }

    fn write_text(&self, table: &[i64], row: u64, text: &[u8], record: &mut [u8]) -> u64 {
        plain::write_text(table, row, text, record) as u64
    }

    fn judge_file(&self, table: &[i64], data: &[u8], answer: &mut [i64; 4]) -> u64 {
        give(answer, plain::judge_file(table, data).numbers())
    }

    fn next_record(&self, data: &[u8], from: u64, answer: &mut [i64; 4]) -> u64 {
        let numbers = match plain::next_record(data, from) {
            plain::NextRecord::None => [0, 0, 0, 0],
            plain::NextRecord::Ended { start, end, next } => [1, start as i64, end as i64, next as i64],
            plain::NextRecord::NotEnded { start, end } => [2, start as i64, end as i64, end as i64],
        };
        give(answer, numbers)
    }

    fn read_record(&self, t: &[i64], record: &[u8], out: &mut [i64], list: &mut [i64], answer: &mut [i64; 4]) -> u64 {
        let numbers = match plain::read_record(t, record, out, list) {
            Ok((members, refused)) => [0, members as i64, refused as i64, 0],
            Err(number) => [number as i64, 0, 0, 0],
        };
        give(answer, numbers)
    }

    fn decode_text(&self, def: &[u8], place: u64, length: u64, list: &mut [i64], answer: &mut [i64; 4]) -> u64 {
        let numbers = match plain::decode_text(def, place, length, list) {
            Ok(count) => [0, count as i64, 0, 0],
            Err(number) => [number as i64, 0, 0, 0],
        };
        give(answer, numbers)
    }

    fn judge_part(&self, t: &[i64], data: &[u8], end: u64, first: u64, last: u64, answer: &mut [i64; 4]) -> u64 {
        give(answer, plain::judge_part(t, data, end, first, last))
    }

    fn correct(&self, table: &[i64], corrections: &mut [Correction], record: &mut [u8]) -> u64 {
        plain::correct(table, corrections, record)
    }

    fn normal(&self, table: &[i64], record: &mut [u8], answer: &mut [i64; 4]) -> u64 {
        give(answer, plain::normal(table, record))
    }

    fn mend(&self, t: &[i64], data: &[u8], out: &mut [u8], list: &mut [i64], answer: &mut [i64; 4]) -> u64 {
        give(answer, plain::mend(t, data, out, list))
    }

    fn matrix(&self, t: &[i64], data: &[u8], out: &mut [u8], answer: &mut [i64; 4]) -> u64 {
        give(answer, plain::matrix(t, data, out))
    }

    fn export(&self, def: &[u8], t: &[i64], data: &[u8], out: &mut [u8], answer: &mut [i64; 5]) -> u64 {
        *answer = plain::export(def, t, data, out);
        answer[0] as u64
    }

    fn write_definition(&self, def: &[u8], t: &[i64], out: &mut [u8], answer: &mut [i64; 4]) -> u64 {
        give(answer, plain::write_definition(def, t, out))
    }

    fn import(&self, def: &[u8], t: &[i64], text: &[u8], out: &mut [u8], answer: &mut [i64; 4]) -> u64 {
        give(answer, plain::import(def, t, text, out))
    }
}

/// The linked library.
#[cfg(feature = "ffi")]
pub struct Library;

#[cfg(feature = "ffi")]
impl Face for Library {
    fn name(&self) -> &'static str {
        "libzarfolin.a"
    }

    fn read_definition(&self, def: &[u8], table: &mut [i64], answer: &mut [i64; 4]) -> u64 {
        // SAFETY, here and below: pointers and lengths of live slices that don't overlap; answer has four numbers.
        unsafe {
            zarfolin::ffi::zarfolin_read_definition(
                def.as_ptr(),
                def.len(),
                table.as_mut_ptr(),
                table.len(),
                answer.as_mut_ptr(),
            )
        }
    }

    fn read_value(&self, table: &[i64], row: u64, record: &[u8], list: &mut [i64], answer: &mut [i64; 4]) -> u64 {
        unsafe {
            zarfolin::ffi::zarfolin_read_value(
                table.as_ptr(),
                table.len(),
                row,
                record.as_ptr(),
                record.len(),
                list.as_mut_ptr(),
                list.len(),
                answer.as_mut_ptr(),
            )
        }
    }

    fn judge_record(&self, table: &[i64], record: &[u8], answer: &mut [i64; 4]) -> u64 {
        unsafe {
            zarfolin::ffi::zarfolin_judge_record(
                table.as_ptr(),
                table.len(),
                record.as_ptr(),
                record.len(),
                answer.as_mut_ptr(),
            )
        }
    }

    fn write_missing(&self, table: &[i64], row: u64, record: &mut [u8]) -> u64 {
        unsafe {
            zarfolin::ffi::zarfolin_write_missing(table.as_ptr(), table.len(), row, record.as_mut_ptr(), record.len())
        }
    }

    fn write_number(&self, table: &[i64], row: u64, number: i64, record: &mut [u8]) -> u64 {
        unsafe {
            zarfolin::ffi::zarfolin_write_number(
                table.as_ptr(),
                table.len(),
                row,
                number,
                record.as_mut_ptr(),
                record.len(),
            )
        }
    }

    fn write_truth(&self, table: &[i64], row: u64, truth: u8, record: &mut [u8]) -> u64 {
        unsafe {
            zarfolin::ffi::zarfolin_write_truth(
                table.as_ptr(),
                table.len(),
                row,
                truth,
                record.as_mut_ptr(),
                record.len(),
            )
        }
    }

    fn write_set(&self, table: &[i64], row: u64, list: &[i64], record: &mut [u8]) -> u64 {
        unsafe {
            zarfolin::ffi::zarfolin_write_set(
                table.as_ptr(),
                table.len(),
                row,
                list.as_ptr(),
                list.len(),
                record.as_mut_ptr(),
                record.len(),
            )
        }
    }

    fn write_text(&self, table: &[i64], row: u64, text: &[u8], record: &mut [u8]) -> u64 {
        unsafe {
            zarfolin::ffi::zarfolin_write_text(
                table.as_ptr(),
                table.len(),
                row,
                text.as_ptr(),
                text.len(),
                record.as_mut_ptr(),
                record.len(),
            )
        }
    }

    fn judge_file(&self, table: &[i64], data: &[u8], answer: &mut [i64; 4]) -> u64 {
        unsafe {
            zarfolin::ffi::zarfolin_judge_file(
                table.as_ptr(),
                table.len(),
                data.as_ptr(),
                data.len(),
                answer.as_mut_ptr(),
            )
        }
    }

    fn next_record(&self, data: &[u8], from: u64, answer: &mut [i64; 4]) -> u64 {
        unsafe { zarfolin::ffi::zarfolin_next_record(data.as_ptr(), data.len(), from, answer.as_mut_ptr()) }
    }

    fn read_record(&self, t: &[i64], record: &[u8], out: &mut [i64], list: &mut [i64], answer: &mut [i64; 4]) -> u64 {
        unsafe {
            zarfolin::ffi::zarfolin_read_record(
                t.as_ptr(),
                t.len(),
                record.as_ptr(),
                record.len(),
                out.as_mut_ptr(),
                out.len(),
                list.as_mut_ptr(),
                list.len(),
                answer.as_mut_ptr(),
            )
        }
    }

    fn decode_text(&self, def: &[u8], place: u64, length: u64, list: &mut [i64], answer: &mut [i64; 4]) -> u64 {
        unsafe {
            zarfolin::ffi::zarfolin_decode_text(
                def.as_ptr(),
                def.len(),
                place,
                length,
                list.as_mut_ptr(),
                list.len(),
                answer.as_mut_ptr(),
            )
        }
    }

    fn judge_part(&self, t: &[i64], data: &[u8], end: u64, first: u64, last: u64, answer: &mut [i64; 4]) -> u64 {
        unsafe {
            zarfolin::ffi::zarfolin_judge_part(
                t.as_ptr(),
                t.len(),
                data.as_ptr(),
                data.len(),
                end,
                first,
                last,
                answer.as_mut_ptr(),
            )
        }
    }

    fn correct(&self, table: &[i64], corrections: &mut [Correction], record: &mut [u8]) -> u64 {
        // Both are 32 bytes: row, kind, number, mark.
        unsafe {
            zarfolin::ffi::zarfolin_correct(
                table.as_ptr(),
                table.len(),
                corrections.as_mut_ptr().cast(),
                corrections.len(),
                record.as_mut_ptr(),
                record.len(),
            )
        }
    }

    fn normal(&self, table: &[i64], record: &mut [u8], answer: &mut [i64; 4]) -> u64 {
        unsafe {
            zarfolin::ffi::zarfolin_normal(
                table.as_ptr(),
                table.len(),
                record.as_mut_ptr(),
                record.len(),
                answer.as_mut_ptr(),
            )
        }
    }

    fn mend(&self, t: &[i64], data: &[u8], out: &mut [u8], list: &mut [i64], answer: &mut [i64; 4]) -> u64 {
        unsafe {
            zarfolin::ffi::zarfolin_mend(
                t.as_ptr(),
                t.len(),
                data.as_ptr(),
                data.len(),
                out.as_mut_ptr(),
                out.len(),
                list.as_mut_ptr(),
                list.len(),
                answer.as_mut_ptr(),
            )
        }
    }

    fn matrix(&self, t: &[i64], data: &[u8], out: &mut [u8], answer: &mut [i64; 4]) -> u64 {
        unsafe {
            zarfolin::ffi::zarfolin_matrix(
                t.as_ptr(),
                t.len(),
                data.as_ptr(),
                data.len(),
                out.as_mut_ptr(),
                out.len(),
                answer.as_mut_ptr(),
            )
        }
    }

    fn export(&self, def: &[u8], t: &[i64], data: &[u8], out: &mut [u8], answer: &mut [i64; 5]) -> u64 {
        unsafe {
            zarfolin::ffi::zarfolin_export(
                def.as_ptr(),
                def.len(),
                t.as_ptr(),
                t.len(),
                data.as_ptr(),
                data.len(),
                out.as_mut_ptr(),
                out.len(),
                answer.as_mut_ptr(),
            )
        }
    }

    fn write_definition(&self, def: &[u8], t: &[i64], out: &mut [u8], answer: &mut [i64; 4]) -> u64 {
        unsafe {
            zarfolin::ffi::zarfolin_write_definition(
                def.as_ptr(),
                def.len(),
                t.as_ptr(),
                t.len(),
                out.as_mut_ptr(),
                out.len(),
                answer.as_mut_ptr(),
            )
        }
    }

    fn import(&self, def: &[u8], t: &[i64], text: &[u8], out: &mut [u8], answer: &mut [i64; 4]) -> u64 {
        unsafe {
            zarfolin::ffi::zarfolin_import(
                def.as_ptr(),
                def.len(),
                t.as_ptr(),
                t.len(),
                text.as_ptr(),
                text.len(),
                out.as_mut_ptr(),
                out.len(),
                answer.as_mut_ptr(),
            )
        }
    }
}

/// What the plain Rust is held against: the library in a process of its own (the command ZARFOLIN_BRIDGE), or the linked
/// library (feature `ffi`), or the naive Rust where there is neither.
pub fn other() -> Box<dyn Face> {
    if let Ok(command) = std::env::var("ZARFOLIN_BRIDGE") {
        return Box::new(crate::bridge::Bridge::start(&command));
    }
    #[cfg(feature = "ffi")]
    return Box::new(Library);
    #[cfg(not(feature = "ffi"))]
    return Box::new(crate::naive::Naive);
}

/// What the plain Rust is measured against: the linked library, or itself where none is linked.
#[cfg(feature = "ffi")]
pub fn measured() -> impl Face {
    Library
}

#[cfg(not(feature = "ffi"))]
pub fn measured() -> impl Face {
    Plain
}
