//! NOT the product: the plain Rust implementation behind the same C face. It lets the header, the C example, the wrappers
//! and the comparison be tried where the verified library isn't built (`rust/test --standin`). Nothing links it otherwise.

use std::slice::{from_raw_parts, from_raw_parts_mut};
use zarfolin_plain as plain;

type Number = u64;

unsafe fn give(answer: *mut i64, numbers: [i64; 4]) -> Number {
    unsafe { answer.cast::<[i64; 4]>().write(numbers) };
    numbers[0] as Number
}

#[unsafe(no_mangle)]
pub extern "C" fn zarfolin_version() -> Number {
    zarfolin::VERSION
}

#[unsafe(no_mangle)]
pub unsafe extern "C" fn zarfolin_read_definition(
    def: *const u8,
    def_len: usize,
    table: *mut i64,
    table_len: usize,
    answer: *mut i64,
) -> Number {
    unsafe {
        let d = plain::read_definition(from_raw_parts(def, def_len), from_raw_parts_mut(table, table_len));
        give(answer, [d.number as i64, d.place as i64, d.variables as i64, d.lines as i64])
    }
}

#[unsafe(no_mangle)]
pub unsafe extern "C" fn zarfolin_read_value(
    table: *const i64,
    table_len: usize,
    row: u64,
    record: *const u8,
    record_len: usize,
    list: *mut i64,
    list_len: usize,
    answer: *mut i64,
) -> Number {
    unsafe {
        let (table, record) = (from_raw_parts(table, table_len), from_raw_parts(record, record_len));
        let numbers = match plain::read_value(table, row, record, from_raw_parts_mut(list, list_len)) {
            Err(refused) => [refused.number as i64, refused.beside, 0, 0],
            Ok(plain::Value::Missing) => [0, 0, 0, 0],
            Ok(plain::Value::Number(n)) => [0, 1, n, 0],
            Ok(plain::Value::Set(count)) => [0, 2, count as i64, 0],
            Ok(plain::Value::Text(place, length)) => [0, 3, place as i64, length as i64],
            Ok(plain::Value::Truth(truth)) => [0, 4, truth as i64, 0],
        };
        give(answer, numbers)
    }
}

#[unsafe(no_mangle)]
pub unsafe extern "C" fn zarfolin_judge_record(
    table: *const i64,
    table_len: usize,
    record: *const u8,
    record_len: usize,
    answer: *mut i64,
) -> Number {
    unsafe {
        let j = plain::judge_record(from_raw_parts(table, table_len), from_raw_parts(record, record_len));
        give(answer, j.numbers())
    }
}

#[unsafe(no_mangle)]
pub unsafe extern "C" fn zarfolin_write_missing(
    table: *const i64,
    table_len: usize,
    row: u64,
    record: *mut u8,
    record_len: usize,
) -> Number {
    unsafe {
        let record = from_raw_parts_mut(record, record_len);
        plain::write_missing(from_raw_parts(table, table_len), row, record) as Number
    }
}

#[unsafe(no_mangle)]
pub unsafe extern "C" fn zarfolin_write_number(
    table: *const i64,
    table_len: usize,
    row: u64,
    number: i64,
    record: *mut u8,
    record_len: usize,
) -> Number {
    unsafe {
        let record = from_raw_parts_mut(record, record_len);
        plain::write_number(from_raw_parts(table, table_len), row, number, record) as Number
    }
}

#[unsafe(no_mangle)]
pub unsafe extern "C" fn zarfolin_write_truth(
    table: *const i64,
    table_len: usize,
    row: u64,
    truth: u8,
    record: *mut u8,
    record_len: usize,
) -> Number {
    unsafe {
        let record = from_raw_parts_mut(record, record_len);
        plain::write_truth(from_raw_parts(table, table_len), row, truth, record) as Number
    }
}

#[unsafe(no_mangle)]
pub unsafe extern "C" fn zarfolin_write_set(
    table: *const i64,
    table_len: usize,
    row: u64,
    list: *const i64,
    list_len: usize,
    record: *mut u8,
    record_len: usize,
) -> Number {
    unsafe {
        let (list, record) = (from_raw_parts(list, list_len), from_raw_parts_mut(record, record_len));
        plain::write_set(from_raw_parts(table, table_len), row, list, record) as Number
    }
}

#[unsafe(no_mangle)]
pub unsafe extern "C" fn zarfolin_write_text(
    table: *const i64,
    table_len: usize,
    row: u64,
    text: *const u8,
    text_len: usize,
    record: *mut u8,
    record_len: usize,
) -> Number {
    unsafe {
        let (text, record) = (from_raw_parts(text, text_len), from_raw_parts_mut(record, record_len));
        plain::write_text(from_raw_parts(table, table_len), row, text, record) as Number
    }
}

#[unsafe(no_mangle)]
pub unsafe extern "C" fn zarfolin_judge_file(
    table: *const i64,
    table_len: usize,
    data: *const u8,
    data_len: usize,
    answer: *mut i64,
) -> Number {
    unsafe {
        let j = plain::judge_file(from_raw_parts(table, table_len), from_raw_parts(data, data_len));
        give(answer, j.numbers())
    }
}

#[unsafe(no_mangle)]
pub unsafe extern "C" fn zarfolin_judge_part(
    table: *const i64,
    table_len: usize,
    data: *const u8,
    data_len: usize,
    terminator: u64,
    first_len: u64,
    last: u64,
    answer: *mut i64,
) -> Number {
    unsafe {
        let (table, data) = (from_raw_parts(table, table_len), from_raw_parts(data, data_len));
        give(answer, plain::judge_part(table, data, terminator, first_len, last))
    }
}

#[unsafe(no_mangle)]
pub unsafe extern "C" fn zarfolin_decode_text(
    def: *const u8,
    def_len: usize,
    place: u64,
    length: u64,
    list: *mut i64,
    list_len: usize,
    answer: *mut i64,
) -> Number {
    unsafe {
        let (def, list) = (from_raw_parts(def, def_len), from_raw_parts_mut(list, list_len));
        let numbers = match plain::decode_text(def, place, length, list) {
            Ok(count) => [0, count as i64, 0, 0],
            Err(number) => [number as i64, 0, 0, 0],
        };
        give(answer, numbers)
    }
}

#[unsafe(no_mangle)]
pub unsafe extern "C" fn zarfolin_next_record(data: *const u8, data_len: usize, from: u64, answer: *mut i64) -> Number {
    unsafe {
        let numbers = match plain::next_record(from_raw_parts(data, data_len), from) {
            plain::NextRecord::None => [0, 0, 0, 0],
            plain::NextRecord::Ended { start, end, next } => [1, start as i64, end as i64, next as i64],
            plain::NextRecord::NotEnded { start, end } => [2, start as i64, end as i64, end as i64],
        };
        give(answer, numbers)
    }
}

#[unsafe(no_mangle)]
pub unsafe extern "C" fn zarfolin_read_record(
    table: *const i64,
    table_len: usize,
    record: *const u8,
    record_len: usize,
    out: *mut i64,
    out_len: usize,
    list: *mut i64,
    list_len: usize,
    answer: *mut i64,
) -> Number {
    unsafe {
        let (table, record) = (from_raw_parts(table, table_len), from_raw_parts(record, record_len));
        let (out, list) = (from_raw_parts_mut(out, out_len), from_raw_parts_mut(list, list_len));
        let numbers = match plain::read_record(table, record, out, list) {
            Ok((members, refused)) => [0, members as i64, refused as i64, 0],
            Err(number) => [number as i64, 0, 0, 0],
        };
        give(answer, numbers)
    }
}

#[unsafe(no_mangle)]
pub unsafe extern "C" fn zarfolin_mend(
    table: *const i64,
    table_len: usize,
    data: *const u8,
    data_len: usize,
    out: *mut u8,
    out_len: usize,
    list: *mut i64,
    list_len: usize,
    answer: *mut i64,
) -> Number {
    unsafe {
        let (table, data) = (from_raw_parts(table, table_len), from_raw_parts(data, data_len));
        let (out, list) = (from_raw_parts_mut(out, out_len), from_raw_parts_mut(list, list_len));
        give(answer, plain::mend(table, data, out, list))
    }
}

#[unsafe(no_mangle)]
pub unsafe extern "C" fn zarfolin_matrix(
    table: *const i64,
    table_len: usize,
    data: *const u8,
    data_len: usize,
    out: *mut u8,
    out_len: usize,
    answer: *mut i64,
) -> Number {
    unsafe {
        let (table, data) = (from_raw_parts(table, table_len), from_raw_parts(data, data_len));
        give(answer, plain::matrix(table, data, from_raw_parts_mut(out, out_len)))
    }
}

#[unsafe(no_mangle)]
pub unsafe extern "C" fn zarfolin_export(
    def: *const u8,
    def_len: usize,
    table: *const i64,
    table_len: usize,
    data: *const u8,
    data_len: usize,
    out: *mut u8,
    out_len: usize,
    answer: *mut i64,
) -> Number {
    unsafe {
        let (def, table) = (from_raw_parts(def, def_len), from_raw_parts(table, table_len));
        let data = from_raw_parts(data, data_len);
        let numbers = plain::export(def, table, data, from_raw_parts_mut(out, out_len));
        from_raw_parts_mut(answer, 5).copy_from_slice(&numbers);
        numbers[0] as Number
    }
}

#[unsafe(no_mangle)]
pub unsafe extern "C" fn zarfolin_write_definition(
    def: *const u8,
    def_len: usize,
    table: *const i64,
    table_len: usize,
    out: *mut u8,
    out_len: usize,
    answer: *mut i64,
) -> Number {
    unsafe {
        let (def, table) = (from_raw_parts(def, def_len), from_raw_parts(table, table_len));
        give(answer, plain::write_definition(def, table, from_raw_parts_mut(out, out_len)))
    }
}

#[unsafe(no_mangle)]
pub unsafe extern "C" fn zarfolin_import(
    def: *const u8,
    def_len: usize,
    table: *const i64,
    table_len: usize,
    text: *const u8,
    text_len: usize,
    out: *mut u8,
    out_len: usize,
    answer: *mut i64,
) -> Number {
    unsafe {
        let (def, table) = (from_raw_parts(def, def_len), from_raw_parts(table, table_len));
        let text = from_raw_parts(text, text_len);
        give(answer, plain::import(def, table, text, from_raw_parts_mut(out, out_len)))
    }
}

#[unsafe(no_mangle)]
pub unsafe extern "C" fn zarfolin_correct(
    table: *const i64,
    table_len: usize,
    corrections: *mut plain::Correction,
    count: usize,
    record: *mut u8,
    record_len: usize,
) -> Number {
    unsafe {
        let (corrections, record) = (from_raw_parts_mut(corrections, count), from_raw_parts_mut(record, record_len));
        plain::correct(from_raw_parts(table, table_len), corrections, record)
    }
}

#[unsafe(no_mangle)]
pub unsafe extern "C" fn zarfolin_normal(
    table: *const i64,
    table_len: usize,
    record: *mut u8,
    record_len: usize,
    answer: *mut i64,
) -> Number {
    unsafe { give(answer, plain::normal(from_raw_parts(table, table_len), from_raw_parts_mut(record, record_len))) }
}
