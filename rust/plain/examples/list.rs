//! The lister in plain Rust, over the plain library: lists `survey.asc` by `survey.sss` of the folder it is given, as document 01 says.
//! tests/lister holds its output against the stored files, and so against the verified lister.

use std::fmt::Write as _;
use std::io::Write as _;
use std::path::Path;
use zarfolin_plain::*;

const MOST: usize = 65_536;
const NUMBERS: usize = 8_192;

fn ident(table: &[i64], row: usize) -> i64 {
    table[HEADER + ROW * row + column::IDENT]
}

fn value(out: &mut Vec<u8>, value: Value, record: &[u8], list: &[i64]) {
    match value {
        Value::Missing => out.extend(b" M"),
        Value::Number(n) => out.extend(format!(" N {n}").bytes()),
        Value::Truth(t) => out.extend(if t { b" L 1" } else { b" L 0" }),
        Value::Text(at, length) => {
            out.extend(b" T ");
            out.extend(&record[at..at + length]);
        }
        Value::Set(0) => out.extend(b" S -"),
        Value::Set(n) => {
            let codes: Vec<String> = list[..n].iter().map(i64::to_string).collect();
            out.extend(format!(" S {}", codes.join(",")).bytes());
        }
    }
    out.push(b'\n');
}

fn list(definition: &[u8], data: &[u8]) -> Vec<u8> {
    let mut table = vec![0; NUMBERS];
    let mut members = vec![0; MAX_CATEGORY as usize];
    let mut out = Vec::new();
    let answer = read_definition(definition, &mut table);
    if answer.number != 0 {
        return format!("definition {} {}\n", answer.number, answer.place).into_bytes();
    }
    let judged = judge_file(&table, data);
    let sound = if judged.number == 0 { judged.record } else { judged.record - 1 };
    let mut from = 0;
    for n in 1..=sound {
        let NextRecord::Ended { start, end, next } = next_record(data, from) else { unreachable!() };
        let record = &data[start..end];
        for row in 0..table[1] as usize {
            let got = read_value(&table, row as u64, record, &mut members).expect("a sound record");
            out.extend(format!("{n} {}", ident(&table, row)).bytes());
            value(&mut out, got, record, &members);
        }
        from = next as u64;
    }
    let mut last = String::new();
    if judged.number == 0 {
        writeln!(last, "ok {sound}").unwrap();
    } else {
        let ident = if judged.number > 240 { ident(&table, judged.row) } else { 0 };
        writeln!(last, "fault {} {} {ident}", judged.number, judged.record).unwrap();
    }
    out.extend(last.bytes());
    out
}

fn main() {
    let folder = std::env::args().nth(1).expect("a folder");
    let read = |name: &str| std::fs::read(Path::new(&folder).join(name));
    let out = match (read("survey.sss"), read("survey.asc")) {
        (Ok(d), Ok(data)) if d.len() <= MOST && data.len() <= MOST => list(&d, &data),
        (Ok(_), Ok(_)) => b"too long\n".to_vec(),
        _ => b"no file\n".to_vec(),
    };
    std::io::stdout().write_all(&out).expect("standard output");
}
