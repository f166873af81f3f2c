//! One call of document 02 on a survey's files, to have its instructions counted:
//!
//!     GLIBC_TUNABLES=glibc.cpu.hwcaps=-ERMS valgrind --tool=callgrind --collect-atstart=no --toggle-collect='*measured*' \
//!         count CALL DEFINITION DATA [RECORDS]
//!
//! (Without the first word a `rep stosb` of the C library counts as an instruction a byte.)

use std::hint::black_box;
use zarfolin_plain::*;

/// The data as mail might leave it: short records, bytes below 32, mixed line ends, empty lines.
fn damaged(data: &[u8]) -> Vec<u8> {
    let mut out = vec![];
    for (i, record) in data.split(|&x| x == b'\n').enumerate() {
        let mut record = record.strip_suffix(b"\r").unwrap_or(record).to_vec();
        if record.is_empty() {
            continue;
        }
        if i % 2 == 1 {
            record.truncate(record.len() - 5 - i % 3);
        }
        for k in (i % 40..record.len()).step_by(100) {
            record[k] = (k % 10) as u8;
        }
        out.extend(record);
        out.extend([&b"\r\n"[..], b"\n", b"\n\r\n\r", b"\r"][i % 4]);
    }
    out
}

#[inline(never)]
fn measured(call: &mut dyn FnMut() -> i64) -> i64 {
    black_box(call())
}

fn main() {
    let args: Vec<String> = std::env::args().collect();
    let definition = std::fs::read(&args[2]).unwrap();
    let mut data = std::fs::read(&args[3]).unwrap();
    let mut table = vec![0i64; 40_000];
    let read = read_definition(&definition, &mut table);
    assert_eq!(read.number, 0);
    let length = data.iter().position(|&x| x == b'\r').unwrap();
    if let Some(records) = args.get(4) {
        data.truncate(records.parse::<usize>().unwrap() * (length + 2));
    }
    let mut record = data[..length].to_vec();
    let mut out = vec![0u8; 40_000_000];
    let mut list = vec![0i64; 1_000_000];
    let mut corrections: Vec<Correction> = (0..100)
        .map(|i| {
            let row = i % read.variables as u64;
            let (kind, number) = [(1, 3), (0, 0), (0, 0), (1, 1234), (0, 0), (4, 1)][row as usize % 6];
            Correction { row, kind, number, mark: 9 }
        })
        .collect();
    let answer = match args[1].as_str() {
        "judge_record" => measured(&mut || judge_record(&table, &record).number as i64),
        "read_record" => {
            let mut values = vec![0; 4 * read.variables];
            measured(&mut || {
                read_record(&table, &record, &mut values, &mut list).map_or(0, |(members, _)| members as i64)
            })
        }
        "judge_file" => measured(&mut || judge_file(&table, &data).record as i64),
        "judge_part" => measured(&mut || judge_part(&table, &data, 1, length as u64, 1)[1]),
        "normal" => measured(&mut || normal(&table, &mut record)[0]),
        "correct" => measured(&mut || correct(&table, &mut corrections, &mut record) as i64),
        "mend" => measured(&mut || mend(&table, &data, &mut out, &mut list)[1]),
        "mend_damaged" => {
            let data = damaged(&data);
            measured(&mut || mend(&table, &data, &mut out, &mut list)[2])
        }
        "write_definition" => measured(&mut || write_definition(&definition, &table, &mut out)[2]),
        "read_definition" => {
            let mut own = vec![0; 40_000];
            measured(&mut || read_definition(&definition, &mut own).variables as i64)
        }
        "export" => measured(&mut || export(&definition, &table, &data, &mut out)[4]),
        "import" => {
            let length = export(&definition, &table, &data, &mut out)[4] as usize;
            let text = out[..length].to_vec();
            measured(&mut || import(&definition, &table, &text, &mut out)[2])
        }
        "matrix" => measured(&mut || matrix(&table, &data, &mut out)[1]),
        other => panic!("{other}?"),
    };
    println!("{} {answer}", args[1]);
}
