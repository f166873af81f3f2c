//! Judges a data file of any length, a block at a time, as examples/c/blocks.c does over the library:
//!
//!     judge DEFINITION DATA
//!
//! rust/bench/programs measures the two.

use std::io::Read;
use zarfolin_plain::*;

fn main() {
    let args: Vec<String> = std::env::args().collect();
    let definition = std::fs::read(&args[1]).unwrap();
    let mut table = vec![0i64; 30_000];
    let read = read_definition(&definition, &mut table);
    assert_eq!(read.number, 0, "{}: byte {}", args[1], read.place);
    let mut file = std::fs::File::open(&args[2]).unwrap();
    let mut room = vec![0; 1 << 20];
    let (mut held, mut before, mut shape) = (0, 0, None);
    let answer = loop {
        if held == room.len() {
            room.resize(2 * held, 0);
        }
        let got = file.read(&mut room[held..]).unwrap();
        held += got;
        let (block, last) = (&room[..held], got == 0);
        if shape.is_none() {
            // The first record's end settles the terminator; a lone CR or LF at the end of a block may be half of a pair.
            shape = match next_record(block, 0) {
                NextRecord::Ended { end, next, .. } if next - end == 2 || next < held || last => {
                    let number = if block[end] == b'\r' { [3, 1] } else { [4, 2] }[next - end - 1];
                    Some((number, end, next))
                }
                _ => None,
            };
        }
        let Some((terminator, first, stride)) = shape else {
            if last {
                break judge_file(&table, block).numbers();
            }
            continue;
        };
        let mut answer = judge_part(&table, block, terminator, first as u64, last as u64);
        let done = answer[1] as usize * stride;
        answer[1] += before;
        if answer[0] != 0 || last {
            break answer;
        }
        before = answer[1];
        room.copy_within(done..held, 0);
        held -= done;
    };
    match answer {
        [0, count, ..] => println!("{}: {count} records, all sound", args[2]),
        [number, record, ..] => println!("{}: record {record}: [{number}]", args[2]),
    }
}
