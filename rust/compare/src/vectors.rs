//! The vectors of the definition reader (crates/vectors): the cases of its standard input put to a face, and the answers as the
//! program there prints them.

use crate::face::Face;
use crate::shape;
use std::io::Write;

/// What every number of a lent table holds before the call.
const PATTERN: i64 = -7777;

/// What every byte of an output holds before the call.
const BLANK: u8 = b'#';

fn kept(numbers: &[i64]) -> &'static str {
    if numbers.iter().all(|&n| n == PATTERN) { "kept" } else { "touched" }
}

fn line(numbers: &[i64]) -> String {
    numbers.iter().map(i64::to_string).collect::<Vec<_>>().join(" ")
}

/// `text COUNT kept` and its signs, or `NUMBER kept`.
fn text(face: &dyn Face, definition: &[u8], place: usize, length: usize, room: usize) -> String {
    let mut list = vec![PATTERN; room];
    let mut answer = [0; 4];
    face.decode_text(definition, place as u64, length as u64, &mut list, &mut answer);
    let [refusal, count, ..] = answer;
    let (signs, rest) = list.split_at(count as usize);
    match refusal {
        0 if signs.is_empty() => format!("text 0 {}", kept(rest)),
        0 => format!("text {count} {}\n{}", kept(rest), line(signs)),
        _ => format!("{refusal} {}", kept(&list)),
    }
}

/// `clean LENGTH kept` and the clean text, or `NUMBER PLACE kept`; the table is what the definition yields, if it has room.
fn clean(face: &dyn Face, definition: &[u8], table: &[i64], room: usize) -> Vec<u8> {
    let mut page = vec![BLANK; room];
    let mut answer = [0; 4];
    face.write_definition(definition, table, &mut page, &mut answer);
    let [refusal, place, length, _] = answer;
    let (text, rest) = page.split_at(length as usize);
    let kept = if rest.iter().all(|&b| b == BLANK) { "kept" } else { "touched" };
    if refusal == 0 {
        [format!("clean {length} {kept}\n").as_bytes(), text].concat()
    } else {
        format!("{refusal} {place} {kept}\n").into_bytes()
    }
}

/// The numbers of a case's first line.
fn numbers(cases: &mut &[u8]) -> Vec<usize> {
    let end = cases.iter().position(|&b| b == b'\n').unwrap();
    let line = std::str::from_utf8(&cases[..end]).unwrap();
    *cases = &cases[end + 1..];
    line.split(' ').map(|n| n.parse().unwrap()).collect()
}

/// `case N: read V E kept` and the table's numbers, or `case N: NUMBER PLACE kept`, for each case; for one with a place and a length what
/// the text there decodes to; for one with a length alone the definition written clean.
pub fn answers(face: &dyn Face, mut cases: &[u8]) -> Vec<u8> {
    let mut out = Vec::new();
    let mut case = 0;
    while !cases.is_empty() {
        case += 1;
        let head = numbers(&mut cases);
        let (length, room) = (head[0], head[1]);
        let definition = &cases[..length];
        cases = &cases[length + 1..];
        write!(out, "case {case}: ").unwrap();
        if let [place, length] = head[2..] {
            writeln!(out, "{}", text(face, definition, place, length, room)).unwrap();
            continue;
        }
        let mut table = vec![PATTERN; room];
        let mut answer = [0; 4];
        face.read_definition(definition, &mut table, &mut answer);
        if let [room] = head[2..] {
            out.extend(clean(face, definition, &table, room));
            continue;
        }
        let [refusal, place, variables, lines] = answer;
        let used = if refusal == 0 { shape::length(variables as usize, lines as usize) } else { 0 };
        let kept = kept(&table[used..]);
        if refusal == 0 {
            writeln!(out, "read {variables} {lines} {kept}\n{}", line(&table[..used])).unwrap();
        } else {
            writeln!(out, "{refusal} {place} {kept}").unwrap();
        }
    }
    out
}
