//! Document 02's calls once more, slow and literal: each in the words of its request, over the calls of document 01 that the naive
//! Rust has (its readings, writes and judgements are one place to change). Nothing is measured against it.

use crate::coming::Correction;
use crate::face::Face;
use crate::naive::{Naive, Row, decoded, read, read_sss, understood};
use std::collections::{BTreeMap, BTreeSet};

/// "Table not well formed": the test is that of every call on records.
fn not_well_formed(table: &[i64]) -> bool {
    understood(table).is_none()
}

// ----------------------------------------------------------------------------------------- C-22, a part of a file

pub fn judge_part(table: &[i64], data: &[u8], terminator: u64, first: u64, last: u64) -> [i64; 4] {
    if not_well_formed(table) {
        return [20, 0, 0, 0];
    }
    let end: &[u8] = match terminator {
        1 => b"\r\n",
        2 => b"\n\r",
        3 => b"\r",
        4 => b"\n",
        _ => return [29, 0, 0, 0],
    };
    let mut count = 0;
    let mut from = 0;
    while from < data.len() {
        match (from..data.len()).find(|&p| data[p..].starts_with(end)) {
            None if last == 0 => break,
            None => return [30, count + 1, 0, 0],
            Some(at) => {
                count += 1;
                let record = &data[from..at];
                if record.len() as u64 != first {
                    return [31, count, 0, 0];
                }
                let mut judged = [0; 4];
                match Naive.judge_record(table, record, &mut judged) {
                    0 => {}
                    23 => return [23, count, 0, judged[1]],
                    _ => return [judged[0], count, judged[1], judged[2]],
                }
                from = at + end.len();
            }
        }
    }
    [0, count, 0, 0]
}

// --------------------------------------------------------------------------------------- C-14, a list of corrections

/// "Record and marks must equal what single writes in list order give."
pub fn correct(table: &[i64], corrections: &mut [Correction], record: &mut [u8]) -> u64 {
    let Some(t) = understood(table) else { return 20 };
    if record.len() < t.least {
        return 22;
    }
    for c in corrections.iter_mut() {
        c.mark = match c.kind {
            0 => Naive.write_missing(table, c.row, record),
            1 => Naive.write_number(table, c.row, c.number, record),
            // A truth that is neither 0 nor 1 is one that the single write refuses.
            4 => {
                Naive.write_truth(table, c.row, if c.number == 0 || c.number == 1 { c.number as u8 } else { 2 }, record)
            }
            _ if c.row >= t.rows.len() as u64 => 21,
            _ => 26,
        };
    }
    0
}

// ------------------------------------------------------------------------------------------------ C-21, a normal form

fn share_a_place(a: &Row, b: &Row) -> bool {
    let places = b.places().concat();
    a.places().concat().iter().any(|place| places.contains(place))
}

pub(crate) fn rows_share(table: &[i64]) -> bool {
    let Some(t) = understood(table) else { return false };
    (0..t.rows.len()).any(|i| (0..i).any(|j| share_a_place(&t.rows[i], &t.rows[j])))
}

/// Every value place of the table's rows.
pub fn value_places(table: &[i64]) -> BTreeSet<usize> {
    let rows = understood(table).map_or(vec![], |t| t.rows);
    rows.iter().flat_map(|row| row.places().concat()).collect()
}

pub fn normal(table: &[i64], record: &mut [u8]) -> [i64; 4] {
    let Some(t) = understood(table) else { return [20, 0, 0, 0] };
    if rows_share(table) {
        return [90, 0, 0, 0];
    }
    let mut judged = [0; 4];
    if Naive.judge_record(table, record, &mut judged) != 0 {
        return judged;
    }
    for row in 0..t.rows.len() as u64 {
        let mut list = vec![0; 10_000];
        let mut read = [0; 4];
        assert_eq!(Naive.read_value(table, row, record, &mut list, &mut read), 0);
        let written = match read {
            [_, 0, ..] => Naive.write_missing(table, row, record),
            [_, 1, number, _] => Naive.write_number(table, row, number, record),
            [_, 2, count, _] => Naive.write_set(table, row, &list[..count as usize], record),
            [_, 3, place, length] => {
                let text = record[place as usize..(place + length) as usize].to_vec();
                Naive.write_text(table, row, &text, record)
            }
            [_, _, truth, _] => Naive.write_truth(table, row, truth as u8, record),
        };
        assert_eq!(written, 0);
    }
    [0, 0, 0, 0]
}

// ---------------------------------------------------------------------------------------------------- C-19, mending

struct Piece {
    start: usize,
    bytes: Vec<u8>,
    /// Its own boundary; empty for a last record that has none.
    boundary: Vec<u8>,
}

/// "Takes each CR LF, LF CR, CR or LF as a boundary, pairs first."
fn pieces(data: &[u8]) -> Vec<Piece> {
    let boundaries: [&[u8]; 4] = [b"\r\n", b"\n\r", b"\r", b"\n"];
    let mut all = vec![];
    let mut piece = Piece { start: 0, bytes: vec![], boundary: vec![] };
    let mut at = 0;
    while at < data.len() {
        match boundaries.iter().find(|b| data[at..].starts_with(b)) {
            None => {
                piece.bytes.push(data[at]);
                at += 1;
            }
            Some(boundary) => {
                piece.boundary = boundary.to_vec();
                all.push(piece);
                at += boundary.len();
                piece = Piece { start: at, bytes: vec![], boundary: vec![] };
            }
        }
    }
    if !piece.bytes.is_empty() {
        all.push(piece);
    }
    all
}

pub fn mend(table: &[i64], data: &[u8], out: &mut [u8], list: &mut [i64]) -> [i64; 4] {
    let Some(t) = understood(table) else { return [20, 0, 0, 0] };
    let pieces = pieces(data);
    let kept = || pieces.iter().filter(|piece| !piece.bytes.is_empty());
    let terminator = match pieces.first() {
        Some(piece) if !piece.boundary.is_empty() => piece.boundary.clone(),
        _ => b"\r\n".to_vec(),
    };
    let longest = kept().map(|piece| piece.bytes.len()).max().unwrap_or(0);
    let width = longest.max(t.least);
    let mut mended: Vec<u8> = vec![];
    let mut changes: Vec<[i64; 3]> = vec![];
    for (i, piece) in pieces.iter().enumerate() {
        let record = i as i64 + 1;
        let end = piece.start + piece.bytes.len();
        if piece.bytes.is_empty() {
            changes.push([1, record, end as i64]);
            continue;
        }
        for (k, &x) in piece.bytes.iter().enumerate() {
            if x < 32 {
                changes.push([2, record, (piece.start + k) as i64]);
            }
            mended.push(if x < 32 { b' ' } else { x });
        }
        if piece.bytes.len() < width {
            changes.push([3, record, end as i64]);
            mended.extend(vec![b' '; width - piece.bytes.len()]);
        }
        if piece.boundary != terminator {
            changes.push([4, record, end as i64]);
        }
        mended.extend(&terminator);
    }
    let numbers = changes.concat();
    if out.len() < mended.len() || list.len() < numbers.len() {
        return [70, 0, 0, 0];
    }
    out[..mended.len()].copy_from_slice(&mended);
    list[..numbers.len()].copy_from_slice(&numbers);
    [0, mended.len() as i64, changes.len() as i64, 0]
}

// ---------------------------------------------------------------------------------------------------- C-20, a matrix

/// What a column shows of a row: its number, or whether a category is in its set.
#[derive(Clone, Copy)]
enum Shown {
    Number,
    Category(i64),
}

fn columns(table: &[i64]) -> Vec<(u64, Shown)> {
    let t = understood(table).unwrap();
    let mut all = vec![];
    for (i, row) in t.rows.iter().enumerate() {
        match row.cells[1] {
            1 | 3 | 5 => all.push((i as u64, Shown::Number)),
            2 => all.extend(row.defined().into_iter().map(|c| (i as u64, Shown::Category(c)))),
            _ => {}
        }
    }
    all
}

/// The cells of a record, column by column: None for missing.
fn cells(table: &[i64], columns: &[(u64, Shown)], record: &[u8]) -> Vec<Option<f64>> {
    let t = understood(table).unwrap();
    let mut readings: BTreeMap<u64, ([i64; 4], Vec<i64>)> = BTreeMap::new();
    for row in 0..t.rows.len() as u64 {
        let mut list = vec![0; 10_000];
        let mut read = [0; 4];
        assert_eq!(Naive.read_value(table, row, record, &mut list, &mut read), 0);
        readings.insert(row, (read, list));
    }
    let cell = |&(row, shown): &(u64, Shown)| {
        let ([_, kind, n, _], list) = &readings[&row];
        let scaled = match (kind, shown) {
            (0, _) => return None,
            (_, Shown::Number) => *n,
            (_, Shown::Category(c)) => list[..*n as usize].contains(&c) as i64,
        };
        let power = 10i64.pow(t.rows[row as usize].cells[5] as u32);
        Some(scaled as f64 / power as f64)
    };
    columns.iter().map(cell).collect()
}

pub fn matrix(table: &[i64], data: &[u8], out: &mut [u8]) -> [i64; 4] {
    if not_well_formed(table) {
        return [20, 0, 0, 0];
    }
    let mut judged = [0; 4];
    if Naive.judge_file(table, data, &mut judged) != 0 {
        return judged;
    }
    let columns = columns(table);
    let (r, c) = (judged[1] as u128, columns.len() as u128);
    if c == 0 {
        return [80, 0, 0, 0];
    }
    let total = 24 + 24 * c + 9 * r * c;
    if total > 16_777_216 {
        return [81, 0, 0, 0];
    }
    if (out.len() as u128) < total {
        return [82, 0, 0, 0];
    }
    let mut records: Vec<Vec<Option<f64>>> = vec![];
    let mut next = [0; 4];
    while Naive.next_record(data, next[3] as u64, &mut next) == 1 {
        records.push(cells(table, &columns, &data[next[1] as usize..next[2] as usize]));
    }
    let mut bytes: Vec<u8> = vec![];
    for number in [r, c, 24, 24 + 24 * c, 24 + 24 * c + r * c, total] {
        bytes.extend((number as u32).to_le_bytes());
    }
    for k in 0..columns.len() {
        let present: Vec<f64> = records.iter().filter_map(|cells| cells[k]).collect();
        let least = present.iter().copied().reduce(f64::min).unwrap_or(0.0);
        let most = present.iter().copied().reduce(f64::max).unwrap_or(0.0);
        bytes.extend((present.len() as u64).to_le_bytes());
        bytes.extend(least.to_le_bytes());
        bytes.extend(most.to_le_bytes());
    }
    for cell in records.iter().flatten() {
        bytes.push(if cell.is_some() { 1 } else { 0 });
    }
    for cell in records.iter().flatten() {
        bytes.extend(cell.unwrap_or(0.0).to_le_bytes());
    }
    assert_eq!(bytes.len() as u128, total);
    out[..bytes.len()].copy_from_slice(&bytes);
    [0, total as i64, r as i64, c as i64]
}

// ---------------------------------------------------------------------------------------------------- C-16, export

/// "The table is the one this definition yields."
fn is_its_table(def: &[u8], table: &[i64]) -> bool {
    read(def, usize::MAX).is_ok_and(|own| table.starts_with(&own))
}

fn name_of(def: &[u8], row: &Row) -> Vec<u8> {
    decoded(def, row.cells[14] as usize, row.cells[15] as usize)
}

/// "Quoted when they hold a comma, quote, CR or LF. Quotes are doubled."
fn as_field(bytes: &[u8]) -> Vec<u8> {
    if !bytes.iter().any(|x| b",\"\r\n".contains(x)) {
        return bytes.to_vec();
    }
    let mut field = vec![b'"'];
    for &x in bytes {
        field.push(x);
        if x == b'"' {
            field.push(b'"');
        }
    }
    field.push(b'"');
    field
}

/// "A digit or more before the point without needless zeros, their decimals, and no point where there are none."
fn number_text(v: i64, decimals: usize) -> String {
    let mut text = format!("{:0>1$}", v.unsigned_abs(), decimals + 1);
    if decimals > 0 {
        text.insert(text.len() - decimals, '.');
    }
    if v < 0 { format!("-{text}") } else { text }
}

/// "Sets are codes joined by semicolons with `none` for the empty set."
fn set_text(codes: &[i64]) -> String {
    if codes.is_empty() {
        return "none".into();
    }
    codes.iter().map(i64::to_string).collect::<Vec<_>>().join(";")
}

/// What is written for the row's value, before it is quoted.
fn value_text(table: &[i64], row: usize, record: &[u8]) -> Vec<u8> {
    let t = understood(table).unwrap();
    let mut list = vec![0; 10_000];
    let mut read = [0; 4];
    assert_eq!(Naive.read_value(table, row as u64, record, &mut list, &mut read), 0);
    match read {
        [_, 0, ..] => vec![],
        [_, 1, number, _] => number_text(number, t.rows[row].cells[5] as usize).into_bytes(),
        [_, 2, count, _] => set_text(&list[..count as usize]).into_bytes(),
        [_, 3, place, length] => record[place as usize..(place + length) as usize].to_vec(),
        [_, _, truth, _] => truth.to_string().into_bytes(),
    }
}

fn text_line(fields: Vec<Vec<u8>>) -> Vec<u8> {
    let fields: Vec<Vec<u8>> = fields.iter().map(|field| as_field(field)).collect();
    [fields.join(&b','), b"\r\n".to_vec()].concat()
}

pub fn export(def: &[u8], table: &[i64], data: &[u8], out: &mut [u8]) -> [i64; 5] {
    let Some(t) = understood(table) else { return [20, 0, 0, 0, 0] };
    if !is_its_table(def, table) {
        return [40, 0, 0, 0, 0];
    }
    let mut judged = [0; 4];
    let sound = match Naive.judge_file(table, data, &mut judged) {
        0 => judged[1],
        _ => judged[1] - 1,
    };
    let mut text = text_line(t.rows.iter().map(|row| name_of(def, row)).collect());
    let mut next = [0; 4];
    for _ in 0..sound {
        assert_eq!(Naive.next_record(data, next[3] as u64, &mut next), 1);
        let record = &data[next[1] as usize..next[2] as usize];
        text.extend(text_line((0..t.rows.len()).map(|row| value_text(table, row, record)).collect()));
    }
    if out.len() < text.len() {
        return [60, 0, 0, 0, 0];
    }
    out[..text.len()].copy_from_slice(&text);
    [judged[0], judged[1], judged[2], judged[3], text.len() as i64]
}

// ---------------------------------------------------------------------------------------------------- C-23, import

/// A field, and what stands behind it; None for a malformed one.
fn one_field(text: &[u8]) -> Option<(Vec<u8>, &[u8])> {
    let mut field = vec![];
    let mut rest = text;
    if let Some(behind) = rest.strip_prefix(b"\"") {
        rest = behind;
        loop {
            if let Some(behind) = rest.strip_prefix(b"\"\"") {
                field.push(b'"');
                rest = behind;
            } else if let Some(behind) = rest.strip_prefix(b"\"") {
                rest = behind;
                break;
            } else {
                let (&x, behind) = rest.split_first()?;
                field.push(x);
                rest = behind;
            }
        }
    } else {
        while let Some((x, behind)) = rest.split_first().filter(|(x, _)| !b",\r\n".contains(x)) {
            if *x == b'"' {
                return None;
            }
            field.push(*x);
            rest = behind;
        }
    }
    (rest.starts_with(b",") || rest.starts_with(b"\r\n")).then_some((field, rest))
}

/// The fields of the first line, and the text behind it; or the column of the first malformed field.
fn one_line(text: &[u8]) -> Result<(Vec<Vec<u8>>, &[u8]), i64> {
    let mut fields = vec![];
    let mut rest = text;
    loop {
        let (field, behind) = one_field(rest).ok_or(fields.len() as i64 + 1)?;
        fields.push(field);
        match behind.strip_prefix(b",") {
            Some(more) => rest = more,
            None => return Ok((fields, behind.strip_prefix(b"\r\n").unwrap())),
        }
    }
}

/// All that a number may be given back as: what export writes, and that with zeros cut from the end of its decimals.
fn number_texts(v: i64, decimals: usize) -> Vec<String> {
    let mut texts = vec![number_text(v, decimals)];
    if decimals > 0 {
        let mut text = texts[0].clone();
        while let Some(cut) = text.strip_suffix('0') {
            text = cut.strip_suffix('.').unwrap_or(cut).to_string();
            texts.push(text.clone());
            if !text.contains('.') {
                break;
            }
        }
    }
    texts
}

/// The scaled number that a field might be: its digits, with as many zeros as decimals are missing.
fn perhaps(field: &str, decimals: usize) -> Option<i64> {
    let behind = field.split_once('.').map_or(0, |(_, behind)| behind.len());
    let digits = field.replace('.', "") + &"0".repeat(decimals.checked_sub(behind)?);
    digits.parse().ok()
}

/// Writes the field's value: whether it is one.
fn import_field(table: &[i64], row: u64, field: &[u8], record: &mut [u8]) -> bool {
    let t = understood(table).unwrap();
    let cells = &t.rows[row as usize].cells;
    if field.is_empty() {
        return Naive.write_missing(table, row, record) == 0;
    }
    if cells[1] == 4 {
        return Naive.write_text(table, row, field, record) == 0;
    }
    let Ok(text) = std::str::from_utf8(field) else { return false };
    match cells[1] {
        1 | 3 => perhaps(text, cells[5] as usize).is_some_and(|v| {
            number_texts(v, cells[5] as usize).iter().any(|other| other == text)
                && Naive.write_number(table, row, v, record) == 0
        }),
        2 => {
            let codes: Result<Vec<i64>, _> =
                if text == "none" { Ok(vec![]) } else { text.split(';').map(str::parse).collect() };
            codes.is_ok_and(|codes| set_text(&codes) == text && Naive.write_set(table, row, &codes, record) == 0)
        }
        _ => (text == "0" || text == "1") && Naive.write_truth(table, row, (text == "1") as u8, record) == 0,
    }
}

pub fn import(def: &[u8], table: &[i64], text: &[u8], out: &mut [u8]) -> [i64; 4] {
    let Some(t) = understood(table) else { return [20, 0, 0, 0] };
    if !is_its_table(def, table) {
        return [40, 0, 0, 0];
    }
    if rows_share(table) {
        return [90, 0, 0, 0];
    }
    let v = t.rows.len();
    let mut built = vec![];
    let mut rest = text;
    let mut line = 0;
    loop {
        line += 1;
        let fields = match one_line(rest) {
            Err(column) => return [61, line, column, 0],
            Ok((fields, behind)) => {
                rest = behind;
                fields
            }
        };
        if line == 1 {
            let names: Vec<Vec<u8>> = t.rows.iter().map(|row| name_of(def, row)).collect();
            if let Some(k) = (0..v.max(fields.len())).find(|&k| fields.get(k) != names.get(k)) {
                return [62, 1, k as i64 + 1, 0];
            }
        } else if fields.len() != v {
            return [63, line, fields.len().min(v) as i64 + 1, 0];
        } else {
            let mut record = vec![b' '; t.least];
            for (k, field) in fields.iter().enumerate() {
                if !import_field(table, k as u64, field, &mut record) {
                    return [64, line, k as i64 + 1, 0];
                }
            }
            built.extend(record);
            built.extend(b"\r\n");
        }
        if rest.is_empty() {
            break;
        }
    }
    if out.len() < built.len() {
        return [60, 0, 0, 0];
    }
    out[..built.len()].copy_from_slice(&built);
    [0, line - 1, built.len() as i64, 0]
}

// -------------------------------------------------------------------------------------------- C-11, clean definitions

/// The kept bytes of a definition that was read, as tokens: strings with their quotes, runs of figures, keywords in capitals, and the
/// record's letter. Comments are left out.
fn tokens(kept: &[u8]) -> Vec<Vec<u8>> {
    let keywords = [
        "SSS",
        "VERSION",
        "DATE",
        "TIME",
        "ORIGIN",
        "USER",
        "STANDARD",
        "NAMES",
        "SURVEY",
        "TITLE",
        "RECORD",
        "VARIABLE",
        "NAME",
        "LABEL",
        "TYPE",
        "SINGLE",
        "MULTIPLE",
        "QUANTITY",
        "CHARACTER",
        "LOGICAL",
        "POSITION",
        "TO",
        "SPREAD",
        "OF",
        "VALUES",
        "WITH",
        "SPECIAL",
        "SIZE",
        "NOTE",
        "END",
    ];
    let mut all: Vec<Vec<u8>> = vec![];
    let mut at = 0;
    loop {
        let rest = &kept[at..];
        let last = |n: usize| all.len().checked_sub(n).map(|i| all[i].as_slice());
        if last(1) == Some(b"SSS") && last(2) == Some(b"END") {
            return all;
        }
        let upper = rest[..rest.len().min(9)].to_ascii_uppercase();
        let token = if rest[0] == b' ' {
            at += 1;
            continue;
        } else if rest[0] == b'<' {
            at += comment_length(rest);
            continue;
        } else if rest[0] == b'"' {
            rest[..string_length(rest)].to_vec()
        } else if last(1) == Some(b"RECORD") && last(2) != Some(b"END") {
            rest[..1].to_vec()
        } else if b"0123456789.+-".contains(&rest[0]) {
            rest.iter().copied().take_while(|x| b"0123456789.+-".contains(x)).collect()
        } else {
            keywords.iter().find(|word| upper.starts_with(word.as_bytes())).unwrap().as_bytes().to_vec()
        };
        at += token.len();
        all.push(token);
    }
}

/// The length of a string, its quotes counted.
fn string_length(text: &[u8]) -> usize {
    let mut at = 1;
    while text[at] != b'"' {
        at += if text[at] == b'{' { text[at..].iter().position(|&x| x == b'}').unwrap() + 1 } else { 1 };
    }
    at + 1
}

fn comment_length(text: &[u8]) -> usize {
    let mut at = 1;
    while text[at] != b'>' {
        at += match text[at] {
            b'<' => comment_length(&text[at..]),
            b'"' => string_length(&text[at..]),
            _ => 1,
        };
    }
    at + 1
}

/// The tokens of each statement, notes left out.
fn statements(tokens: Vec<Vec<u8>>) -> Vec<Vec<Vec<u8>>> {
    let mut all: Vec<Vec<Vec<u8>>> = vec![];
    let mut note = false;
    for token in tokens {
        if token == b"NOTE" || note {
            note = token == b"NOTE";
            continue;
        }
        let figure = b"0123456789.+-".contains(&token[0]);
        let goes_on = match all.last().and_then(|statement| statement.last()) {
            None => false,
            // A figure goes on with a statement that is waiting for one, else it begins a range or a line.
            Some(last) if figure => {
                [&b"VERSION"[..], b"VARIABLE", b"POSITION", b"TO", b"SPREAD", b"OF", b"SIZE"].contains(&last.as_slice())
            }
            Some(last) => {
                token[0] == b'"'
                    || last == b"END"
                    || last == b"TYPE"
                    || last == b"STANDARD"
                    || (last == b"RECORD" && token.len() == 1)
                    || [&b"TO"[..], b"OF", b"WITH", b"SPECIAL"].contains(&token.as_slice())
            }
        };
        // END VARIABLE ends with a word that elsewhere waits for its number.
        let ended = all.last().is_some_and(|statement| statement[0] == b"END" && statement.len() == 2);
        match all.last_mut() {
            Some(statement) if goes_on && !ended => statement.push(token),
            _ => all.push(vec![token]),
        }
    }
    all
}

pub fn write_definition(def: &[u8], table: &[i64], out: &mut [u8]) -> [i64; 4] {
    let own = match read_sss(def, usize::MAX) {
        Err((number, place)) => return [number, place as i64, 0, 0],
        Ok(own) => own,
    };
    if !table.starts_with(&own) {
        return [40, 0, 0, 0];
    }
    let kept: Vec<u8> = def.iter().copied().filter(|&x| x >= 32).collect();
    let mut statements = statements(tokens(&kept));
    // The heading in its order; what stands before it and behind it stays.
    let order = ["SSS", "VERSION", "DATE", "TIME", "ORIGIN", "USER", "STANDARD", "SURVEY"];
    let survey = statements.iter().position(|statement| statement[0] == b"SURVEY").unwrap();
    statements[..survey].sort_by_key(|statement| order.iter().position(|word| word.as_bytes() == statement[0]));
    // Widths always stated.
    let mut widths = understood(&own).unwrap().rows.into_iter().map(|row| row.cells[8]).filter(|&width| width > 0);
    for statement in &mut statements {
        if statement[0] == b"POSITION" && statement.len() == 2 {
            statement.extend([b"TO".to_vec(), statement[1].clone()]);
        }
        if statement[0] == b"SPREAD" {
            let width = widths.next().unwrap();
            if statement.len() == 2 {
                statement.extend([b"OF".to_vec(), width.to_string().into_bytes()]);
            }
        }
    }
    let text: Vec<u8> =
        statements.iter().flat_map(|statement| [statement.join(&b' '), b"\r\n".to_vec()].concat()).collect();
    if text.len() > 1_048_576 {
        return [41, 0, 0, 0];
    }
    if out.len() < text.len() {
        return [42, 0, 0, 0];
    }
    out[..text.len()].copy_from_slice(&text);
    [0, 0, text.len() as i64, 0]
}
