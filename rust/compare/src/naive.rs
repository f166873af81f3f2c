//! A third implementation, for checking the plain Rust where no library is linked: slow and literal, with strings, lists and
//! sets in place of scans, bits and arithmetic. Nothing is measured against it.

use crate::face::{Correction, Face};
use crate::naive_xml;
use std::collections::{BTreeSet, HashSet};

pub struct Naive;

/// Numbers of the header, of a row, of a line: document 01's, said here once more and on purpose.
const HEADER: usize = 6;
const ROW: usize = 20;
const LINE: usize = 4;

/// A refusal: number and place.
pub(crate) type Fault = (i64, usize);

// ---------------------------------------------------------------------------------------------- definitions

struct Reader {
    /// The bytes that aren't dropped, with their places.
    kept: Vec<(u8, usize)>,
    at: usize,
    length: usize,
}

#[derive(Clone)]
struct Run {
    text: String,
    place: usize,
}

/// A value of a block that has form: sign, digits without zeros in front, decimals, point.
struct Number {
    minus: bool,
    digits: String,
    decimals: usize,
    point: bool,
    /// No digit stands before the point.
    bare: bool,
}

impl Number {
    fn scaled(&self) -> i64 {
        let m: i64 = if self.digits.is_empty() { 0 } else { self.digits.parse().unwrap() };
        if self.minus { -m } else { m }
    }
}

/// Whether the digits a are above the digits b, both without zeros in front.
fn above(a: &str, b: &str) -> bool {
    (a.len(), a) > (b.len(), b)
}

fn stripped(digits: &str) -> String {
    digits.trim_start_matches('0').to_string()
}

impl Reader {
    fn peek(&self) -> Option<u8> {
        self.kept.get(self.at).map(|k| k.0)
    }

    fn place(&self) -> usize {
        self.kept.get(self.at).map_or(self.length, |k| k.1)
    }

    fn due<T>(&self) -> Result<T, Fault> {
        Err((2, self.place()))
    }

    fn spaces(&mut self) {
        while self.peek() == Some(b' ') {
            self.at += 1;
        }
    }

    fn gap(&mut self) -> Result<(), Fault> {
        self.spaces();
        while self.peek() == Some(b'<') {
            let outermost = self.place();
            self.comment(1, outermost)?;
            self.spaces();
        }
        Ok(())
    }

    fn comment(&mut self, level: usize, outermost: usize) -> Result<(), Fault> {
        if level == 33 {
            return Err((3, self.place()));
        }
        self.at += 1;
        loop {
            match self.peek() {
                None => return Err((3, outermost)),
                Some(b'>') => {
                    self.at += 1;
                    return Ok(());
                }
                Some(b'<') => self.comment(level + 1, outermost)?,
                Some(b'"') => {
                    self.string(outermost)?;
                }
                Some(_) => self.at += 1,
            }
        }
    }

    /// A string from its opening quote on: the text's place and length in the file.
    fn string(&mut self, outermost: usize) -> Result<(usize, usize), Fault> {
        let open = self.place();
        self.at += 1;
        loop {
            match self.peek() {
                None => return Err((3, outermost)),
                Some(b'"') => {
                    let close = self.place();
                    self.at += 1;
                    return Ok((open + 1, close - open - 1));
                }
                Some(b'{') => {
                    let brace = self.place();
                    let mut form = String::new();
                    self.at += 1;
                    loop {
                        let Some(x) = self.peek() else { return Err((3, outermost)) };
                        self.at += 1;
                        form.push(x as char);
                        if whole_form(&form) {
                            break;
                        }
                        if !could_become_a_form(&form) {
                            return Err((3, brace));
                        }
                    }
                }
                Some(_) => self.at += 1,
            }
        }
    }

    fn word(&mut self, word: &str) -> bool {
        let here: Vec<u8> = self.kept[self.at..].iter().take(word.len()).map(|k| k.0.to_ascii_uppercase()).collect();
        let stands = here == word.as_bytes();
        if stands {
            self.at += word.len();
        }
        stands
    }

    fn need(&mut self, word: &str) -> Result<(), Fault> {
        self.gap()?;
        if self.word(word) { Ok(()) } else { self.due() }
    }

    fn text(&mut self) -> Result<(usize, usize), Fault> {
        self.gap()?;
        if self.peek() != Some(b'"') {
            return self.due();
        }
        let open = self.place();
        self.string(open)
    }

    fn run(&mut self, bytes: &str) -> Result<Run, Fault> {
        let place = self.place();
        let mut text = String::new();
        while let Some(x) = self.peek().filter(|&x| bytes.contains(x as char)) {
            text.push(x as char);
            self.at += 1;
        }
        if text.is_empty() { self.due() } else { Ok(Run { text, place }) }
    }

    fn number(&mut self) -> Result<Run, Fault> {
        self.gap()?;
        self.run("0123456789")
    }

    fn figure(&mut self) -> Result<Run, Fault> {
        self.gap()?;
        self.run("0123456789.+-")
    }

    fn notes(&mut self) -> Result<(), Fault> {
        self.gap()?;
        while self.word("NOTE") {
            self.text()?;
            self.gap()?;
        }
        Ok(())
    }

    fn statement(&mut self, word: &str) -> Result<(), Fault> {
        self.notes()?;
        if self.word(word) { Ok(()) } else { self.due() }
    }
}

fn whole_form(form: &str) -> bool {
    let Some(inner) = form.strip_suffix('}') else { return false };
    ["\"", "{", "NL"].contains(&inner)
        || (!inner.is_empty() && inner.len().is_multiple_of(2) && inner.chars().all(|c| c.is_ascii_hexdigit()))
}

fn could_become_a_form(form: &str) -> bool {
    ["\"", "{", "N", "NL"].contains(&form) || form.chars().all(|c| c.is_ascii_hexdigit())
}

/// The lowest number, among equal ones the earliest place.
fn judged(faults: &[(bool, i64, usize)]) -> Result<(), Fault> {
    let met = faults.iter().filter(|f| f.0).map(|f| (f.1, f.2)).min();
    met.map_or(Ok(()), Err)
}

fn parsed(run: &Run, quantity: bool) -> Option<Number> {
    let (minus, rest) = match run.text.strip_prefix('-') {
        Some(rest) => (true, rest),
        None => (false, run.text.as_str()),
    };
    let parts: Vec<&str> = rest.split('.').collect();
    let digits: String = parts.concat();
    let good = parts.len() <= 2 && !digits.is_empty() && digits.chars().all(|c| c.is_ascii_digit());
    let number = Number {
        minus: minus && !stripped(&digits).is_empty(),
        digits: stripped(&digits),
        decimals: parts.get(1).map_or(0, |p| p.len()),
        point: parts.len() == 2,
        bare: parts.len() == 2 && parts[0].is_empty(),
    };
    let category = good && !minus && parts.len() == 1 && !number.digits.is_empty();
    (if quantity { good } else { category }).then_some(number)
}

fn beyond(n: &Number, quantity: bool) -> bool {
    if quantity { n.decimals > 9 || n.digits.len() > 15 } else { n.digits.len() > 4 }
}

fn reversed(a: &Number, b: &Number) -> bool {
    match (a.minus, b.minus) {
        (false, true) => true,
        (true, false) => false,
        (false, false) => above(&a.digits, &b.digits),
        (true, true) => above(&b.digits, &a.digits),
    }
}

/// "w counts none" under point code 2, else at least one digit before the point.
fn canonical_length(v: i64, decimals: usize, code: i64) -> usize {
    let whole = v.unsigned_abs() / 10u64.pow(decimals as u32);
    let before = if whole == 0 && code == 2 { 0 } else { whole.to_string().len() };
    let point = if code == 0 { 0 } else { 1 };
    before + decimals + point + (v < 0) as usize
}

/// A break, beside the bytes 0 to 255.
const BREAK: i64 = 256;

/// A text's bytes, a break as one byte 10, as an export writes it.
pub(crate) fn decoded(def: &[u8], place: usize, length: usize) -> Vec<u8> {
    let signs = signs_at(def, place, length).unwrap();
    signs.iter().map(|&sign| if sign == BREAK { 10 } else { sign as u8 }).collect()
}

/// The signs of a text of a definition of either kind, if it is one.
fn signs_at(def: &[u8], place: usize, length: usize) -> Option<Vec<i64>> {
    if naive_xml::is_xml(def) { naive_xml::decoded(def, place, length) } else { signs(&def[place..place + length]) }
}

/// The signs of a text's inside, if it is one.
fn signs(inside: &[u8]) -> Option<Vec<i64>> {
    let mut rest: Vec<u8> = inside.iter().copied().filter(|&x| x >= 32).collect();
    let mut out = vec![];
    while !rest.is_empty() {
        let piece = match rest[0] {
            b'"' => return None,
            b'{' => rest.iter().skip(2).position(|&x| x == b'}')? + 3,
            _ => 1,
        };
        let piece: Vec<u8> = rest.drain(..piece).collect();
        match piece.as_slice() {
            b"{\"}" => out.push(b'"' as i64),
            b"{{}" => out.push(b'{' as i64),
            b"{NL}" => out.push(BREAK),
            [b'{', hex @ .., b'}'] if hex.len() % 2 == 0 && hex.iter().all(|x| x.is_ascii_hexdigit()) => {
                for pair in String::from_utf8(hex.to_vec()).unwrap().as_bytes().chunks(2) {
                    out.push(i64::from_str_radix(std::str::from_utf8(pair).unwrap(), 16).unwrap());
                }
            }
            [x] => out.push(*x as i64),
            _ => return None,
        }
    }
    Some(out)
}

/// The table of a definition of either kind, where it has room.
pub(crate) fn read(def: &[u8], room: usize) -> Result<Vec<i64>, Fault> {
    if !naive_xml::is_xml(def) {
        return read_sss(def, room);
    }
    let mut table = vec![0; room.min(HEADER + ROW * 512 + LINE * 4096)];
    let [number, place, v, e] = naive_xml::read_xml(def, &mut table);
    table.truncate(HEADER + ROW * v as usize + LINE * e as usize);
    if number == 0 { Ok(table) } else { Err((number, place as usize)) }
}

/// The same of a 1.1 definition.
pub(crate) fn read_sss(def: &[u8], room: usize) -> Result<Vec<i64>, Fault> {
    if def.len() > 1_048_576 {
        return Err((1, 0));
    }
    let kept = def.iter().enumerate().filter(|(_, x)| **x >= 32).map(|(i, x)| (*x, i)).collect();
    let mut r = Reader { kept, at: 0, length: def.len() };
    if !r.word("SSS") {
        return r.due();
    }
    r.spaces();
    if !r.word("VERSION") {
        return r.due();
    }
    r.spaces();
    let version = r.run("0123456789.+-")?;
    judged(&[(version.text != "1.1", 4, version.place)])?;
    let mut met: Vec<&str> = vec![];
    'head: loop {
        r.notes()?;
        let place = r.place();
        if r.word("SURVEY") {
            break;
        }
        for word in ["DATE", "TIME", "ORIGIN", "USER", "STANDARD"] {
            if r.word(word) {
                if met.contains(&word) {
                    return Err((2, place));
                }
                met.push(word);
                if word == "STANDARD" {
                    r.need("NAMES")?;
                } else {
                    r.text()?;
                }
                continue 'head;
            }
        }
        return r.due();
    }
    r.notes()?;
    if r.word("TITLE") {
        r.text()?;
    }
    r.statement("RECORD")?;
    r.gap()?;
    match r.peek() {
        Some(x) if x.is_ascii_alphabetic() => r.at += 1,
        _ => return r.due(),
    }
    let mut rows: Vec<Vec<i64>> = vec![];
    let mut lines: Vec<Vec<i64>> = vec![];
    r.statement("VARIABLE")?;
    loop {
        let row = variable(&mut r, &rows, &mut lines)?;
        rows.push(row);
        r.notes()?;
        if !r.word("VARIABLE") {
            break;
        }
    }
    if !r.word("END") {
        return r.due();
    }
    r.need("RECORD")?;
    r.statement("END")?;
    r.need("SURVEY")?;
    r.statement("END")?;
    r.need("SSS")?;
    if met.contains(&"STANDARD") {
        let mut names: Vec<Vec<u8>> = vec![];
        for row in &rows {
            let (place, length) = (row[14] as usize, row[15] as usize);
            let signs = signs(&def[place..place + length]).unwrap();
            // A break is no byte, and so neither letter nor digit.
            let bytes: Option<Vec<u8>> = signs.into_iter().map(|x| u8::try_from(x).ok()).collect();
            let broken = bytes.is_none();
            let name = bytes.unwrap_or_default().to_ascii_lowercase();
            let good = !broken
                && (1..=8).contains(&name.len())
                && name[0].is_ascii_alphabetic()
                && name.iter().all(|x| x.is_ascii_alphanumeric())
                && !names.contains(&name);
            if !good {
                return Err((9, row[14] as usize - 1));
            }
            names.push(name);
        }
    }
    let least = rows.iter().map(|row| row[3]).max().unwrap();
    let mut table =
        vec![11, rows.len() as i64, lines.len() as i64, least, HEADER as i64, (HEADER + ROW * rows.len()) as i64];
    table.extend(rows.concat());
    table.extend(lines.concat());
    if room < table.len() { Err((10, 0)) } else { Ok(table) }
}

fn variable(r: &mut Reader, rows: &[Vec<i64>], lines: &mut Vec<Vec<i64>>) -> Result<Vec<i64>, Fault> {
    let ident = r.number()?;
    let id = stripped(&ident.text);
    let repeated = rows.iter().any(|row| row[0].to_string() == id);
    judged(&[
        (id.is_empty() || ident.text.len() > 4 || repeated, 5, ident.place),
        (rows.len() == 512, 8, ident.place),
    ])?;
    let mut row = vec![0i64; ROW];
    row[0] = id.parse().unwrap();
    row[12] = lines.len() as i64;
    for (word, column) in [("NAME", 14), ("LABEL", 16)] {
        r.statement(word)?;
        let (place, length) = r.text()?;
        row[column] = place as i64;
        row[column + 1] = length as i64;
    }
    r.statement("TYPE")?;
    r.gap()?;
    let types = ["SINGLE", "MULTIPLE", "QUANTITY", "CHARACTER", "LOGICAL"];
    let Some(kind) = types.iter().position(|word| r.word(word)) else { return r.due() };
    let kind = kind as i64 + 1;
    row[1] = kind;

    r.statement("POSITION")?;
    let start = r.number()?;
    r.gap()?;
    let finish = if r.word("TO") { r.number()? } else { start.clone() };
    let (a, b) = (stripped(&start.text), stripped(&finish.text));
    judged(&[
        (a.is_empty(), 7, start.place),
        (above(&a, &b), 7, finish.place),
        (above(&a, "16384"), 8, start.place),
        (above(&b, "16384"), 8, finish.place),
    ])?;
    row[2] = a.parse().unwrap();
    row[3] = b.parse().unwrap();
    let room = row[3] - row[2] + 1;

    let mut narrow = false;
    if kind == 2 {
        r.notes()?;
        if r.word("SPREAD") {
            let count = r.number()?;
            r.gap()?;
            let width = if r.word("OF") { Some(r.number()?) } else { None };
            let n = stripped(&count.text);
            let small: Option<i64> = if n.len() <= 5 { n.parse().ok() } else { None };
            match width {
                Some(width) => {
                    let w = stripped(&width.text);
                    judged(&[(n.is_empty(), 7, count.place), (w.is_empty(), 7, width.place)])?;
                    let product =
                        small.and_then(|n| if w.len() <= 5 { Some(n * w.parse::<i64>().unwrap()) } else { None });
                    narrow = product.is_none_or(|p| p > room);
                    row[7] = small.unwrap_or(0);
                    row[8] = if w.len() <= 5 { w.parse().unwrap() } else { 0 };
                }
                None => {
                    let inexact = small.is_none_or(|n| n == 0 || room % n != 0);
                    judged(&[(inexact, 7, count.place)])?;
                    row[7] = small.unwrap();
                    row[8] = room / row[7];
                }
            }
        }
    }
    match kind {
        1..=3 => {
            let numbers = values(r, kind == 3, &mut row, lines)?;
            let most = *numbers.iter().max().unwrap();
            row[4] = match kind {
                2 if row[7] == 0 && !narrow => most,
                1 | 2 => most.to_string().len() as i64,
                _ => numbers.iter().map(|&v| canonical_length(v, row[5] as usize, row[6])).max().unwrap() as i64,
            };
            if row[7] > 0 {
                narrow |= row[8] < row[4];
            } else {
                narrow |= row[4] > room;
            }
        }
        4 => {
            r.statement("SIZE")?;
            let size = r.number()?;
            let n = stripped(&size.text);
            judged(&[(n.is_empty(), 7, size.place), (above(&n, "4096"), 8, size.place)])?;
            row[4] = n.parse().unwrap();
            narrow = row[4] > room;
        }
        _ => row[4] = 1,
    }
    r.statement("END")?;
    r.need("VARIABLE")?;
    judged(&[(narrow, 7, start.place)])?;
    Ok(row)
}

/// A VALUES block: all its numbers.
fn values(r: &mut Reader, quantity: bool, row: &mut [i64], lines: &mut Vec<Vec<i64>>) -> Result<Vec<i64>, Fault> {
    r.statement("VALUES")?;
    let mut numbers = vec![];
    let mut decimals: Option<usize> = None;
    let mut points = vec![];
    let mut bare = vec![];
    let mut own: Vec<i64> = vec![];
    r.notes()?;
    let mut next = Some(r.figure()?);
    r.gap()?;
    let mut lines_follow = true;
    if r.word("TO") {
        let from = next.take().unwrap();
        let to = r.figure()?;
        r.gap()?;
        lines_follow = r.word("WITH");
        let (a, b) = (parsed(&from, quantity), parsed(&to, quantity));
        let mut faults = vec![(a.is_none(), 6, from.place), (b.is_none(), 6, to.place)];
        if let (Some(a), Some(b)) = (&a, &b) {
            faults.push((a.decimals != b.decimals || reversed(a, b), 6, to.place));
            faults.push((beyond(a, quantity), 8, from.place));
            faults.push((beyond(b, quantity), 8, to.place));
        }
        judged(&faults)?;
        let (a, b) = (a.unwrap(), b.unwrap());
        row[9] = 1;
        row[10] = a.scaled();
        row[11] = b.scaled();
        numbers.extend([a.scaled(), b.scaled()]);
        decimals = Some(a.decimals);
        points.extend([a.point, b.point]);
        bare.extend([a.bare, b.bare]);
        if lines_follow {
            r.notes()?;
            next = Some(r.figure()?);
        }
    }
    loop {
        if let Some(figure) = next.take() {
            let (place, length) = r.text()?;
            r.gap()?;
            let special = r.word("SPECIAL");
            let n = parsed(&figure, quantity);
            let mut faults = vec![(n.is_none(), 6, figure.place), (lines.len() == 4096, 8, figure.place)];
            if let Some(n) = &n {
                let over = beyond(n, quantity);
                faults.push((decimals.is_some_and(|d| d != n.decimals), 6, figure.place));
                faults.push((over, 8, figure.place));
                faults.push((!over && own.contains(&n.scaled()), 6, figure.place));
            }
            judged(&faults)?;
            let n = n.unwrap();
            decimals = Some(n.decimals);
            points.push(n.point);
            bare.push(n.bare);
            numbers.push(n.scaled());
            own.push(n.scaled());
            lines.push(vec![n.scaled(), special as i64, place as i64, length as i64]);
        }
        r.notes()?;
        if r.word("END") {
            r.need("VALUES")?;
            break;
        }
        if !lines_follow {
            return r.due();
        }
        next = Some(r.figure()?);
    }
    row[13] = own.len() as i64;
    if quantity {
        row[5] = decimals.unwrap_or(0) as i64;
        row[6] = if !points.contains(&true) {
            0
        } else if bare.contains(&false) {
            1
        } else {
            2
        };
    }
    Ok(numbers)
}

// ------------------------------------------------------------------------------------------------- tables

pub(crate) struct Row {
    pub(crate) cells: Vec<i64>,
    lines: Vec<Vec<i64>>,
}

pub(crate) struct Table {
    pub(crate) rows: Vec<Row>,
    pub(crate) least: usize,
}

pub(crate) fn understood(t: &[i64]) -> Option<Table> {
    if t.len() < HEADER || !(1..=512).contains(&t[1]) || !(0..=4096).contains(&t[2]) {
        return None;
    }
    let (v, e) = (t[1] as usize, t[2] as usize);
    let lines_at = HEADER + ROW * v;
    if (t[0] != 11 && t[0] != 12) || t[4] != HEADER as i64 || t[5] != lines_at as i64 || t.len() < lines_at + LINE * e {
        return None;
    }
    let mut rows = vec![];
    let mut before = 0i64;
    for i in 0..v {
        let cells = t[HEADER + ROW * i..][..ROW].to_vec();
        if cells[12] != before || cells[13] < 0 || cells[13] > e as i64 - before {
            return None;
        }
        let first = lines_at + LINE * before as usize;
        let lines = t[first..first + LINE * cells[13] as usize].chunks(LINE).map(<[i64]>::to_vec).collect();
        before += cells[13];
        rows.push(Row { cells, lines });
    }
    let least = rows.iter().map(|row| row.cells[3]).max().unwrap();
    let idents: HashSet<i64> = rows.iter().map(|row| row.cells[0]).collect();
    let kind_sound = if t[0] == 12 { xml_sound(&rows) } else { rows.iter().all(|row| row.cells[18..] == [0, 0]) };
    let sound = before == e as i64 && t[3] == least && idents.len() == v && rows.iter().all(row_sound) && kind_sound;
    sound.then_some(Table { rows, least: least as usize })
}

/// Document 02, C-15, sentence by sentence.
fn xml_sound(rows: &[Row]) -> bool {
    let with_use = |k: i64| rows.iter().filter(move |row| row.cells[18] == k).collect::<Vec<_>>();
    let (serials, weights) = (with_use(1), with_use(2));
    let known = rows.iter().all(|row| (0..=2).contains(&row.cells[18]));
    let few = serials.len() <= 1 && weights.len() <= 1;
    let typed = serials.iter().all(|row| [3, 4].contains(&row.cells[1])) && weights.iter().all(|row| row.cells[1] == 3);
    let unfiltered = serials.iter().chain(&weights).all(|row| row.cells[19] == 0);
    // The numbers a filter may have: 0, and for each earlier logical its row's plus one.
    let filters = (0..rows.len()).all(|i| {
        let logicals = (0..i).filter(|&j| rows[j].cells[1] == 5).map(|j| j as i64 + 1);
        logicals.chain([0]).any(|filter| filter == rows[i].cells[19])
    });
    let special = rows.iter().any(|row| row.lines.iter().any(|line| line[1] != 0));
    known && few && typed && unfiltered && filters && !special
}

fn row_sound(row: &Row) -> bool {
    let c = &row.cells;
    let kind = c[1];
    let quantity = kind == 3;
    // Nothing is negative but a quantity's from, to and line values.
    if c.iter().enumerate().any(|(i, &x)| x < 0 && !(quantity && (i == 10 || i == 11))) {
        return false;
    }
    if row.lines.iter().any(|line| line.iter().enumerate().any(|(i, &x)| x < 0 && !(quantity && i == 0))) {
        return false;
    }
    if !(1..=9999).contains(&c[0]) || !(1..=5).contains(&kind) || c[5] > 9 || c[6] > 2 || c[9] > 1 {
        return false;
    }
    if row.lines.iter().any(|line| line[1] > 1 || line[2] > 1_048_576 || line[3] > 1_048_576)
        || c[14..18].iter().any(|&x| x > 1_048_576)
    {
        return false;
    }
    // Columns a type lacks.
    let lacked: Vec<usize> = match kind {
        1 => vec![5, 6, 7, 8],
        2 => vec![5, 6],
        3 => vec![7, 8],
        _ => vec![5, 6, 7, 8, 9, 10, 11, 13],
    };
    if lacked.iter().any(|&i| c[i] != 0) || (c[9] == 0 && (c[10] != 0 || c[11] != 0)) || (c[5] > 0 && c[6] == 0) {
        return false;
    }
    // "Point code 2 needs decimals above 0 and all values nearer zero than 1."
    let near = |v: i64| v.unsigned_abs() < 10u64.pow(c[5] as u32);
    if c[6] == 2 && (c[5] == 0 || !near(c[10]) || !near(c[11]) || row.lines.iter().any(|line| !near(line[0]))) {
        return false;
    }
    if (kind <= 3 && c[9] == 0 && row.lines.is_empty()) || (c[7] == 0) != (c[8] == 0) {
        return false;
    }
    // The tests of 6 and 8.
    let mut numbers: Vec<i64> = row.lines.iter().map(|line| line[0]).collect();
    if numbers.iter().collect::<HashSet<_>>().len() != numbers.len() || c[10] > c[11] {
        return false;
    }
    if c[9] == 1 {
        numbers.extend([c[10], c[11]]);
    }
    let legal = if quantity { -999_999_999_999_999..=999_999_999_999_999 } else { 1..=9999 };
    if numbers.iter().any(|v| !legal.contains(v)) || c[3] > 16_384 {
        return false;
    }
    // The test of 7.
    if c[2] == 0 || c[3] < c[2] {
        return false;
    }
    let room = c[3] - c[2] + 1;
    let most = numbers.iter().copied().max().unwrap_or(0);
    let w = match kind {
        2 if c[7] == 0 => most,
        1 | 2 => most.to_string().len() as i64,
        3 => numbers.iter().map(|&v| canonical_length(v, c[5] as usize, c[6])).max().unwrap() as i64,
        4 if (1..=4096).contains(&c[4]) => c[4],
        4 => return false,
        _ => 1,
    };
    if c[7] > 0 {
        c[4] == w && c[8] >= w && c[7] as i128 * c[8] as i128 <= room as i128
    } else {
        c[4] == w && room >= w
    }
}

// ------------------------------------------------------------------------------------------------ records

#[derive(Debug, PartialEq)]
enum Value {
    Missing,
    Number(i64),
    Set(BTreeSet<i64>),
    Text(usize, usize),
    Truth(i64),
}

impl Row {
    fn legal(&self, v: i64) -> bool {
        (self.cells[9] == 1 && (self.cells[10]..=self.cells[11]).contains(&v))
            || self.lines.iter().any(|line| line[0] == v)
    }

    pub(crate) fn defined(&self) -> BTreeSet<i64> {
        let mut all: BTreeSet<i64> = self.lines.iter().map(|line| line[0]).collect();
        if self.cells[9] == 1 {
            all.extend(self.cells[10]..=self.cells[11]);
        }
        all
    }

    /// The places of the value in a record, field by field.
    pub(crate) fn places(&self) -> Vec<Vec<usize>> {
        let c = &self.cells;
        let (start, finish, w) = (c[2] as usize - 1, c[3] as usize, c[4] as usize);
        match c[1] {
            2 if c[7] == 0 => self.defined().iter().map(|&c| vec![start + c as usize - 1]).collect(),
            2 => (1..=c[7] as usize)
                .map(|k| {
                    let end = start + k * c[8] as usize;
                    (end - w..end).collect()
                })
                .collect(),
            4 => vec![(start..start + w).collect()],
            _ => vec![(finish - w..finish).collect()],
        }
    }

    /// The value, or None for an illegal field.
    fn value(&self, record: &[u8]) -> Option<Value> {
        let fields: Vec<Vec<u8>> = self.places().iter().map(|f| f.iter().map(|&p| record[p]).collect()).collect();
        if fields.concat().iter().all(|&x| x == b' ') {
            return Some(Value::Missing);
        }
        match self.cells[1] {
            1 => match category(&fields[0])? {
                0 => Some(Value::Missing),
                c => self.legal(c).then_some(Value::Number(c)),
            },
            2 if self.cells[7] == 0 => {
                let mut set = BTreeSet::new();
                for (c, field) in self.defined().into_iter().zip(&fields) {
                    match field[0] {
                        b'0' => {}
                        b'1' => drop(set.insert(c)),
                        _ => return None,
                    }
                }
                Some(Value::Set(set))
            }
            2 => {
                let mut set = BTreeSet::new();
                for field in &fields {
                    let c = if field.iter().all(|&x| x == b' ') { 0 } else { category(field)? };
                    if c != 0 {
                        if !self.legal(c) {
                            return None;
                        }
                        set.insert(c);
                    }
                }
                Some(Value::Set(set))
            }
            3 => {
                let v = self.amount(&fields[0])?;
                self.legal(v).then_some(Value::Number(v))
            }
            4 => {
                if fields[0].iter().any(|&x| x < 32) {
                    return None;
                }
                let mut length = fields[0].len();
                while fields[0][length - 1] == b' ' {
                    length -= 1;
                }
                Some(Value::Text(self.cells[2] as usize - 1, length))
            }
            _ => match fields[0][0] {
                b'0' => Some(Value::Truth(0)),
                b'1' => Some(Value::Truth(1)),
                _ => None,
            },
        }
    }

    /// The number that a quantity's bytes say, legal or not; None where they have no quantity's form.
    fn amount(&self, field: &[u8]) -> Option<i64> {
        let text: String = field.iter().map(|&x| x as char).collect();
        let text = text.trim_start_matches(' ');
        let (minus, text) = text.strip_prefix('-').map_or((false, text), |rest| (true, rest));
        let (whole, rest) = if self.cells[6] >= 1 { text.split_once('.')? } else { (text, "") };
        let digits = format!("{whole}{rest}");
        if (whole.is_empty() && self.cells[6] != 2)
            || rest.len() != self.cells[5] as usize
            || !digits.bytes().all(|x| x.is_ascii_digit())
        {
            return None;
        }
        let m: i64 = digits.parse().unwrap();
        Some(if minus { -m } else { m })
    }

    /// The number that the bytes of a SINGLE, a subfield or a QUANTITY say.
    fn said(&self, field: &[u8]) -> Option<i64> {
        if self.cells[1] == 3 { self.amount(field) } else { category(field) }
    }

    /// The index of the point in a quantity's value places.
    fn point(&self) -> Option<usize> {
        (self.cells[1] == 3 && self.cells[6] != 0).then(|| (self.cells[4] - self.cells[5] - 1) as usize)
    }

    /// Whether some field that is sound in form, and not all spaces, begins with these bytes. If one does, so does the one that goes on
    /// with zeros, and with the point in its place.
    fn begins(&self, bytes: &[u8]) -> bool {
        match self.cells[1] {
            4 => bytes.iter().all(|&x| x >= 32),
            5 => bytes.iter().all(|x| b"01".contains(x)),
            2 if self.cells[7] == 0 => bytes.iter().all(|x| b"01".contains(x)),
            _ => {
                let mut field = vec![b'0'; self.cells[4] as usize];
                if let Some(point) = self.point() {
                    field[point] = b'.';
                }
                field[..bytes.len()].copy_from_slice(bytes);
                self.said(&field).is_some()
            }
        }
    }

    /// What is wrong with an illegal field (document 02, C-18): 241 or 243 with the place of the leftmost byte up to which no field of
    /// sound form goes; in a field of sound form 242 with the first number that is not legal.
    fn fault(&self, record: &[u8]) -> (i64, i64) {
        let mut fields = self.places();
        if self.cells[1] == 2 && self.cells[7] == 0 {
            fields = vec![fields.concat()];
        }
        let bytes = |places: &[usize]| -> Vec<u8> { places.iter().map(|&p| record[p]).collect() };
        fields.retain(|places| bytes(places).iter().any(|&x| x != b' '));
        for places in &fields {
            let field = bytes(places);
            if let Some(k) = (0..field.len()).find(|&k| !self.begins(&field[..=k])) {
                let point = self.cells[1] == 3 && (field[k] == b'.' || self.point() == Some(k));
                return (if point { 243 } else { 241 }, places[k] as i64);
            }
        }
        for places in &fields {
            let n = self.said(&bytes(places)).expect("an illegal field of sound form is a number");
            if !self.legal(n) && (n != 0 || self.cells[1] == 3) {
                return (242, n);
            }
        }
        unreachable!("an illegal field has a fault")
    }
}

fn category(field: &[u8]) -> Option<i64> {
    let text: String = field.iter().map(|&x| x as char).collect();
    let digits = text.trim_start_matches(' ');
    (!digits.is_empty() && digits.bytes().all(|x| x.is_ascii_digit())).then(|| digits.parse().unwrap())
}

fn row_of(t: &Table, row: u64) -> Option<&Row> {
    usize::try_from(row).ok().and_then(|row| t.rows.get(row))
}

/// The number; the byte's place, or the row; and with the row the fault's place or number.
fn judge(t: &Table, record: &[u8]) -> (i64, i64, i64) {
    if record.len() < t.least {
        return (22, 0, 0);
    }
    if let Some(place) = record.iter().position(|&x| x < 32) {
        return (23, place as i64, 0);
    }
    match t.rows.iter().position(|row| row.value(record).is_none()) {
        Some(row) => {
            let (number, beside) = t.rows[row].fault(record);
            (number, row as i64, beside)
        }
        None => (0, 0, 0),
    }
}

/// The shared part of the writes: `fits` says whether the type fits, `bytes` gives the bytes of each field or the refusal.
fn write(
    table: &[i64],
    row: u64,
    record: &mut [u8],
    fits: impl Fn(i64) -> bool,
    bytes: impl Fn(&Row) -> Result<Vec<Vec<u8>>, u64>,
) -> u64 {
    let Some(t) = understood(table) else { return 20 };
    let Some(row) = row_of(&t, row) else { return 21 };
    if record.len() < t.least {
        return 22;
    }
    if !fits(row.cells[1]) {
        return 26;
    }
    match bytes(row) {
        Err(number) => number,
        Ok(fields) => {
            for (places, bytes) in row.places().iter().zip(fields) {
                assert_eq!(places.len(), bytes.len());
                for (&p, x) in places.iter().zip(bytes) {
                    record[p] = x;
                }
            }
            0
        }
    }
}

// --------------------------------------------------------------------------------------------------- files

fn terminator(data: &[u8]) -> Option<&[u8]> {
    let at = data.iter().position(|&x| x == 13 || x == 10)?;
    let pair = data.get(at..at + 2).filter(|p| p[0] != p[1] && (p[1] == 13 || p[1] == 10));
    Some(pair.unwrap_or(&data[at..at + 1]))
}

/// Start, end and next start of the record at `from`; None for the end where it has no terminator.
fn cut(data: &[u8], from: usize) -> (usize, Option<(usize, usize)>) {
    let Some(end) = terminator(data) else { return (from, None) };
    let at = (from..data.len()).find(|&p| data[p..].starts_with(end));
    (from, at.map(|at| (at, at + end.len())))
}

fn give(answer: &mut [i64; 4], numbers: [i64; 4]) -> u64 {
    *answer = numbers;
    numbers[0] as u64
}

impl Face for Naive {
    fn name(&self) -> &'static str {
        "naive Rust"
    }

    fn read_definition(&self, def: &[u8], table: &mut [i64], answer: &mut [i64; 4]) -> u64 {
        match read(def, table.len()) {
            Err((number, place)) => give(answer, [number, place as i64, 0, 0]),
            Ok(t) => {
                table[..t.len()].copy_from_slice(&t);
                give(answer, [0, 0, t[1], t[2]])
            }
        }
    }

    fn read_value(&self, table: &[i64], row: u64, record: &[u8], list: &mut [i64], answer: &mut [i64; 4]) -> u64 {
        let Some(t) = understood(table) else { return give(answer, [20, 0, 0, 0]) };
        let Some(row) = row_of(&t, row) else { return give(answer, [21, 0, 0, 0]) };
        if record.len() < t.least {
            return give(answer, [22, 0, 0, 0]);
        }
        let numbers = match row.value(record) {
            None => {
                let (number, beside) = row.fault(record);
                [number, beside, 0, 0]
            }
            Some(Value::Missing) => [0, 0, 0, 0],
            Some(Value::Number(n)) => [0, 1, n, 0],
            Some(Value::Text(place, length)) => [0, 3, place as i64, length as i64],
            Some(Value::Truth(t)) => [0, 4, t, 0],
            Some(Value::Set(set)) if set.len() > list.len() => [25, 0, 0, 0],
            Some(Value::Set(set)) => {
                for (slot, c) in list.iter_mut().zip(&set) {
                    *slot = *c;
                }
                [0, 2, set.len() as i64, 0]
            }
        };
        give(answer, numbers)
    }

    fn normal(&self, table: &[i64], record: &mut [u8], answer: &mut [i64; 4]) -> u64 {
        give(answer, crate::naive_02::normal(table, record))
    }

    fn decode_text(&self, def: &[u8], place: u64, length: u64, list: &mut [i64], answer: &mut [i64; 4]) -> u64 {
        let (place, end) = (place as u128, place as u128 + length as u128);
        if end > def.len() as u128 {
            return give(answer, [3, 0, 0, 0]);
        }
        let Some(signs) = signs_at(def, place as usize, length as usize) else { return give(answer, [3, 0, 0, 0]) };
        if list.len() < signs.len() {
            return give(answer, [25, 0, 0, 0]);
        }
        list[..signs.len()].copy_from_slice(&signs);
        give(answer, [0, signs.len() as i64, 0, 0])
    }

    fn judge_part(&self, t: &[i64], data: &[u8], end: u64, first: u64, last: u64, answer: &mut [i64; 4]) -> u64 {
        give(answer, crate::naive_02::judge_part(t, data, end, first, last))
    }

    fn judge_record(&self, table: &[i64], record: &[u8], answer: &mut [i64; 4]) -> u64 {
        let Some(t) = understood(table) else { return give(answer, [20, 0, 0, 0]) };
        let (number, place, beside) = judge(&t, record);
        give(answer, [number, place, beside, 0])
    }

    fn write_missing(&self, table: &[i64], row: u64, record: &mut [u8]) -> u64 {
        write(table, row, record, |_| true, |row| Ok(row.places().iter().map(|f| vec![b' '; f.len()]).collect()))
    }

    fn write_number(&self, table: &[i64], row: u64, number: i64, record: &mut [u8]) -> u64 {
        let fits = |kind| kind == 1 || kind == 3;
        write(table, row, record, fits, |row| {
            if !row.legal(number) {
                return Err(27);
            }
            let (w, decimals, point) = (row.cells[4] as usize, row.cells[5] as usize, row.cells[6] >= 1);
            let digits = w - point as usize - (number < 0) as usize;
            let mut text = format!("{:0>1$}", number.unsigned_abs(), digits);
            if point {
                text.insert(text.len() - decimals, '.');
            }
            if number < 0 {
                text.insert(0, '-');
            }
            Ok(vec![text.into_bytes()])
        })
    }

    fn write_truth(&self, table: &[i64], row: u64, truth: u8, record: &mut [u8]) -> u64 {
        write(
            table,
            row,
            record,
            |kind| kind == 5,
            |_| match truth {
                0 => Ok(vec![b"0".to_vec()]),
                1 => Ok(vec![b"1".to_vec()]),
                _ => Err(27),
            },
        )
    }

    fn write_set(&self, table: &[i64], row: u64, list: &[i64], record: &mut [u8]) -> u64 {
        write(
            table,
            row,
            record,
            |kind| kind == 2,
            |row| {
                let defined = row.defined();
                let members: BTreeSet<i64> = list.iter().copied().collect();
                if !members.iter().eq(list.iter()) || !members.is_subset(&defined) {
                    return Err(27);
                }
                let (n, w) = (row.cells[7] as usize, row.cells[4] as usize);
                if n == 0 {
                    return Ok(defined.iter().map(|c| vec![b'0' + members.contains(c) as u8]).collect());
                }
                if list.len() > n {
                    return Err(28);
                }
                let all = list.iter().copied().chain(std::iter::repeat(0)).take(n);
                Ok(all.map(|c| format!("{c:0>w$}").into_bytes()).collect())
            },
        )
    }

    fn write_text(&self, table: &[i64], row: u64, text: &[u8], record: &mut [u8]) -> u64 {
        write(
            table,
            row,
            record,
            |kind| kind == 4,
            |row| {
                let w = row.cells[4] as usize;
                if text.is_empty() || text.len() > w || text.ends_with(b" ") || text.iter().any(|&x| x < 32) {
                    return Err(27);
                }
                let mut field = text.to_vec();
                field.resize(w, b' ');
                Ok(vec![field])
            },
        )
    }

    fn judge_file(&self, table: &[i64], data: &[u8], answer: &mut [i64; 4]) -> u64 {
        let Some(t) = understood(table) else { return give(answer, [20, 0, 0, 0]) };
        let mut from = 0;
        let mut count = 0;
        let mut first = None;
        while from < data.len() {
            count += 1;
            let (start, Some((end, next))) = cut(data, from) else { return give(answer, [30, count, 0, 0]) };
            let record = &data[start..end];
            if record.len() != *first.get_or_insert(record.len()) {
                return give(answer, [31, count, 0, 0]);
            }
            match judge(&t, record) {
                (0, ..) => {}
                (23, place, _) => return give(answer, [23, count, 0, place]),
                (number, row, beside) => return give(answer, [number, count, row, beside]),
            }
            from = next;
        }
        give(answer, [0, count, 0, 0])
    }

    fn next_record(&self, data: &[u8], from: u64, answer: &mut [i64; 4]) -> u64 {
        if from >= data.len() as u64 {
            return give(answer, [0, 0, 0, 0]);
        }
        match cut(data, from as usize) {
            (start, Some((end, next))) => give(answer, [1, start as i64, end as i64, next as i64]),
            (start, None) => give(answer, [2, start as i64, data.len() as i64, data.len() as i64]),
        }
    }

    fn read_record(&self, t: &[i64], record: &[u8], out: &mut [i64], list: &mut [i64], answer: &mut [i64; 4]) -> u64 {
        let Some(t) = understood(t) else { return give(answer, [20, 0, 0, 0]) };
        if record.len() < t.least {
            return give(answer, [22, 0, 0, 0]);
        }
        let (mut all, mut members, mut refused) = (vec![], vec![], 0);
        for row in &t.rows {
            all.push(match row.value(record) {
                None => {
                    refused += 1;
                    let (number, beside) = row.fault(record);
                    [number, beside, 0, 0]
                }
                Some(Value::Missing) => [0, 0, 0, 0],
                Some(Value::Number(n)) => [0, 1, n, 0],
                Some(Value::Text(place, length)) => [0, 3, place as i64, length as i64],
                Some(Value::Truth(t)) => [0, 4, t, 0],
                Some(Value::Set(set)) => {
                    let start = members.len();
                    members.extend(set);
                    [0, 2, (members.len() - start) as i64, start as i64]
                }
            });
        }
        let all = all.concat();
        if out.len() < all.len() || list.len() < members.len() {
            return give(answer, [25, 0, 0, 0]);
        }
        out[..all.len()].copy_from_slice(&all);
        list[..members.len()].copy_from_slice(&members);
        give(answer, [0, members.len() as i64, refused, 0])
    }

    fn correct(&self, table: &[i64], corrections: &mut [Correction], record: &mut [u8]) -> u64 {
        crate::naive_02::correct(table, corrections, record)
    }

    fn mend(&self, t: &[i64], data: &[u8], out: &mut [u8], list: &mut [i64], answer: &mut [i64; 4]) -> u64 {
        give(answer, crate::naive_02::mend(t, data, out, list))
    }

    fn matrix(&self, t: &[i64], data: &[u8], out: &mut [u8], answer: &mut [i64; 4]) -> u64 {
        give(answer, crate::naive_02::matrix(t, data, out))
    }

    fn export(&self, def: &[u8], t: &[i64], data: &[u8], out: &mut [u8], answer: &mut [i64; 5]) -> u64 {
        *answer = crate::naive_02::export(def, t, data, out);
        answer[0] as u64
    }

    fn write_definition(&self, def: &[u8], t: &[i64], out: &mut [u8], answer: &mut [i64; 4]) -> u64 {
        give(answer, crate::naive_02::write_definition(def, t, out))
    }

    fn import(&self, def: &[u8], t: &[i64], text: &[u8], out: &mut [u8], answer: &mut [i64; 4]) -> u64 {
        give(answer, crate::naive_02::import(def, t, text, out))
    }
}
