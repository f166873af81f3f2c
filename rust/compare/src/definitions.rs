//! Definitions: sound ones with the table that they must give, and damaged ones.

use crate::rng::Rng;
use crate::shape::{LINE, MARK, ROW, line_at, row_at};

/// A token of a definition.
#[derive(Clone, Debug)]
pub enum Token {
    /// A word; letters may change case.
    Word(&'static str),
    /// A number, a value or a version.
    Figure(String),
    /// A string's body, and the slot its place and length are noted in.
    Text(Vec<u8>, Option<usize>),
}

/// A sound definition's tokens, and the table that reading them must give, but for the places and lengths of texts: cell
/// `texts[slot]` takes the place of slot's text and the cell behind it the length.
#[derive(Clone, Debug)]
pub struct Model {
    pub tokens: Vec<Token>,
    pub table: Vec<i64>,
    pub texts: Vec<usize>,
    pub standard: bool,
}

/// How tokens are put into bytes.
#[derive(Clone, Copy, Debug)]
pub struct Style {
    /// Once in so many bytes of a token a dropped byte follows; 0 for never.
    pub dropped: usize,
    /// Once in so many gaps a comment stands; 0 for never.
    pub comments: usize,
    /// 0 none where none is needed, 1 one space, 2 line ends and indents, 3 anything.
    pub spacing: usize,
    /// 0 capitals, 1 small, 2 mixed.
    pub case: usize,
}

impl Style {
    pub fn any(r: &mut Rng) -> Style {
        Style {
            dropped: r.pick(&[0, 0, 0, 40, 10, 3]),
            comments: r.pick(&[0, 0, 20, 5]),
            spacing: r.below(4),
            case: r.below(3),
        }
    }

    pub const PLAIN: Style = Style { dropped: 0, comments: 0, spacing: 2, case: 0 };
}

/// How large a definition gets.
#[derive(Clone, Copy, Debug)]
pub struct Size {
    pub variables: usize,
    pub lines: usize,
    pub text: usize,
}

pub const SMALL: Size = Size { variables: 5, lines: 6, text: 12 };

/// A text's body: any bytes, brace forms, dropped bytes.
pub fn body(r: &mut Rng, most: usize) -> Vec<u8> {
    let mut b = vec![];
    for _ in 0..r.below(most + 1) {
        match r.below(40) {
            0 => b.extend(b"{\"}"),
            1 => b.extend(b"{{}"),
            2 => b.extend(b"{NL}"),
            3 => {
                b.push(b'{');
                for _ in 0..=r.below(3) {
                    b.push(r.pick(b"0123456789abcdefABCDEF"));
                    b.push(r.pick(b"0123456789abcdefABCDEF"));
                }
                b.push(b'}');
            }
            4 => b.push(b'}'),
            5 => b.push(r.pick(b"<>")),
            6 => b.push(r.below(32) as u8),
            7 => b.push(r.range(127, 255) as u8),
            8 => b.extend(b"END "),
            9..12 => b.push(b' '),
            _ => b.push(r.pick(b"abcdefghijklmnopqrstuvwxyzABCDEFGHIJ0123456789.,;:'!?-+()")),
        }
    }
    b
}

/// A comment with strings and further comments.
pub fn comment(r: &mut Rng, levels: usize) -> Vec<u8> {
    let mut b = vec![b'<'];
    for _ in 0..r.below(6) {
        match r.below(6) {
            0 if levels > 1 => b.extend(comment(r, levels - 1)),
            1 => {
                b.push(b'"');
                b.extend(body(r, 6));
                b.push(b'"');
            }
            2 => b.push(r.pick(b"{}\r\n")),
            _ => b.push(r.pick(b"abc XYZ 0129 {}.,-+'\xff")),
        }
    }
    b.push(b'>');
    b
}

fn gap(r: &mut Rng, style: Style, comments: bool, out: &mut Vec<u8>) {
    match style.spacing {
        0 => {}
        1 => out.push(b' '),
        2 => out.extend(r.pick(&[&b"\r\n    "[..], b" ", b" ", b"\r\n"])),
        _ => {
            for _ in 0..r.below(4) {
                out.push(r.pick(b"   \r\n\t\0"));
            }
        }
    }
    if comments && style.comments > 0 && r.once_in(style.comments) {
        if r.once_in(50) {
            let deep = r.range(20, 32) as usize;
            out.extend(std::iter::repeat_n(b'<', deep).chain(std::iter::repeat_n(b'>', deep)));
        } else {
            out.extend(comment(r, 4));
        }
        if r.once_in(2) {
            gap(r, style, comments, out);
        }
    }
}

fn put(r: &mut Rng, style: Style, out: &mut Vec<u8>, x: u8) {
    out.push(x);
    if style.dropped > 0 && r.once_in(style.dropped) {
        out.push(r.pick(b"\r\n\t\0\x1f\x01"));
    }
}

/// Puts tokens into bytes; gives the place and length of each text with a slot.
pub fn render(r: &mut Rng, style: Style, tokens: &[Token]) -> (Vec<u8>, Vec<(usize, usize)>) {
    let mut out = vec![];
    let mut slots = vec![];
    if style.dropped > 0 {
        out.extend(r.pick(&[&b""[..], b"\r\n", b"\0"]));
    }
    for (i, token) in tokens.iter().enumerate() {
        // SSS stands first, and no comment before the version statement's end.
        if i > 0 {
            gap(r, style, i > 2, &mut out);
        }
        match token {
            Token::Word(word) => {
                for x in word.bytes() {
                    let small = style.case == 1 || (style.case == 2 && r.once_in(2));
                    put(r, style, &mut out, if small { x.to_ascii_lowercase() } else { x });
                }
            }
            Token::Figure(figure) => {
                for x in figure.bytes() {
                    put(r, style, &mut out, x);
                }
            }
            Token::Text(text, slot) => {
                let open = out.len();
                put(r, style, &mut out, b'"');
                for &x in text {
                    put(r, style, &mut out, x);
                }
                if let Some(slot) = slot {
                    if slots.len() <= *slot {
                        slots.resize(slot + 1, (0, 0));
                    }
                    slots[*slot] = (open + 1, out.len() - open - 1);
                }
                out.push(b'"');
            }
        }
    }
    (out, slots)
}

/// A sound definition's bytes and the whole table that they must give.
pub fn sound(r: &mut Rng, style: Style, model: &Model) -> (Vec<u8>, Vec<i64>) {
    let (mut bytes, slots) = render(r, style, &model.tokens);
    let mut table = model.table.clone();
    for (slot, &(place, length)) in slots.iter().enumerate() {
        table[model.texts[slot]] = place as i64;
        table[model.texts[slot] + 1] = length as i64;
    }
    // What follows END SSS is ignored.
    if r.once_in(4) {
        bytes.extend(r.pick(&[&b"<"[..], b"\"", b" END", b"\x1a", b"SSS VERSION 1.2", b"\xff{"]));
    }
    (bytes, table)
}

struct Maker {
    tokens: Vec<Token>,
    rows: Vec<[i64; ROW]>,
    lines: Vec<[i64; LINE]>,
    /// Row or line, its number, the column of the text's place.
    texts: Vec<(bool, usize, usize)>,
    notes: usize,
    text: usize,
}

impl Maker {
    fn word(&mut self, word: &'static str) {
        self.tokens.push(Token::Word(word));
    }

    fn figure(&mut self, figure: String) {
        self.tokens.push(Token::Figure(figure));
    }

    fn free_text(&mut self, r: &mut Rng) {
        let body = body(r, self.text);
        self.tokens.push(Token::Text(body, None));
    }

    fn note(&mut self, r: &mut Rng) {
        while self.notes > 0 && r.once_in(self.notes) {
            self.word("NOTE");
            self.free_text(r);
        }
    }

    fn tabled(&mut self, body: Vec<u8>, line: bool, number: usize, column: usize) {
        self.tokens.push(Token::Text(body, Some(self.texts.len())));
        self.texts.push((line, number, column));
    }
}

fn zeros(r: &mut Rng) -> String {
    "0".repeat(if r.once_in(8) { r.pick(&[1, 2, 3, 30]) } else { 0 })
}

/// The number as it must stand in data: a digit or more before the point, no needless zeros, its minus.
fn canonical(v: i64, decimals: usize, point: bool) -> String {
    let digits = format!("{:0>1$}", v.unsigned_abs(), decimals + 1);
    let (whole, rest) = digits.split_at(digits.len() - decimals);
    format!("{}{whole}{}{rest}", if v < 0 { "-" } else { "" }, if point { "." } else { "" })
}

/// The number as it may stand in a definition.
fn quantity_text(r: &mut Rng, v: i64, decimals: usize, point: bool) -> String {
    let text = canonical(v.abs(), decimals, point);
    let minus = if v < 0 || (v == 0 && r.once_in(4)) { "-" } else { "" };
    if decimals > 0 && text.starts_with("0.") && r.once_in(3) {
        return format!("{minus}{}", &text[1..]);
    }
    format!("{minus}{}{text}", zeros(r))
}

fn length_class(r: &mut Rng, most: u32) -> i64 {
    let digits = r.range(1, most as i64) as u32;
    r.range(0, 10i64.pow(digits) - 1)
}

/// Distinct numbers between low and high, now and then in rising order.
fn distinct(r: &mut Rng, count: usize, mut draw: impl FnMut(&mut Rng) -> i64) -> Vec<i64> {
    let mut met = std::collections::HashSet::new();
    let mut values = vec![];
    for _ in 0..count {
        let v = draw(r);
        if met.insert(v) {
            values.push(v);
        }
    }
    if r.once_in(2) {
        values.sort();
    }
    values
}

/// A sound definition.
pub fn model(r: &mut Rng, size: Size) -> Model {
    let mut m = Maker {
        tokens: vec![],
        rows: vec![],
        lines: vec![],
        texts: vec![],
        notes: r.pick(&[0, 0, 30, 5]),
        text: size.text,
    };
    m.word("SSS");
    m.word("VERSION");
    m.figure("1.1".into());
    let mut head = ["DATE", "TIME", "ORIGIN", "USER", "STANDARD"];
    for i in (1..5).rev() {
        head.swap(i, r.below(i + 1));
    }
    let mut standard = false;
    for word in head {
        if r.once_in(3) {
            m.note(r);
            m.word(word);
            if word == "STANDARD" {
                m.word("NAMES");
                standard = true;
            } else {
                m.free_text(r);
            }
        }
    }
    m.note(r);
    m.word("SURVEY");
    m.note(r);
    if r.once_in(3) {
        m.word("TITLE");
        m.free_text(r);
        m.note(r);
    }
    m.word("RECORD");
    m.word(r.pick(&["R", "A", "Z", "V", "E", "N"]));
    let count = 1 + r.below(size.variables);
    let idents = distinct(r, count, |r| if r.once_in(2) { r.range(1, 99) } else { r.range(1, 9999) });
    for (i, &ident) in idents.iter().enumerate() {
        variable(&mut m, r, size, i, ident, standard);
    }
    m.note(r);
    m.word("END");
    m.word("RECORD");
    m.note(r);
    m.word("END");
    m.word("SURVEY");
    m.note(r);
    m.word("END");
    m.word("SSS");

    let least = m.rows.iter().map(|row| row[3]).max().unwrap();
    let rows = m.rows.len();
    let mut table = vec![MARK, rows as i64, m.lines.len() as i64, least, row_at(0) as i64, row_at(rows) as i64];
    table.extend(m.rows.as_flattened());
    table.extend(m.lines.as_flattened());
    let texts = m
        .texts
        .iter()
        .map(|&(line, number, column)| column + if line { line_at(rows, number) } else { row_at(number) })
        .collect();
    Model { tokens: m.tokens, table, texts, standard }
}

/// A body that decodes to this name.
fn name_body(r: &mut Rng, name: &str) -> Vec<u8> {
    let mut b = vec![];
    let mut open = false;
    for x in name.bytes() {
        let hex = r.once_in(6);
        if open && !(hex && r.once_in(2)) {
            b.push(b'}');
            open = false;
        }
        if hex {
            if !open {
                b.push(b'{');
                open = true;
            }
            let pair = if r.once_in(2) { format!("{x:02x}") } else { format!("{x:02X}") };
            b.extend(pair.bytes());
        } else {
            b.push(x);
        }
    }
    if open {
        b.push(b'}');
    }
    b
}

fn variable(m: &mut Maker, r: &mut Rng, size: Size, i: usize, ident: i64, standard: bool) {
    let mut row = [0i64; ROW];
    row[0] = ident;
    row[12] = m.lines.len() as i64;
    m.note(r);
    m.word("VARIABLE");
    let written = ident.to_string();
    let room = 4 - written.len();
    m.figure("0".repeat(r.below(room + 1)) + &written);
    m.note(r);
    m.word("NAME");
    let name = if standard {
        // Different by the ident, with letters around it.
        let name = format!("{}{ident}{}", r.pick(&["q", "Q", "z", "A"]), r.pick(&["", "a", "B", "xyz"]));
        name_body(r, &name)
    } else {
        body(r, size.text)
    };
    m.tabled(name, false, i, 14);
    m.note(r);
    m.word("LABEL");
    let label = body(r, size.text);
    m.tabled(label, false, i, 16);
    m.note(r);
    m.word("TYPE");
    let kind = r.range(1, 5);
    row[1] = kind;
    m.word(["SINGLE", "MULTIPLE", "QUANTITY", "CHARACTER", "LOGICAL"][kind as usize - 1]);
    m.note(r);
    m.word("POSITION");
    // The position is known once the values are: made apart and put in here.
    let behind = m.tokens.len();
    let tokens = std::mem::take(&mut m.tokens);
    let spread = kind == 2 && r.once_in(2);
    let need = match kind {
        1 | 2 => {
            let most = if kind == 2 && !spread && !r.once_in(30) {
                r.pick(&[3, 9, 40])
            } else {
                r.pick(&[9, 20, 99, 999, 9999])
            };
            m.note(r);
            m.word("VALUES");
            let with_range = r.once_in(2);
            let mut numbers = vec![];
            if with_range {
                let (a, b) = (r.range(1, most), r.range(1, most));
                let (from, to) = (a.min(b), a.max(b));
                numbers.extend([from, to]);
                row[9] = 1;
                row[10] = from;
                row[11] = to;
                m.note(r);
                let text = format!("{}{from}", zeros(r));
                m.figure(text);
                m.word("TO");
                let text = format!("{}{to}", zeros(r));
                m.figure(text);
            }
            let count = if with_range { r.below(size.lines + 1) } else { 1 + r.below(size.lines) };
            let room = 4096 - m.lines.len().min(4096);
            let mut values = distinct(r, count, |r| r.range(1, most));
            values.truncate(room);
            if with_range && !values.is_empty() {
                m.word("WITH");
            }
            numbers.extend(&values);
            for v in &values {
                m.note(r);
                let text = format!("{}{v}", zeros(r));
                line(m, r, size, text, *v);
            }
            row[13] = values.len() as i64;
            m.note(r);
            m.word("END");
            m.word("VALUES");
            let largest = *numbers.iter().max().unwrap();
            row[4] = if kind == 2 && !spread { largest } else { largest.to_string().len() as i64 };
            row[4]
        }
        3 => {
            let decimals = if r.once_in(2) { 0 } else { r.range(1, 9) as usize };
            let points = decimals > 0 || r.once_in(5);
            // C-13: now and then every number is written with no digit before its point.
            let share = decimals > 0 && r.once_in(3);
            let most = if share { decimals as u32 } else { r.range(1, 15) as u32 };
            let draw = |r: &mut Rng| {
                let v = if r.once_in(12) { 10i64.pow(most) - 1 } else { length_class(r, most) };
                if r.once_in(3) { -v } else { v }
            };
            m.note(r);
            m.word("VALUES");
            let mut numbers = vec![];
            let mut point = false;
            let mut bare = true;
            let mut text = |r: &mut Rng, v: i64| {
                let here = decimals > 0 || (points && r.once_in(2));
                point |= here;
                let mut text = quantity_text(r, v, decimals, here);
                if share && !r.once_in(40) {
                    text = format!("{}.{:0>2$}", if v < 0 { "-" } else { "" }, v.unsigned_abs(), decimals);
                }
                bare &= text.trim_start_matches('-').starts_with('.');
                text
            };
            let with_range = r.once_in(2);
            if with_range {
                let (a, b) = (draw(r), draw(r));
                let (from, to) = (a.min(b), a.max(b));
                numbers.extend([from, to]);
                row[9] = 1;
                row[10] = from;
                row[11] = to;
                m.note(r);
                let t = text(r, from);
                m.figure(t);
                m.word("TO");
                let t = text(r, to);
                m.figure(t);
            }
            let count = if with_range { r.below(size.lines + 1) } else { 1 + r.below(size.lines) };
            let room = 4096 - m.lines.len().min(4096);
            let mut values = distinct(r, count, draw);
            values.truncate(room);
            if with_range && !values.is_empty() {
                m.word("WITH");
            }
            numbers.extend(&values);
            for v in &values {
                m.note(r);
                let t = text(r, *v);
                line(m, r, size, t, *v);
            }
            row[13] = values.len() as i64;
            m.note(r);
            m.word("END");
            m.word("VALUES");
            row[5] = decimals as i64;
            row[6] = if point && bare { 2 } else { point as i64 };
            // With code 2 no digit before the point counts.
            let less = (point && bare) as usize;
            row[4] = numbers.iter().map(|&v| canonical(v, decimals, point).len() - less).max().unwrap() as i64;
            row[4]
        }
        4 => {
            let n = if r.once_in(20) { r.pick(&[4095, 4096, 1000]) } else { r.range(1, 12) };
            m.note(r);
            m.word("SIZE");
            let text = format!("{}{n}", zeros(r));
            m.figure(text);
            row[4] = n;
            n
        }
        _ => {
            row[4] = 1;
            1
        }
    };
    let rest = std::mem::replace(&mut m.tokens, tokens);
    debug_assert_eq!(m.tokens.len(), behind);
    let slack = if r.once_in(2) { 0 } else { r.below(5) as i64 };
    let mut spread_tokens = vec![];
    let width = if spread {
        let n = if r.once_in(20) { r.range(1, 200) } else { r.range(1, 6) };
        let sub = need + if r.once_in(2) { 0 } else { r.below(3) as i64 };
        row[7] = n;
        row[8] = sub;
        let of = slack > 0 || r.once_in(2);
        spread_tokens.push(Token::Word("SPREAD"));
        spread_tokens.push(Token::Figure(format!("{}{n}", zeros(r))));
        if of {
            spread_tokens.push(Token::Word("OF"));
            spread_tokens.push(Token::Figure(format!("{}{sub}", zeros(r))));
        }
        n * sub + slack
    } else {
        need + slack
    };
    let start = match r.below(30) {
        0 => 16384 - width + 1,
        1 => r.range(1, 16384 - width + 1),
        _ => r.range(1, 60),
    };
    let finish = start + width - 1;
    row[2] = start;
    row[3] = finish;
    let text = format!("{}{start}", zeros(r));
    m.figure(text);
    if finish != start || r.once_in(3) {
        m.word("TO");
        let text = format!("{}{finish}", zeros(r));
        m.figure(text);
    }
    if !spread_tokens.is_empty() {
        m.note(r);
        m.tokens.extend(spread_tokens);
    }
    m.tokens.extend(rest);
    m.note(r);
    m.word("END");
    m.word("VARIABLE");
    m.rows.push(row);
}

fn line(m: &mut Maker, r: &mut Rng, size: Size, figure: String, value: i64) {
    m.figure(figure);
    let text = body(r, size.text);
    let special = r.once_in(5);
    m.tabled(text, true, m.lines.len(), 2);
    if special {
        m.word("SPECIAL");
    }
    m.lines.push([value, special as i64, 0, 0]);
}

const WORDS: &[&str] = &[
    "SSS",
    "VERSION",
    "DATE",
    "TIME",
    "ORIGIN",
    "USER",
    "STANDARD",
    "NAMES",
    "SURVEY",
    "TITLE",
    "RECORD",
    "VARIABLE",
    "NAME",
    "LABEL",
    "TYPE",
    "SINGLE",
    "MULTIPLE",
    "QUANTITY",
    "CHARACTER",
    "LOGICAL",
    "POSITION",
    "TO",
    "SPREAD",
    "OF",
    "VALUES",
    "WITH",
    "SPECIAL",
    "SIZE",
    "END",
    "NOTE",
    "R",
    "<",
    ">",
    "\"",
    "{",
    "}",
    "X",
    "T",
    "W",
    "S",
    "E",
    "<<",
    "\"{4",
    "\"{",
];

const FIGURES: &[&str] = &[
    "0",
    "00",
    "000",
    "1",
    "2",
    "3",
    "5",
    "7",
    "9",
    "10",
    "11",
    "99",
    "100",
    "01",
    "00001",
    "9999",
    "10000",
    "99999",
    "16384",
    "16385",
    "4096",
    "4097",
    "99999999999999999999",
    "99999999999999999998",
    "18446744073709551616",
    "18446744073709551617",
    "9223372036854775808",
    "4294967296",
    "4294967297",
    "65536",
    "-0",
    "-1",
    "-9",
    "-5.5",
    "1.",
    "1.0",
    "1.00",
    ".5",
    "-.5",
    ".",
    "-",
    "+",
    "+1",
    "1-",
    "1.1",
    "1.1.1",
    "0.0000000000",
    "0.000000000",
    "0.0000000001",
    "999999999999999",
    "1000000000000000",
    "-999999999999999",
    "-1000000000000000",
    "99999.9999999999",
    "999999.999999999",
    "1000000.000000000",
    "000000000000000000000000000000000001",
    "-000.0",
    "-99999999999999999999",
    "-99999999999999999998",
    "1.2",
    "1.10",
    "1.1-",
];

/// One to three figures changed, none of the version's most of the time: to odd ones, to others of the text, by one.
pub fn damage_figures(r: &mut Rng, tokens: &mut [Token]) {
    let figures: Vec<usize> = (0..tokens.len()).filter(|&i| matches!(tokens[i], Token::Figure(_))).collect();
    for _ in 0..=r.below(3) {
        let which = if r.once_in(100) { 0 } else { 1 + r.below(figures.len() - 1) };
        let at = figures[which];
        let Token::Figure(old) = tokens[at].clone() else { return };
        let new = match r.below(8) {
            0 | 1 => r.pick(FIGURES).to_string(),
            2 => r.pick(FIGURES).trim_start_matches(['-', '+', '.']).replace('.', ""),
            3 => match &tokens[figures[r.below(figures.len())]] {
                Token::Figure(other) => other.clone(),
                _ => old,
            },
            4 => format!("{old}{}", r.pick(&["0", "9", ".", ".0", "-", "00"])),
            5 => format!("{}{old}", r.pick(&["0", "1", "-", "+", ".", "00000"])),
            6 => old.parse::<i64>().map_or(old, |v| (v + r.range(-1, 1)).to_string()),
            _ => "0".into(),
        };
        tokens[at] = Token::Figure(if new.is_empty() { "0".into() } else { new });
    }
}

/// One to three tokens changed, doubled, taken out or swapped.
pub fn damage_tokens(r: &mut Rng, tokens: &mut Vec<Token>) {
    for _ in 0..=r.below(3) {
        let n = tokens.len();
        if n < 4 {
            return;
        }
        let at = if r.once_in(10) { r.below(n) } else { 3 + r.below(n - 3) };
        match r.below(9) {
            0 => drop(tokens.remove(at)),
            1 => tokens.insert(at, tokens[at].clone()),
            2 => tokens.swap(at, r.below(n)),
            3 if at + 1 < n => tokens.swap(at, at + 1),
            4 => tokens.insert(at, Token::Word(r.pick(WORDS))),
            5 => tokens.insert(at, Token::Figure(r.pick(FIGURES).to_string())),
            6 => tokens[at] = Token::Text(body(r, 4), None),
            7 => tokens.insert(at, tokens[r.below(n)].clone()),
            _ => {
                // A figure somewhere becomes another one.
                let figures: Vec<usize> = (0..n).filter(|&i| matches!(tokens[i], Token::Figure(_))).collect();
                if let Some(&at) = figures.get(r.below(figures.len())) {
                    let other = if r.once_in(3) {
                        tokens[figures[r.below(figures.len())]].clone()
                    } else {
                        Token::Figure(r.pick(FIGURES).to_string())
                    };
                    tokens[at] = other;
                }
            }
        }
    }
}

/// One to three places of the text changed.
pub fn damage_bytes(r: &mut Rng, bytes: &mut Vec<u8>) {
    const ODD: &[u8] = b"\"\"<<>>{{}} 019.-+ENSTOW\r\n\0\x1f\x7f\x80\xff,x";
    for _ in 0..=r.below(3) {
        let n = bytes.len();
        if n == 0 {
            return;
        }
        let at = r.below(n);
        match r.below(10) {
            0 => bytes[at] = r.next() as u8,
            1 | 2 => bytes[at] = r.pick(ODD),
            3 | 4 => bytes.insert(at, r.pick(ODD)),
            5 => drop(bytes.remove(at)),
            6 => drop(bytes.drain(at..(at + 1 + r.below(6)).min(n))),
            7 => {
                let part: Vec<u8> = bytes[at..(at + 1 + r.below(12)).min(n)].to_vec();
                let to = r.below(n);
                bytes.splice(to..to, part);
            }
            8 => bytes[at] ^= 1 << r.below(8),
            _ if r.once_in(3) => bytes.truncate(at),
            _ => bytes.insert(at, r.pick(b"0123456789")),
        }
    }
}
