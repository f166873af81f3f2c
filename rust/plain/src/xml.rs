//! Definitions in XML 1.2: document 000 as document 02 (C-15) and the readings take it. Written from those papers alone.
//!
//! A file is cut where its first bad character stands; everything behind the declaration is then read byte by byte, since the bytes
//! of marks are below 128. A statement is judged once it is read: the first 2 or 50 met ends it at once (`?`), what else is wrong
//! with it is collected in a `Verdict`, of which the lowest number counts, and of equal numbers the earlier place.

use crate::definition::Repeats;
use crate::scan::{Fault, Outcome, fault};
use crate::*;
use std::borrow::Cow;
use std::collections::{HashMap, HashSet};
use std::hash::{BuildHasherDefault, Hasher};

const ORDER_MARK: &[u8] = &[0xEF, 0xBB, 0xBF];

/// Whether a file is read as XML: it begins with `<?xml` or `<sss`, alone or behind a byte order mark.
pub fn is_xml(def: &[u8]) -> bool {
    let d = def.strip_prefix(ORDER_MARK).unwrap_or(def);
    d.starts_with(b"<?xml") || d.starts_with(b"<sss")
}

/// Reads an XML definition. The start of the table then holds header, rows and lines; a refusal keeps all.
pub fn read_xml(def: &[u8], table: &mut [i64]) -> Definition {
    match read(def, table) {
        Ok((variables, lines)) => Definition { number: 0, place: 0, variables, lines },
        Err(Fault { number, place }) => Definition { number: number.get().into(), place, variables: 0, lines: 0 },
    }
}

fn read(def: &[u8], table: &mut [i64]) -> Outcome<(usize, usize)> {
    if def.len() > MAX_DEFINITION {
        return fault(1, 0);
    }
    let (at, latin) = declaration(def)?;
    let cut = first_bad(latin, def, at);
    let mut r = Reader {
        d: &def[..cut],
        bad: cut < def.len(),
        at,
        latin,
        old: false,
        languages: false,
        standard: false,
        rows: Vec::with_capacity(32),
        lines: Vec::with_capacity(128),
        names: HashMap::default(),
        served: HashSet::default(),
        repeats: Repeats::default(),
        idents: [0; 157],
        used: [false; 3],
        highest: 0,
    };
    r.sheet()?;
    if r.standard {
        r.standard_names()?;
    }
    let (v, e) = (r.rows.len(), r.lines.len());
    let lines_at = HEADER + ROW * v;
    let total = lines_at + LINE * e;
    if table.len() < total {
        return fault(10, 0);
    }
    table[..HEADER].copy_from_slice(&[MARK_XML, v as i64, e as i64, r.highest, HEADER as i64, lines_at as i64]);
    table[HEADER..lines_at].copy_from_slice(r.rows.as_flattened());
    table[lines_at..total].copy_from_slice(r.lines.as_flattened());
    Ok((v, e))
}

// ---- characters

fn legal(c: u32) -> bool {
    matches!(c, 9 | 10 | 13 | 0x20..=0xD7FF | 0xE000..=0xFFFD | 0x10000..=0x10FFFF)
}

/// The first place from `at` on where no legal character stands, or the length.
fn first_bad(latin: bool, d: &[u8], mut at: usize) -> usize {
    while at < d.len() {
        // By sixteen, as long as each is a character of its own.
        let plain = |x: u8| (x >= 32 && (x < 128 || latin)) | (x == 9) | (x == 10) | (x == 13);
        while d[at..].first_chunk::<16>().is_some_and(|c| c.iter().fold(true, |all, &x| all & plain(x))) {
            at += 16;
        }
        let Some(&x) = d.get(at) else { break };
        if x < 128 || latin {
            if !legal(x as u32) {
                return at;
            }
            at += 1;
            continue;
        }
        let end = d.len().min(at + 4);
        let word = match std::str::from_utf8(&d[at..end]) {
            Ok(s) => s,
            Err(e) => std::str::from_utf8(&d[at..at + e.valid_up_to()]).unwrap_or(""),
        };
        match word.chars().next() {
            Some(c) if legal(c as u32) => at += c.len_utf8(),
            _ => return at,
        }
    }
    at
}

/// What each byte may be: 1 white space, 2 in a name, 4 at its start.
const CLASSES: [u8; 256] = {
    let mut classes = [0; 256];
    let mut i = 0;
    while i < 256 {
        let x = i as u8;
        let start = x.is_ascii_alphabetic() || x == b'_' || x == b':' || x >= 128;
        let name = start || x.is_ascii_digit() || x == b'-' || x == b'.';
        classes[i] = matches!(x, 9 | 10 | 13 | 32) as u8 + 2 * name as u8 + 4 * start as u8;
        i += 1;
    }
    classes
};

#[inline(always)]
fn white(x: u8) -> bool {
    CLASSES[x as usize] & 1 != 0
}

#[inline(always)]
fn starts_name(x: u8) -> bool {
    CLASSES[x as usize] & 4 != 0
}

#[inline(always)]
fn in_name(x: u8) -> bool {
    CLASSES[x as usize] & 2 != 0
}

/// The reference whose `&` stands first: its character and its length.
fn reference(d: &[u8]) -> Option<(char, usize)> {
    for (name, c) in [("lt;", '<'), ("gt;", '>'), ("amp;", '&'), ("apos;", '\''), ("quot;", '"')] {
        if d[1..].starts_with(name.as_bytes()) {
            return Some((c, 1 + name.len()));
        }
    }
    let (radix, start) = if d.starts_with(b"&#x") { (16, 3) } else { (10, 2) };
    if !d.starts_with(b"&#") {
        return None;
    }
    let mut code = 0u32;
    let mut i = start;
    while let Some(digit) = d.get(i).and_then(|&x| (x as char).to_digit(radix)) {
        code = (code * radix + digit).min(0x20_0000);
        i += 1;
    }
    if i == start || d.get(i) != Some(&b';') || !legal(code) {
        return None;
    }
    Some((char::from_u32(code)?, i + 1))
}

/// The comment whose `<!--` stands first: its length; or the place of the fault behind its start; none where it doesn't close.
fn comment(d: &[u8]) -> Result<usize, Option<usize>> {
    let mut i = 4;
    while i < d.len() {
        if d[i..].starts_with(b"--") {
            return if d.get(i + 2) == Some(&b'>') { Ok(i + 3) } else { Err(Some(i)) };
        }
        i += 1;
    }
    Err(None)
}

/// What a stretch says, comments left out: its bytes as they stand where it has neither references nor comments. None where
/// something else stands in it.
fn said(s: &[u8]) -> Option<Cow<'_, [u8]>> {
    if !s.iter().any(|&x| x == b'&' || x == b'<') {
        return Some(Cow::Borrowed(s));
    }
    let mut out = Vec::with_capacity(s.len());
    let mut i = 0;
    while i < s.len() {
        match s[i] {
            b'&' => {
                let (c, n) = reference(&s[i..])?;
                out.extend_from_slice(c.encode_utf8(&mut [0; 4]).as_bytes());
                i += n;
            }
            b'<' if s[i..].starts_with(b"<!--") => i += comment(&s[i..]).ok()?,
            b'<' => return None,
            x => {
                out.push(x);
                i += 1;
            }
        }
    }
    Some(Cow::Owned(out))
}

// ---- the declaration and the DOCTYPE

/// Bytes that are read token by token, each named by its first byte; where nothing is left, by the mark's `<`.
struct Tokens<'a> {
    d: &'a [u8],
    at: usize,
    open: usize,
}

impl<'a> Tokens<'a> {
    fn departs<T>(&self, place: usize) -> Outcome<T> {
        fault(50, if place < self.d.len() { place } else { self.open })
    }

    fn spaces(&mut self) -> bool {
        let from = self.at;
        while self.at < self.d.len() && white(self.d[self.at]) {
            self.at += 1;
        }
        from < self.at
    }

    /// White space that is due.
    fn apart(&mut self) -> Outcome<()> {
        if self.spaces() { Ok(()) } else { self.departs(self.at) }
    }

    fn word(&mut self, w: &[u8]) -> bool {
        let there = self.d[self.at..].starts_with(w);
        if there {
            self.at += w.len();
        }
        there
    }

    fn due(&mut self, w: &[u8]) -> Outcome<()> {
        if self.word(w) { Ok(()) } else { self.departs(self.at) }
    }

    /// A string in either quotes: its place and its bytes. One that doesn't close is at fault itself.
    fn string(&mut self) -> Outcome<(usize, &'a [u8])> {
        let quote = match self.d.get(self.at) {
            Some(&x @ (b'"' | b'\'')) => x,
            _ => return self.departs(self.at),
        };
        let place = self.at + 1;
        match self.d[place..].iter().position(|&x| x == quote) {
            Some(n) => {
                self.at = place + n + 1;
                Ok((place, &self.d[place..place + n]))
            }
            None => self.departs(place),
        }
    }

    /// `= "value"` behind a word.
    fn value(&mut self) -> Outcome<(usize, &'a [u8])> {
        self.spaces();
        self.due(b"=")?;
        self.spaces();
        self.string()
    }
}

/// The byte order mark and the declaration: the place behind them, and whether the file is in ISO-8859-1.
fn declaration(d: &[u8]) -> Outcome<(usize, bool)> {
    let open = if d.starts_with(ORDER_MARK) { 3 } else { 0 };
    let mut t = Tokens { d, at: open, open };
    if !t.word(b"<?xml") {
        return Ok((open, false));
    }
    t.apart()?;
    t.due(b"version")?;
    let (place, version) = t.value()?;
    if version != b"1.0" {
        return t.departs(place);
    }
    let mut latin = false;
    let mut apart = t.spaces();
    if apart && t.word(b"encoding") {
        let (place, name) = t.value()?;
        latin = name.eq_ignore_ascii_case(b"ISO-8859-1");
        if !(latin && open == 0 || name.eq_ignore_ascii_case(b"UTF-8")) {
            return t.departs(place);
        }
        apart = t.spaces();
    }
    if apart && t.word(b"standalone") {
        let (place, value) = t.value()?;
        if value != b"yes" && value != b"no" {
            return t.departs(place);
        }
        t.spaces();
    }
    t.due(b"?>")?;
    Ok((t.at, latin))
}

fn in_public(x: u8) -> bool {
    x.is_ascii_alphanumeric() || b" \r\n-'()+,./:=?;!*#@$_%".contains(&x)
}

// ---- statements

/// What is wrong with a statement that was read: the lowest number, of equal ones the earlier place.
#[derive(Default)]
struct Verdict(Option<(usize, usize)>);

impl Verdict {
    fn add(&mut self, number: usize, place: usize) {
        let new = (number, place);
        self.0 = Some(self.0.map_or(new, |old| old.min(new)));
    }

    fn add_maybe(&mut self, number: usize, place: Option<usize>) {
        if let Some(place) = place {
            self.add(number, place);
        }
    }

    fn stand(self) -> Outcome<()> {
        match self.0 {
            None => Ok(()),
            Some((number, place)) => fault(number as _, place),
        }
    }
}

/// An attribute's value.
#[derive(Clone, Copy)]
struct Slot {
    name: usize,
    value: usize,
    end: usize,
}

/// The forms of values.
#[derive(Clone, Copy, PartialEq)]
enum Form {
    Any,
    Number,
    Value,
    Letter,
    Type,
    Use,
    Option,
}

fn type_of(word: &[u8]) -> i64 {
    match word {
        b"single" => SINGLE,
        b"multiple" => MULTIPLE,
        b"quantity" => QUANTITY,
        b"character" => CHARACTER,
        b"logical" => LOGICAL,
        _ => 0,
    }
}

fn use_of(word: &[u8]) -> i64 {
    match word {
        b"serial" => 1,
        b"weight" => 2,
        _ => 0,
    }
}

impl Form {
    fn fits(self, s: &[u8]) -> bool {
        let Some(w) = said(s) else { return false };
        match self {
            Form::Any => true,
            Form::Number => !w.is_empty() && w.iter().all(u8::is_ascii_digit),
            Form::Value => !w.is_empty() && w.iter().all(|x| x.is_ascii_digit() || b".+-".contains(x)),
            Form::Letter => w.len() == 1 && w[0].is_ascii_alphabetic(),
            Form::Type => type_of(&w) != 0,
            Form::Use => use_of(&w) != 0,
            Form::Option => &*w == b"standardnames",
        }
    }
}

/// An element's attributes with their forms; the first `required` have to be given.
struct Kind {
    attributes: &'static [(&'static [u8], Form)],
    required: usize,
}

const NONE: Kind = Kind { attributes: &[], required: 0 };
const SSS: Kind =
    Kind { attributes: &[(b"version", Form::Any), (b"options", Form::Option), (b"languages", Form::Any)], required: 1 };
const RECORD: Kind = Kind { attributes: &[(b"ident", Form::Letter), (b"href", Form::Any)], required: 1 };
const OLD_RECORD: Kind = Kind { attributes: &[(b"ident", Form::Letter)], required: 1 };
const VARIABLE: Kind =
    Kind { attributes: &[(b"ident", Form::Number), (b"type", Form::Type), (b"use", Form::Use)], required: 2 };
const OLD_VARIABLE: Kind = Kind { attributes: &[(b"ident", Form::Number), (b"type", Form::Type)], required: 2 };
const POSITION: Kind = Kind { attributes: &[(b"start", Form::Number), (b"finish", Form::Number)], required: 1 };
const SPREAD: Kind = Kind { attributes: &[(b"subfields", Form::Number), (b"width", Form::Number)], required: 1 };
const RANGE: Kind = Kind { attributes: &[(b"from", Form::Value), (b"to", Form::Value)], required: 2 };
const VALUE: Kind = Kind { attributes: &[(b"code", Form::Value)], required: 1 };
const TEXT: Kind = Kind { attributes: &[(b"xml:lang", Form::Any)], required: 1 };

struct Tag {
    slots: [Option<Slot>; 3],
    /// The first attribute that the element doesn't have.
    unknown: Option<usize>,
    empty: bool,
    /// The place of `>` or `/>`.
    end: usize,
}

/// What stands behind white space and comments.
enum Stand<'a> {
    Start(&'a [u8]),
    Close,
    Text,
    /// A processing instruction, or CDATA.
    Foreign,
}

/// A text: its place and its end; where a start tag or the like cuts it; the first attribute in it that isn't known.
struct Content {
    place: usize,
    end: usize,
    cut: Option<usize>,
    unknown: Option<usize>,
}

#[derive(Clone, Copy, PartialEq)]
enum Mode {
    Plain,
    /// With `<br/>`, and with `<text>` where the file has languages.
    Rich,
    /// Inside `<text>`.
    Inner,
}

/// A number as written: place, digits.
struct Digits<'a> {
    place: usize,
    digits: Cow<'a, [u8]>,
}

fn significant(digits: &[u8]) -> &[u8] {
    let zeros = digits.iter().take_while(|&&x| x == b'0').count();
    &digits[zeros..]
}

fn capped(digits: &[u8]) -> u64 {
    let s = significant(digits);
    if s.len() > 18 { u64::MAX } else { s.iter().fold(0, |n, &x| n * 10 + (x - b'0') as u64) }
}

fn less(a: &[u8], b: &[u8]) -> bool {
    let (a, b) = (significant(a), significant(b));
    (a.len(), a) < (b.len(), b)
}

/// A value as written.
struct Amount<'a> {
    place: usize,
    said: Cow<'a, [u8]>,
    minus: bool,
    /// What all its digits say; the largest number where they are more than 18.
    size: u64,
    decimals: usize,
    point: bool,
    /// A point with no digit before it.
    bare: bool,
    formed: bool,
}

impl<'a> Amount<'a> {
    fn of(place: usize, s: &'a [u8]) -> Amount<'a> {
        let said = said(s).unwrap_or_default();
        let minus = said.first() == Some(&b'-');
        let rest = &said[minus as usize..];
        let whole = rest.iter().take_while(|x| x.is_ascii_digit()).count();
        let point = rest.get(whole) == Some(&b'.');
        let after = &rest[whole + point as usize..];
        let decimals = after.iter().take_while(|x| x.is_ascii_digit()).count();
        let (mut size, mut count) = (0u64, 0);
        for &x in rest[..whole].iter().chain(&after[..decimals]) {
            count += (count > 0 || x != b'0') as usize;
            size = size.wrapping_mul(10).wrapping_add((x - b'0') as u64);
        }
        let size = if count > 18 { u64::MAX } else { size };
        let formed = decimals == after.len() && whole + decimals > 0;
        Amount { place, minus, size, decimals, point, bare: point && whole == 0, formed, said }
    }

    fn scaled(&self) -> i64 {
        let n = self.size as i64;
        if self.minus { -n } else { n }
    }

    fn ill(&self, quantity: bool) -> bool {
        !self.formed || !quantity && (self.minus || self.point || self.size == 0)
    }

    fn beyond(&self, quantity: bool) -> bool {
        if quantity {
            self.decimals > MAX_DECIMALS || self.size > MAX_QUANTITY as u64
        } else {
            self.size > MAX_CATEGORY as u64
        }
    }

    /// Whether its magnitude is below another's of the same decimals, however long both are.
    fn smaller(&self, other: &Amount) -> bool {
        if self.size != u64::MAX || other.size != u64::MAX {
            return self.size < other.size;
        }
        let digits = |a: &Amount| a.said.iter().copied().filter(u8::is_ascii_digit).collect::<Vec<u8>>();
        less(&digits(self), &digits(other))
    }

    /// Whether its true value is below another's; both have form and the same decimals.
    fn below(&self, other: &Amount) -> bool {
        match (self.minus && self.size > 0, other.minus && other.size > 0) {
            (true, false) => true,
            (false, true) => false,
            (false, false) => self.smaller(other),
            (true, true) => other.smaller(self),
        }
    }
}

/// A quick hash of names: no one chooses them to collide here.
#[derive(Default)]
struct Mix(u64);

impl Hasher for Mix {
    fn write(&mut self, bytes: &[u8]) {
        let (words, last) = bytes.as_chunks::<8>();
        for word in words {
            self.write_u64(u64::from_le_bytes(*word));
        }
        let mut word = [0; 8];
        word[..last.len()].copy_from_slice(last);
        self.write_u64(u64::from_le_bytes(word));
    }

    fn write_u64(&mut self, x: u64) {
        self.0 = (self.0.rotate_left(5) ^ x).wrapping_mul(0x9e37_79b9_7f4a_7c15);
    }

    fn write_usize(&mut self, x: usize) {
        self.write_u64(x as u64);
    }

    fn write_u8(&mut self, x: u8) {
        self.write_u64(x as u64);
    }

    fn finish(&self) -> u64 {
        self.0.rotate_left(26)
    }
}

type Quick = BuildHasherDefault<Mix>;

struct Reader<'a> {
    /// The file up to its first bad character.
    d: &'a [u8],
    bad: bool,
    at: usize,
    latin: bool,
    /// Version 1.1.
    old: bool,
    languages: bool,
    standard: bool,
    rows: Vec<Row>,
    lines: Vec<Line>,
    /// Each name met: how many variables have it, and the last of them.
    names: HashMap<Vec<u8>, (usize, usize), Quick>,
    /// The names that have served as filters.
    served: HashSet<Vec<u8>, Quick>,
    repeats: Repeats,
    idents: [u64; 157],
    /// Whether a serial, a weight was met.
    used: [bool; 3],
    highest: i64,
}

impl<'a> Reader<'a> {
    /// Where the file ends too early: at the bad character, else where the open mark began.
    fn ends<T>(&self, open: usize) -> Outcome<T> {
        fault(50, if self.bad { self.d.len() } else { open })
    }

    /// White space and comments.
    fn gap(&mut self) -> Outcome<()> {
        loop {
            match self.d.get(self.at) {
                Some(&x) if white(x) => self.at += 1,
                Some(b'<') if self.d[self.at..].starts_with(b"<!--") => self.skip_comment()?,
                _ => return Ok(()),
            }
        }
    }

    fn skip_comment(&mut self) -> Outcome<()> {
        match comment(&self.d[self.at..]) {
            Ok(n) => {
                self.at += n;
                Ok(())
            }
            Err(Some(n)) => fault(50, self.at + n),
            Err(None) => self.ends(self.at),
        }
    }

    /// What a `<` at a place opens.
    fn mark(&self, at: usize) -> Outcome<Stand<'a>> {
        let close = self.d.get(at + 1) == Some(&b'/');
        let from = at + 1 + close as usize;
        match self.d.get(from) {
            None => self.ends(at),
            Some(b'?') if !close => Ok(Stand::Foreign),
            Some(b'!') if !close && self.d[at..].starts_with(b"<![CDATA[") => Ok(Stand::Foreign),
            Some(&x) if starts_name(x) => {
                if close {
                    return Ok(Stand::Close);
                }
                let n = self.d[from..].iter().take_while(|&&x| in_name(x)).count();
                Ok(Stand::Start(&self.d[from..from + n]))
            }
            _ => fault(50, at),
        }
    }

    /// What stands here, behind white space and comments.
    fn stand(&mut self) -> Outcome<Stand<'a>> {
        self.gap()?;
        match self.d.get(self.at) {
            None => fault(50, self.at),
            Some(b'<') => self.mark(self.at),
            Some(b'&') if reference(&self.d[self.at..]).is_none() => fault(50, self.at),
            Some(_) => Ok(Stand::Text),
        }
    }

    fn run(&self, mut at: usize, f: impl Fn(u8) -> bool) -> usize {
        while at < self.d.len() && f(self.d[at]) {
            at += 1;
        }
        at
    }

    /// The value from behind its quote on: the place of the quote that ends it.
    fn value_end(&self, open: usize, quote: u8, mut at: usize) -> Outcome<usize> {
        loop {
            match self.d.get(at) {
                None => return self.ends(open),
                Some(&x) if x == quote => return Ok(at),
                Some(b'<') => return fault(50, at),
                Some(b'&') => match reference(&self.d[at..]) {
                    Some((_, n)) => at += n,
                    None => return fault(50, at),
                },
                Some(_) => at += 1,
            }
        }
    }

    /// A start tag from its `<` on.
    fn tag(&mut self, kind: &Kind) -> Outcome<Tag> {
        let open = self.at;
        let mut at = self.run(open + 1, in_name);
        let mut tag = Tag { slots: [None; 3], unknown: None, empty: false, end: 0 };
        loop {
            let name = self.run(at, white);
            match self.d.get(name) {
                None => return self.ends(open),
                Some(b'>') => {
                    tag.end = name;
                    self.at = name + 1;
                    break;
                }
                Some(b'/') => {
                    match self.d.get(name + 1) {
                        Some(b'>') => {}
                        None if !self.bad => return fault(50, open),
                        _ => return fault(50, name),
                    }
                    tag.end = name;
                    tag.empty = true;
                    self.at = name + 2;
                    break;
                }
                Some(&x) if name > at && starts_name(x) => {}
                Some(_) => return fault(50, name),
            }
            let name_end = self.run(name, in_name);
            let equals = self.run(name_end, white);
            match self.d.get(equals) {
                None => return self.ends(open),
                Some(b'=') => {}
                Some(_) => return fault(50, equals),
            }
            let quote_at = self.run(equals + 1, white);
            let quote = match self.d.get(quote_at) {
                None => return self.ends(open),
                Some(&x @ (b'"' | b'\'')) => x,
                Some(_) => return fault(50, quote_at),
            };
            let value = quote_at + 1;
            let end = self.value_end(open, quote, value)?;
            match kind.attributes.iter().position(|(w, _)| *w == &self.d[name..name_end]) {
                None => {
                    tag.unknown.get_or_insert(name);
                }
                Some(i) if tag.slots[i].is_some() => return fault(50, name),
                Some(i) => {
                    if !kind.attributes[i].1.fits(&self.d[value..end]) {
                        return fault(2, value);
                    }
                    tag.slots[i] = Some(Slot { name, value, end });
                }
            }
            at = end + 1;
        }
        if tag.slots[..kind.required].iter().any(Option::is_none) {
            return fault(2, tag.end);
        }
        Ok(tag)
    }

    /// An end tag, read whole and then compared: 50 where it has another name.
    fn end_tag(&mut self, name: &[u8]) -> Outcome<()> {
        let open = self.at;
        let name_end = self.run(open + 2, in_name);
        let end = self.run(name_end, white);
        match self.d.get(end) {
            None => return self.ends(open),
            Some(b'>') => {}
            Some(_) => return fault(50, end),
        }
        if &self.d[open + 2..name_end] != name {
            return fault(50, open);
        }
        self.at = end + 1;
        Ok(())
    }

    /// A start tag that may not stand here: its form, and then 51.
    fn misplaced<T>(&mut self) -> Outcome<T> {
        let open = self.at;
        self.tag(&NONE)?;
        fault(51, open)
    }

    /// The start tag of one of these elements is due here, inside `within`: which one it is.
    fn due(&mut self, names: &[&[u8]], within: &[u8]) -> Outcome<usize> {
        let stand = self.stand()?;
        self.due_at(stand, names, within)
    }

    fn due_at(&mut self, stand: Stand, names: &[&[u8]], within: &[u8]) -> Outcome<usize> {
        let at = self.at;
        match stand {
            Stand::Start(name) => match names.iter().position(|n| *n == name) {
                Some(i) => Ok(i),
                None => self.misplaced(),
            },
            Stand::Close => {
                self.end_tag(within)?;
                fault(2, at)
            }
            Stand::Text => fault(2, at),
            Stand::Foreign => fault(51, at),
        }
    }

    /// One of these elements, or the end tag of `within`, which is then read: none.
    fn perhaps(&mut self, names: &[&[u8]], within: &[u8]) -> Outcome<Option<usize>> {
        match self.stand()? {
            Stand::Close => self.end_tag(within).map(|()| None),
            other => self.due_at(other, names, within).map(Some),
        }
    }

    /// The end of an element that holds nothing. A start tag that cuts it is answered.
    fn nothing(&mut self, name: &[u8], tag: &Tag) -> Outcome<Option<usize>> {
        if tag.empty {
            return Ok(None);
        }
        let stand = self.stand()?;
        let at = self.at;
        match stand {
            Stand::Close => self.end_tag(name).map(|()| None),
            Stand::Text => fault(2, at),
            Stand::Foreign => Ok(Some(at)),
            Stand::Start(_) => self.tag(&NONE).map(|_| Some(at)),
        }
    }

    /// The text of an element whose start tag was read, with its end tag.
    fn content(&mut self, name: &[u8], tag: &Tag, mode: Mode) -> Outcome<Content> {
        let place = self.at;
        let mut c = Content { place, end: place, cut: None, unknown: tag.unknown };
        if tag.empty {
            return Ok(c);
        }
        loop {
            while self.d.get(self.at).is_some_and(|x| !matches!(x, b'<' | b'&' | b']')) {
                self.at += 1;
            }
            match self.d.get(self.at) {
                None => return fault(50, self.at),
                Some(b'&') => match reference(&self.d[self.at..]) {
                    Some((_, n)) => self.at += n,
                    None => return fault(50, self.at),
                },
                Some(b']') if self.d[self.at..].starts_with(b"]]>") => return fault(50, self.at),
                Some(b'<') if self.d[self.at..].starts_with(b"<!--") => self.skip_comment()?,
                Some(b'<') => {
                    let at = self.at;
                    match self.mark(at)? {
                        Stand::Close => {
                            c.end = at;
                            self.end_tag(name)?;
                            return Ok(c);
                        }
                        Stand::Start(b"br") if mode != Mode::Plain => {
                            let tag = self.tag(&NONE)?;
                            c.unknown = c.unknown.or(tag.unknown);
                            c.cut = self.nothing(b"br", &tag)?;
                        }
                        Stand::Start(b"text") if mode == Mode::Rich && self.languages => {
                            let tag = self.tag(&TEXT)?;
                            let inner = self.content(b"text", &tag, Mode::Inner)?;
                            c.unknown = c.unknown.or(inner.unknown);
                            c.cut = inner.cut;
                        }
                        Stand::Start(_) => {
                            self.tag(&NONE)?;
                            c.cut = Some(at);
                        }
                        _ => c.cut = Some(at),
                    }
                    if c.cut.is_some() {
                        return Ok(c);
                    }
                }
                Some(_) => self.at += 1,
            }
        }
    }

    /// An element that is only a text: what is wrong with it stands in the verdict.
    fn text(&mut self, name: &[u8], mode: Mode) -> Outcome<(Content, Verdict)> {
        let tag = self.tag(&NONE)?;
        let c = self.content(name, &tag, mode)?;
        let mut v = Verdict::default();
        v.add_maybe(51, c.unknown);
        v.add_maybe(51, c.cut);
        Ok((c, v))
    }

    fn said(&self, s: Slot) -> Cow<'a, [u8]> {
        said(&self.d[s.value..s.end]).unwrap_or_default()
    }

    fn digits(&self, s: Slot) -> Digits<'a> {
        Digits { place: s.value, digits: self.said(s) }
    }

    fn amount(&self, s: Slot) -> Amount<'a> {
        Amount::of(s.value, &self.d[s.value..s.end])
    }

    // ---- the file

    fn sheet(&mut self) -> Outcome<()> {
        self.before_root()?;
        let tag = self.tag(&SSS)?;
        let mut v = Verdict::default();
        v.add_maybe(51, tag.unknown);
        if let Some(s) = tag.slots[0] {
            match &*self.said(s) {
                b"1.1" => self.old = true,
                b"1.2" => {}
                _ => v.add(4, s.value),
            }
        }
        self.standard = tag.slots[1].is_some();
        self.languages = tag.slots[2].is_some();
        if let (true, Some(s)) = (self.old, tag.slots[2]) {
            v.add(51, s.name);
        }
        v.stand()?;
        if tag.empty {
            return fault(2, tag.end);
        }
        let order: [&[u8]; 5] = [b"date", b"time", b"origin", b"user", b"survey"];
        let mut from = 0;
        loop {
            from += self.due(&order[from..], b"sss")?;
            if from == 4 {
                break;
            }
            self.text(order[from], Mode::Plain)?.1.stand()?;
            from += 1;
        }
        self.survey()?;
        self.closes(b"sss")?;
        self.after_root()
    }

    /// An end tag that is due.
    fn closes(&mut self, name: &[u8]) -> Outcome<()> {
        self.perhaps(&[], name).map(|_| ())
    }

    fn before_root(&mut self) -> Outcome<()> {
        self.gap()?;
        if self.d[self.at..].starts_with(b"<!DOCTYPE") {
            self.doctype()?;
            self.gap()?;
        }
        match self.d.get(self.at) {
            None => fault(50, self.at),
            Some(b'<') => match self.mark(self.at)? {
                Stand::Start(b"sss") => Ok(()),
                Stand::Start(_) => self.misplaced(),
                Stand::Foreign if self.d[self.at + 1] == b'?' => fault(51, self.at),
                Stand::Close => self.end_tag(b""),
                _ => fault(50, self.at),
            },
            Some(_) => fault(50, self.at),
        }
    }

    fn doctype(&mut self) -> Outcome<()> {
        let open = self.at;
        let bad = if self.bad { self.d.len() } else { open };
        let mut t = Tokens { d: self.d, at: self.at + 9, open: bad };
        t.apart()?;
        if !t.word(b"sss") {
            let left = t.d.get(t.at..).unwrap_or_default();
            // The name that breaks off is no other name: the text ends too early.
            if !left.is_empty() && b"sss".starts_with(left) {
                return fault(50, if self.bad { t.d.len() } else { t.at });
            }
            let name = left.first().is_some_and(|&x| starts_name(x));
            return if name { fault(2, t.at) } else { t.departs(t.at) };
        }
        let apart = t.spaces();
        if t.d.get(t.at) == Some(&b'[') {
            return fault(51, t.at);
        }
        if !apart {
            return t.departs(t.at);
        }
        if t.word(b"PUBLIC") {
            t.apart()?;
            // A character that is not XML's own is met before the end that shows an unclosed string.
            let inside = t.d.get(t.at + 1..).unwrap_or_default();
            if let Some(&quote) = t.d.get(t.at).filter(|x| b"\"'".contains(x)) {
                let stop = inside.iter().position(|&x| x == quote || !in_public(x));
                if let Some(i) = stop.filter(|&i| inside[i] != quote) {
                    return fault(50, t.at + 1 + i);
                }
            }
            Self::whole(&mut t)?;
        } else {
            t.due(b"SYSTEM")?;
        }
        t.apart()?;
        Self::whole(&mut t)?;
        t.spaces();
        if t.d.get(t.at) == Some(&b'[') {
            return fault(51, t.at);
        }
        t.due(b">")?;
        self.at = t.at;
        Ok(())
    }

    /// A string of the DOCTYPE: one that the file's end cuts is the mark's fault, not its own.
    fn whole(t: &mut Tokens<'a>) -> Outcome<(usize, &'a [u8])> {
        let from = t.at;
        match t.string() {
            Err(f) if t.d.get(from).is_some_and(|x| b"\"'".contains(x)) => fault(f.number.get(), t.open),
            other => other,
        }
    }

    fn after_root(&mut self) -> Outcome<()> {
        self.gap()?;
        if self.d[self.at..].starts_with(b"<?") {
            return fault(51, self.at);
        }
        if self.at < self.d.len() || self.bad { fault(50, self.at) } else { Ok(()) }
    }

    fn survey(&mut self) -> Outcome<()> {
        let tag = self.tag(&NONE)?;
        let mut v = Verdict::default();
        v.add_maybe(51, tag.unknown);
        v.stand()?;
        if tag.empty {
            return fault(2, tag.end);
        }
        let order: &[&[u8]] =
            if self.old { &[b"title", b"record"] } else { &[b"name", b"version", b"title", b"record"] };
        let mut from = 0;
        loop {
            from += self.due(&order[from..], b"survey")?;
            if from == order.len() - 1 {
                break;
            }
            let mode = if order[from] == b"title" { Mode::Rich } else { Mode::Plain };
            self.text(order[from], mode)?.1.stand()?;
            from += 1;
        }
        self.record()?;
        self.closes(b"survey")
    }

    fn record(&mut self) -> Outcome<()> {
        let tag = self.tag(if self.old { &OLD_RECORD } else { &RECORD })?;
        let mut v = Verdict::default();
        v.add_maybe(51, tag.unknown);
        v.stand()?;
        if tag.empty {
            return fault(2, tag.end);
        }
        self.due(&[b"variable"], b"record")?;
        self.variable()?;
        while self.perhaps(&[b"variable"], b"record")?.is_some() {
            self.variable()?;
        }
        Ok(())
    }

    // ---- a variable

    fn variable(&mut self) -> Outcome<()> {
        let tag = self.tag(if self.old { &OLD_VARIABLE } else { &VARIABLE })?;
        let mut row: Row = [0; ROW];
        row[column::BEFORE] = self.lines.len() as i64;
        self.open_variable(&tag, &mut row)?;
        if tag.empty {
            return fault(2, tag.end);
        }
        self.due(&[b"name"], b"variable")?;
        self.name(&mut row)?;
        self.due(&[b"label"], b"variable")?;
        let (label, v) = self.text(b"label", Mode::Rich)?;
        v.stand()?;
        row[column::LABEL] = label.place as i64;
        row[column::LABEL_LENGTH] = (label.end - label.place) as i64;
        self.due(&[b"position"], b"variable")?;
        let narrow_at = self.position(&mut row)?;
        let narrow = self.rest(&mut row)?;
        if narrow {
            return fault(7, narrow_at);
        }
        self.rows.push(row);
        Ok(())
    }

    fn open_variable(&mut self, tag: &Tag, row: &mut Row) -> Outcome<()> {
        let mut v = Verdict::default();
        v.add_maybe(51, tag.unknown);
        let kind = tag.slots[1].map_or(0, |s| type_of(&self.said(s)));
        row[column::TYPE] = kind;
        if let Some(s) = tag.slots[0] {
            let n = self.digits(s);
            let id = capped(&n.digits);
            let met = id < 10_000 && self.idents[id as usize / 64] >> (id % 64) & 1 == 1;
            if id == 0 || n.digits.len() > 4 || met {
                v.add(5, n.place);
            } else if self.rows.len() == MAX_VARIABLES {
                v.add(8, n.place);
            } else {
                self.idents[id as usize / 64] |= 1 << (id % 64);
                row[column::IDENT] = id as i64;
            }
        }
        if let Some(s) = tag.slots[2] {
            let role = use_of(&self.said(s));
            let fits = kind == QUANTITY || role == 1 && kind == CHARACTER;
            if !fits || self.used[role as usize] {
                v.add(52, s.value);
            }
            self.used[role as usize] = true;
            row[column::USE] = role;
        }
        v.stand()
    }

    /// A name's signs, by which names are compared.
    fn key(&self, c: &Content) -> Vec<u8> {
        let mut key = Vec::new();
        signs(self.latin, &self.d[c.place..c.end], &mut |x| key.push(x as u8));
        if self.standard {
            key.make_ascii_lowercase();
        }
        key
    }

    fn name(&mut self, row: &mut Row) -> Outcome<()> {
        let (c, mut v) = self.text(b"name", Mode::Plain)?;
        if c.cut.is_none() {
            let key = self.key(&c);
            if self.served.contains(&key) {
                v.add(52, c.place);
            }
            let count = self.rows.len();
            let met = self.names.entry(key).or_insert((0, 0));
            *met = (met.0 + 1, count);
        }
        row[column::NAME] = c.place as i64;
        row[column::NAME_LENGTH] = (c.end - c.place) as i64;
        v.stand()
    }

    fn filter(&mut self, row: &mut Row) -> Outcome<()> {
        let (c, mut v) = self.text(b"filter", Mode::Plain)?;
        if c.cut.is_none() {
            let key = self.key(&c);
            match self.names.get(&key) {
                Some(&(1, i))
                    if row[column::USE] == 0 && i < self.rows.len() && self.rows[i][column::TYPE] == LOGICAL =>
                {
                    row[column::FILTER] = i as i64 + 1;
                    self.served.insert(key);
                }
                _ => v.add(52, c.place),
            }
        }
        v.stand()
    }

    /// An element without a text: its verdict so far.
    fn empty_element(&mut self, name: &[u8], kind: &Kind) -> Outcome<(Tag, Verdict)> {
        let tag = self.tag(kind)?;
        let cut = self.nothing(name, &tag)?;
        let mut v = Verdict::default();
        v.add_maybe(51, tag.unknown);
        v.add_maybe(51, cut);
        Ok((tag, v))
    }

    /// The place of its start, at which a position that is too narrow is faulted.
    fn position(&mut self, row: &mut Row) -> Outcome<usize> {
        let (tag, mut v) = self.empty_element(b"position", &POSITION)?;
        let Some(s) = tag.slots[0] else { return fault(2, tag.end) };
        let start = self.digits(s);
        let finish = tag.slots[1].map_or_else(|| self.digits(s), |f| self.digits(f));
        if capped(&start.digits) == 0 {
            v.add(7, start.place);
        }
        if less(&finish.digits, &start.digits) {
            v.add(7, finish.place);
        }
        for n in [&start, &finish] {
            if capped(&n.digits) > MAX_LOCATION as u64 {
                v.add(8, n.place);
            }
        }
        v.stand()?;
        row[column::START] = capped(&start.digits) as i64;
        row[column::FINISH] = capped(&finish.digits) as i64;
        self.highest = self.highest.max(row[column::FINISH]);
        Ok(start.place)
    }

    /// What the type has behind the position, with `</variable>`: whether the position is too narrow.
    fn rest(&mut self, row: &mut Row) -> Outcome<bool> {
        let kind = row[column::TYPE];
        let room = row[column::FINISH] - row[column::START] + 1;
        let mut order: Vec<&[u8]> = Vec::new();
        if !self.old {
            order.push(b"filter");
        }
        match kind {
            MULTIPLE => order.extend([b"spread" as &[u8], b"values"]),
            SINGLE | QUANTITY => order.push(b"values"),
            CHARACTER => order.push(b"size"),
            _ => {}
        }
        let mut from = 0;
        let mut narrow = false;
        loop {
            let i = if kind == LOGICAL {
                match self.perhaps(&order[from..], b"variable")? {
                    Some(i) => i,
                    None => {
                        row[column::WIDTH] = 1;
                        return Ok(room < 1);
                    }
                }
            } else {
                self.due(&order[from..], b"variable")?
            };
            from += i;
            match order[from] {
                b"filter" => self.filter(row)?,
                b"spread" => self.spread(row, room)?,
                b"size" => row[column::WIDTH] = self.size()?,
                _ => narrow = self.values(row, room)?,
            }
            let last = order[from] == b"size" || order[from] == b"values";
            from += 1;
            if last {
                break;
            }
        }
        self.closes(b"variable")?;
        Ok(narrow || row[column::WIDTH] > room)
    }

    fn spread(&mut self, row: &mut Row, room: i64) -> Outcome<()> {
        let bounded = |n: &Digits| i64::try_from(capped(&n.digits)).unwrap_or(i64::MAX);
        let (tag, mut v) = self.empty_element(b"spread", &SPREAD)?;
        let Some(s) = tag.slots[0] else { return fault(2, tag.end) };
        let n = self.digits(s);
        let count = bounded(&n);
        let width = tag.slots[1].map(|w| self.digits(w));
        if count == 0 {
            v.add(7, n.place);
        }
        match &width {
            Some(w) if bounded(w) == 0 => v.add(7, w.place),
            Some(_) => {}
            None if count != 0 && room % count != 0 => v.add(7, n.place),
            None => {}
        }
        v.stand()?;
        row[column::SUBFIELDS] = count;
        row[column::SUBWIDTH] = width.map_or_else(|| room / count, |w| bounded(&w));
        Ok(())
    }

    fn size(&mut self) -> Outcome<i64> {
        let (c, mut v) = self.text(b"size", Mode::Plain)?;
        let mut size = 0;
        if c.cut.is_none() {
            let text = &self.d[c.place..c.end];
            if !Form::Number.fits(text) {
                return fault(2, c.place);
            }
            size = said(text).map_or(0, |w| capped(&w));
            if size == 0 {
                v.add(7, c.place);
            } else if size > MAX_SIZE as u64 {
                v.add(8, c.place);
            }
        }
        v.stand()?;
        Ok(size as i64)
    }

    /// `<values>` to `</values>`: whether a spread's subfields are too narrow.
    fn values(&mut self, row: &mut Row, room: i64) -> Outcome<bool> {
        let quantity = row[column::TYPE] == QUANTITY;
        let tag = self.tag(&NONE)?;
        let mut v = Verdict::default();
        v.add_maybe(51, tag.unknown);
        v.stand()?;
        if tag.empty {
            return fault(2, tag.end);
        }
        self.repeats.start(self.lines.len());
        let mut block = Block { decimals: None, point: false, bare: true, least: i64::MAX, most: i64::MIN };
        let first = self.due(&[b"range", b"value"], b"values")?;
        if first == 0 {
            self.range(row, &mut block, quantity)?;
        } else {
            self.line(&mut block, quantity)?;
        }
        while self.perhaps(&[b"value"], b"values")?.is_some() {
            self.line(&mut block, quantity)?;
        }
        row[column::LINES] = self.lines.len() as i64 - row[column::BEFORE];
        if quantity {
            let decimals = block.decimals.unwrap_or(0) as i64;
            // C-13: 2 where every number is written with no digit before the point.
            let point = block.point as i64 + (block.point && block.bare) as i64;
            row[column::DECIMALS] = decimals;
            row[column::POINT] = point;
            row[column::WIDTH] =
                quantity_width(block.least, decimals, point).max(quantity_width(block.most, decimals, point));
            return Ok(false);
        }
        let spread = row[column::SUBFIELDS] > 0;
        let bits = row[column::TYPE] == MULTIPLE && !spread;
        row[column::WIDTH] = if bits { block.most } else { category_digits(block.most) };
        let (n, width) = (row[column::SUBFIELDS], row[column::SUBWIDTH]);
        Ok(spread && (width < row[column::WIDTH] || n.saturating_mul(width) > room))
    }

    fn range(&mut self, row: &mut Row, block: &mut Block, quantity: bool) -> Outcome<()> {
        let (tag, mut v) = self.empty_element(b"range", &RANGE)?;
        let (Some(from), Some(to)) = (tag.slots[0], tag.slots[1]) else { return fault(2, tag.end) };
        let (from, to) = (self.amount(from), self.amount(to));
        for a in [&from, &to] {
            if a.ill(quantity) {
                v.add(6, a.place);
            }
            if a.beyond(quantity) {
                v.add(8, a.place);
            }
        }
        if !from.ill(quantity) && !to.ill(quantity) && (from.decimals != to.decimals || to.below(&from)) {
            v.add(6, to.place);
        }
        v.stand()?;
        row[column::RANGE] = 1;
        row[column::FROM] = from.scaled();
        row[column::TO] = to.scaled();
        block.decimals = Some(from.decimals);
        block.point = from.point || to.point;
        block.bare = from.bare && to.bare;
        block.take(from.scaled());
        block.take(to.scaled());
        Ok(())
    }

    fn line(&mut self, block: &mut Block, quantity: bool) -> Outcome<()> {
        let tag = self.tag(&VALUE)?;
        let c = self.content(b"value", &tag, Mode::Rich)?;
        let Some(code) = tag.slots[0] else { return fault(2, tag.end) };
        let a = self.amount(code);
        let mut v = Verdict::default();
        v.add_maybe(51, c.unknown);
        v.add_maybe(51, c.cut);
        if a.ill(quantity) || block.decimals.is_some_and(|d| d != a.decimals) {
            v.add(6, a.place);
        } else if a.beyond(quantity) {
            v.add(8, a.place);
        } else if self.repeats.met(&self.lines, a.scaled()) {
            v.add(6, a.place);
        } else if self.lines.len() == MAX_LINES {
            v.add(8, a.place);
        }
        v.stand()?;
        block.decimals = Some(a.decimals);
        block.point |= a.point;
        block.bare &= a.bare;
        block.take(a.scaled());
        self.lines.push([a.scaled(), 0, c.place as i64, (c.end - c.place) as i64]);
        Ok(())
    }

    /// With standardnames: the first name that is ill-formed or agrees with one before it.
    fn standard_names(&mut self) -> Outcome<()> {
        let mut met: HashSet<Vec<u8>, Quick> = HashSet::default();
        for row in &self.rows {
            let place = row[column::NAME] as usize;
            let c = Content { place, end: place + row[column::NAME_LENGTH] as usize, cut: None, unknown: None };
            let key = self.key(&c);
            let letter = u8::is_ascii_lowercase;
            let formed =
                (1..=8).contains(&key.len()) && letter(&key[0]) && key.iter().all(|x| letter(x) || x.is_ascii_digit());
            if !formed || !met.insert(key) {
                return fault(9, place);
            }
        }
        Ok(())
    }
}

struct Block {
    decimals: Option<usize>,
    point: bool,
    /// No number so far has a digit before its point, or lacks the point.
    bare: bool,
    least: i64,
    most: i64,
}

impl Block {
    fn take(&mut self, v: i64) {
        self.least = self.least.min(v);
        self.most = self.most.max(v);
    }
}

// ---- texts decoded

/// Hands each sign of a text on: the bytes of its characters in UTF-8, and its breaks. What stands in `<text>` says nothing. The
/// text is one that was read.
fn signs(latin: bool, s: &[u8], give: &mut impl FnMut(i64)) {
    let mut silent = false;
    let mut i = 0;
    while i < s.len() {
        let rest = &s[i..];
        if rest.starts_with(b"<!--") {
            i += comment(rest).unwrap_or(4);
        } else if rest[0] == b'<' {
            let close = rest.get(1) == Some(&b'/');
            let from = 1 + close as usize;
            let name = rest[from..].iter().take_while(|&&x| in_name(x)).count();
            let text = &rest[from..from + name] == b"text";
            let n = tag_length(rest);
            let empty = rest[..n].ends_with(b"/>");
            if text {
                silent = !close && !empty;
            } else if !close && !silent {
                give(BREAK);
            }
            i += n;
            if !close && !text && !empty {
                // what stands in a pair of br says nothing
                while !s[i..].starts_with(b"</") {
                    i += if s[i..].starts_with(b"<!--") { comment(&s[i..]).unwrap_or(4) } else { 1 };
                }
                i += tag_length(&s[i..]);
            }
        } else if rest[0] == b'&' {
            let (c, n) = reference(rest).unwrap_or(('&', 1));
            if !silent {
                c.encode_utf8(&mut [0; 4]).bytes().for_each(|x| give(x as i64));
            }
            i += n;
        } else {
            let pair = rest.starts_with(b"\r\n");
            let x = if rest[0] == 13 { 10 } else { rest[0] };
            if !silent {
                if latin && x >= 128 {
                    (x as char).encode_utf8(&mut [0; 4]).bytes().for_each(|x| give(x as i64));
                } else {
                    give(x as i64);
                }
            }
            i += 1 + pair as usize;
        }
    }
}

/// The length of a tag from its `<` to its `>`, strings passed.
fn tag_length(s: &[u8]) -> usize {
    let mut quote = 0;
    for (i, &x) in s.iter().enumerate() {
        if quote != 0 {
            if x == quote {
                quote = 0;
            }
        } else if x == b'"' || x == b'\'' {
            quote = x;
        } else if x == b'>' {
            return i + 1;
        }
    }
    s.len()
}

/// Decodes a stretch of an XML definition that is content as of a label: how many signs it has; 3 where it is none, 25 where the
/// list is too short.
pub fn decode_xml(def: &[u8], place: u64, length: u64, list: &mut [i64]) -> Result<usize, u32> {
    let inside =
        usize::try_from(place).ok().and_then(|p| def.get(p..)).and_then(|d| d.get(..usize::try_from(length).ok()?));
    let text = inside.ok_or(3u32)?;
    let latin = declaration(def).is_ok_and(|(_, latin)| latin);
    if first_bad(latin, text, 0) < text.len() || !is_content(text) {
        return Err(3);
    }
    let mut count = 0;
    signs(latin, text, &mut |_| count += 1);
    let list = list.get_mut(..count).ok_or(25u32)?;
    let mut slots = list.iter_mut();
    signs(latin, text, &mut |sign| {
        if let Some(slot) = slots.next() {
            *slot = sign;
        }
    });
    Ok(count)
}

/// Whether a stretch is content as of a label, whole.
fn is_content(text: &[u8]) -> bool {
    // read as the text of an element whose end tag is put behind it
    let mut d = text.to_vec();
    d.extend_from_slice(b"</label>");
    let mut r = Reader {
        d: &d,
        bad: false,
        at: 0,
        latin: false,
        old: false,
        languages: true,
        standard: false,
        rows: Vec::new(),
        lines: Vec::new(),
        names: HashMap::default(),
        served: HashSet::default(),
        repeats: Repeats::default(),
        idents: [0; 157],
        used: [false; 3],
        highest: 0,
    };
    let tag = Tag { slots: [None; 3], unknown: None, empty: false, end: 0 };
    match r.content(b"label", &tag, Mode::Rich) {
        Ok(c) => c.cut.is_none() && c.unknown.is_none() && c.end == text.len(),
        Err(_) => false,
    }
}
