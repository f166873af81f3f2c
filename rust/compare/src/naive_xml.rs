//! C-15 once more, slow and literal: a definition in XML 1.2 read from documents 000 and 02 and from the readings, character by
//! character, with every text and every tag kept as a list. Nothing is measured against it.
//!
//! A statement is read whole, and what is wrong with it is gathered as charges: number and place. A 2 or 50 that is met ends it; else
//! the lowest number counts, and of equal numbers the lowest place.

use crate::naive::Fault;
use std::collections::BTreeSet;

/// Numbers of the header, of a row, of a line: document 02's.
const HEADER: usize = 6;
const ROW: usize = 20;
const LINE: usize = 4;
const MARK: i64 = 12;

type Outcome<T> = Result<T, Fault>;

/// One thing that a text says.
#[derive(Clone, Copy, PartialEq, Eq, Debug)]
pub enum Sign {
    Is(char),
    Break,
}

// ------------------------------------------------------------------------------------------------ the file

pub fn is_xml(file: &[u8]) -> bool {
    let text = file.strip_prefix(b"\xef\xbb\xbf").unwrap_or(file);
    text.starts_with(b"<?xml") || text.starts_with(b"<sss")
}

/// XML 1.0's Char.
fn is_char(code: u32) -> bool {
    matches!(code, 9 | 10 | 13 | 0x20..=0xd7ff | 0xe000..=0xfffd | 0x10000..=0x10ffff)
}

fn is_white(c: char) -> bool {
    matches!(c, '\t' | '\n' | '\r' | ' ')
}

/// "A letter, `_`, `:` or anything from 128 on first."
fn starts_name(c: char) -> bool {
    c.is_ascii_alphabetic() || c == '_' || c == ':' || c as u32 >= 128
}

/// "Then also digits, `-`, `.`."
fn in_name(c: char) -> bool {
    starts_name(c) || c.is_ascii_digit() || c == '-' || c == '.'
}

/// The character at a place, and how many bytes it has.
fn character(file: &[u8], at: usize, latin: bool) -> Option<(char, usize)> {
    if latin {
        return Some((file[at] as char, 1)).filter(|c| is_char(c.0 as u32));
    }
    (1..=4)
        .filter(|&n| at + n <= file.len())
        .find_map(|n| Some((std::str::from_utf8(&file[at..at + n]).ok()?.chars().next()?, n)))
        .filter(|c| is_char(c.0 as u32))
}

/// The declaration, by its bytes: whether the encoding is ISO-8859-1, and the place after it.
fn declaration(file: &[u8]) -> Outcome<(bool, usize)> {
    let marked = file.starts_with(b"\xef\xbb\xbf");
    let opened = if marked { 3 } else { 0 };
    if !file[opened..].starts_with(b"<?xml") {
        return Ok((false, opened));
    }
    let mut d = Declaration { file, opened, at: opened + 5 };
    if d.room() == 0 {
        return Err(d.missing());
    }
    d.word(b"version")?;
    let (version, place) = d.value()?;
    if version != b"1.0" {
        return Err((50, place));
    }
    let mut latin = false;
    if d.word_behind_room(b"encoding") {
        let (encoding, place) = d.value()?;
        latin = match encoding.to_ascii_uppercase().as_slice() {
            b"UTF-8" => false,
            b"ISO-8859-1" if !marked => true,
            _ => return Err((50, place)),
        };
    }
    if d.word_behind_room(b"standalone") {
        let (answer, place) = d.value()?;
        if answer != b"yes" && answer != b"no" {
            return Err((50, place));
        }
    }
    d.room();
    d.word(b"?>")?;
    Ok((latin, d.at))
}

struct Declaration<'a> {
    file: &'a [u8],
    opened: usize,
    at: usize,
}

impl Declaration<'_> {
    /// "50 at the first byte of the token that is not the one due, at its `<` where nothing is left."
    fn missing(&self) -> Fault {
        (50, if self.at < self.file.len() { self.at } else { self.opened })
    }

    /// White space: how much.
    fn room(&mut self) -> usize {
        let from = self.at;
        while self.at < self.file.len() && is_white(self.file[self.at] as char) {
            self.at += 1;
        }
        self.at - from
    }

    fn word(&mut self, w: &[u8]) -> Outcome<()> {
        if !self.file[self.at..].starts_with(w) {
            return Err(self.missing());
        }
        self.at += w.len();
        Ok(())
    }

    /// An optional word: it is there if white space and its letters are.
    fn word_behind_room(&mut self, w: &[u8]) -> bool {
        let from = self.at;
        if self.room() > 0 && self.word(w).is_ok() {
            return true;
        }
        self.at = from;
        false
    }

    /// `=` and a value in either quotes: its bytes, and the place of the first.
    fn value(&mut self) -> Outcome<(Vec<u8>, usize)> {
        self.room();
        self.word(b"=")?;
        self.room();
        let quote = match self.file.get(self.at) {
            Some(&q) if q == b'"' || q == b'\'' => q,
            _ => return Err(self.missing()),
        };
        self.at += 1;
        let place = self.at;
        while self.at < self.file.len() && self.file[self.at] != quote {
            self.at += 1;
        }
        if self.at == self.file.len() {
            // A value that breaks off is a token that stands there: its first byte, or the `<` where nothing stands behind its quote.
            self.at = place;
            return Err(self.missing());
        }
        self.at += 1;
        Ok((self.file[place..self.at - 1].to_vec(), place))
    }
}

// ------------------------------------------------------------------------------------------------ characters

struct Reader {
    /// The characters with their places, up to the first that is none.
    text: Vec<(char, usize)>,
    at: usize,
    /// Where the text ends, and whether a bad character ends it there and not the file's end.
    end: usize,
    bad: bool,
}

/// What a `<` opens.
enum Opened {
    Start(String, usize),
    End(String, usize),
    Instruction(usize),
    Cdata(usize),
}

/// What stands next where tags are due.
enum Next {
    Mark(Opened),
    Text(usize),
    Nothing,
}

struct Attribute {
    name: String,
    name_place: usize,
    value: String,
    place: usize,
}

struct Tag {
    attributes: Vec<Attribute>,
    /// `/>`, and the place of the end mark.
    empty: bool,
    end: usize,
}

impl Tag {
    fn get(&self, name: &str) -> Option<&Attribute> {
        self.attributes.iter().find(|a| a.name == name)
    }

    /// 51 at the name of each attribute that the element doesn't know.
    fn unknown(&self, known: &[Known]) -> Vec<Fault> {
        self.attributes.iter().filter(|a| known.iter().all(|k| k.0 != a.name)).map(|a| (51, a.name_place)).collect()
    }
}

/// An attribute that an element knows: its name, whether it is required, and the form of its value.
type Known<'a> = (&'a str, bool, fn(&str) -> bool);

/// A text element's content, or an empty element's: the stretch, what it says, what is wrong with the tags in it, and the `<` of a tag
/// that may not stand there.
struct Content {
    place: usize,
    length: usize,
    said: Vec<Sign>,
    charges: Vec<Fault>,
    cut: Option<usize>,
}

impl Reader {
    fn new(file: &[u8], from: usize, latin: bool) -> Reader {
        let mut text = Vec::new();
        let mut at = from;
        while at < file.len() {
            match character(file, at, latin) {
                Some((c, n)) => {
                    text.push((c, at));
                    at += n;
                }
                None => break,
            }
        }
        Reader { text, at: 0, end: at, bad: at < file.len() }
    }

    fn peek(&self) -> Option<char> {
        self.text.get(self.at).map(|t| t.0)
    }

    fn here(&self) -> usize {
        self.text.get(self.at).map_or(self.end, |t| t.1)
    }

    fn sees(&self, w: &str) -> bool {
        w.chars().enumerate().all(|(i, c)| self.text.get(self.at + i).is_some_and(|t| t.0 == c))
    }

    /// The text ends inside the mark that opened at a place.
    fn cut(&self, opened: usize) -> Fault {
        (50, if self.bad { self.end } else { opened })
    }

    fn white(&mut self) -> usize {
        let from = self.at;
        while self.peek().is_some_and(is_white) {
            self.at += 1;
        }
        self.at - from
    }

    fn name(&mut self) -> String {
        let mut name = String::new();
        while let Some(c) = self.peek().filter(|&c| in_name(c)) {
            name.push(c);
            self.at += 1;
        }
        name
    }

    fn comment(&mut self) -> Outcome<()> {
        let opened = self.here();
        self.at += 4;
        while !self.sees("-->") {
            if self.sees("--") {
                return Err((50, self.here()));
            }
            if self.peek().is_none() {
                return Err(self.cut(opened));
            }
            self.at += 1;
        }
        self.at += 3;
        Ok(())
    }

    /// White space and comments.
    fn gap(&mut self) -> Outcome<()> {
        loop {
            self.white();
            if !self.sees("<!--") {
                return Ok(());
            }
            self.comment()?;
        }
    }

    fn reference(&mut self) -> Outcome<char> {
        let place = self.here();
        let rest = &self.text[self.at + 1..];
        let said: String = rest.iter().map(|t| t.0).take_while(|&c| c != ';').collect();
        let count = said.chars().count();
        let closed = count < rest.len();
        let number = |digits: &str, radix: u32| {
            if digits.is_empty() || !digits.chars().all(|c| c.is_digit(radix)) {
                return None;
            }
            let digits = digits.trim_start_matches('0');
            if digits.len() > 7 { None } else { u32::from_str_radix(digits, radix).ok() }
        };
        let code = match said.as_str() {
            "lt" => Some('<' as u32),
            "gt" => Some('>' as u32),
            "amp" => Some('&' as u32),
            "apos" => Some('\'' as u32),
            "quot" => Some('"' as u32),
            s => match (s.strip_prefix("#x"), s.strip_prefix('#')) {
                (Some(hex), _) => number(hex, 16),
                (_, Some(decimal)) => number(decimal, 10),
                _ => None,
            },
        };
        match code.filter(|&c| closed && is_char(c)).and_then(char::from_u32) {
            Some(c) => {
                self.at += count + 2;
                Ok(c)
            }
            None => Err((50, place)),
        }
    }

    // -------------------------------------------------------------------------------------------- tags

    /// At a `<` that opens no comment. An end tag is read whole, of a start tag the name.
    fn opened(&mut self) -> Outcome<Opened> {
        let opened = self.here();
        match self.text.get(self.at + 1).map(|t| t.0) {
            None => Err(self.cut(opened)),
            Some('/') => match self.text.get(self.at + 2).map(|t| t.0) {
                None => Err(self.cut(opened)),
                Some(c) if starts_name(c) => {
                    self.at += 2;
                    let name = self.name();
                    self.white();
                    match self.peek() {
                        None => Err(self.cut(opened)),
                        Some('>') => {
                            self.at += 1;
                            Ok(Opened::End(name, opened))
                        }
                        Some(_) => Err((50, self.here())),
                    }
                }
                Some(_) => Err((50, opened)),
            },
            Some('?') => Ok(Opened::Instruction(opened)),
            Some('!') if self.sees("<![CDATA[") => Ok(Opened::Cdata(opened)),
            Some(c) if starts_name(c) => {
                self.at += 1;
                Ok(Opened::Start(self.name(), opened))
            }
            Some(_) => Err((50, opened)),
        }
    }

    /// The rest of a start tag, behind its name: the first 2 or 50 met, then a required attribute that is missing.
    fn tag(&mut self, opened: usize, known: &[Known]) -> Outcome<Tag> {
        let mut attributes: Vec<Attribute> = Vec::new();
        let (empty, end) = loop {
            let spaced = self.white() > 0;
            let place = self.here();
            match self.peek() {
                None => return Err(self.cut(opened)),
                Some('>') => {
                    self.at += 1;
                    break (false, place);
                }
                Some('/') => match self.text.get(self.at + 1).map(|t| t.0) {
                    None if !self.bad => return Err((50, opened)),
                    Some('>') => {
                        self.at += 2;
                        break (true, place);
                    }
                    _ => return Err((50, place)),
                },
                Some(c) if spaced && starts_name(c) => {
                    let attribute = self.attribute(opened)?;
                    if let Some(k) = known.iter().find(|k| k.0 == attribute.name) {
                        if attributes.iter().any(|a| a.name == attribute.name) {
                            return Err((50, attribute.name_place));
                        }
                        if !k.2(&attribute.value) {
                            return Err((2, attribute.place));
                        }
                    }
                    attributes.push(attribute);
                }
                Some(_) => return Err((50, place)),
            }
        };
        if known.iter().any(|k| k.1 && attributes.iter().all(|a| a.name != k.0)) {
            return Err((2, end));
        }
        Ok(Tag { attributes, empty, end })
    }

    fn attribute(&mut self, opened: usize) -> Outcome<Attribute> {
        let name_place = self.here();
        let name = self.name();
        self.white();
        match self.peek() {
            None => return Err(self.cut(opened)),
            Some('=') => self.at += 1,
            Some(_) => return Err((50, self.here())),
        }
        self.white();
        let quote = match self.peek() {
            None => return Err(self.cut(opened)),
            Some(q) if q == '"' || q == '\'' => q,
            Some(_) => return Err((50, self.here())),
        };
        self.at += 1;
        let place = self.here();
        let mut value = String::new();
        loop {
            match self.peek() {
                None => return Err(self.cut(opened)),
                Some('<') => return Err((50, self.here())),
                Some('&') => value.push(self.reference()?),
                Some(c) => {
                    self.at += 1;
                    if c == quote {
                        return Ok(Attribute { name, name_place, value, place });
                    }
                    value.push(c);
                }
            }
        }
    }

    /// A start tag that may not stand there: read for its form only, then 51 at its `<`.
    fn misplaced(&mut self, opened: usize) -> Fault {
        match self.tag(opened, &[]) {
            Ok(_) => (51, opened),
            Err(fault) => fault,
        }
    }

    fn next(&mut self) -> Outcome<Next> {
        self.gap()?;
        let place = self.here();
        match self.peek() {
            None => Ok(Next::Nothing),
            Some('<') => Ok(Next::Mark(self.opened()?)),
            Some('&') => {
                self.reference()?;
                Ok(Next::Text(place))
            }
            Some(_) => Ok(Next::Text(place)),
        }
    }

    /// What stands next inside an element whose tags are due: one of the start tags that may stand there, or its end tag.
    fn child(&mut self, outer: &str, allowed: &[&str], may_end: bool) -> Outcome<Option<(String, usize)>> {
        match self.next()? {
            Next::Nothing => Err((50, self.end)),
            Next::Text(place) => Err((2, place)),
            Next::Mark(Opened::Instruction(o) | Opened::Cdata(o)) => Err((51, o)),
            Next::Mark(Opened::End(name, o)) if name != outer => Err((50, o)),
            Next::Mark(Opened::End(_, o)) => {
                if may_end {
                    Ok(None)
                } else {
                    Err((2, o))
                }
            }
            Next::Mark(Opened::Start(name, o)) if allowed.contains(&name.as_str()) => Ok(Some((name, o))),
            Next::Mark(Opened::Start(_, o)) => Err(self.misplaced(o)),
        }
    }

    // -------------------------------------------------------------------------------------------- contents

    /// The end of an element that holds nothing: its `<`, if a tag stands there that may not.
    fn nothing_in(&mut self, name: &str, tag: &Tag) -> Outcome<Option<usize>> {
        if tag.empty {
            return Ok(None);
        }
        match self.child(name, &[], true) {
            Ok(_) => Ok(None),
            Err((51, place)) => Ok(Some(place)),
            Err(fault) => Err(fault),
        }
    }

    /// The content of a text element, up to its end tag.
    fn content(&mut self, name: &str, tag: &Tag, br: bool, languages: bool) -> Outcome<Content> {
        let place = self.here();
        let mut c = Content { place, length: 0, said: Vec::new(), charges: Vec::new(), cut: None };
        if tag.empty {
            return Ok(c);
        }
        loop {
            let here = self.here();
            match self.peek() {
                None => return Err((50, self.end)),
                Some('&') => c.said.push(Sign::Is(self.reference()?)),
                Some(']') if self.sees("]]>") => return Err((50, here)),
                Some('\r') => {
                    self.at += if self.sees("\r\n") { 2 } else { 1 };
                    c.said.push(Sign::Is('\n'));
                }
                Some('<') if self.sees("<!--") => self.comment()?,
                Some('<') => match self.opened()? {
                    Opened::End(end, o) if end == name => {
                        c.length = o - place;
                        return Ok(c);
                    }
                    Opened::End(_, o) => return Err((50, o)),
                    Opened::Start(start, o) if start == "br" && br => {
                        let tag = self.tag(o, &[])?;
                        c.charges.extend(tag.unknown(&[]));
                        c.said.push(Sign::Break);
                        c.cut = self.nothing_in("br", &tag)?;
                    }
                    Opened::Start(start, o) if start == "text" && languages => {
                        let known: &[Known] = &[("xml:lang", true, |_| true)];
                        let tag = self.tag(o, known)?;
                        c.charges.extend(tag.unknown(known));
                        let inner = self.content("text", &tag, true, false)?;
                        c.charges.extend(inner.charges);
                        c.cut = inner.cut;
                    }
                    Opened::Start(_, o) => match self.misplaced(o) {
                        (51, o) => c.cut = Some(o),
                        fault => return Err(fault),
                    },
                    Opened::Instruction(o) | Opened::Cdata(o) => c.cut = Some(o),
                },
                Some(x) => {
                    self.at += 1;
                    c.said.push(Sign::Is(x));
                }
            }
            if c.cut.is_some() {
                return Ok(c);
            }
        }
    }
}

/// A statement that was read is judged: the lowest number, then the lowest place.
fn judged(mut charges: Vec<Fault>) -> Outcome<()> {
    charges.sort();
    charges.first().map_or(Ok(()), |&f| Err(f))
}

// ------------------------------------------------------------------------------------------------ forms

fn any(_: &str) -> bool {
    true
}

fn digits(s: &str) -> bool {
    !s.is_empty() && s.chars().all(|c| c.is_ascii_digit())
}

fn written(s: &str) -> bool {
    !s.is_empty() && s.chars().all(|c| c.is_ascii_digit() || ".+-".contains(c))
}

fn letter(s: &str) -> bool {
    s.len() == 1 && s.chars().all(|c| c.is_ascii_alphabetic())
}

const TYPES: [&str; 5] = ["single", "multiple", "quantity", "character", "logical"];
const USES: [&str; 2] = ["serial", "weight"];

fn is_type(s: &str) -> bool {
    TYPES.contains(&s)
}

fn is_use(s: &str) -> bool {
    USES.contains(&s)
}

fn is_option(s: &str) -> bool {
    s == "standardnames"
}

// ------------------------------------------------------------------------------------------------ numbers

/// Digits without zeros in front: numbers of any length compare by length, then by digits.
fn true_value(s: &str) -> (usize, String) {
    let t = s.trim_start_matches('0').to_string();
    (t.len(), t)
}

/// A whole number, or what is above all limits.
fn number(s: &str) -> i64 {
    let t = true_value(s);
    if t.0 > 15 { i64::MAX } else { t.1.parse().unwrap_or(0) }
}

/// A value of a block that has form.
struct Written {
    minus: bool,
    /// All digits, the point left out.
    digits: String,
    decimals: usize,
    point: bool,
    /// No digit stands before the point.
    bare: bool,
}

impl Written {
    /// Sign and true value: -1, 0 or 1, and the size.
    fn signed(&self) -> (i64, (usize, String)) {
        let size = true_value(&self.digits);
        (
            if size.0 == 0 {
                0
            } else if self.minus {
                -1
            } else {
                1
            },
            size,
        )
    }

    fn below(&self, other: &Written) -> bool {
        let (a, b) = (self.signed(), other.signed());
        if a.0 != b.0 {
            return a.0 < b.0;
        }
        if a.0 < 0 { b.1 < a.1 } else { a.1 < b.1 }
    }

    fn scaled(&self) -> i64 {
        let n = number(&self.digits);
        if self.minus { -n } else { n }
    }

    fn beyond(&self, quantity: bool) -> bool {
        if quantity { true_value(&self.digits).0 > 15 || self.decimals > 9 } else { number(&self.digits) > 9999 }
    }
}

/// Categories: digits, above 0. Quantities: an optional `-`, digits, an optional point, digits, at least one digit.
fn form(s: &str, quantity: bool) -> Option<Written> {
    let (minus, unsigned) = match s.strip_prefix('-') {
        Some(rest) => (true, rest),
        None => (false, s),
    };
    let (whole, fraction, point) = match unsigned.split_once('.') {
        Some((w, f)) => (w, f, true),
        None => (unsigned, "", false),
    };
    let all = format!("{whole}{fraction}");
    if !digits(&all) {
        return None;
    }
    if !quantity && (minus || point || true_value(&all).0 == 0) {
        return None;
    }
    Some(Written { minus, decimals: fraction.len(), point, bare: point && whole.is_empty(), digits: all })
}

/// "Each without needless leading zeros, with at least one digit before the point (none under code 2), its point if required, and its
/// minus."
fn needed(v: i64, decimals: usize, point: i64) -> usize {
    let size = v.unsigned_abs().to_string();
    let least = decimals + if point == 2 { 0 } else { 1 };
    let count = if point == 2 { decimals } else { size.len().max(least) };
    count + usize::from(point > 0) + usize::from(v < 0)
}

// ------------------------------------------------------------------------------------------------ elements

struct Survey {
    old: bool,
    languages: bool,
    standard: bool,
    rows: Vec<Variable>,
    lines: Vec<[i64; LINE]>,
}

#[derive(Default)]
struct Variable {
    ident: i64,
    kind: usize,
    usage: i64,
    name: Vec<char>,
    name_place: usize,
    name_length: usize,
    label_place: usize,
    label_length: usize,
    start: i64,
    start_place: usize,
    finish: i64,
    filter: i64,
    subfields: i64,
    subwidth: i64,
    size: i64,
    range: Option<(i64, i64)>,
    decimals: usize,
    point: i64,
    before: usize,
    values: Vec<i64>,
    /// This logical has served as a filter.
    serves: bool,
}

struct Document {
    r: Reader,
    s: Survey,
}

impl Document {
    /// An element of characters alone: date, time, origin, user, the survey's name and version, a variable's name, filter, size.
    fn plain(&mut self, name: &str, opened: usize) -> Outcome<(Content, Vec<Fault>)> {
        let tag = self.r.tag(opened, &[])?;
        let content = self.r.content(name, &tag, false, false)?;
        let mut charges = tag.unknown(&[]);
        charges.extend(&content.charges);
        charges.extend(content.cut.map(|o| (51, o)));
        Ok((content, charges))
    }

    /// An element with breaks and language texts: title, label, value.
    fn texts(&mut self, name: &str, opened: usize, known: &[Known]) -> Outcome<(Tag, Content, Vec<Fault>)> {
        let tag = self.r.tag(opened, known)?;
        let content = self.r.content(name, &tag, true, self.s.languages && !self.s.old)?;
        let mut charges = tag.unknown(known);
        charges.extend(&content.charges);
        charges.extend(content.cut.map(|o| (51, o)));
        Ok((tag, content, charges))
    }

    /// An element that holds nothing.
    fn hollow(&mut self, name: &str, opened: usize, known: &[Known]) -> Outcome<(Tag, Vec<Fault>)> {
        let tag = self.r.tag(opened, known)?;
        let cut = self.r.nothing_in(name, &tag)?;
        let mut charges = tag.unknown(known);
        charges.extend(cut.map(|o| (51, o)));
        Ok((tag, charges))
    }

    /// A start tag that is a statement of its own; something is due behind it.
    fn container(
        &mut self,
        opened: usize,
        known: &[Known],
        more: impl Fn(&Survey, &Tag) -> Vec<Fault>,
    ) -> Outcome<Tag> {
        let tag = self.r.tag(opened, known)?;
        let mut charges = tag.unknown(known);
        charges.extend(more(&self.s, &tag));
        judged(charges)?;
        Ok(tag)
    }

    fn not_empty(tag: &Tag) -> Outcome<()> {
        if tag.empty { Err((2, tag.end)) } else { Ok(()) }
    }

    fn root(&mut self) -> Outcome<()> {
        let opened = match self.r.next()? {
            Next::Nothing => return Err((50, self.r.end)),
            Next::Text(place) => return Err((50, place)),
            Next::Mark(Opened::End(_, o) | Opened::Cdata(o)) => return Err((50, o)),
            Next::Mark(Opened::Instruction(o)) => return Err((51, o)),
            Next::Mark(Opened::Start(name, o)) if name == "sss" => o,
            Next::Mark(Opened::Start(_, o)) => return Err(self.r.misplaced(o)),
        };
        let known: &[Known] = &[("version", true, any), ("options", false, is_option), ("languages", false, any)];
        let tag = self.container(opened, known, |_, tag| {
            let version = tag.get("version").unwrap();
            let mut charges = Vec::new();
            if version.value != "1.1" && version.value != "1.2" {
                charges.push((4, version.place));
            }
            if version.value == "1.1" {
                charges.extend(tag.get("languages").map(|l| (51, l.name_place)));
            }
            charges
        })?;
        self.s.old = tag.get("version").unwrap().value == "1.1";
        self.s.standard = tag.get("options").is_some();
        self.s.languages = tag.get("languages").is_some();
        Self::not_empty(&tag)?;
        let mut due = vec!["date", "time", "origin", "user", "survey"];
        loop {
            let (name, opened) = self.r.child("sss", &due, false)?.unwrap();
            if name == "survey" {
                self.survey(opened)?;
                break;
            }
            let (_, charges) = self.plain(&name, opened)?;
            judged(charges)?;
            let k = due.iter().position(|&d| d == name).unwrap();
            due.drain(..=k);
        }
        self.r.child("sss", &[], true)?;
        Ok(())
    }

    fn survey(&mut self, opened: usize) -> Outcome<()> {
        let tag = self.container(opened, &[], |_, _| Vec::new())?;
        Self::not_empty(&tag)?;
        let mut due = if self.s.old { vec!["title", "record"] } else { vec!["name", "version", "title", "record"] };
        loop {
            let (name, opened) = self.r.child("survey", &due, false)?.unwrap();
            let charges = match name.as_str() {
                "record" => {
                    self.record(opened)?;
                    break;
                }
                "title" => self.texts("title", opened, &[])?.2,
                _ => self.plain(&name, opened)?.1,
            };
            judged(charges)?;
            let k = due.iter().position(|&d| d == name).unwrap();
            due.drain(..=k);
        }
        self.r.child("survey", &[], true)?;
        Ok(())
    }

    fn record(&mut self, opened: usize) -> Outcome<()> {
        let all: &[Known] = &[("ident", true, letter), ("href", false, any)];
        let known = if self.s.old { &all[..1] } else { all };
        let tag = self.container(opened, known, |_, _| Vec::new())?;
        Self::not_empty(&tag)?;
        while let Some((_, opened)) = self.r.child("record", &["variable"], !self.s.rows.is_empty())? {
            self.variable(opened)?;
        }
        Ok(())
    }

    fn variable(&mut self, opened: usize) -> Outcome<()> {
        let all: &[Known] = &[("ident", true, digits), ("type", true, is_type), ("use", false, is_use)];
        let known = if self.s.old { &all[..2] } else { all };
        let old = self.s.old;
        let tag = self.container(opened, known, |s, tag| {
            let ident = tag.get("ident").unwrap();
            let kind = &tag.get("type").unwrap().value;
            let mut charges = Vec::new();
            let n = number(&ident.value);
            if n == 0 || ident.value.len() > 4 || s.rows.iter().any(|v| v.ident == n) {
                charges.push((5, ident.place));
            }
            if s.rows.len() == 512 {
                charges.push((8, ident.place));
            }
            if let Some(usage) = tag.get("use").filter(|_| !old) {
                let k = 1 + USES.iter().position(|&u| u == usage.value).unwrap() as i64;
                let fits = kind == "quantity" || (k == 1 && kind == "character");
                if !fits || s.rows.iter().any(|v| v.usage == k) {
                    charges.push((52, usage.place));
                }
            }
            charges
        })?;
        Self::not_empty(&tag)?;
        let mut v = Variable {
            ident: number(&tag.get("ident").unwrap().value),
            kind: 1 + TYPES.iter().position(|&t| t == tag.get("type").unwrap().value).unwrap(),
            before: self.s.lines.len(),
            ..Variable::default()
        };
        if let Some(usage) = tag.get("use").filter(|_| !old) {
            v.usage = 1 + USES.iter().position(|&u| u == usage.value).unwrap() as i64;
        }
        self.name(&mut v)?;
        let (_, opened) = self.r.child("variable", &["label"], false)?.unwrap();
        let (_, content, charges) = self.texts("label", opened, &[])?;
        judged(charges)?;
        (v.label_place, v.label_length) = (content.place, content.length);
        self.position(&mut v)?;
        self.by_type(&mut v)?;
        if self.too_narrow(&v) {
            return Err((7, v.start_place));
        }
        self.s.rows.push(v);
        Ok(())
    }

    /// Names compare by decoded characters, with standardnames case aside.
    fn same_name(&self, a: &[char], b: &[char]) -> bool {
        let key = |s: &[char]| -> Vec<char> {
            s.iter().map(|c| if self.s.standard { c.to_ascii_uppercase() } else { *c }).collect()
        };
        key(a) == key(b)
    }

    fn name(&mut self, v: &mut Variable) -> Outcome<()> {
        let (_, opened) = self.r.child("variable", &["name"], false)?.unwrap();
        let (content, mut charges) = self.plain("name", opened)?;
        let name = characters(&content.said);
        if content.cut.is_none() && self.s.rows.iter().any(|w| w.serves && self.same_name(&w.name, &name)) {
            charges.push((52, content.place));
        }
        judged(charges)?;
        (v.name, v.name_place, v.name_length) = (name, content.place, content.length);
        Ok(())
    }

    fn position(&mut self, v: &mut Variable) -> Outcome<()> {
        let (_, opened) = self.r.child("variable", &["position"], false)?.unwrap();
        let known: &[Known] = &[("start", true, digits), ("finish", false, digits)];
        let (tag, mut charges) = self.hollow("position", opened, known)?;
        let start = tag.get("start").unwrap();
        let finish = tag.get("finish").unwrap_or(start);
        if number(&start.value) == 0 {
            charges.push((7, start.place));
        }
        if true_value(&finish.value) < true_value(&start.value) {
            charges.push((7, finish.place));
        }
        for end in [start, finish] {
            if number(&end.value) > 16_384 {
                charges.push((8, end.place));
            }
        }
        judged(charges)?;
        (v.start, v.start_place, v.finish) = (number(&start.value), start.place, number(&finish.value));
        Ok(())
    }

    /// What stands behind the position, up to the variable's end tag.
    fn by_type(&mut self, v: &mut Variable) -> Outcome<()> {
        let mut due = match v.kind {
            1 | 3 => vec!["values"],
            2 => vec!["spread", "values"],
            4 => vec!["size"],
            _ => vec![],
        };
        if !self.s.old {
            due.insert(0, "filter");
        }
        loop {
            let finished = due.is_empty() || (v.kind == 5 && due == ["filter"]);
            let Some((name, opened)) = self.r.child("variable", &due, finished)? else { return Ok(()) };
            match name.as_str() {
                "filter" => self.filter(v, opened)?,
                "spread" => self.spread(v, opened)?,
                "size" => self.size(v, opened)?,
                _ => self.values(v, opened)?,
            }
            let k = due.iter().position(|&d| d == name).unwrap();
            due.drain(..=k);
        }
    }

    fn filter(&mut self, v: &mut Variable, opened: usize) -> Outcome<()> {
        let (content, mut charges) = self.plain("filter", opened)?;
        let text = characters(&content.said);
        let mut named: Vec<usize> =
            (0..self.s.rows.len()).filter(|&k| self.same_name(&self.s.rows[k].name, &text)).collect();
        if self.same_name(&v.name, &text) {
            named.push(self.s.rows.len());
        }
        let good = named.len() == 1 && self.s.rows.get(named[0]).is_some_and(|w| w.kind == 5) && v.usage == 0;
        if content.cut.is_none() && !good {
            charges.push((52, content.place));
        }
        judged(charges)?;
        self.s.rows[named[0]].serves = true;
        v.filter = named[0] as i64 + 1;
        Ok(())
    }

    fn spread(&mut self, v: &mut Variable, opened: usize) -> Outcome<()> {
        let known: &[Known] = &[("subfields", true, digits), ("width", false, digits)];
        let (tag, mut charges) = self.hollow("spread", opened, known)?;
        let subfields = tag.get("subfields").unwrap();
        let n = number(&subfields.value);
        let room = v.finish - v.start + 1;
        let width = match tag.get("width") {
            Some(width) => {
                if number(&width.value) == 0 {
                    charges.push((7, width.place));
                }
                number(&width.value)
            }
            None => {
                if n > 0 && room % n != 0 {
                    charges.push((7, subfields.place));
                }
                if n > 0 { room / n } else { 0 }
            }
        };
        if n == 0 {
            charges.push((7, subfields.place));
        }
        judged(charges)?;
        (v.subfields, v.subwidth) = (n, width);
        Ok(())
    }

    fn size(&mut self, v: &mut Variable, opened: usize) -> Outcome<()> {
        let (content, mut charges) = self.plain("size", opened)?;
        if content.cut.is_none() {
            let text: String = characters(&content.said).into_iter().collect();
            if !digits(&text) {
                return Err((2, content.place));
            }
            v.size = number(&text);
            if v.size == 0 {
                charges.push((7, content.place));
            }
            if v.size > 4096 {
                charges.push((8, content.place));
            }
        }
        judged(charges)
    }

    fn values(&mut self, v: &mut Variable, opened: usize) -> Outcome<()> {
        let tag = self.container(opened, &[], |_, _| Vec::new())?;
        Self::not_empty(&tag)?;
        let quantity = v.kind == 3;
        let mut all: Vec<Written> = Vec::new();
        let mut due: &[&str] = &["range", "value"];
        while let Some((name, opened)) = self.r.child("values", due, !all.is_empty())? {
            if name == "range" {
                self.range(v, opened, quantity, &mut all)?;
            } else {
                self.value(v, opened, quantity, &mut all)?;
            }
            due = &["value"];
        }
        v.decimals = all[0].decimals;
        if all.iter().any(|w| w.point) {
            v.point = if all.iter().all(|w| w.bare) { 2 } else { 1 };
        }
        Ok(())
    }

    fn range(&mut self, v: &mut Variable, opened: usize, quantity: bool, all: &mut Vec<Written>) -> Outcome<()> {
        let known: &[Known] = &[("from", true, written), ("to", true, written)];
        let (tag, mut charges) = self.hollow("range", opened, known)?;
        let (from, to) = (tag.get("from").unwrap(), tag.get("to").unwrap());
        let forms = [form(&from.value, quantity), form(&to.value, quantity)];
        for (end, w) in [from, to].iter().zip(&forms) {
            match w {
                None => charges.push((6, end.place)),
                Some(w) if w.beyond(quantity) => charges.push((8, end.place)),
                Some(_) => {}
            }
        }
        let [a, b] = forms;
        if let (Some(a), Some(b)) = (&a, &b) {
            if a.decimals != b.decimals || b.below(a) {
                charges.push((6, to.place));
            }
        }
        judged(charges)?;
        let (a, b) = (a.unwrap(), b.unwrap());
        v.range = Some((a.scaled(), b.scaled()));
        all.extend([a, b]);
        Ok(())
    }

    fn value(&mut self, v: &mut Variable, opened: usize, quantity: bool, all: &mut Vec<Written>) -> Outcome<()> {
        let known: &[Known] = &[("code", true, written)];
        let (tag, content, mut charges) = self.texts("value", opened, known)?;
        let code = tag.get("code").unwrap();
        let w = form(&code.value, quantity);
        match &w {
            None => charges.push((6, code.place)),
            Some(w) => {
                let unlike = all.first().is_some_and(|f| f.decimals != w.decimals);
                let lines = all.len() - v.values.len();
                let repeated = all[lines..].iter().any(|x| x.signed() == w.signed());
                if unlike || repeated {
                    charges.push((6, code.place));
                }
                if w.beyond(quantity) || self.s.lines.len() == 4096 {
                    charges.push((8, code.place));
                }
            }
        }
        judged(charges)?;
        let w = w.unwrap();
        v.values.push(w.scaled());
        self.s.lines.push([w.scaled(), 0, content.place as i64, content.length as i64]);
        all.push(w);
        Ok(())
    }

    /// The value width.
    fn width(v: &Variable) -> usize {
        let all: Vec<i64> = v.range.iter().flat_map(|r| [r.0, r.1]).chain(v.values.iter().copied()).collect();
        let largest = all.iter().copied().max().unwrap_or(0);
        match v.kind {
            1 => largest.to_string().len(),
            2 if v.subfields > 0 => largest.to_string().len(),
            2 => largest as usize,
            3 => all.iter().map(|&n| needed(n, v.decimals, v.point)).max().unwrap_or(0),
            4 => v.size as usize,
            _ => 1,
        }
    }

    fn too_narrow(&self, v: &Variable) -> bool {
        let room = v.finish - v.start + 1;
        let w = Self::width(v) as i64;
        if v.subfields > 0 {
            return v.subwidth < w || v.subfields as i128 * v.subwidth as i128 > room as i128;
        }
        room < w
    }

    /// DOCTYPE, where it stands.
    fn doctype(&mut self) -> Outcome<()> {
        self.r.gap()?;
        if !self.r.sees("<!DOCTYPE") {
            return Ok(());
        }
        let r = &mut self.r;
        let opened = r.here();
        r.at += 9;
        if r.white() == 0 {
            return Err(r.due(opened));
        }
        if !r.sees("sss") {
            // Where only `s` or `ss` is left, the file ends too early; any other name is another name.
            let left: String = r.text[r.at..].iter().map(|t| t.0).collect();
            if left == "s" || left == "ss" {
                return Err(r.cut(r.here()));
            }
            return Err(if r.peek().is_some_and(starts_name) { (2, r.here()) } else { r.due(opened) });
        }
        r.at += 3;
        r.no_subset()?;
        if r.white() == 0 {
            return Err(r.due(opened));
        }
        r.no_subset()?;
        if r.sees("PUBLIC") {
            r.at += 6;
            r.identifier(opened, true)?;
        } else if r.sees("SYSTEM") {
            r.at += 6;
        } else {
            return Err(r.due(opened));
        }
        r.identifier(opened, false)?;
        r.white();
        r.no_subset()?;
        if r.peek() != Some('>') {
            return Err(r.due(opened));
        }
        r.at += 1;
        Ok(())
    }
}

impl Reader {
    /// What stands where something else is due, in a mark that opened at a place.
    fn due(&self, opened: usize) -> Fault {
        if self.peek().is_none() { self.cut(opened) } else { (50, self.here()) }
    }

    fn no_subset(&self) -> Outcome<()> {
        if self.peek() == Some('[') { Err((51, self.here())) } else { Ok(()) }
    }

    /// White space and a string in either quotes; of a public one XML's own characters.
    fn identifier(&mut self, opened: usize, public: bool) -> Outcome<()> {
        if self.white() == 0 {
            return Err(self.due(opened));
        }
        let quote = match self.peek() {
            Some(q) if q == '"' || q == '\'' => q,
            _ => return Err(self.due(opened)),
        };
        self.at += 1;
        loop {
            match self.peek() {
                None => return Err(self.cut(opened)),
                Some(c) if c == quote => {
                    self.at += 1;
                    return Ok(());
                }
                Some(c) if public && !(c.is_ascii_alphanumeric() || " \r\n-'()+,./:=?;!*#@$_%".contains(c)) => {
                    return Err((50, self.here()));
                }
                Some(_) => self.at += 1,
            }
        }
    }

    /// "Behind `</sss>` only white space and comments, else 50 there (51 for a processing instruction)."
    fn tail(&mut self) -> Outcome<()> {
        self.gap()?;
        match self.peek() {
            None if self.bad => Err((50, self.end)),
            None => Ok(()),
            Some(_) if self.sees("<?") => Err((51, self.here())),
            Some(_) => Err((50, self.here())),
        }
    }
}

fn characters(said: &[Sign]) -> Vec<char> {
    said.iter().filter_map(|s| if let Sign::Is(c) = s { Some(*c) } else { None }).collect()
}

// ------------------------------------------------------------------------------------------------ the whole

fn read(file: &[u8]) -> Outcome<Survey> {
    if file.len() > 1_048_576 {
        return Err((1, 0));
    }
    let (latin, from) = declaration(file)?;
    let mut d = Document {
        r: Reader::new(file, from, latin),
        s: Survey { old: false, languages: false, standard: false, rows: Vec::new(), lines: Vec::new() },
    };
    d.doctype()?;
    d.root()?;
    d.r.tail()?;
    if d.s.standard {
        let mut met = BTreeSet::new();
        for v in &d.s.rows {
            let key: String = v.name.iter().map(|c| c.to_ascii_uppercase()).collect();
            let formed = (1..=8).contains(&v.name.len())
                && v.name[0].is_ascii_alphabetic()
                && v.name.iter().all(|c| c.is_ascii_alphanumeric());
            if !formed || !met.insert(key) {
                return Err((9, v.name_place));
            }
        }
    }
    Ok(d.s)
}

fn row(v: &Variable) -> [i64; ROW] {
    let (from, to) = v.range.unwrap_or((0, 0));
    [
        v.ident,
        v.kind as i64,
        v.start,
        v.finish,
        Document::width(v) as i64,
        v.decimals as i64,
        v.point,
        v.subfields,
        v.subwidth,
        i64::from(v.range.is_some()),
        from,
        to,
        v.before as i64,
        v.values.len() as i64,
        v.name_place as i64,
        v.name_length as i64,
        v.label_place as i64,
        v.label_length as i64,
        v.usage,
        v.filter,
    ]
}

/// Reads a definition in XML: number, place, variables, lines. A refusal keeps the table; what is beyond header, rows and lines is kept.
pub fn read_xml(file: &[u8], table: &mut [i64]) -> [i64; 4] {
    let s = match read(file) {
        Ok(s) => s,
        Err((number, place)) => return [number, place as i64, 0, 0],
    };
    let (v, e) = (s.rows.len(), s.lines.len());
    let least = s.rows.iter().map(|r| r.finish).max().unwrap_or(0);
    let header = [MARK, v as i64, e as i64, least, HEADER as i64, (HEADER + ROW * v) as i64];
    let numbers: Vec<i64> =
        header.into_iter().chain(s.rows.iter().flat_map(row)).chain(s.lines.iter().flatten().copied()).collect();
    if table.len() < numbers.len() {
        return [10, 0, 0, 0];
    }
    table[..numbers.len()].copy_from_slice(&numbers);
    [0, 0, v as i64, e as i64]
}

/// What a stretch of a definition says: content as of a label, whole; `None` is refusal 3. Bytes of UTF-8, 256 for a break.
pub fn decoded(file: &[u8], place: usize, length: usize) -> Option<Vec<i64>> {
    let end = place.checked_add(length).filter(|&e| e <= file.len())?;
    let latin = declaration(file).is_ok_and(|d| d.0);
    let mut r = Reader::new(&file[..end], place, latin);
    if r.bad {
        return None;
    }
    let mut said = Vec::new();
    while let Some(c) = r.peek() {
        match c {
            '&' => said.push(Sign::Is(r.reference().ok()?)),
            ']' if r.sees("]]>") => return None,
            '\r' => {
                r.at += if r.sees("\r\n") { 2 } else { 1 };
                said.push(Sign::Is('\n'));
            }
            '<' if r.sees("<!--") => r.comment().ok()?,
            '<' => match r.opened().ok()? {
                Opened::Start(name, o) if name == "br" => {
                    let tag = r.tag(o, &[]).ok()?;
                    if !tag.attributes.is_empty() || r.nothing_in("br", &tag).ok()?.is_some() {
                        return None;
                    }
                    said.push(Sign::Break);
                }
                Opened::Start(name, o) if name == "text" => {
                    let known: &[Known] = &[("xml:lang", true, any)];
                    let tag = r.tag(o, known).ok()?;
                    let inner = r.content("text", &tag, true, false).ok()?;
                    if !tag.unknown(known).is_empty() || !inner.charges.is_empty() || inner.cut.is_some() {
                        return None;
                    }
                }
                _ => return None,
            },
            x => {
                r.at += 1;
                said.push(Sign::Is(x));
            }
        }
    }
    let mut numbers = Vec::new();
    for s in said {
        match s {
            Sign::Break => numbers.push(256),
            Sign::Is(c) => numbers.extend(c.to_string().bytes().map(i64::from)),
        }
    }
    Some(numbers)
}
