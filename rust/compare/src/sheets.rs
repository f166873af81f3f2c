//! Definitions in XML, written at random: surveys that are good but for what chance brings, and damaged ones.

use crate::rng::Rng;

fn white(r: &mut Rng) -> &'static str {
    r.pick(&["", "", " ", "\n", "\r\n\t", "<!-- x - y -->", " <!---->\n"])
}

fn room(r: &mut Rng) -> &'static str {
    r.pick(&["", "", "", " ", "\n"])
}

/// Characters as they may stand in a text or a value, some by reference.
fn spelt(r: &mut Rng, s: &str) -> String {
    let mut out = String::new();
    for c in s.chars() {
        match (c, r.below(40)) {
            ('<', _) => out += "&lt;",
            ('&', _) => out += "&amp;",
            (c, 0) => out += &format!("&#{};", c as u32),
            (c, 1) => out += &format!("&#x{:X};", c as u32),
            (c, _) => out.push(c),
        }
    }
    out
}

fn attribute(r: &mut Rng, name: &str, value: &str) -> String {
    let q = r.pick(&["\"", "\"", "'"]);
    let (a, b, c) = (r.pick(&[" ", " ", "\n", "  "]), room(r), room(r));
    format!("{a}{name}{b}={c}{q}{}{q}", spelt(r, value).replace(q, "&#39;"))
}

/// A tag with its attributes in any order, and what it holds.
fn element(r: &mut Rng, name: &str, attributes: &[(&str, String)], inside: Option<String>) -> String {
    let mut list: Vec<&(&str, String)> = attributes.iter().collect();
    if r.once_in(3) {
        list.reverse();
    }
    let list: String = list.iter().map(|a| attribute(r, a.0, &a.1)).collect();
    let end = room(r);
    match inside {
        None if r.once_in(4) => format!("<{name}{list}{end}>{}</{name}{}>", white(r), room(r)),
        None => format!("<{name}{list}{end}/>"),
        Some(inside) => format!("<{name}{list}{end}>{inside}</{name}{}>", room(r)),
    }
}

fn words(r: &mut Rng) -> String {
    let n = r.below(4);
    (0..n).map(|_| r.pick(&["Ja", " und ", "n<o", "\u{e9}t\u{e9}", "\r\n", "a&b", "]]", "-", "\u{20ac}"])).collect()
}

struct Plan {
    old: bool,
    languages: bool,
    standard: bool,
    latin: bool,
}

/// A text with breaks, comments and language texts.
fn texts(r: &mut Rng, p: &Plan) -> String {
    let mut out = String::new();
    for _ in 0..r.below(4) {
        let said = words(r);
        let said = if p.latin { said.replace('\u{20ac}', "E") } else { said };
        out += &match r.below(8) {
            0 => element(r, "br", &[], None),
            1 => "<!--c-->".to_string(),
            2 if p.languages => {
                let inner = spelt(r, &said) + r.pick(&["", "<br/>", "<!--x-->"]);
                element(r, "text", &[("xml:lang", "fr".to_string())], Some(inner))
            }
            _ => spelt(r, &said),
        };
    }
    out
}

fn number(r: &mut Rng, decimals: usize, point: usize) -> String {
    let minus = if r.once_in(4) { "-" } else { "" };
    let whole = match point {
        2 => String::new(),
        _ => {
            let most = r.pick(&[10, 1000]);
            r.below(most).to_string()
        }
    };
    let rest: String = (0..decimals).map(|_| char::from(b'0' + r.below(10) as u8)).collect();
    let dot = if point > 0 { "." } else { "" };
    format!("{minus}{whole}{dot}{rest}")
}

/// Codes, places and sizes at the limits and beyond them, or of wrong form.
const CODES: &[&str] = &[
    "0",
    "00",
    "9999",
    "10000",
    "-1",
    "1.5",
    "+1",
    "1.",
    ".",
    "-",
    "",
    "x",
    "-0",
    "007",
    "999999999999999",
    "1000000000000000",
    "0.000000001",
    "0.0000000001",
    "-999999999999999",
    "1-1",
    "..5",
    "99999999999999999999",
];
const PLACES: &[&str] =
    &["0", "00", "16384", "16385", "007", "x", "", "-1", "99999999999999999999", "99999999999999999998", " 1"];
const SIZES: &[&str] = &["0", "4096", "4097", "", "x", " 1", "1 ", "00", "99999999999999999999"];

fn values(r: &mut Rng, p: &Plan, kind: usize) -> String {
    let point = if kind == 3 { r.below(3) } else { 0 };
    let decimals = if point > 0 { 1 + r.below(2) } else { 0 };
    let mut inside = white(r).to_string();
    let value = |r: &mut Rng| match r.below(40) {
        0 => r.pick(CODES).to_string(),
        _ if kind == 3 => number(r, decimals, point),
        _ => (1 + r.below(12)).to_string(),
    };
    let ranged = r.once_in(2);
    if ranged {
        let (a, b) = (value(r), value(r));
        inside += &element(r, "range", &[("from", a), ("to", b)], None);
        inside += white(r);
    }
    for _ in 0..usize::from(!ranged) + r.below(3) {
        let (code, text) = (value(r), texts(r, p));
        let text = if r.once_in(5) { None } else { Some(text) };
        inside += &element(r, "value", &[("code", code)], text);
        inside += white(r);
    }
    element(r, "values", &[], Some(inside))
}

fn variable(r: &mut Rng, p: &Plan, k: usize, logicals: &mut Vec<String>, at: &mut usize) -> String {
    let kind = 1 + r.below(5);
    let kinds = ["single", "multiple", "quantity", "character", "logical"];
    let ident = if r.once_in(30) { 1 } else { k + 1 };
    let mut attributes = vec![("ident", ident.to_string()), ("type", kinds[kind - 1].to_string())];
    if !p.old && (kind == 3 || kind == 4) && r.once_in(8) {
        let usage = if kind == 3 { r.pick(&["serial", "weight"]) } else { "serial" };
        attributes.push(("use", usage.to_string()));
    }
    let name =
        if r.once_in(12) { r.pick(&["Q1", "q1", "", "Q 1", "Langername9"]).to_string() } else { format!("Q{}", k + 1) };
    let mut inside = white(r).to_string();
    let text = spelt(r, &name);
    inside += &element(r, "name", &[], Some(text));
    inside += white(r);
    let label = texts(r, p);
    inside += &element(r, "label", &[], Some(label));
    inside += white(r);
    let width = 1 + r.below(14);
    let mut position = vec![("start", at.to_string())];
    if width > 1 {
        position.push(("finish", (*at + width - 1).to_string()));
    }
    *at += width;
    for end in &mut position {
        if r.once_in(30) {
            end.1 = r.pick(PLACES).to_string();
        }
    }
    inside += &element(r, "position", &position, None);
    inside += white(r);
    if !p.old && !logicals.is_empty() && r.once_in(4) {
        let which = r.below(logicals.len());
        let mut name = logicals[which].clone();
        if r.once_in(8) {
            name = name.to_lowercase();
        }
        let text = spelt(r, &name);
        inside += &element(r, "filter", &[], Some(text));
        inside += white(r);
    }
    match kind {
        2 => {
            if r.once_in(2) {
                let n = 1 + r.below(4);
                let mut a = vec![("subfields", n.to_string())];
                if r.once_in(2) {
                    a.push(("width", (1 + r.below(3)).to_string()));
                }
                for end in &mut a {
                    if r.once_in(12) {
                        end.1 = r.pick(PLACES).to_string();
                    }
                }
                inside += &element(r, "spread", &a, None);
            }
            inside += &values(r, p, kind);
        }
        4 => {
            let size = if r.once_in(8) { r.pick(SIZES).to_string() } else { (1 + r.below(width)).to_string() };
            let size = if r.once_in(6) { format!("0<!--x-->{size}") } else { spelt(r, &size) };
            inside += &element(r, "size", &[], Some(size));
        }
        5 => logicals.push(name),
        _ => inside += &values(r, p, kind),
    }
    inside += white(r);
    element(r, "variable", &attributes, Some(inside))
}

/// A survey that is good but for what chance brings: repeated idents and names, positions too narrow, ranges reversed.
pub fn survey(r: &mut Rng) -> Vec<u8> {
    let old = r.once_in(5);
    let p = Plan { old, languages: !old && r.once_in(2), standard: r.once_in(3), latin: r.once_in(4) };
    let mut record = white(r).to_string();
    let (mut logicals, mut at) = (Vec::new(), 1);
    for k in 0..1 + r.below(5) {
        record += &variable(r, &p, k, &mut logicals, &mut at);
        record += white(r);
    }
    let mut body = white(r).to_string();
    for name in ["date", "time", "origin", "user"] {
        if r.once_in(3) {
            let text = spelt(r, "a 1");
            body += &element(r, name, &[], Some(text));
            body += white(r);
        }
    }
    let mut inside = white(r).to_string();
    for name in ["name", "version"] {
        if !p.old && r.once_in(3) {
            inside += &element(r, name, &[], Some("x".to_string()));
        }
    }
    if r.once_in(2) {
        let title = texts(r, &p);
        inside += &element(r, "title", &[], Some(title));
    }
    let mut attributes = vec![("ident", "A".to_string())];
    if !p.old && r.once_in(4) {
        attributes.push(("href", "x.asc".to_string()));
    }
    inside += &element(r, "record", &attributes, Some(record));
    inside += white(r);
    body += &element(r, "survey", &[], Some(inside));
    body += white(r);
    let mut attributes = vec![("version", if p.old { "1.1" } else { "1.2" }.to_string())];
    if p.standard {
        attributes.push(("options", "standardnames".to_string()));
    }
    if p.languages {
        attributes.push(("languages", "en fr".to_string()));
    }
    let root = element(r, "sss", &attributes, Some(body));
    let declaration = match (p.latin, r.below(4)) {
        (true, 0) => "<?xml version='1.0' encoding='iso-8859-1' standalone='yes'?>",
        (true, _) => "<?xml version=\"1.0\" encoding=\"ISO-8859-1\"?>",
        (false, 0) => "",
        (false, 1) => "\u{feff}<?xml version = \"1.0\" encoding=\"utf-8\" ?>",
        (false, _) => "<?xml version=\"1.0\"?>",
    };
    let mut out = declaration.to_string();
    if !declaration.is_empty() {
        out += white(r);
        if r.once_in(2) {
            out += r.pick(&[
                "<!DOCTYPE sss SYSTEM \"a b\">",
                "<!DOCTYPE  sss PUBLIC '-//x//EN' \"sss.dtd\" >",
                "<!DOCTYPE sss PUBLIC \"p\"\n'q<>&'>",
            ]);
            out += white(r);
        }
    }
    out += &root;
    out += white(r);
    if p.latin { out.chars().map(|c| u8::try_from(c as u32).unwrap_or(b'?')).collect() } else { out.into_bytes() }
}

/// Bytes that matter to a reader.
const ODD: &[&[u8]] = &[
    b"<",
    b">",
    b"/",
    b"&",
    b";",
    b"\"",
    b"'",
    b"=",
    b"!",
    b"?",
    b"-",
    b"--",
    b"]",
    b"]]>",
    b"[",
    b" ",
    b"\t",
    b"x",
    b"0",
    b"9",
    b".",
    b"+",
    b"\0",
    b"\x7f",
    b"\xff",
    b"\xc3",
    b"\xe2\x82",
    b"\xed\xa0\x80",
    b"\xef\xbf\xbf",
    b"<!--",
    b"-->",
    b"<?p?>",
    b"<![CDATA[x]]>",
    b"<x>",
    b"</x>",
    b"<x y='1'/>",
    b"<x y=1>",
    b"<br/>",
    b"<br>",
    b"</br>",
    b"<br z=''/>",
    b"<text xml:lang='a'>",
    b"</text>",
    b"<text>",
    b"&#0;",
    b"&#1114112;",
    b"&#xD800;",
    b"&x;",
    b"&lt",
    b"&#x;",
    b"&#49;",
    b" y='1'",
    b" ident='2'",
    b" start='0'",
    b" code='1'",
    b" code='+1'",
    b" use='serial'",
    b" type='logical'",
    b"<name>",
    b"</name>",
    b"<filter>Q1</filter>",
    b"<values>",
    b"</values>",
    b"<range from='1' to='0'/>",
    b"<value code='1'/>",
    b"</variable>",
    b"<variable ident='77' type='logical'>",
    b"</sss>",
    b"</record>",
    b"<!DOCTYPE sss[",
    b"<!DOCTYPE",
    b"1.0",
    b"16385",
    b"99999999999999999999",
    b"0.5",
    b".5",
    b"version",
    b"\r\n",
    b"< ",
    b"</ ",
    b"</",
    b"/ >",
    b"\xef\xbb\xbf",
    b"standardnames",
    b"weight",
];

pub fn damaged(r: &mut Rng, file: &[u8]) -> Vec<u8> {
    let mut out = file.to_vec();
    for _ in 0..1 + r.below(2) {
        if out.is_empty() {
            return out;
        }
        let at = r.below(out.len());
        match r.below(9) {
            0 => out.truncate(at),
            1 => {
                out.remove(at);
            }
            2 => out[at] = r.next() as u8,
            3 | 4 => {
                let odd = r.pick(ODD);
                out.splice(at..at, odd.iter().copied());
            }
            5 => {
                let odd = r.pick(ODD);
                let end = (at + odd.len()).min(out.len());
                out.splice(at..end, odd.iter().copied());
            }
            6 => token(r, &mut out, at),
            7 => {
                let (from, to) = (r.below(out.len()), r.below(12));
                let piece = out[from..(from + to).min(out.len())].to_vec();
                out.splice(at..at, piece);
            }
            _ => {
                // At a place where a tag begins or ends.
                let places: Vec<usize> = (0..out.len()).filter(|&k| out[k] == b'<' || out[k] == b'>').collect();
                if !places.is_empty() {
                    let at = r.pick(&places) + r.below(2);
                    let odd = r.pick(ODD);
                    out.splice(at..at, odd.iter().copied());
                }
            }
        }
    }
    out
}

/// A whole tag is taken out, doubled, or put elsewhere.
fn token(r: &mut Rng, out: &mut Vec<u8>, at: usize) {
    let Some(from) = (0..=at).rev().find(|&k| out[k] == b'<') else { return };
    let Some(to) = (from..out.len()).find(|&k| out[k] == b'>') else { return };
    let tag: Vec<u8> = out[from..=to].to_vec();
    match r.below(3) {
        0 => {
            out.splice(from..=to, []);
        }
        1 => {
            out.splice(from..from, tag);
        }
        _ => {
            out.splice(from..=to, []);
            let places: Vec<usize> = (0..out.len()).filter(|&k| out[k] == b'<').collect();
            let elsewhere = if places.is_empty() { 0 } else { r.pick(&places) };
            out.splice(elsewhere..elsewhere, tag);
        }
    }
}
