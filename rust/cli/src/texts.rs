//! Bytes as people see them. Data and 1.1 definitions are bytes; those from 160 on are shown as Latin-1, in UTF-8. What a definition in
//! XML says is UTF-8. What no terminal should get (controls, 127 to 159) is escaped. `--raw` gives the bytes.

use zarfolin::{RawText, Text};

/// One sign, shown.
fn push_shown(sign: char, out: &mut String) {
    match sign {
        ' '..='~' | '\u{a0}'.. => out.push(sign),
        _ => out.push_str(&format!("\\x{:02X}", u32::from(sign))),
    }
}

/// Bytes as signs: each the sign of its number.
fn latin(bytes: &[u8]) -> String {
    bytes.iter().map(|&byte| byte as char).collect()
}

/// Bytes of the data, shown.
pub fn shown(bytes: &[u8]) -> String {
    shown_text(&latin(bytes))
}

/// Signs, shown.
pub fn shown_text(text: &str) -> String {
    let mut out = String::with_capacity(text.len());
    text.chars().for_each(|sign| push_shown(sign, &mut out));
    out
}

/// Each sign as just one that can be shown, for a caret below it.
pub fn one_sign_each(text: &str) -> String {
    let sign = |sign| match sign {
        '\t' => ' ',
        ' '..='~' | '\u{a0}'.. => sign,
        _ => '\u{b7}',
    };
    text.chars().map(sign).collect()
}

/// For a field of TSV: no tab, no line end, nothing that is not said by an escape.
pub fn tsv(bytes: &[u8]) -> String {
    tsv_text(&latin(bytes))
}

/// The same of signs.
pub fn tsv_text(text: &str) -> String {
    let mut out = String::with_capacity(text.len());
    for sign in text.chars() {
        match sign {
            '\t' => out.push_str("\\t"),
            '\n' => out.push_str("\\n"),
            '\r' => out.push_str("\\r"),
            '\\' => out.push_str("\\\\"),
            _ => push_shown(sign, &mut out),
        }
    }
    out
}

/// The bytes of a text that was decoded, a LF for each break, as signs.
fn signs(text: Text, utf8: bool) -> String {
    let bytes: Vec<u8> = text.bytes(b'\n').collect();
    if utf8 { String::from_utf8_lossy(&bytes).into_owned() } else { latin(&bytes) }
}

/// A text of a definition, decoded by the library: its signs, with a LF for each break. A text of a table that was read is never
/// refused, so what would be is shown empty.
pub fn decoded(text: RawText) -> String {
    let mut list = vec![0; text.most()];
    let utf8 = text.is_utf8();
    text.decode(&mut list).map(|text| signs(text, utf8)).unwrap_or_default()
}

/// The same on one line for people: ` / ` for each break, and in XML a space for the end of a line of the file.
pub fn decoded_line(text: RawText) -> String {
    let mut list = vec![0; text.most()];
    let utf8 = text.is_utf8();
    let Ok(text) = text.decode(&mut list) else { return String::new() };
    let line = |part: Text| {
        let part = signs(part, utf8);
        shown_text(&if utf8 { part.split_whitespace().collect::<Vec<_>>().join(" ") } else { part })
    };
    text.lines().map(line).collect::<Vec<_>>().join(" / ")
}

/// A word of the command line as bytes of the data: each of its signs up to 255 is one byte, the inverse of what is shown.
pub fn bytes_of(word: &str) -> Option<Vec<u8>> {
    word.chars().map(|sign| u8::try_from(u32::from(sign)).ok()).collect()
}

/// A count with commas between thousands.
pub fn count(n: u64) -> String {
    let digits = n.to_string();
    let mut out = String::new();
    for (i, digit) in digits.chars().enumerate() {
        if i > 0 && (digits.len() - i) % 3 == 0 {
            out.push(',');
        }
        out.push(digit);
    }
    out
}

/// A count and its word.
pub fn counted(n: u64, one: &str, many: &str) -> String {
    format!("{} {}", count(n), if n == 1 { one } else { many })
}

#[cfg(test)]
mod tests {
    use super::*;

    #[test]
    fn bytes_are_latin_1_and_controls_are_escaped() {
        assert_eq!(shown(b"a\t\xfc\x7f\x9f\xa0~"), "a\\x09\u{fc}\\x7F\\x9F\u{a0}~");
        assert_eq!(one_sign_each("a\t\u{fc}\0\u{20ac}"), "a \u{fc}\u{b7}\u{20ac}");
        assert_eq!(tsv(b"a\tb\\\n\r\x1b"), "a\\tb\\\\\\n\\r\\x1B");
        assert_eq!(bytes_of("M\u{fc}"), Some(b"M\xfc".to_vec()));
        assert_eq!(bytes_of("\u{20ac}"), None);
    }

    #[test]
    fn thousands() {
        assert_eq!([0, 999, 1000, 10240, 1_234_567].map(count).join(" "), "0 999 1,000 10,240 1,234,567");
        assert_eq!(
            (counted(1, "record", "records"), counted(0, "record", "records")),
            ("1 record".into(), "0 records".into())
        );
    }
}
