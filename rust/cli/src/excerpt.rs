//! Where a place of a definition is, for people: line, column, and the line itself with a caret below.

use crate::texts;

/// A place of a text. What is at fault is a byte; where the text is a definition in XML whose line is UTF-8, its signs are shown and
/// counted.
#[derive(Debug, PartialEq, Eq)]
pub struct Spot {
    /// From 1.
    pub line: usize,
    /// Signs, from 1: bytes but in XML.
    pub column: usize,
    /// The line's bytes around it.
    excerpt: String,
    /// Signs of the excerpt before it.
    before: usize,
}

/// The most signs of a line that are shown before and behind the place.
const AROUND: usize = 60;

impl Spot {
    /// Lines end in LF, CR LF or CR. (To the library they are bytes that are dropped; people count lines.)
    pub fn of(text: &[u8], place: usize) -> Spot {
        let place = place.min(text.len());
        let ends = |at: usize| text[at] == b'\n' || (text[at] == b'\r' && text.get(at + 1) != Some(&b'\n'));
        let start = (0..place).rev().find(|&at| ends(at)).map_or(0, |at| at + 1);
        let line = 1 + (0..start).filter(|&at| ends(at)).count();
        let end = text[place..].iter().position(|&b| b == b'\r' || b == b'\n').map_or(text.len(), |n| place + n);
        let signs = |bytes: &[u8]| bytes.iter().map(|&byte| byte as char).collect::<Vec<char>>();
        let (mut before, mut behind) = (signs(&text[start..place]), signs(&text[place..end]));
        if is_xml(text)
            && let (Ok(left), Ok(right)) =
                (std::str::from_utf8(&text[start..place]), std::str::from_utf8(&text[place..end]))
        {
            (before, behind) = (left.chars().collect(), right.chars().collect());
        }
        let column = before.len() + 1;
        let (left, right) = (before.len().saturating_sub(AROUND), behind.len().min(AROUND));
        let dots = |cut: bool| if cut { ".." } else { "" };
        let shown: String = before[left..].iter().chain(&behind[..right]).collect();
        let excerpt = format!("{}{}{}", dots(left > 0), texts::one_sign_each(&shown), dots(right < behind.len()));
        Spot { line, column, excerpt, before: dots(left > 0).len() + before.len() - left }
    }

    /// Two lines: the excerpt behind its line's number, and the caret.
    pub fn picture(&self) -> [String; 2] {
        let number = self.line.to_string();
        let margin = " ".repeat(number.len());
        [format!("    {number} | {}", self.excerpt), format!("    {margin} | {}^", " ".repeat(self.before))]
    }
}

/// Whether the text would be read as XML: for how it is shown alone.
fn is_xml(text: &[u8]) -> bool {
    let text = text.strip_prefix(b"\xef\xbb\xbf").unwrap_or(text);
    text.starts_with(b"<?xml") || text.starts_with(b"<sss")
}

#[cfg(test)]
mod tests {
    use super::*;

    #[test]
    fn signs_of_xml_are_counted() {
        let text = "<sss>\n<a>M\u{fc}nchen \u{20ac}?</a>".as_bytes();
        let place = text.iter().position(|&byte| byte == b'?').unwrap();
        let spot = Spot::of(text, place);
        assert_eq!((spot.line, spot.column), (2, 13));
        assert_eq!(spot.picture(), ["    2 | <a>M\u{fc}nchen \u{20ac}?</a>", "      |             ^"]);
        // A byte that is no UTF-8, and a 1.1 definition: bytes.
        assert_eq!(Spot::of(b"<sss>\xfc?", 6).column, 7);
        assert_eq!(Spot::of("SSS \u{fc}?".as_bytes(), 6).column, 7);
    }

    #[test]
    fn lines_end_three_ways() {
        let text = b"one\r\ntwo\rthree\n\nfive";
        let spots = [0, 2, 5, 9, 15, 16, 20].map(|place| (Spot::of(text, place).line, Spot::of(text, place).column));
        assert_eq!(spots, [(1, 1), (1, 3), (2, 1), (3, 1), (4, 1), (5, 1), (5, 5)]);
        assert_eq!(Spot::of(text, 11).picture(), ["    3 | three", "      |   ^"]);
        assert_eq!(Spot::of(text, 99).picture(), ["    5 | five", "      |     ^"]);
        assert_eq!(Spot::of(b"", 0).picture(), ["    1 | ", "      | ^"]);
    }

    #[test]
    fn a_long_line_is_cut() {
        let text = [b'x'; 1000];
        let [line, caret] = Spot::of(&text, 500).picture();
        assert_eq!((line.len(), caret.len()), (8 + 2 + 2 * AROUND + 2, 8 + 2 + AROUND + 1));
    }
}
