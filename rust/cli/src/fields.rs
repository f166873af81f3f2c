//! Where a field of comma-separated text stands, for messages: the library names its line and column, people want to see it.

/// What stands around a field of a text.
#[derive(Clone, Copy, Debug, PartialEq, Eq)]
pub struct Field<'a> {
    /// Its bytes as they stand, quotes with them, up to a comma or a line end outside quotes.
    pub bytes: &'a [u8],
    /// What stands behind it.
    pub behind: &'a [u8],
}

/// The field of that line and column, both from 1, if the text has one. A line end inside quotes ends no line.
pub fn find(text: &[u8], line: u64, column: u64) -> Option<Field<'_>> {
    let mut rest = text;
    for _ in 1..line {
        while next(&mut rest)?.behind.starts_with(b",") {
            rest = &rest[1..];
        }
        rest = rest.strip_prefix(b"\r\n")?;
    }
    for _ in 1..column {
        next(&mut rest)?;
        rest = rest.strip_prefix(b",")?;
    }
    next(&mut rest)
}

/// The field that stands first, left out of `rest`. A quote opens and closes wherever it stands, so that two are none.
fn next<'a>(rest: &mut &'a [u8]) -> Option<Field<'a>> {
    let mut quoted = false;
    let end = rest.iter().position(|&byte| {
        quoted ^= byte == b'"';
        !quoted && matches!(byte, b',' | b'\r' | b'\n')
    });
    let (bytes, behind) = rest.split_at(end.unwrap_or(rest.len()));
    *rest = behind;
    Some(Field { bytes, behind })
}

/// A column as spreadsheets name it: A to Z, AA and on.
pub fn letters(column: u64) -> String {
    let mut left = column;
    let mut letters = Vec::new();
    while left > 0 {
        letters.push(b'A' + ((left - 1) % 26) as u8);
        left = (left - 1) / 26;
    }
    letters.iter().rev().map(|&letter| letter as char).collect()
}

#[cfg(test)]
mod tests {
    use super::*;

    #[test]
    fn a_field_is_found_by_line_and_column() {
        let text = b"a,\"b\r\nc\"\r\n\"x, \"\"y\"\"\",2\r\n,\"open";
        let found = |line, column| find(text, line, column).map(|field| field.bytes);
        assert_eq!(found(1, 2), Some(&b"\"b\r\nc\""[..]));
        assert_eq!([found(2, 1), found(2, 2)], [Some(&b"\"x, \"\"y\"\"\""[..]), Some(b"2")]);
        assert_eq!([found(3, 1), found(3, 2), found(3, 3)], [Some(&b""[..]), Some(b"\"open"), None]);
        assert_eq!((found(4, 1), found(2, 3)), (None, None));
        assert_eq!(find(b"a,b\nc", 1, 2), Some(Field { bytes: b"b", behind: b"\nc" }));
    }

    #[test]
    fn columns_have_letters() {
        assert_eq!([1, 26, 27, 52, 53, 512, 703].map(letters).join(" "), "A Z AA AZ BA SR AAA");
    }
}
