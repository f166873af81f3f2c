//! A decoded text of a definition.

/// A sign of a decoded text.
#[derive(Clone, Copy, Debug, PartialEq, Eq)]
pub enum Sign {
    /// A byte, in the character set of the file. `{0A}` is byte 10.
    Byte(u8),
    /// A new line, written `{NL}`: no byte, and equal to none.
    Break,
}

/// A decoded text: its signs, as the library left them in a lent list.
#[derive(Clone, Copy, Debug, PartialEq, Eq)]
pub struct Text<'a>(&'a [i64]);

impl<'a> Text<'a> {
    #[cfg(any(feature = "ffi", test))]
    pub(crate) fn of(numbers: &'a [i64]) -> Text<'a> {
        Text(numbers)
    }

    /// How many signs it has.
    pub fn len(self) -> usize {
        self.0.len()
    }

    /// Whether it has none.
    pub fn is_empty(self) -> bool {
        self.0.is_empty()
    }

    /// Its signs in order.
    pub fn signs(self) -> impl DoubleEndedIterator<Item = Sign> + ExactSizeIterator + Clone + 'a {
        self.0.iter().map(|&n| u8::try_from(n).map_or(Sign::Break, Sign::Byte))
    }

    /// Its bytes, with this one for each break.
    pub fn bytes(self, line: u8) -> impl DoubleEndedIterator<Item = u8> + ExactSizeIterator + Clone + 'a {
        self.0.iter().map(move |&n| u8::try_from(n).unwrap_or(line))
    }

    /// Its lines: what stands between the breaks.
    pub fn lines(self) -> impl Iterator<Item = Text<'a>> + Clone + 'a {
        self.0.split(|&n| n == 256).map(Text)
    }
}

#[cfg(test)]
mod tests {
    use super::*;

    #[test]
    fn a_break_is_no_byte() {
        let text = Text::of(&[97, 256, 10, 255]);
        assert_eq!(text.len(), 4);
        assert!(text.signs().eq([Sign::Byte(97), Sign::Break, Sign::Byte(10), Sign::Byte(255)]));
        assert!(text.bytes(b' ').eq([97, 32, 10, 255]));
        assert!(text.lines().map(Text::len).eq([1, 2]));
        assert!(Text::of(&[]).is_empty());
    }
}
