//! Values between the library's numbers and what people write: `12.50` is 1250 with two decimals, `1;4` a set, nothing is missing.

use crate::codebook::decimals;
use crate::texts;
use zarfolin::{Kind, Value, Variable};

/// A scaled number with its point.
pub fn scaled(number: i64, decimals: u32) -> String {
    if decimals == 0 {
        return number.to_string();
    }
    let sign = if number < 0 { "-" } else { "" };
    let unit = 10u64.pow(decimals);
    let size = number.unsigned_abs();
    format!("{sign}{}.{:0width$}", size / unit, size % unit, width = decimals as usize)
}

/// A value as people read it; texts as they are shown. `none` is the empty set, and missing is empty.
pub fn shown(variable: &Variable, value: &Value) -> String {
    match value {
        Value::Missing => String::new(),
        Value::Number(number) => scaled(*number, decimals(variable)),
        Value::Set([]) => "none".into(),
        Value::Set(codes) => codes.iter().map(i64::to_string).collect::<Vec<_>>().join(";"),
        Value::Text(text) => texts::shown(text),
        Value::Truth(truth) => u8::from(*truth).to_string(),
    }
}

/// A value that a user gives, in memory of its own.
#[derive(Clone, Debug, PartialEq, Eq)]
pub enum Wanted {
    Missing,
    Number(i64),
    Set(Vec<i64>),
    Text(Vec<u8>),
    Truth(bool),
}

impl Wanted {
    /// What a word means for a variable of this kind. Whether it is legal there is the library's to say: a word that is no number
    /// is given to it as the text that it is, and refused as one.
    pub fn of(variable: &Variable, word: &str) -> Result<Wanted, String> {
        if word.is_empty() {
            return Ok(Wanted::Missing);
        }
        let number = match variable.kind() {
            Kind::Single => word.parse().ok().map(Wanted::Number),
            Kind::Quantity { decimals, .. } => number(word, decimals)?.map(Wanted::Number),
            Kind::Bits | Kind::Spread { .. } => codes(word).map(Wanted::Set),
            Kind::Logical => match word {
                "0" => Some(Wanted::Truth(false)),
                "1" => Some(Wanted::Truth(true)),
                _ => word.parse().ok().map(Wanted::Number),
            },
            _ => None,
        };
        match number {
            Some(value) => Ok(value),
            None => texts::bytes_of(word)
                .map(Wanted::Text)
                .ok_or_else(|| format!("\"{word}\" has a sign that is no byte of the data")),
        }
    }

    /// For the library.
    pub fn value(&self) -> Value<'_> {
        match self {
            Wanted::Missing => Value::Missing,
            Wanted::Number(number) => Value::Number(*number),
            Wanted::Set(codes) => Value::Set(codes),
            Wanted::Text(bytes) => Value::Text(bytes),
            Wanted::Truth(truth) => Value::Truth(*truth),
        }
    }
}

/// A number scaled by the decimals; nothing where the word is none. One with more decimals can't be had.
fn number(word: &str, decimals: u32) -> Result<Option<i64>, String> {
    let digits = word.strip_prefix('-').unwrap_or(word);
    let (whole, part) = digits.split_once('.').unwrap_or((digits, ""));
    let numeric = |text: &str| text.bytes().all(|b| b.is_ascii_digit());
    if (whole.is_empty() && part.is_empty()) || !numeric(whole) || !numeric(part) {
        return Ok(None);
    }
    let width = decimals as usize;
    if part.len() > width && part[width..].bytes().any(|b| b != b'0') {
        return Err(format!("{word} has more than {decimals} decimals, which is what the variable has"));
    }
    let part: String = part.chars().chain(std::iter::repeat('0')).take(width).collect();
    let sign = if word.starts_with('-') { "-" } else { "" };
    Ok(format!("{sign}{whole}{part}").parse().ok())
}

/// Codes between semicolons, in the order given; `none` is the empty set.
fn codes(word: &str) -> Option<Vec<i64>> {
    if word == "none" { Some(Vec::new()) } else { word.split(';').map(|code| code.parse().ok()).collect() }
}

#[cfg(test)]
mod tests {
    use super::*;

    #[test]
    fn numbers_have_their_point() {
        let said = [(1250, 2), (-5, 2), (0, 1), (-1000, 3), (7, 0)].map(|(n, d)| scaled(n, d));
        assert_eq!(said, ["12.50", "-0.05", "0.0", "-1.000", "7"]);
    }

    #[test]
    fn numbers_are_scaled() {
        for (word, decimals, due) in
            [("12.5", 2, 1250), ("-.05", 2, -5), ("7", 1, 70), ("1.", 0, 1), ("1.500", 1, 15), ("007", 0, 7)]
        {
            assert_eq!(number(word, decimals), Ok(Some(due)), "{word}");
        }
        for word in ["", "-", ".", "+1", "1e3", "1,5", "--1", "99999999999999999999"] {
            assert_eq!(number(word, 0), Ok(None), "{word}");
        }
        assert!(number("12.505", 2).is_err());
    }

    #[test]
    fn sets_keep_the_order_given() {
        assert_eq!(
            (codes("1;4"), codes("4;1"), codes("none"), codes("1;")),
            (Some(vec![1, 4]), Some(vec![4, 1]), Some(vec![]), None)
        );
    }
}
