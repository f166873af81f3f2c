//! A definition with its names and labels decoded, and how a variable is found by what a user calls it. The library knows a variable
//! by its row alone. Here a row is `@3`, an ident `203`; a name will do where just one variable has it, since two may share one.

use crate::texts;
use crate::values::scaled;
use zarfolin::{Definition, Kind, Variable};

pub struct Codebook<'a> {
    pub definition: &'a Definition<'a>,
    names: Vec<String>,
}

impl<'a> Codebook<'a> {
    pub fn new(definition: &'a Definition<'a>) -> Codebook<'a> {
        let names = definition.variables().map(|variable| texts::decoded(variable.name())).collect();
        Codebook { definition, names }
    }

    /// A variable's decoded name, a LF for each break.
    pub fn name(&self, row: usize) -> &str {
        &self.names[row]
    }

    /// `variable 203 "wait" (Minutes waited)`
    pub fn called(&self, variable: &Variable) -> String {
        let label = texts::decoded_line(variable.label());
        let label = if label.is_empty() { label } else { format!(" ({label})") };
        format!("variable {} \"{}\"{label}", variable.ident(), texts::decoded_line(variable.name()))
    }

    /// The variable that a word means, or why it means none.
    pub fn find(&self, word: &str) -> Result<Variable<'a>, String> {
        let variables = || self.definition.variables();
        if let Some(row) = word.strip_prefix('@') {
            let found = row.parse().ok().and_then(|row| self.definition.variable(row));
            return found.ok_or_else(|| format!("{word}: the rows are @0 to @{}", variables().len() - 1));
        }
        if !word.is_empty() && word.bytes().all(|b| b.is_ascii_digit()) {
            let found = word.parse().ok().and_then(|ident: u16| variables().find(|variable| variable.ident() == ident));
            return found.ok_or_else(|| format!("no variable has the ident {word}"));
        }
        let found: Vec<_> = variables().filter(|v| word == self.name(v.row())).collect();
        match found[..] {
            [one] => Ok(one),
            [] => Err(format!("no variable has the name \"{word}\"")),
            _ => {
                let rows: Vec<_> = found.iter().map(|v| format!("@{} (ident {})", v.row(), v.ident())).collect();
                Err(format!(
                    "{} variables have the name \"{word}\": say which by its row: {}",
                    found.len(),
                    rows.join(", ")
                ))
            }
        }
    }
}

/// What a field may hold, from the table.
pub fn expected(variable: &Variable) -> String {
    let legal = || legal_values(variable);
    match variable.kind() {
        Kind::Single | Kind::Quantity { .. } => legal(),
        Kind::Bits => "0 or 1 for each category".into(),
        Kind::Spread { subfields, .. } => format!("at most {subfields} of {}", legal()),
        Kind::Character => "bytes from 32 on".into(),
        _ => "0 or 1".into(),
    }
}

/// What a field of comma-separated text may hold, besides nothing.
pub fn expected_in_text(variable: &Variable) -> String {
    let legal = || legal_values(variable);
    match variable.kind() {
        Kind::Bits => format!("none, or codes of {}, rising, with ; between them", legal()),
        Kind::Spread { subfields, .. } => {
            format!("none, or at most {subfields} codes of {}, rising, with ; between them", legal())
        }
        Kind::Character => format!("at most {} bytes, from 32 on, with no space at the end", variable.width()),
        _ => expected(variable),
    }
}

/// `0.0 to 99.5`, `1, 2 or 10`, `-50.00 to 250.00 or 999.99`
fn legal_values(variable: &Variable) -> String {
    const MOST: usize = 8;
    let decimals = decimals(variable);
    let range = variable.range().map(|r| format!("{} to {}", scaled(*r.start(), decimals), scaled(*r.end(), decimals)));
    let lines = variable.values().map(|line| scaled(line.number, decimals));
    let mut all: Vec<String> = range.into_iter().chain(lines).collect();
    if all.len() > MOST {
        let rest = all.len() - MOST + 1;
        all.truncate(MOST - 1);
        return format!("{} or one of {rest} others", all.join(", "));
    }
    match all.pop() {
        Some(last) if !all.is_empty() => format!("{} or {last}", all.join(", ")),
        last => last.unwrap_or_default(),
    }
}

/// The decimals of a variable's numbers.
pub fn decimals(variable: &Variable) -> u32 {
    match variable.kind() {
        Kind::Quantity { decimals, .. } => decimals,
        _ => 0,
    }
}

#[cfg(test)]
mod tests {
    use super::*;

    const TEXT: &[u8] = b"SSS VERSION 1.1 SURVEY RECORD R
        VARIABLE 7 NAME \"a\" LABEL \"\" TYPE LOGICAL POSITION 1 END VARIABLE
        VARIABLE 2 NAME \"twice\" LABEL \"x{NL}y\" TYPE SINGLE POSITION 2 VALUES 1 \"p\" 2 \"q\" END VALUES END VARIABLE
        VARIABLE 3 NAME \"twice\" LABEL \"z\" TYPE QUANTITY POSITION 3 TO 6 VALUES 0.5 TO 9.5 WITH 99.5 \"no\" END VALUES END VARIABLE
        END RECORD END SURVEY END SSS";

    #[test]
    fn a_name_that_two_share_finds_neither() {
        let definition = Definition::read(TEXT).unwrap();
        let book = Codebook::new(&definition);
        let row = |word| book.find(word).map(|variable| variable.row());
        assert_eq!([row("7"), row("@2"), row("a")], [Ok(0), Ok(2), Ok(0)]);
        let said = "2 variables have the name \"twice\": say which by its row: @1 (ident 2), @2 (ident 3)";
        assert_eq!(row("twice"), Err(said.into()));
        for none in ["0", "@3", "@", "A", "", "99999", "\u{20ac}"] {
            assert!(row(none).is_err(), "{none}");
        }
    }

    #[test]
    fn what_a_field_may_hold() {
        let definition = Definition::read(TEXT).unwrap();
        let said: Vec<_> = definition.variables().map(|v| expected(&v)).collect();
        assert_eq!(said, ["0 or 1", "1 or 2", "0.5 to 9.5 or 99.5"]);
        let called = Codebook::new(&definition).called(&definition.variable(1).unwrap());
        assert_eq!(called, "variable 2 \"twice\" (x / y)");
    }
}
