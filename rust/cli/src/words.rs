//! Faults in words, for people: where, which variable, which bytes, what is wrong, what would be right, and the rule's number.

use crate::codebook::{Codebook, decimals, expected};
use crate::excerpt::Spot;
use crate::faults::Fault;
use crate::printer::Paint;
use crate::texts;
use crate::values::scaled;
use zarfolin::{DefinitionError, Refusal, Shape, Variable};

/// What messages about a data file need to know of it.
pub struct Data<'a> {
    pub name: &'a str,
    pub book: &'a Codebook<'a>,
    pub shape: Option<Shape>,
}

impl Data<'_> {
    /// One or two lines.
    pub fn fault(&self, fault: &Fault, paint: Paint) -> String {
        let record = format!("{}: record {}", self.name, texts::count(fault.record));
        let variable = fault.row.and_then(|row| self.book.definition.variable(row));
        match variable {
            Some(variable) => {
                let place = format!("{record}, {}, {}", self.book.called(&variable), columns(&variable));
                let field = field(fault);
                let wrong =
                    paint.wrong(&field_fault(&variable, fault.refusal, fault.place.zip(fault.byte), fault.number));
                format!("{}: `{field}`\n    {wrong}; expected {}", paint.place(&place), expected(&variable))
            }
            None => format!("{}: {}", paint.place(&record), paint.wrong(&self.record_fault(fault))),
        }
    }

    /// What is wrong with a record that is no fault of a field.
    pub fn record_fault(&self, fault: &Fault) -> String {
        let length = texts::counted(fault.length as u64, "byte", "bytes");
        match fault.refusal {
            Refusal::Short => {
                let least = texts::count(self.book.definition.record_length() as u64);
                format!("the record has {length} and its definition needs {least} [22]")
            }
            Refusal::LowByte => {
                let (column, byte) = (fault.place.map_or(0, |place| place + 1), quoted(fault.byte.unwrap_or_default()));
                format!("the byte {byte} in column {column} is below 32 [23]")
            }
            Refusal::Length => {
                let first = self.shape.map_or("?".into(), |shape| texts::count(shape.first as u64));
                format!("the record has {length}, the first record has {first} [31]")
            }
            other => other.to_string(),
        }
    }
}

/// What is wrong with a field: at a place where a byte stands, or with its number.
pub fn field_fault(variable: &Variable, refusal: Refusal, at: Option<(usize, u8)>, number: Option<i64>) -> String {
    let (column, byte) = at.map_or((0, 0), |(place, byte)| (place + 1, byte));
    let told = refusal.number();
    match (refusal, number) {
        (Refusal::Stray, _) => format!("the byte {} in column {column} cannot stand there [{told}]", quoted(byte)),
        // A point is at fault only where it is not at its place.
        (Refusal::Point, _) if byte == b'.' => {
            format!("the decimal point in column {column} is not at its place [{told}]")
        }
        (Refusal::Point, _) => {
            format!("a decimal point was due in column {column}, where {} stands [{told}]", quoted(byte))
        }
        (Refusal::NotLegal, Some(number)) => {
            format!("{} is not a legal value [{told}]", scaled(number, decimals(variable)))
        }
        (other, _) => other.to_string(),
    }
}

/// The byte as it is shown between quotes.
fn quoted(byte: u8) -> String {
    if byte == b' ' { "` ` (a space)".into() } else { format!("`{}`", texts::shown(&[byte])) }
}

fn field(fault: &Fault) -> String {
    let dots = |cut| if cut { ".." } else { "" };
    format!("{}{}{}", dots(fault.field.cut.0), texts::shown(&fault.field.bytes), dots(fault.field.cut.1))
}

/// `columns 57-61`, `column 3`
pub fn columns(variable: &Variable) -> String {
    let columns = variable.columns();
    match (*columns.start(), *columns.end()) {
        (start, end) if start == end => format!("column {start}"),
        (start, end) => format!("columns {start}-{end}"),
    }
}

/// Why a definition is refused: line and column, what, and the line itself.
pub fn definition(name: &str, text: &[u8], error: &DefinitionError, paint: Paint) -> String {
    if matches!(error.refusal, Refusal::TooLong | Refusal::TableRoom) {
        return format!("{}: {}", paint.place(name), paint.wrong(&error.refusal.to_string()));
    }
    let spot = Spot::of(text, error.place);
    let [line, caret] = spot.picture();
    let place = paint.place(&format!("{name}:{}:{}", spot.line, spot.column));
    let (before, mark) = caret.split_at(caret.len() - 1);
    format!("{place}: {}\n{line}\n{before}{}", paint.wrong(&error.refusal.to_string()), paint.well(mark))
}
