//! `import DEF CSV`: comma-separated text, as `export` writes it and a spreadsheet gives it back, as records. The library builds them in
//! one call, so text and records are held in memory. A text that is refused is told by its first faulty line, and nothing is written.

use super::{Command, OUTPUT, Text, output_is_standard, print, words};
use crate::args::Given;
use crate::codebook::{Codebook, expected_in_text};
use crate::faults::ruled_out;
use crate::fields;
use crate::input::Input;
use crate::output::Output;
use crate::printer::Paint;
use crate::status::{Failure, Outcome, Status};
use crate::texts;
use std::io::{IsTerminal, Write};
use zarfolin::{Definition, ImportFault, Refusal};

pub const COMMAND: Command = Command {
    name: "import",
    usage: "DEF CSV -o OUT",
    summary: "build records from comma-separated text as export writes it, corrected in a spreadsheet",
    options: &[OUTPUT],
    run,
};

/// The most bytes of text, and of records, that are held.
const MOST: usize = 4 << 30;
/// The most bytes of a field that a message shows.
const SHOWN: usize = 60;

fn run(given: &Given) -> Outcome {
    let [definition, path] = words(given)?;
    let to = given.value(OUTPUT.long).ok_or_else(|| Failure::Usage("-o OUT is due".into()))?;
    let text = Text::open(definition)?;
    let mut input = Input::open(path)?;
    let csv = input.up_to(MOST + 1)?;
    if csv.len() > MOST {
        return Err(Failure::Input(format!("{}: longer than {} bytes", input.name, texts::count(MOST as u64))));
    }
    let Some(definition) = text.definition() else { return Ok(Status::Definition) };
    // Each record comes of a line, and each line ends in LF.
    let lines = csv.iter().filter(|&&byte| byte == b'\n').count();
    let mut bytes = vec![0; MOST.min(lines.saturating_mul(definition.record_length() + 2))];
    let imported = match definition.import(&csv, &mut bytes) {
        Ok(imported) => imported,
        Err(fault) => return told(&definition, &text, &input.name, &csv, fault),
    };
    let mut out = Output::create(to, &[&text.input, &input])?;
    out.write(&bytes[..imported.length])?;
    out.commit()?;
    if output_is_standard(given) {
        return Ok(Status::Done);
    }
    let records = texts::counted(imported.records, "record", "records");
    print(&format!("{}: {records}, {} bytes.", input.name, texts::count(imported.length as u64)))
}

/// Why nothing was built.
fn told(definition: &Definition, text: &Text, name: &str, csv: &[u8], fault: ImportFault) -> Outcome {
    let paint = Paint::of(std::io::stderr().is_terminal());
    let said = match fault.refusal {
        // Two variables share a byte: no text can mend that.
        Refusal::Shared => {
            let _ = writeln!(std::io::stderr(), "{}: {}", text.input.name, fault.refusal);
            return Ok(Status::Definition);
        }
        Refusal::ExportRoom => {
            let most = texts::count(MOST as u64);
            return Err(Failure::Output(format!("{name}: the records would be longer than {most} bytes")));
        }
        Refusal::Malformed | Refusal::NameLine | Refusal::Fields | Refusal::Field => {
            refused(&Codebook::new(definition), name, csv, &fault, paint)
        }
        other => return Err(ruled_out(other)),
    };
    let _ = writeln!(std::io::stderr(), "{said}");
    Ok(Status::Faulty)
}

/// A line that is refused, in words: where, what stands there, what is wrong, what would be right.
fn refused(book: &Codebook, name: &str, csv: &[u8], fault: &ImportFault, paint: Paint) -> String {
    let (line, column) = (fault.line, fault.column);
    let variable = book.definition.variable(column as usize - 1);
    let field = fields::find(csv, line, column);
    let mut place = format!("{name}: line {}, field {column} (column {})", texts::count(line), fields::letters(column));
    if let (Refusal::Field, Some(variable)) = (fault.refusal, &variable) {
        place += &format!(", {}", book.called(variable));
    }
    let stands = match field {
        // Names of a definition in XML are UTF-8; what else stands in the text are bytes of the data.
        Some(field) if fault.refusal == Refusal::NameLine && book.definition.is_xml() => {
            let name = String::from_utf8_lossy(field.bytes);
            format!("`{}`", texts::shown_text(&name.chars().take(SHOWN).collect::<String>()))
        }
        Some(field) => format!("`{}{}`", texts::shown(&field.bytes[..field.bytes.len().min(SHOWN)]), dots(field.bytes)),
        None => "no field".into(),
    };
    let due = match (fault.refusal, &variable) {
        (Refusal::Field, Some(variable)) => format!("; expected {}", expected_in_text(variable)),
        (Refusal::NameLine, Some(variable)) if line == 1 && column == 1 && csv.starts_with(b"\xef\xbb\xbf") => {
            format!("; expected {}, with no byte order mark before it", called(book, variable.row()))
        }
        (Refusal::NameLine, Some(variable)) => format!("; expected {}", called(book, variable.row())),
        (Refusal::NameLine, None) => "; no further one was due".into(),
        (Refusal::Fields, _) => format!("; expected {}", book.definition.variables().len()),
        _ => malformed(field.map_or(b"", |field| field.behind)).into(),
    };
    format!("{}: {stands}\n    {}{due}", paint.place(&place), paint.wrong(&fault.refusal.to_string()))
}

fn called(book: &Codebook, row: usize) -> String {
    format!("`{}`", texts::shown_text(book.name(row)))
}

fn dots(bytes: &[u8]) -> &'static str {
    if bytes.len() > SHOWN { ".." } else { "" }
}

/// What spreadsheets do most often, by what stands behind the field.
fn malformed(behind: &[u8]) -> &'static str {
    match behind {
        [] => "; the last line too must end in CR LF",
        [b'\n', ..] => "; the line ends in LF alone, CR LF is due",
        [b'\r', next, ..] if *next != b'\n' => "; the line ends in CR alone, CR LF is due",
        _ => "",
    }
}
