//! `show DEF`: the codebook. Each variable with its row, ident, name, label, type, columns and values.

use super::{Command, FORMAT, Text, format, words};
use crate::args::{Given, Opt};
use crate::codebook::{Codebook, decimals, expected};
use crate::json::{self, Object};
use crate::printer::{Format, Printer};
use crate::status::{Failure, Outcome, Status};
use crate::texts;
use crate::values::scaled;
use crate::words::columns;
use zarfolin::{Kind, Use, Variable};

pub const VARIABLES: Opt =
    Opt { long: "--variables", short: Some(b'v'), value: Some("VAR,.."), help: "these variables alone" };

pub const COMMAND: Command = Command {
    name: "show",
    usage: "[OPTION..] DEF",
    summary: "show a definition as a codebook: names, labels, types, columns, values",
    options: &[VARIABLES, FORMAT],
    run,
};

fn run(given: &Given) -> Outcome {
    let [path] = words(given)?;
    let text = Text::open(path)?;
    let format = format(given)?;
    let Some(definition) = text.definition() else { return Ok(Status::Definition) };
    let book = Codebook::new(&definition);
    let variables = selected(given, &book)?;
    let mut printer = Printer::new();
    if format == Format::Text {
        let count = texts::counted(definition.variables().len() as u64, "variable", "variables");
        let length = texts::counted(definition.record_length() as u64, "byte", "bytes");
        printer.line(&format!("{}: {count}, records of {length} or more", text.input.name))?;
    }
    for variable in variables {
        let shown = match format {
            Format::Text => people(&variable),
            Format::Tsv => tsv(&book, &variable),
            Format::Jsonl => jsonl(&book, &variable),
        };
        printer.line(&shown)?;
    }
    printer.end()?;
    Ok(Status::Done)
}

/// The variables of `-v`, in the order asked; all where none is.
pub fn selected<'a>(given: &Given, book: &Codebook<'a>) -> Result<Vec<Variable<'a>>, Failure> {
    match given.text(VARIABLES.long)? {
        None => Ok(book.definition.variables().collect()),
        Some(list) => list.split(',').map(|word| book.find(word).map_err(Failure::Usage)).collect(),
    }
}

fn people(variable: &Variable) -> String {
    let (row, ident) = (variable.row(), variable.ident());
    let name = texts::decoded_line(variable.name());
    let label = texts::decoded_line(variable.label());
    let mut lines = vec![
        format!("\n{ident}  {name}  {label}"),
        format!("    {}, {}, row @{row}{}", kind(variable), columns(variable), used(variable)),
    ];
    if let Some(filter) = variable.filter() {
        let name = texts::decoded_line(filter.name());
        lines.push(format!("    only where {} {name} is 1 (filter, row @{})", filter.ident(), filter.row()));
    }
    let numbers: Vec<_> = variable.values().map(|line| scaled(line.number, decimals(variable))).collect();
    let width = numbers.iter().map(String::len).max().unwrap_or(0);
    if variable.range().is_some() || matches!(variable.kind(), Kind::Logical) {
        lines.push(format!("    {}", expected(variable)));
    }
    for (number, line) in numbers.iter().zip(variable.values()) {
        let special = if line.special { " (special)" } else { "" };
        lines.push(format!("    {number:>width$}  {}{special}", texts::decoded_line(line.text)));
    }
    lines.join("\n")
}

fn used(variable: &Variable) -> &'static str {
    match variable.usage() {
        Use::Serial => ", the serial number",
        Use::Weight => ", the weight",
        _ => "",
    }
}

fn kind(variable: &Variable) -> String {
    let word = variable.kind().word();
    match variable.kind() {
        Kind::Spread { subfields, width, .. } => format!("{word}, {subfields} subfields of {width}"),
        Kind::Bits => format!("{word}, a column for each category"),
        Kind::Quantity { decimals, .. } if decimals > 0 => {
            format!("{word}, {}", texts::counted(decimals.into(), "decimal", "decimals"))
        }
        Kind::Character => format!("{word}, {}", texts::counted(variable.width() as u64, "byte", "bytes")),
        _ => word.into(),
    }
}

/// A line for the variable, and one for each of its values. The last two fields are the use, 0 to 2, and the row that filters it.
fn tsv(book: &Codebook, variable: &Variable) -> String {
    let (row, ident) = (variable.row(), variable.ident());
    let columns = variable.columns();
    let (from, to) = match variable.range() {
        Some(range) => (range.start().to_string(), range.end().to_string()),
        None => Default::default(),
    };
    let (subfields, width) = spread(variable);
    let (name, label) = (texts::tsv_text(book.name(row)), texts::tsv_text(&texts::decoded(variable.label())));
    let filter = variable.filter().map_or(String::new(), |filter| filter.row().to_string());
    let mut lines = vec![format!(
        "variable\t{row}\t{ident}\t{name}\t{label}\t{}\t{}\t{}\t{}\t{}\t{subfields}\t{width}\t{from}\t{to}\t{}\t{filter}",
        variable.kind().word(),
        columns.start(),
        columns.end(),
        variable.width(),
        decimals(variable),
        variable.usage() as u8,
    )];
    for line in variable.values() {
        let text = texts::tsv_text(&texts::decoded(line.text));
        lines.push(format!("value\t{row}\t{ident}\t{}\t{}\t{text}", line.number, u8::from(line.special)));
    }
    lines.join("\n")
}

fn spread(variable: &Variable) -> (usize, usize) {
    match variable.kind() {
        Kind::Spread { subfields, width, .. } => (subfields, width),
        _ => (0, 0),
    }
}

fn jsonl(book: &Codebook, variable: &Variable) -> String {
    let columns = variable.columns();
    let (subfields, width) = spread(variable);
    let values = variable.values().map(|line| {
        let text = texts::decoded(line.text);
        Object::new().number("value", line.number).truth("special", line.special).text("text", &text).end()
    });
    Object::new()
        .number("row", variable.row() as u64)
        .number("ident", variable.ident())
        .text("name", book.name(variable.row()))
        .text("label", &texts::decoded(variable.label()))
        .text("type", variable.kind().word())
        .number("start", *columns.start() as u64)
        .number("finish", *columns.end() as u64)
        .number("width", variable.width() as u64)
        .number("decimals", decimals(variable))
        .number("subfields", subfields as u64)
        .number("subfield_width", width as u64)
        .maybe("from", variable.range().map(|range| *range.start()))
        .maybe("to", variable.range().map(|range| *range.end()))
        .maybe("use", Some(variable.usage() as u8).filter(|&usage| usage > 0))
        .maybe("filter", variable.filter().map(|filter| filter.row() as u64))
        .json("values", &json::list(values))
        .end()
}
