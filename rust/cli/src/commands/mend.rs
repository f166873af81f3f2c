//! `mend DEF DATA`: a damaged file made whole: one line end, one length, no byte below 32; each change is told. The library mends a file
//! in one call, so this command alone holds all of it in memory.

use super::{Command, FORMAT, IN_PLACE, OUTPUT, Text, format, output, output_is_standard, words};
use crate::args::Given;
use crate::faults::ruled_out;
use crate::input::Input;
use crate::json::Object;
use crate::printer::{Format, Printer};
use crate::status::{Failure, Outcome, Status};
use crate::texts;
use std::io::Write;
use zarfolin::table::mended;
use zarfolin::{Definition, Refusal};

pub const COMMAND: Command = Command {
    name: "mend",
    usage: "DEF DATA (-o OUT | --in-place) [--format FORMAT]",
    summary: "mend line ends, lengths and bytes below 32 of a damaged data file; each change is told",
    options: &[OUTPUT, IN_PLACE, FORMAT],
    run,
};

/// The most bytes that are mended, and that come of it.
const MOST: usize = 4 << 30;

fn run(given: &Given) -> Outcome {
    let [definition, path] = words(given)?;
    let format = format(given)?;
    let text = Text::open(definition)?;
    let mut input = Input::open(path)?;
    let data = input.up_to(MOST + 1)?;
    let Some(definition) = text.definition() else { return Ok(Status::Definition) };
    let (bytes, changes) = mend(&definition, &data, &input.name)?;
    let mut out = output(given, path, &[&text.input, &input])?;
    out.write(&bytes)?;
    out.commit()?;
    let mut told: String = changes.iter().map(|change| line(change, format, &input.name) + "\n").collect();
    if format == Format::Text {
        told += &format!("{}: {}.\n", input.name, texts::counted(changes.len() as u64, "change", "changes"));
    }
    if output_is_standard(given) {
        let _ = std::io::stderr().write_all(told.as_bytes());
        return Ok(Status::Done);
    }
    let mut printer = Printer::new();
    printer.bytes(told.as_bytes())?;
    printer.end()?;
    Ok(Status::Done)
}

/// What, the record and the place.
type Change = [i64; 3];

/// The mended file and its changes. How long they are the library alone knows: where the room was too little there is more the next time.
fn mend(definition: &Definition, data: &[u8], name: &str) -> Result<(Vec<u8>, Vec<Change>), Failure> {
    let mut room = data.len() + definition.record_length() + 2;
    while room <= MOST {
        let (mut out, mut list) = (vec![0; room], vec![[0; 3]; room / 16 + 16]);
        match definition.mend(data, &mut out, &mut list) {
            Ok((bytes, changes)) => {
                out.truncate(bytes);
                list.truncate(changes);
                return Ok((out, list));
            }
            Err(Refusal::MendRoom) => room = room.saturating_mul(2),
            Err(other) => return Err(ruled_out(other)),
        }
    }
    Err(Failure::Output(format!("{name}: the mended file would be longer than {} bytes", texts::count(MOST as u64))))
}

fn line([what, record, place]: &Change, format: Format, name: &str) -> String {
    let words = match *what {
        mended::DROPPED => "an empty record was dropped",
        mended::BYTE => "a byte below 32 became a space",
        mended::PAD => "it was padded with spaces",
        _ => "it got the file's line end",
    };
    match format {
        Format::Text => format!(
            "{name}: record {}, byte {}: {words}",
            texts::count(*record as u64),
            texts::count(*place as u64 + 1)
        ),
        Format::Tsv => format!("{what}\t{record}\t{place}\t{words}"),
        Format::Jsonl => Object::new()
            .number("change", *what)
            .number("record", *record)
            .number("place", *place)
            .text("words", words)
            .end(),
    }
}
