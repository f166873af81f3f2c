//! `explain NUMBER`: what a number means, where it comes from, and what to do about it.

use super::{Command, print};
use crate::args::Given;
use crate::status::{Failure, Outcome};
use zarfolin::{Number, Refusal};

pub const COMMAND: Command = Command {
    name: "explain",
    usage: "[NUMBER]",
    summary: "tell what a number in brackets means, its usual cause, and what to do",
    options: &[],
    run,
};

fn run(given: &Given) -> Outcome {
    match &given.words[..] {
        [] => {
            let lines: Vec<_> =
                Refusal::ALL.iter().map(|refusal| format!("{:>3}  {}", refusal.number(), refusal.message())).collect();
            print(&lines.join("\n"))
        }
        [word] => {
            let number = word.to_str().and_then(|word| word.trim_matches(['[', ']']).parse::<Number>().ok());
            let refusal = number.and_then(|number| Refusal::ALL.iter().find(|refusal| refusal.number() == number));
            let refusal =
                refusal.ok_or_else(|| Failure::Usage(format!("no number of the rule: {}", word.to_string_lossy())))?;
            print(&page(*refusal))
        }
        _ => Err(Failure::Usage("one number is due".into())),
    }
}

fn page(refusal: Refusal) -> String {
    let (_, cause, cure) = ADVICE.iter().find(|(of, ..)| *of == refusal).unwrap_or(&NEWER);
    format!("[{}] {}\n\nUsual cause: {cause}\nWhat to do:  {cure}", refusal.number(), refusal.message())
}

/// A refusal, its usual cause, and what to do.
type Advice = (Refusal, &'static str, &'static str);

const NEWER: Advice = (Refusal::Unknown(0), "it is newer than this program", "take a newer program");

#[rustfmt::skip]
const ADVICE: &[Advice] = &[
    (Refusal::TooLong,
        "the file is no definition, or has a large text behind END SSS",
        "give the definition (.sss) first and the data (.asc) behind it; cut what stands behind END SSS"),
    (Refusal::Token,
        "a word is misspelt, left out or out of its order; a range with lines lacks WITH",
        "compare the line with the standard's order: VARIABLE, NAME, LABEL, TYPE, POSITION, then VALUES or SIZE, END VARIABLE"),
    (Refusal::Mark,
        "a quote or an angle bracket is not closed, or a brace in a text is none of {\"} {{} {NL} {hex}",
        "close it at the place named; write an open brace of a text as {{}"),
    (Refusal::Version,
        "the definition is of Triple-S 1.0 or of 2.0 and on, or writes its version in another way",
        "ask the sender for version 1.1, or 1.2 in XML; the number must be just that"),
    (Refusal::Ident,
        "two variables have the same number behind VARIABLE, or it has more than four digits",
        "give each variable a number of its own from 1 to 9999"),
    (Refusal::Values,
        "a category is no whole number above 0, a range runs backwards, decimals differ in one block, or a value has two labels",
        "write all numbers of a block with the same count of decimals, the lower end first, each value once"),
    (Refusal::Position,
        "the columns are too few for the largest value, or run backwards; SPREAD does not divide them",
        "widen POSITION to the longest value, its minus and point counted; state the width with OF"),
    (Refusal::Limit,
        "more than 512 variables or 4,096 labelled values, a category above 9,999, more than 15 digits, a column above 16,384",
        "split the survey, or ask whether the number is a slip of the sender's program"),
    (Refusal::Names,
        "STANDARD NAMES is stated, and a name has more than 8 letters or digits, another sign, or is there twice",
        "take STANDARD NAMES out, or rename the variable"),
    (Refusal::TableRoom,
        "a program lent too little room",
        "lend the largest table; this program says it for --format lister alone, which has the lister's room"),
    (Refusal::Table,
        "a program gave a table that no definition yields",
        "read the definition anew; this program never says this"),
    (Refusal::Row,
        "a program named a row that the definition has not",
        "zarfolin show DEF lists the rows"),
    (Refusal::Short,
        "the data belong to another definition, or each record has lost its end",
        "compare the record's length with the highest column of zarfolin show DEF"),
    (Refusal::LowByte,
        "a tab, a line end of another kind, or damage by mail",
        "look at the column named; where it is filler, put a space there"),
    (Refusal::ListRoom,
        "a program lent a list that is shorter than a set or a text",
        "lend 9,999 numbers; this program never says this"),
    (Refusal::Type,
        "a text for a number, a number for a set, or the like",
        "give what the type takes: zarfolin show DEF -v VAR; a set is 1;4, the empty set none, a truth 0 or 1"),
    (Refusal::Value,
        "the number is neither in the range nor among the values, or the text is too long or ends in a space",
        "zarfolin show DEF -v VAR tells what is legal; a set's codes must rise"),
    (Refusal::Members,
        "the set has more codes than the variable has subfields",
        "leave codes out, or widen SPREAD in the definition"),
    (Refusal::Terminator,
        "a program gave a number that is no terminator's",
        "give 1 to 4; this program never says this"),
    (Refusal::Unended,
        "the file was cut short, or its last line end is missing",
        "ask whether all records came; if so, add a line end of the file's own kind"),
    (Refusal::Length,
        "a byte was lost or added in that record, or its line end is of another kind than the file's first",
        "compare the record with its neighbours"),
    (Refusal::OtherTable,
        "a program gave a definition and a table that was read from another one, or the definition was edited since",
        "read the definition anew; this program does so each time, so it never says this"),
    (Refusal::CleanSize,
        "the definition is near the limit with little between its words: clean, each statement has a line of its own and states its widths",
        "shorten its texts, or give it as two definitions"),
    (Refusal::CleanRoom,
        "a program lent too little room for the clean definition",
        "lend 1,048,576 bytes, with which it always fits; this program does so, so it never says this"),
    (Refusal::Xml,
        "a tag, a quote or a reference is not closed, an end tag has another name, or a sign is in another encoding than the file states",
        "open the file in an XML editor, or with xmllint, which names the place too"),
    (Refusal::Element,
        "it is of another version of the standard or a maker's own, stands out of order, or belongs to another type of variable",
        "ask for a file of version 1.2 with nothing added, or take it out; version 1.1 in XML has no filter, use, href or languages"),
    (Refusal::Use,
        "two variables are the serial or the weight, one has a filter or a type that cannot be, or a filter names no logical before it",
        "put the logical before what it filters, with a name of its own; a serial is a character or quantity, a weight a quantity"),
    (Refusal::Malformed,
        "the spreadsheet wrote LF alone at the ends of lines, left the last line end out, or a quote was typed into the file by hand",
        "give every line CR LF (LibreOffice on Linux writes LF: unix2dos mends that); inside a field in quotes a quote stands twice"),
    (Refusal::NameLine,
        "a column was moved, added or renamed, another separator than the comma was chosen, or the file begins with a byte order mark",
        "compare the first line with that of zarfolin export; save without a byte order mark, with commas"),
    (Refusal::Fields,
        "a line was typed by hand, or a line is empty",
        "give the line as many commas as the first one has; take empty lines out"),
    (Refusal::Field,
        "a value that the definition has not, a set whose codes do not rise, or the spreadsheet writes it otherwise (a comma for the point)",
        "zarfolin show DEF -v VAR tells what is legal; format the columns as text before the spreadsheet opens the file"),
    (Refusal::ExportRoom,
        "a program lent too little room for the exported text or the imported records",
        "lend more; this program does so by itself, so it never says this"),
    (Refusal::MendRoom,
        "a program lent too little room for the mended file or the list of changes",
        "lend more; this program does so by itself, so it never says this"),
    (Refusal::NoColumn,
        "every variable of the definition is a text (CHARACTER), which makes no column",
        "there is nothing to count in; zarfolin list shows the texts"),
    (Refusal::MatrixSize,
        "records times columns, at 9 bytes each, pass 16,777,216; a multiple makes a column for each of its categories",
        "cut the data into files of fewer records, or leave a multiple with many categories out of the definition"),
    (Refusal::MatrixRoom,
        "a program lent too little room for the matrix",
        "lend 16,777,216 bytes, which are always enough; this program does, so it never says this"),
    (Refusal::Shared,
        "the definition gives one column of the data to the values of two variables",
        "correct the POSITION of one of them; where the overlap is meant, there is no normal form"),
    (Refusal::Stray,
        "a letter, a space or a sign where a digit was due, or a shifted column",
        "look at the column named; spaces may stand before a number, never behind it"),
    (Refusal::NotLegal,
        "a code that the definition does not list, or a number out of its range",
        "correct it (zarfolin set), or ask the sender for a definition that has the value"),
    (Refusal::Point,
        "the decimal point stands in another column than the definition's decimals ask for, or is missing",
        "write the number with just the decimals of the definition, as many as zarfolin show DEF -v VAR tells"),
];

#[cfg(test)]
mod tests {
    use super::*;

    /// A number that comes with a request gets words of its own here, once.
    #[test]
    fn every_number_has_its_own_advice() {
        for refusal in Refusal::ALL {
            assert_eq!(ADVICE.iter().filter(|(of, ..)| of == refusal).count(), 1, "{refusal}");
        }
    }
}
