//! What is measured: definitions, tables and records, made from few figures.

use zarfolin_compare::face::{Face, Plain};
use zarfolin_compare::rng::Rng;
use zarfolin_compare::shape::{ROW, length, line_at, row_at};

/// A survey of this many variables of all types in turn, with lines and texts of these sizes.
pub struct Survey {
    pub variables: usize,
    pub lines: usize,
    pub text: usize,
    /// Spread out with indents and comments, or close together.
    pub roomy: bool,
    pub standard: bool,
}

impl Survey {
    pub fn text(&self) -> Vec<u8> {
        let pad = |what: &str| format!("{what:.<0$}", self.text);
        let (nl, tab) = if self.roomy { ("\r\n", "\t    ") } else { ("\n", "") };
        let mut t = format!("SSS{nl}VERSION 1.1{nl}DATE \"1998\"{nl}");
        if self.standard {
            t += &format!("STANDARD NAMES{nl}");
        }
        t += &format!("SURVEY{nl}TITLE \"{}\"{nl}RECORD A{nl}", pad("A survey"));
        let mut at = 1;
        for i in 0..self.variables {
            let comment = if self.roomy { " <as asked \"<in>\" 1997>" } else { "" };
            t += &format!(
                "VARIABLE {}{nl}{tab}NAME \"v{i}\"{nl}{tab}LABEL \"{}\"{comment}{nl}{tab}TYPE ",
                i + 1,
                pad("Question")
            );
            let lines = || {
                let mut t = String::new();
                for c in 1..=self.lines {
                    let special = if c == self.lines { " SPECIAL" } else { "" };
                    t += &format!("{tab}{tab}{c} \"{}\"{special}{nl}", pad("Answer"));
                }
                t
            };
            let digits = self.lines.max(1).to_string().len();
            let (kind, width, rest) = match i % 5 {
                0 => ("SINGLE", digits, format!("VALUES{nl}{}END VALUES", lines())),
                1 => ("MULTIPLE", self.lines, format!("VALUES{nl}{}END VALUES", lines())),
                2 => ("QUANTITY", 7, format!("VALUES{nl}{tab}-99.50 TO 999.99{nl}{tab}END VALUES")),
                3 => ("CHARACTER", 12, "SIZE 10".to_string()),
                _ if self.lines > 0 && i % 2 == 0 => {
                    ("MULTIPLE", 3 * digits, format!("SPREAD 3 OF {digits}{nl}VALUES{nl}{}END VALUES", lines()))
                }
                _ => ("LOGICAL", 1, String::new()),
            };
            // The records are laid out again and again from location 1 when the last one is reached.
            if at + width > 16_000 {
                at = 1;
            }
            t += &format!("{kind}{nl}{tab}POSITION {at} TO {}{nl}{tab}{rest}{nl}END VARIABLE{nl}", at + width - 1);
            at += width;
        }
        t += &format!("END RECORD{nl}END SURVEY{nl}END SSS{nl}");
        t.into_bytes()
    }

    pub fn table(&self) -> Vec<i64> {
        table(&self.text())
    }
}

pub fn table(def: &[u8]) -> Vec<i64> {
    let mut table = vec![0; 30_000];
    let mut answer = [0; 4];
    let number = Plain.read_definition(def, &mut table, &mut answer);
    assert_eq!(
        number,
        0,
        "at {}: {:?}",
        answer[1],
        String::from_utf8_lossy(&def[answer[1] as usize..][..40.min(def.len() - answer[1] as usize)])
    );
    table.truncate(length(answer[2] as usize, answer[3] as usize));
    table
}

/// A sound record for the table, by ordinary writes over filler.
pub fn record(table: &[i64], seed: u64) -> Vec<u8> {
    let mut r = Rng::new(seed);
    let mut record = vec![b'x'; table[3] as usize];
    for row in 0..table[1] as u64 {
        let cells = &table[row_at(row as usize)..][..ROW];
        let number = match cells[1] {
            1 => Plain.write_number(table, row, r.range(1, cells[13]), &mut record),
            2 => {
                let top = cells[13].max(cells[11]);
                let most = top.min(if cells[7] > 0 { cells[7] } else { 1000 });
                let set: Vec<i64> = (1..=most).filter(|_| r.once_in(2)).map(|c| c * (top / most)).collect();
                Plain.write_set(table, row, &set, &mut record)
            }
            3 => Plain.write_number(table, row, r.range(cells[10], cells[11]), &mut record),
            4 => Plain.write_text(table, row, b"Some text", &mut record),
            _ => Plain.write_truth(table, row, r.below(2) as u8, &mut record),
        };
        assert_eq!(number, 0);
    }
    record
}

pub fn small() -> Survey {
    Survey { variables: 5, lines: 4, text: 10, roomy: false, standard: false }
}

pub fn few_rows() -> Survey {
    Survey { text: 4, ..small() }
}

pub fn many_rows() -> Survey {
    Survey { variables: 512, lines: 6, text: 4, ..small() }
}

pub fn short() -> Vec<i64> {
    few_rows().table()
}

pub fn long() -> Vec<i64> {
    many_rows().table()
}

pub fn single() -> Vec<i64> {
    Survey { variables: 1, text: 4, ..small() }.table()
}

/// One row with a point.
pub fn measured() -> Vec<i64> {
    table(&one_variable("QUANTITY POSITION 1 TO 7 VALUES -99.50 TO 999.99"))
}

/// 512 rows in 27 bytes: those of `short`, one behind the other at the same places again and again.
pub fn crowded() -> Vec<i64> {
    let five = short();
    let mut rows: Vec<i64> = vec![];
    let mut lines: Vec<i64> = vec![];
    for i in 0..512 {
        let row = &five[row_at(i % 5)..][..ROW];
        let (before, count) = (row[12] as usize, row[13] as usize);
        let start = rows.len();
        rows.extend(row);
        rows[start] = i as i64 + 1;
        rows[start + 12] = lines.len() as i64 / 4;
        lines.extend(&five[line_at(5, before)..line_at(5, before + count)]);
    }
    let mut table = vec![11, 512, lines.len() as i64 / 4, five[3], row_at(0) as i64, row_at(512) as i64];
    table.extend(rows);
    table.extend(lines);
    table
}

/// What is wrong with a file that is judged, and whether it is near the file's start.
#[derive(Clone, Copy, PartialEq, Eq)]
pub enum Flaw {
    None,
    /// 22: every record is a byte too short; a later one alone can't be, for it would be 31.
    Short,
    /// 23 at a record's last byte.
    LowByte(bool),
    /// 241 in the last row: its last byte can't stand there.
    Field(bool),
    /// 242 in the last SINGLE: no line has 9.
    Value(bool),
    /// 243 in the last QUANTITY: a digit where its point must stand.
    Point(bool),
    /// 31: one byte more.
    Length(bool),
    /// 30: no terminator at all, or none behind the last record.
    Open(bool),
}

impl Flaw {
    pub const ALL: [Flaw; 14] = [
        Flaw::None,
        Flaw::Short,
        Flaw::LowByte(true),
        Flaw::LowByte(false),
        Flaw::Field(true),
        Flaw::Field(false),
        Flaw::Value(true),
        Flaw::Value(false),
        Flaw::Point(true),
        Flaw::Point(false),
        Flaw::Length(true),
        Flaw::Length(false),
        Flaw::Open(true),
        Flaw::Open(false),
    ];

    /// Whether it is a row's fault.
    fn in_a_row(self) -> bool {
        matches!(self, Flaw::Field(_) | Flaw::Value(_) | Flaw::Point(_))
    }

    pub fn number(self) -> u64 {
        match self {
            Flaw::None => 0,
            Flaw::Short => 22,
            Flaw::LowByte(_) => 23,
            Flaw::Field(_) => 241,
            Flaw::Value(_) => 242,
            Flaw::Point(_) => 243,
            Flaw::Length(_) => 31,
            Flaw::Open(_) => 30,
        }
    }

    pub fn name(self) -> String {
        match self {
            Flaw::None => "sound".to_string(),
            Flaw::Short => "22 in record 1".to_string(),
            Flaw::Length(true) => "31 in record 2".to_string(),
            Flaw::Open(true) => "30, no terminator".to_string(),
            Flaw::LowByte(true) | Flaw::Field(true) | Flaw::Value(true) | Flaw::Point(true) => {
                format!("{} in record 1", self.number())
            }
            _ => format!("{} at the end", self.number()),
        }
    }
}

/// The place of the byte that a 241, 242 or 243 is about, in the last row that can have it.
fn flawed_place(table: &[i64], flaw: Flaw) -> usize {
    let rows = (0..table[1] as usize).map(|i| &table[row_at(i)..][..ROW]);
    let kind = match flaw {
        Flaw::Value(_) => 1,
        Flaw::Point(_) => 3,
        _ => return table[row_at(table[1] as usize - 1) + 3] as usize - 1,
    };
    let cells = rows.rev().find(|cells| cells[1] == kind).expect("a row of this type");
    cells[3] as usize - 1 - if kind == 3 { cells[5] as usize } else { 0 }
}

/// A file of so many records of this length, CR LF, with a flaw.
pub fn flawed(table: &[i64], length: usize, count: usize, flaw: Flaw) -> Vec<u8> {
    let length = if flaw == Flaw::Short { table[3] as usize - 1 } else { length };
    let few: Vec<Vec<u8>> = (0..4)
        .map(|seed| {
            let mut record = record(table, seed);
            record.resize(length, b'y');
            record
        })
        .collect();
    let place = if flaw.in_a_row() { flawed_place(table, flaw) } else { 0 };
    let mut data = Vec::with_capacity(count * (length + 2) + 1);
    for i in 0..count {
        let start = data.len();
        data.extend(&few[i % 4]);
        let (first, second, last) = (i == 0, i == 1, i == count - 1);
        match flaw {
            Flaw::LowByte(early) if if early { first } else { last } => data[start + length - 1] = 1,
            Flaw::Field(early) if if early { first } else { last } => data[start + place] = b'?',
            Flaw::Value(early) if if early { first } else { last } => data[start + place] = b'9',
            Flaw::Point(early) if if early { first } else { last } => data[start + place] = b'5',
            Flaw::Length(early) if if early { second } else { last } => data.push(b'y'),
            _ => {}
        }
        match flaw {
            Flaw::Open(early) if early || last => data.extend(if early { &b"yy"[..] } else { b"" }),
            _ => data.extend(b"\r\n"),
        }
    }
    data
}

/// How a file came by mail.
#[derive(Clone, Copy, PartialEq)]
pub enum Damage {
    None,
    /// Every hundredth record is short, has a byte below 32, ends in LF alone, or is empty, in turn.
    Some,
    /// Every record is so.
    Every,
}

impl Damage {
    pub const ALL: [Damage; 3] = [Damage::None, Damage::Some, Damage::Every];

    pub fn name(self) -> &'static str {
        match self {
            Damage::None => "sound",
            Damage::Some => "damage here and there",
            Damage::Every => "damage in each",
        }
    }
}

/// A file of so many records of this length, CR LF, with damage.
pub fn damaged(table: &[i64], length: usize, count: usize, damage: Damage) -> Vec<u8> {
    let mut data = vec![];
    for (i, sound) in flawed(table, length, count, Flaw::None).chunks(length + 2).enumerate() {
        let (hit, turn) = match damage {
            Damage::None => (false, 0),
            Damage::Some => (i % 100 == 50, i / 100 % 4),
            Damage::Every => (true, i % 4),
        };
        let start = data.len();
        data.extend(sound);
        match turn {
            _ if !hit => {}
            0 => drop(data.splice(start + length - length / 9..start + length, [])),
            1 => data[start + length / 2] = b'\t',
            2 => drop(data.remove(start + length)),
            _ => data.extend(b"\r\n"),
        }
    }
    data
}

pub fn one_variable(rest: &str) -> Vec<u8> {
    format!("SSS VERSION 1.1 SURVEY RECORD R VARIABLE 1 NAME \"\" LABEL \"\" TYPE {rest} END VALUES END VARIABLE END RECORD END SURVEY END SSS").into_bytes()
}

/// A survey of six types in turn, laid out as an editor does: what the speed issue measures (its maker is no part of this repository).
pub fn desk_survey(variables: usize, lines: usize) -> Vec<u8> {
    let listed = |answer: &dyn Fn(usize) -> String| {
        let lines: String = (1..=lines).map(|i| format!("            {i} \"{}\"\r\n", answer(i))).collect();
        format!("          VALUES\r\n{lines}          END VALUES\r\n")
    };
    let mut t = String::from(
        "SSS\r\n  VERSION 1.1\r\n  DATE \"1 May 1998\"\r\n  STANDARD NAMES\r\n  SURVEY\r\n    TITLE \"A survey\"\r\n    RECORD A\r\n",
    );
    let mut at = 1;
    for v in 1..=variables {
        let (kind, width, rest) = match (v - 1) % 6 {
            0 => ("SINGLE", 4, listed(&|i| format!("Answer number {i}"))),
            1 => ("MULTIPLE", lines, listed(&|i| format!("Place {i}, also known as {{\"}}P{i}{{\"}}"))),
            2 => {
                let rest = "          SPREAD 5 OF 3\r\n          VALUES\r\n            1 TO 500 WITH\r\n            997 \"None\"\r\n\
                            \x20           998 \"Don't know\" SPECIAL\r\n          END VALUES\r\n";
                ("MULTIPLE", 15, rest.to_string())
            }
            3 => {
                let rest = "          VALUES\r\n            -99.50 TO 999.75 WITH\r\n            9999.99 \"Not stated\" SPECIAL\r\n\
                            \x20         END VALUES\r\n";
                ("QUANTITY", 7, rest.to_string())
            }
            4 => ("CHARACTER", 30, "          SIZE 30\r\n".to_string()),
            _ => ("LOGICAL", 1, String::new()),
        };
        t += &format!(
            "      VARIABLE {v}\r\n          NAME \"Q{v}\"\r\n          LABEL \"The text of question number {v} of the survey\"\r\n\
             \x20         TYPE {kind}\r\n          POSITION {at} TO {}\r\n{rest}      END VARIABLE\r\n",
            at + width - 1
        );
        at += width;
    }
    (t + "    END RECORD\r\n  END SURVEY\r\nEND SSS\r\n").into_bytes()
}

/// The order of a block's lines.
#[derive(Clone, Copy)]
pub enum Order {
    Rising,
    Falling,
    Random,
}

impl Order {
    pub const ALL: [Order; 3] = [Order::Rising, Order::Falling, Order::Random];

    pub fn name(self) -> &'static str {
        match self {
            Order::Rising => "rising",
            Order::Falling => "falling",
            Order::Random => "random",
        }
    }

    /// The numbers 1 to count in this order.
    pub fn numbers(self, count: usize) -> Vec<usize> {
        let mut numbers: Vec<usize> = (1..=count).collect();
        match self {
            Order::Rising => {}
            Order::Falling => numbers.reverse(),
            Order::Random => {
                let mut r = Rng::new(count as u64);
                for i in (1..count).rev() {
                    numbers.swap(i, r.below(i + 1));
                }
            }
        }
        numbers
    }
}

/// A survey of this many variables of one type, each with this many lines in this order.
pub fn blocks(kind: &str, variables: usize, lines: usize, order: Order, text: usize) -> Vec<u8> {
    let mut t = String::from("SSS VERSION 1.1 SURVEY RECORD R\n");
    let label = "x".repeat(text);
    for i in 1..=variables {
        t += &format!("VARIABLE {i} NAME \"v{i}\" LABEL \"\" TYPE {kind} POSITION 1 TO 16 VALUES\n");
        for number in order.numbers(lines) {
            // A quantity's lines lie far apart, a category's side by side.
            let value = if kind == "QUANTITY" { number * 7_000_001 } else { number };
            t += &format!("{value} \"{label}\"\n");
        }
        t += "END VALUES END VARIABLE\n";
    }
    (t + "END RECORD END SURVEY END SSS\n").into_bytes()
}

/// A definition of nearly this many bytes, by its shape.
pub fn sized(shape: &str, bytes: usize) -> Vec<u8> {
    let lines = (bytes / 16).min(4096);
    let text = (bytes - 120) / lines - 8;
    let filler = |what: &str| {
        let mut def = small().text();
        let at = def.windows(6).position(|w| w == b"SURVEY").unwrap();
        let count = bytes.saturating_sub(def.len()) / what.len();
        def.splice(at..at, what.repeat(count).into_bytes());
        def
    };
    match shape {
        "few lines" => {
            // About 700 bytes a survey of five variables with texts of ten.
            let variables = (bytes / 90).min(512);
            let text = (bytes / variables).saturating_sub(60) / 4;
            Survey { variables, lines: 3, text, roomy: false, standard: true }.text()
        }
        "rising" => blocks("SINGLE", 1, lines, Order::Rising, text),
        "falling" => blocks("SINGLE", 1, lines, Order::Falling, text),
        "random" => blocks("SINGLE", 1, lines, Order::Random, text),
        "comments" => filler("<asked \"<in>\" <1997>> "),
        _ => filler(&format!("NOTE \"{}\" ", "A long string. ".repeat((bytes / 40).max(4)))),
    }
}

pub const SHAPES: [&str; 6] = ["few lines", "rising", "falling", "random", "comments", "long strings"];

pub fn bits() -> Vec<i64> {
    table(&one_variable("MULTIPLE POSITION 1 TO 9999 VALUES 1 TO 9999"))
}

pub fn spread() -> Vec<i64> {
    table(&one_variable("MULTIPLE POSITION 1 TO 16000 SPREAD 4000 OF 4 VALUES 1 TO 9999"))
}

pub fn evens() -> Vec<i64> {
    (1..=4000).map(|i| 2 * i).collect()
}

/// Issue 30's survey as XML: this many variables of all types in turn, this many lines, every label filled up to `text` bytes.
pub fn sheet(variables: usize, lines: usize, text: usize) -> Vec<u8> {
    let mut t = "<?xml version=\"1.0\" encoding=\"UTF-8\"?>\r\n<sss version=\"1.2\" options=\"standardnames\">\r\n  \
                 <date>1 May 1998</date>\r\n  <survey>\r\n    <title>A survey</title>\r\n    <record ident=\"A\">\r\n"
        .to_string();
    let value = |code: &str, text: &str| format!("            <value code=\"{code}\">{text}</value>\r\n");
    let values = |inside: &str| format!("          <values>\r\n{inside}          </values>\r\n");
    let coded =
        |word: &dyn Fn(usize) -> String| -> String { (1..=lines).map(|i| value(&i.to_string(), &word(i))).collect() };
    let mut at = 1;
    for i in 1..=variables {
        let (kind, width, rest) = match i % 6 {
            1 => ("single", 4, values(&coded(&|c| format!("Answer number {c}")))),
            2 => ("multiple", lines, values(&coded(&|c| format!("Place {c}, also known as &quot;P{c}&quot;")))),
            3 => {
                let inside = format!(
                    "            <range from=\"1\" to=\"500\"/>\r\n{}{}",
                    value("997", "None"),
                    value("998", "Don't know")
                );
                ("multiple", 15, format!("          <spread subfields=\"5\" width=\"3\"/>\r\n{}", values(&inside)))
            }
            4 => {
                let last = value("9999.99", "Not stated");
                ("quantity", 7, values(&format!("            <range from=\"-99.50\" to=\"999.75\"/>\r\n{last}")))
            }
            5 => ("character", 30, "          <size>30</size>\r\n".to_string()),
            _ => ("logical", 1, String::new()),
        };
        let label = format!("{:.<text$}", format!("The text of question number {i} of the survey"));
        t += &format!(
            "      <variable ident=\"{i}\" type=\"{kind}\">\r\n          <name>Q{i}</name>\r\n          <label>{label}</label>\r\n          \
             <position start=\"{at}\" finish=\"{}\"/>\r\n{rest}      </variable>\r\n",
            at + width - 1
        );
        at += width;
    }
    t += "    </record>\r\n  </survey>\r\n</sss>\r\n";
    t.into_bytes()
}

/// Such a survey of at most so many bytes, and not many fewer: its labels are as long as that takes.
pub fn sized_sheet(bytes: usize) -> Vec<u8> {
    let (variables, lines) = match bytes {
        0..=1024 => (2, 2),
        1025..=16_384 => (30, 10),
        16_385..=65_536 => (120, 10),
        _ => (480, 10),
    };
    let least = sheet(variables, lines, 0).len();
    let label = "The text of question number 1 of the survey".len();
    sheet(variables, lines, label + bytes.saturating_sub(least) / variables - 3)
}

/// One logical variable in XML, with something behind the declaration and this label.
pub fn one_sheet(between: &str, label: &str) -> Vec<u8> {
    format!(
        "<?xml version=\"1.0\"?>\n{between}<sss version=\"1.2\" languages=\"en fr\">\n<survey>\n<record ident=\"A\">\n\
         <variable ident=\"1\" type=\"logical\">\n<name>Q1</name>\n<label>{label}</label>\n<position start=\"1\"/>\n</variable>\n\
         </record>\n</survey>\n</sss>\n"
    )
    .into_bytes()
}

/// So many logical variables in XML, every second one filtered by an earlier one.
pub fn filtered_sheet(variables: usize, name: impl Fn(usize) -> String) -> Vec<u8> {
    let mut t = "<?xml version=\"1.0\"?>\n<sss version=\"1.2\">\n<survey>\n<record ident=\"A\">\n".to_string();
    for i in 0..variables {
        let filter = if i % 2 == 1 { format!("<filter>{}</filter>\n", name(i / 2)) } else { String::new() };
        t += &format!(
            "<variable ident=\"{0}\" type=\"logical\">\n<name>{1}</name>\n<label>x</label>\n<position start=\"{0}\"/>\n{filter}</variable>\n",
            i + 1,
            name(i)
        );
    }
    t += "</record>\n</survey>\n</sss>\n";
    t.into_bytes()
}
