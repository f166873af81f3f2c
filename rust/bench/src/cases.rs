//! The cases: a name, a call, and the number that it must answer.

use crate::inputs::*;
use std::hint::black_box;
use zarfolin_compare::face::{Correction, Face, Plain};
use zarfolin_compare::shape::row_at;

type Step = Box<dyn FnMut(&dyn Face) -> u64>;

/// One thing to measure: a call, the bytes it goes through (0 where that says little), the number it must answer.
pub struct Case {
    pub bytes: usize,
    pub number: u64,
    pub step: Step,
}

/// A case's name, and how it is made: only when its turn comes.
pub type Maker = (String, Box<dyn FnOnce() -> Case>);

/// All cases.
pub fn cases() -> Vec<Maker> {
    let mut cases = vec![];
    definitions(&mut cases);
    odd_definitions(&mut cases);
    sheets(&mut cases);
    texts(&mut cases);
    tables(&mut cases);
    readings(&mut cases);
    whole_records(&mut cases);
    judgements(&mut cases);
    writes(&mut cases);
    corrections(&mut cases);
    files(&mut cases);
    judged_files(&mut cases);
    mended_files(&mut cases);
    matrices(&mut cases);
    exports(&mut cases);
    imports(&mut cases);
    cleans(&mut cases);
    cases
}

fn add(cases: &mut Vec<Maker>, name: &str, make: impl FnOnce() -> Case + 'static) {
    cases.push((name.to_string(), Box::new(make)));
}

/// Definitions of every size and shape.
fn definitions(cases: &mut Vec<Maker>) {
    for shape in SHAPES {
        for (size, bytes) in [
            ("1 KiB", 1 << 10),
            ("4 KiB", 1 << 12),
            ("16 KiB", 1 << 14),
            ("64 KiB", 1 << 16),
            ("256 KiB", 1 << 18),
            ("1 MiB", 1 << 20),
        ] {
            add(cases, &format!("definition {size}, {shape}"), move || definition(sized(shape, bytes), 0));
        }
    }
    for (name, survey) in [
        (
            "definition 86 KB, 512 variables",
            Survey { variables: 512, lines: 6, text: 12, roomy: false, standard: true },
        ),
        (
            "definition 190 KB, 512 variables, roomy",
            Survey { variables: 512, lines: 6, text: 40, roomy: true, standard: true },
        ),
    ] {
        add(cases, name, move || definition(survey.text(), 0));
    }
}

/// Definitions that are mostly one thing, and one that is refused.
fn odd_definitions(cases: &mut Vec<Maker>) {
    let wide: [(&str, fn(usize) -> String); 6] = [
        ("definition 1 MiB, one note", |n| format!("NOTE \"{}\" ", "x".repeat(n))),
        ("definition 1 MiB, spaces", |n| " ".repeat(n)),
        ("definition 1 MiB, one comment", |n| format!("<{}>", "x".repeat(n))),
        ("definition 1 MiB, small comments", |n| "<a>".repeat(n / 3)),
        ("definition 1 MiB, brace forms", |n| format!("NOTE \"{}\" ", "{0D0A}".repeat(n / 6))),
        ("definition 1 MiB, dropped bytes", |n| "\r\n".repeat(n / 2)),
    ];
    for (name, what) in wide {
        add(cases, name, move || {
            let mut def = small().text();
            let at = def.windows(6).position(|w| w == b"SURVEY").unwrap();
            def.splice(at..at, what(1_040_000).into_bytes());
            definition(def, 0)
        });
    }
    add(cases, "definition 43 KB, refused at its end", || {
        let mut def = Survey { variables: 512, lines: 6, text: 12, ..small() }.text();
        let half = def.len() / 2;
        let end = half + def[half..].windows(12).position(|w| w == b"END VARIABLE").unwrap();
        def.truncate(end + 12);
        def.push(b'<');
        definition(def, 3)
    });
}

/// Definitions in XML: issue 30's surveys, some of every size, and some that are mostly one thing.
fn sheets(cases: &mut Vec<Maker>) {
    for (variables, lines) in [(6, 6), (60, 12), (504, 22)] {
        add(cases, &format!("XML, issue 30's survey of {variables} variables"), move || {
            definition(sheet(variables, lines, 0), 0)
        });
    }
    for (size, bytes) in
        [("1 KiB", 1 << 10), ("16 KiB", 1 << 14), ("64 KiB", 1 << 16), ("256 KiB", 1 << 18), ("1 MiB", 1 << 20)]
    {
        add(cases, &format!("XML {size}"), move || definition(sized_sheet(bytes), 0));
    }
    let wide: [(&str, &str, &str); 9] = [
        ("one text", "", "a few words "),
        ("one text, CR LF", "", "a few words here\r\n"),
        ("one text, two bytes a character", "", "\u{e4}"),
        ("references", "", "&amp;"),
        ("references by number", "", "&#x41;"),
        ("breaks", "", "<br/>"),
        ("texts in another language", "", "<text xml:lang=\"fr\">abcdefgh</text>"),
        ("comments in a text", "", "<!--a-->"),
        ("comments between tags", "<!--a-->", "x"),
    ];
    for (name, between, label) in wide {
        add(cases, &format!("XML 1 MB, {name}"), move || {
            let many = |what: &str| what.repeat(1_000_000 / what.len().max(1));
            let label = if between.is_empty() { many(label) } else { label.to_string() };
            definition(one_sheet(&many(between), &label), 0)
        });
    }
    for variables in [128, 256, 512] {
        add(cases, &format!("XML, {variables} variables, half of them filtered"), move || {
            definition(filtered_sheet(variables, |i| format!("Question{i:04}")), 0)
        });
    }
    add(cases, "XML 1 MB, 512 variables with names of 1,274 bytes, half filtered", || {
        definition(filtered_sheet(512, |i| format!("{}{i:04}", "x".repeat(1_270))), 0)
    });
}

/// Texts decoded: long and short ones, plain and with many brace forms, and one that is refused.
fn texts(cases: &mut Vec<Maker>) {
    let mixed = "Which of these{NL}did you see? {\"}Post{\"}, {\"}Times{\"}.{0D0A}";
    for (name, text, number) in [
        ("decode 8 bytes", "Question".to_string(), 0),
        ("decode 40 bytes, a break", "Which of these papers{NL}did you see last?".to_string(), 0),
        ("decode 64 KiB, plain", "x".repeat(1 << 16), 0),
        ("decode 1 MB, plain", "x".repeat(1_000_000), 0),
        ("decode 1 MB, words with CR LF", "a few words here\r\n".repeat(1_000_000 / 18), 0),
        ("decode 1 MB, breaks", "{NL}".repeat(250_000), 0),
        ("decode 1 MB, hex pairs, one a form", "{0A}".repeat(250_000), 0),
        ("decode 1 MB, hex pairs, one form", format!("{{{}}}", "7e".repeat(500_000)), 0),
        ("decode 1 MB, text with forms", mixed.repeat(1_000_000 / mixed.len()), 0),
        ("decode 1 MB, refused at its end", format!("{}\"", "x".repeat(1_000_000)), 3),
    ] {
        add(cases, name, move || decode(text.into_bytes(), number));
    }
}

/// The test of a table.
fn tables(cases: &mut Vec<Maker>) {
    add(cases, "well-formed 1 row, 4 lines", || test(single()));
    add(cases, "well-formed 5 rows, 12 lines", || test(short()));
    add(cases, "well-formed 512 rows, 1,536 lines", || test(long()));
    for (kind, variables, lines) in [
        ("SINGLE", 1, 16),
        ("SINGLE", 1, 256),
        ("SINGLE", 1, 4096),
        ("QUANTITY", 1, 256),
        ("QUANTITY", 1, 4096),
        ("SINGLE", 32, 128),
        ("SINGLE", 512, 8),
        ("QUANTITY", 512, 8),
    ] {
        for order in Order::ALL {
            let rows = if variables == 1 { "row" } else { "rows" };
            let name = format!("well-formed {variables} {rows} of {lines} lines, {kind} {}", order.name());
            add(cases, &name, move || test(table(&blocks(kind, variables, lines, order, 0))));
        }
    }
}

/// Reading one row.
fn readings(cases: &mut Vec<Maker>) {
    let kinds = ["SINGLE", "bitstring", "QUANTITY", "CHARACTER", "spread"];
    for (row, kind) in kinds.iter().enumerate() {
        add(cases, &format!("read {kind}, 5 rows"), move || read(short(), row as u64, record(&short(), 7), 0));
    }
    for (row, kind) in kinds.iter().enumerate() {
        add(cases, &format!("read {kind} missing, 5 rows"), move || {
            let table = short();
            let mut record = record(&table, 7);
            assert_eq!(Plain.write_missing(&table, row as u64, &mut record), 0);
            read(table, row as u64, record, 0)
        });
    }
    add(cases, "read LOGICAL, 10 rows", || {
        let table = Survey { variables: 10, ..small() }.table();
        let record = record(&table, 7);
        read(table, 9, record, 0)
    });
    add(cases, "read SINGLE of 4,096 lines", || {
        let table = table(&blocks("SINGLE", 1, 4096, Order::Random, 0));
        let record = record(&table, 7);
        read(table, 0, record, 0)
    });
    add(cases, "read last row, 512 rows", || read(long(), 511, record(&long(), 7), 0));
    add(cases, "read bitstring of 9,999", || read_set(bits()));
    add(cases, "read spread of 4,000", || read_set(spread()));
    for (n, w) in [(3, 3), (3, 4), (16, 3), (16, 4), (40, 4)] {
        add(cases, &format!("read spread of {n} of {w}"), move || {
            let (finish, most) = (n * w, 10usize.pow(w as u32) - 1);
            let table =
                table(&one_variable(&format!("MULTIPLE POSITION 1 TO {finish} SPREAD {n} OF {w} VALUES 1 TO {most}")));
            // Far apart, and not in order.
            let record: String = (0..n).map(|i| format!("{:01$}", 1 + i * 607 % most, w)).collect();
            read(table, 0, record.into_bytes(), finish)
        });
    }
}

/// All rows of a record: in one call, which tests the table once; and row by row, which tests it for each.
fn whole_records(cases: &mut Vec<Maker>) {
    for (rows, table) in [(5, short as fn() -> Vec<i64>), (60, sixty), (512, long)] {
        add(cases, &format!("all rows of a record, {rows} rows"), move || whole(table(), 10_000));
        add(cases, &format!("all rows of a record, {rows} rows, the list just fits"), move || whole(table(), 0));
        add(cases, &format!("normal form, {rows} rows"), move || normal(table()));
        add(cases, &format!("all rows of a record, {rows} rows, one by one"), move || one_by_one(table()));
    }
    for (name, table) in [("bitstring of 9,999", bits as fn() -> Vec<i64>), ("spread of 4,000", spread)] {
        add(cases, &format!("all rows of a record, {name}"), move || whole_set(table(), 10_000));
        add(cases, &format!("all rows of a record, {name}, the list just fits"), move || whole_set(table(), 0));
        add(cases, &format!("normal form, {name}"), move || normal_set(table()));
    }
    add(cases, "normal form, spread of 4,000, falling, each twice", || {
        let record: String = (0..4000).map(|i| format!("{:4}", 9999 - i / 2)).collect();
        normal_of(spread(), record.into_bytes())
    });
}

/// Judging a record.
fn judgements(cases: &mut Vec<Maker>) {
    add(cases, "judge record, 5 rows", || judge(short(), 0, Fault::None));
    add(cases, "judge record, 5 rows, 241 at row 0", || judge(short(), 0, Fault::Row(0)));
    add(cases, "judge record, 5 rows, 241 at row 4", || judge(short(), 0, Fault::Row(4)));
    add(cases, "judge record, 5 rows, 23 at its end", || judge(short(), 0, Fault::LowByte));
    add(cases, "judge record, 5 rows, 16 KiB long", || judge(short(), 16_384, Fault::None));
    add(cases, "judge record, 5 rows, 16 KiB long, 23 at its end", || judge(short(), 16_384, Fault::LowByte));
    add(cases, "judge record, 512 rows", || judge(long(), 0, Fault::None));
    add(cases, "judge record, 512 rows, 241 at row 510", || judge(long(), 0, Fault::Row(510)));
    add(cases, "judge record, 512 rows, 23 at its end", || judge(long(), 0, Fault::LowByte));
    add(cases, "judge record, bitstring of 9,999", || judge(bits(), 0, Fault::None));
    add(cases, "judge record, spread of 4,000", || judge(spread(), 0, Fault::None));
}

/// Writing one row.
fn writes(cases: &mut Vec<Maker>) {
    let write = |table: fn() -> Vec<i64>, call: fn(&dyn Face, &[i64], &mut [u8]) -> u64| {
        move || {
            let table = table();
            let mut lent = vec![b'x'; table[3] as usize];
            Case { bytes: 0, number: 0, step: Box::new(move |face| call(face, black_box(&table), &mut lent)) }
        }
    };
    add(cases, "write missing, 5 rows", write(short, |f, t, r| f.write_missing(t, 2, r)));
    add(cases, "write number, 5 rows", write(short, |f, t, r| f.write_number(t, 2, black_box(12345), r)));
    add(cases, "write text, 5 rows", write(short, |f, t, r| f.write_text(t, 3, black_box(b"Some text"), r)));
    add(cases, "write bitstring, 5 rows", || write_set(short(), vec![1, 3], 1, 0));
    add(cases, "write spread, 5 rows", || write_set(short(), vec![1, 3], 4, 0));
    add(cases, "write truth, 512 rows", write(long, |f, t, r| f.write_truth(t, 9, black_box(1), r)));
    add(cases, "write bitstring of 9,999", || write_set(bits(), evens(), 0, 9_999));
    add(cases, "write spread of 4,000", || write_set(spread(), evens(), 0, 16_000));
    add(cases, "write missing, bitstring of 9,999", write(bits, |f, t, r| f.write_missing(t, 0, r)));
    add(cases, "write missing, spread of 4,000", write(spread, |f, t, r| f.write_missing(t, 0, r)));
}

/// A list of corrections of one record, one for each row that takes a number or a truth and a missing value for the others; and the
/// same by single writes.
fn corrections(cases: &mut Vec<Maker>) {
    for (rows, table) in [("5", short as fn() -> Vec<i64>), ("512", long)] {
        add(cases, &format!("{rows} corrections, {rows} rows"), move || correct(table()));
        add(cases, &format!("{rows} corrections, {rows} rows, one by one"), move || correct_singly(table()));
    }
}

/// Files, and their records one by one.
fn files(cases: &mut Vec<Maker>) {
    add(cases, "judge file of 1 record, 5 rows, CR LF", || file(short(), 1, "\r\n", false));
    add(cases, "judge file 4 KiB, 5 rows, CR LF", || file(short(), 1 << 12, "\r\n", false));
    add(cases, "judge file 256 KiB, 1 row, LF", || file(single(), 1 << 18, "\n", false));
    add(cases, "judge file 1 MiB, 5 rows, CR LF", || file(short(), 1 << 20, "\r\n", false));
    add(cases, "judge file 1 MiB, 512 rows, CR LF", || file(long(), 1 << 20, "\r\n", false));
    add(cases, "judge file 1 MiB, 512 rows, 30 at its end", || file(long(), 1 << 20, "\n", true));
    add(cases, "judge part of 4 KiB, 5 rows", || part(short(), 1 << 12));
    add(cases, "judge part of 1 MiB, 5 rows", || part(short(), 1 << 20));
    add(cases, "judge part of 1 MiB, 512 rows", || part(long(), 1 << 20));
    add(cases, "next record of 16 KiB", || {
        let mut data = vec![b'x'; 16_384];
        data.extend(b"\r\n");
        let mut answer = [0; 4];
        Case { bytes: data.len(), number: 1, step: Box::new(move |f| f.next_record(black_box(&data), 0, &mut answer)) }
    });
}

/// Files judged as a whole, the table tested once; and as each of their records, found and judged one by one.
fn judged_files(cases: &mut Vec<Maker>) {
    type Table = fn() -> Vec<i64>;
    let few: [(usize, Table); 3] = [(1, single), (5, short), (512, crowded)];
    let many: [(usize, Table); 3] = [(1, single), (5, short), (512, long)];
    for (size, length, tables) in [("27 bytes", 27, few), ("16 KiB", 16_384, many)] {
        for (rows, table) in tables {
            let bytes = if length > 27 { 1 << 20 } else { 1 << 18 } / if rows > 5 && length < 100 { 8 } else { 1 };
            for flaw in Flaw::ALL {
                let name = format!("{rows} rows, {size}, {}", flaw.name());
                // Only a quantity has a point.
                let table = if rows == 1 && flaw.number() == 243 { measured } else { table };
                let data = move || flawed(&table(), length, bytes / length, flaw);
                add(cases, &format!("judged whole: {name}"), move || judge_data(table(), data(), flaw, whole_file));
                add(cases, &format!("judged by record: {name}"), move || {
                    judge_data(table(), data(), flaw, each_record)
                });
            }
        }
    }
}

/// Files mended, short records and long ones: sound, with damage here and there, with damage in every record, and one that there is no
/// room for.
fn mended_files(cases: &mut Vec<Maker>) {
    for (size, length) in [("27 bytes", 27), ("16 KiB", 16_384)] {
        for damage in Damage::ALL {
            let data = move || damaged(&short(), length, (1 << 20) / length, damage);
            add(cases, &format!("mend file 1 MiB, {size}, {}", damage.name()), move || mend(short(), data(), 0));
        }
        let data = move || damaged(&short(), length, (1 << 20) / length, Damage::Every);
        add(cases, &format!("mend file 1 MiB, {size}, no room"), move || mend(short(), data(), 70));
    }
}

/// Mends into buffers with just enough room, or with one byte too few.
fn mend(table: Vec<i64>, data: Vec<u8>, number: u64) -> Case {
    let (mut out, mut list, mut answer) = (vec![0; 4 * data.len() + 64], vec![0; 3 * data.len() + 3], [0; 4]);
    assert_eq!(Plain.mend(&table, &data, &mut out, &mut list, &mut answer), 0);
    out.truncate(answer[1] as usize - (number != 0) as usize);
    list.truncate(3 * answer[2] as usize);
    let bytes = data.len();
    let step: Step = Box::new(move |face| {
        face.mend(black_box(&table), black_box(&data), black_box(&mut out), black_box(&mut list), &mut answer)
    });
    Case { bytes, number, step }
}

/// Files as matrices: few columns and many, a spread of 9,999 categories and a bitstring of as many; the most bytes that a matrix may
/// have; and one that there is no room for.
fn matrices(cases: &mut Vec<Maker>) {
    type Table = fn() -> Vec<i64>;
    let tables: [(&str, Table); 5] = [
        ("1 column", single),
        ("5 rows", short),
        ("512 rows", long),
        ("a spread of 9,999", || table(&one_variable("MULTIPLE POSITION 1 TO 40 SPREAD 10 OF 4 VALUES 1 TO 9999"))),
        ("a bitstring of 9,999", || table(&one_variable("MULTIPLE POSITION 1 TO 9999 VALUES 1 TO 9999"))),
    ];
    for (name, table) in tables {
        for (size, bytes) in [("1 MB", 1 << 20), ("16 MB", 16_777_216)] {
            add(cases, &format!("matrix {size}, {name}"), move || matrix(table(), bytes, 0));
        }
    }
    add(cases, "matrix 1 MB, 5 rows, no room", || matrix(short(), 1 << 20, 82));
}

/// As many records as a matrix of so many bytes has; just enough room, or one byte too few.
fn matrix(table: Vec<i64>, most: usize, number: u64) -> Case {
    let (mut out, mut answer) = (vec![0; most], [0; 4]);
    assert_eq!(Plain.matrix(&table, b"", &mut out, &mut answer), 0);
    let columns = answer[3] as usize;
    let length = table[3] as usize;
    let data = flawed(&table, length, (most - 24 - 24 * columns) / (9 * columns), Flaw::None);
    assert_eq!(Plain.matrix(&table, &data, &mut out, &mut answer), 0);
    out.truncate(answer[1] as usize - (number != 0) as usize);
    let bytes = data.len() + out.len();
    let step: Step =
        Box::new(move |face| face.matrix(black_box(&table), black_box(&data), black_box(&mut out), &mut answer));
    Case { bytes, number, step }
}

/// 1 MiB of data as text, by few rows and by many: records as they are, and with texts full of quotes; with room to spare, with just
/// enough, with one byte too few.
fn exports(cases: &mut Vec<Maker>) {
    for (name, survey) in [("5 rows", few_rows as fn() -> Survey), ("512 rows", many_rows)] {
        for (texts, quotes) in [("", false), (", texts with quotes", true)] {
            add(cases, &format!("export 1 MiB, {name}{texts}"), move || export(survey(), quotes, Room::Ample));
        }
        add(cases, &format!("export 1 MiB, {name}, just enough room"), move || export(survey(), false, Room::Exact));
        add(cases, &format!("export 1 MiB, {name}, no room"), move || export(survey(), false, Room::Short));
    }
}

#[derive(Clone, Copy, PartialEq)]
enum Room {
    Ample,
    Exact,
    Short,
}

fn export(survey: Survey, quotes: bool, room: Room) -> Case {
    let def = survey.text();
    let table = table(&def);
    let (data, text) = exported(&def, &table, quotes);
    let (mut out, mut answer) = (vec![0; 8 << 20], [0; 5]);
    let total = text.len();
    let number = if room == Room::Short { 60 } else { 0 };
    if room != Room::Ample {
        out.truncate(total - (room == Room::Short) as usize);
    }
    let bytes = data.len() + total;
    let step: Step = Box::new(move |face| {
        face.export(black_box(&def), black_box(&table), black_box(&data), black_box(&mut out), &mut answer)
    });
    Case { bytes, number, step }
}

/// The export of 1 MiB of data, read back: by few rows and by many, as it is, with every field in quotes, with texts full of quotes; with
/// just enough room and with one byte too few; and refused in its last line.
fn imports(cases: &mut Vec<Maker>) {
    for (name, survey) in [("5 rows", few_rows as fn() -> Survey), ("512 rows", many_rows)] {
        for (texts, back) in [
            ("", Back::AsItIs),
            (", every field in quotes", Back::Quoted),
            (", texts with quotes", Back::Quotes),
            (", refused at its end", Back::Refused),
        ] {
            add(cases, &format!("import 1 MiB, {name}{texts}"), move || import(survey(), back, Room::Ample));
        }
        add(cases, &format!("import 1 MiB, {name}, just enough room"), move || {
            import(survey(), Back::AsItIs, Room::Exact)
        });
        add(cases, &format!("import 1 MiB, {name}, no room"), move || import(survey(), Back::AsItIs, Room::Short));
    }
}

#[derive(Clone, Copy, PartialEq)]
enum Back {
    AsItIs,
    Quoted,
    Quotes,
    Refused,
}

fn import(survey: Survey, back: Back, room: Room) -> Case {
    let def = survey.text();
    let table = table(&def);
    let (data, mut text) = exported(&def, &table, back == Back::Quotes);
    if back == Back::Quoted {
        // No field but a name has quotes of its own here: a comma and a line end part fields.
        let names = text.iter().position(|&x| x == b'\n').unwrap() + 1;
        let mut quoted = text[..names].to_vec();
        for line in text[names..].split_inclusive(|&x| x == b'\n') {
            let fields: Vec<Vec<u8>> =
                line[..line.len() - 2].split(|&x| x == b',').map(|field| [b"\"", field, b"\""].concat()).collect();
            quoted.extend(fields.join(&b','));
            quoted.extend(b"\r\n");
        }
        text = quoted;
    }
    let mut number = if room == Room::Short { 60 } else { 0 };
    if back == Back::Refused {
        text.truncate(text.len() - 2);
        number = 61;
    }
    let (mut out, mut answer) = (vec![0; 2 << 20], [0; 4]);
    if room != Room::Ample {
        assert_eq!(Plain.import(&def, &table, &text, &mut out, &mut answer), 0);
        out.truncate(answer[2] as usize - (room == Room::Short) as usize);
    }
    let bytes = text.len() + data.len();
    let step: Step = Box::new(move |face| {
        face.import(black_box(&def), black_box(&table), black_box(&text), black_box(&mut out), &mut answer)
    });
    Case { bytes, number, step }
}

/// 1 MiB of sound records, and their export.
fn exported(def: &[u8], table: &[i64], quotes: bool) -> (Vec<u8>, Vec<u8>) {
    let length = table[3] as usize;
    let mut data = flawed(table, length, (1 << 20) / (length + 2), Flaw::None);
    if quotes {
        for i in (0..table[1] as usize).map(row_at).filter(|&at| table[at + 1] == 4) {
            let (start, finish) = (table[i + 2] as usize - 1, table[i + 3] as usize);
            for record in data.chunks_mut(length + 2) {
                record[start..finish].iter_mut().step_by(2).for_each(|x| *x = b'"');
            }
        }
    }
    let (mut out, mut answer) = (vec![0; 8 << 20], [0; 5]);
    assert_eq!(Plain.export(def, table, &data, &mut out, &mut answer), 0);
    out.truncate(answer[4] as usize);
    (data, out)
}

/// Definitions written clean: every shape that is read above, the surveys that the speed issue measures, and 512 variables with just enough
/// room and with one byte too few. One gets too long, as each of its lines gets a CR.
fn cleans(cases: &mut Vec<Maker>) {
    for shape in SHAPES {
        for (size, bytes) in [("1 KiB", 1 << 10), ("16 KiB", 1 << 14), ("256 KiB", 1 << 18)] {
            add(cases, &format!("clean {size}, {shape}"), move || clean(sized(shape, bytes), Room::Ample, 0));
        }
    }
    for shape in ["rising", "comments", "long strings"] {
        add(cases, &format!("clean 1 MiB, {shape}"), move || clean(sized(shape, 1 << 20), Room::Ample, 0));
    }
    add(cases, "clean 1 MiB, too long", || clean(blocks("SINGLE", 1, 4096, Order::Rising, 248), Room::Ample, 41));
    for (variables, lines) in [(6, 8), (60, 8), (60, 100), (512, 8), (512, 20)] {
        let name = format!("clean a survey, {variables} variables, {lines} lines");
        add(cases, &name, move || clean(desk_survey(variables, lines), Room::Ample, 0));
    }
    for (name, room, number) in [("just enough room", Room::Exact, 0), ("no room", Room::Short, 42)] {
        let name = format!("clean a survey, 512 variables, {name}");
        add(cases, &name, move || clean(desk_survey(512, 8), room, number));
    }
}

fn clean(def: Vec<u8>, room: Room, number: u64) -> Case {
    let table = table(&def);
    let (mut out, mut answer) = (vec![0; 1 << 20], [0; 4]);
    if room != Room::Ample {
        assert_eq!(Plain.write_definition(&def, &table, &mut out, &mut answer), 0);
        out.truncate(answer[2] as usize - (room == Room::Short) as usize);
    }
    let bytes = def.len();
    let step: Step = Box::new(move |face| {
        face.write_definition(black_box(&def), black_box(&table), black_box(&mut out), &mut answer)
    });
    Case { bytes, number, step }
}

type Judge = fn(&dyn Face, &[i64], &[u8]) -> u64;

fn judge_data(table: Vec<i64>, data: Vec<u8>, flaw: Flaw, judge: Judge) -> Case {
    let number = flaw.number();
    Case { bytes: data.len(), number, step: Box::new(move |face| judge(face, black_box(&table), black_box(&data))) }
}

fn whole_file(face: &dyn Face, table: &[i64], data: &[u8]) -> u64 {
    face.judge_file(table, data, &mut [0; 4])
}

/// The file's answer by the next-record call and the record call.
fn each_record(face: &dyn Face, table: &[i64], data: &[u8]) -> u64 {
    let (mut from, mut first) = (0, None);
    loop {
        let mut cut = [0; 4];
        let found = face.next_record(data, from, &mut cut);
        let [_, start, end, next] = cut;
        if found == 0 {
            return 0;
        } else if found == 2 {
            return 30;
        } else if *first.get_or_insert(end - start) != end - start {
            return 31;
        }
        let number = face.judge_record(table, &data[start as usize..end as usize], &mut [0; 4]);
        if number != 0 {
            return number;
        }
        from = next as u64;
    }
}

/// A part of a file: what stands between a record's start and a place within a record.
fn part(table: Vec<i64>, bytes: usize) -> Case {
    let data = flawed(&table, table[3] as usize, bytes / table[3] as usize, Flaw::None);
    let (first, mut answer) = (table[3] as u64, [0; 4]);
    Case {
        bytes: data.len() - 3,
        number: 0,
        step: Box::new(move |face| {
            face.judge_part(black_box(&table), black_box(&data[..data.len() - 3]), 1, first, 0, &mut answer)
        }),
    }
}

fn definition(def: Vec<u8>, number: u64) -> Case {
    let bytes = def.len();
    assert!(bytes <= 1_048_576, "{bytes}");
    let mut lent = vec![0i64; 30_000];
    let mut answer = [0; 4];
    Case { bytes, number, step: Box::new(move |face| face.read_definition(black_box(&def), &mut lent, &mut answer)) }
}

fn decode(def: Vec<u8>, number: u64) -> Case {
    let (bytes, mut list) = (def.len(), vec![0; def.len()]);
    let step = move |face: &dyn Face| {
        let mut answer = [0; 4];
        let number = face.decode_text(black_box(&def), 0, def.len() as u64, black_box(&mut list), &mut answer);
        black_box(&answer);
        number
    };
    Case { bytes, number, step: Box::new(step) }
}

/// The test behind 20: an empty record is 22 right after it.
fn test(table: Vec<i64>) -> Case {
    let mut answer = [0; 4];
    Case {
        bytes: table.len() * 8,
        number: 22,
        step: Box::new(move |face| face.judge_record(black_box(&table), b"", &mut answer)),
    }
}

fn read(table: Vec<i64>, row: u64, record: Vec<u8>, bytes: usize) -> Case {
    let mut list = vec![0i64; 10_000];
    let mut answer = [0; 4];
    let step: Step =
        Box::new(move |face| face.read_value(black_box(&table), row, black_box(&record), &mut list, &mut answer));
    Case { bytes, number: 0, step }
}

fn read_set(table: Vec<i64>) -> Case {
    let mut record = vec![b'x'; table[3] as usize];
    assert_eq!(Plain.write_set(&table, 0, &evens(), &mut record), 0);
    let bytes = record.len();
    read(table, 0, record, bytes)
}

fn sixty() -> Vec<i64> {
    Survey { variables: 60, ..small() }.table()
}

/// All rows, with so much room in the list, or just enough for 0.
fn whole(table: Vec<i64>, room: usize) -> Case {
    let record = record(&table, 7);
    whole_of(table, record, room)
}

fn whole_set(table: Vec<i64>, room: usize) -> Case {
    let mut record = vec![b'x'; table[3] as usize];
    assert_eq!(Plain.write_set(&table, 0, &evens(), &mut record), 0);
    whole_of(table, record, room)
}

fn whole_of(table: Vec<i64>, record: Vec<u8>, room: usize) -> Case {
    let mut out = vec![0i64; 4 * table[1] as usize];
    let mut list = vec![0i64; 10_000];
    let mut answer = [0; 4];
    assert_eq!(Plain.read_record(&table, &record, &mut out, &mut list, &mut answer), 0);
    list.truncate(if room == 0 { answer[1] as usize } else { room });
    let bytes = record.len();
    let step: Step =
        Box::new(move |face| face.read_record(black_box(&table), black_box(&record), &mut out, &mut list, &mut answer));
    Case { bytes, number: 0, step }
}

/// The normal form of a record, brought about anew each time from the record as it was.
fn normal(table: Vec<i64>) -> Case {
    let record = record(&table, 7);
    normal_of(table, record)
}

fn normal_set(table: Vec<i64>) -> Case {
    let mut record = vec![b'x'; table[3] as usize];
    assert_eq!(Plain.write_set(&table, 0, &evens(), &mut record), 0);
    normal_of(table, record)
}

fn normal_of(table: Vec<i64>, record: Vec<u8>) -> Case {
    let mut answer = [0; 4];
    let mut copy = record.clone();
    assert_eq!(Plain.normal(&table, &mut copy, &mut answer), 0);
    let bytes = record.len();
    let step: Step = Box::new(move |face| {
        copy.copy_from_slice(black_box(&record));
        face.normal(black_box(&table), &mut copy, &mut answer)
    });
    Case { bytes, number: 0, step }
}

fn one_by_one(table: Vec<i64>) -> Case {
    let record = record(&table, 7);
    let mut list = vec![0i64; 10_000];
    let mut answer = [0; 4];
    let bytes = record.len();
    let step: Step = Box::new(move |face| {
        (0..table[1] as u64)
            .map(|row| face.read_value(black_box(&table), row, black_box(&record), &mut list, &mut answer))
            .max()
            .unwrap()
    });
    Case { bytes, number: 0, step }
}

/// What is wrong with a record that is judged.
#[derive(Clone, Copy)]
enum Fault {
    None,
    /// A byte below 32 at its end.
    LowByte,
    /// This row's last byte is no digit.
    Row(usize),
}

fn judge(table: Vec<i64>, more: usize, fault: Fault) -> Case {
    let mut record = record(&table, 7);
    record.resize(record.len() + more, b'y');
    let number = match fault {
        Fault::None => 0,
        Fault::LowByte => {
            *record.last_mut().unwrap() = 1;
            23
        }
        Fault::Row(row) => {
            record[table[row_at(row) + 3] as usize - 1] = b'?';
            241
        }
    };
    let mut answer = [0; 4];
    Case {
        bytes: record.len(),
        number,
        step: Box::new(move |face| face.judge_record(black_box(&table), black_box(&record), &mut answer)),
    }
}

fn write_set(table: Vec<i64>, set: Vec<i64>, row: u64, bytes: usize) -> Case {
    let mut lent = vec![b'x'; table[3] as usize];
    Case { bytes, number: 0, step: Box::new(move |f| f.write_set(black_box(&table), row, black_box(&set), &mut lent)) }
}

fn list_of(table: &[i64]) -> Vec<Correction> {
    let one = |row: usize| {
        let cells = &table[row_at(row)..];
        let (kind, number) = match cells[1] {
            1 | 3 if cells[9] == 1 => (1, cells[11]),
            1 | 3 => (1, table[table[5] as usize + 4 * cells[12] as usize]),
            5 => (4, 1),
            _ => (0, 0),
        };
        Correction { row: row as u64, kind, number, mark: 99 }
    };
    (0..table[1] as usize).map(one).collect()
}

fn correct(table: Vec<i64>) -> Case {
    let (mut list, mut lent) = (list_of(&table), vec![b'x'; table[3] as usize]);
    assert_eq!(Plain.correct(&table, &mut list, &mut lent), 0);
    assert!(list.iter().all(|c| c.mark == 0));
    let step: Step = Box::new(move |face| face.correct(black_box(&table), black_box(&mut list), &mut lent));
    Case { bytes: 0, number: 0, step }
}

fn correct_singly(table: Vec<i64>) -> Case {
    let (list, mut lent) = (list_of(&table), vec![b'x'; table[3] as usize]);
    let step: Step = Box::new(move |face| {
        let one = |c: &Correction| match c.kind {
            0 => face.write_missing(black_box(&table), c.row, &mut lent),
            1 => face.write_number(black_box(&table), c.row, c.number, &mut lent),
            _ => face.write_truth(black_box(&table), c.row, c.number as u8, &mut lent),
        };
        black_box(&list).iter().map(one).max().unwrap()
    });
    Case { bytes: 0, number: 0, step }
}

fn file(table: Vec<i64>, bytes: usize, end: &str, fault: bool) -> Case {
    let few: Vec<Vec<u8>> = (0..if table[1] > 100 { 4 } else { 40 }).map(|seed| record(&table, seed)).collect();
    let mut data = vec![];
    for record in few.iter().cycle() {
        if data.len() >= bytes {
            break;
        }
        data.extend(record);
        data.extend(end.bytes());
    }
    if fault {
        data.pop();
    }
    let mut answer = [0; 4];
    Case {
        bytes: data.len(),
        number: if fault { 30 } else { 0 },
        step: Box::new(move |face| face.judge_file(black_box(&table), black_box(&data), &mut answer)),
    }
}
