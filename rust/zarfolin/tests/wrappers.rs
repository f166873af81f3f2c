//! The wrappers over the linked library: document 01's sample, and the counter's, read, judged and written.
#![cfg(feature = "ffi")]

use zarfolin::table::limit::{MAX_SET, MAX_TABLE};
use zarfolin::*;

const SAMPLE: &[u8] = b"SSS VERSION 1.1 SURVEY RECORD R
VARIABLE 1 NAME \"desk\" LABEL \"Desk\" TYPE SINGLE POSITION 1 TO 2
VALUES 1 TO 12 END VALUES END VARIABLE
VARIABLE 2 NAME \"seen\" LABEL \"Seen\" TYPE MULTIPLE POSITION 3 TO 6
VALUES 1 \"a\" 2 \"b\" 4 \"d\" END VALUES END VARIABLE
VARIABLE 3 NAME \"wait\" LABEL \"Wait\" TYPE QUANTITY POSITION 7 TO 11
VALUES -1.0 TO 99.5 END VALUES END VARIABLE
VARIABLE 4 NAME \"word\" LABEL \"Word\" TYPE CHARACTER POSITION 12 TO 16 SIZE 5 END VARIABLE
VARIABLE 5 NAME \"yes\" LABEL \"Yes\" TYPE LOGICAL POSITION 17 END VARIABLE
END RECORD END SURVEY END SSS
";

const SOUND: [Value; 5] =
    [Value::Number(7), Value::Set(&[1, 4]), Value::Number(-10), Value::Text(b"ab"), Value::Truth(true)];

#[test]
fn versions() {
    assert_eq!(calls::version(), VERSION);
}

/// A new line and byte 10 are told apart: in a label, by the place and length that the table has of it.
#[test]
fn texts() {
    let def = b"SSS VERSION 1.1 SURVEY RECORD R VARIABLE 1 NAME \"q\" LABEL \"a{NL}b{0A}\r\nc\" TYPE LOGICAL POSITION 1 END VARIABLE
        END RECORD END SURVEY END SSS";
    let definition = Definition::read(def).unwrap();
    let row = &definition.table()[table::row_at(0)..];
    let (place, length) = (row[table::column::LABEL] as u64, row[table::column::LABEL_LENGTH] as u64);
    let mut list = vec![-1; length as usize];
    let label = calls::decode_text(def, place, length, &mut list).unwrap();
    let signs = [Sign::Byte(b'a'), Sign::Break, Sign::Byte(b'b'), Sign::Byte(10), Sign::Byte(b'c')];
    assert!(label.signs().eq(signs));
    assert!(label.lines().map(Text::len).eq([1, 3]));
    assert!(list[5..].iter().all(|&x| x == -1));
    let label = definition.variable(0).unwrap().label();
    assert!(label.decode(&mut list).unwrap().signs().eq(signs));
    assert_eq!(label.decode(&mut []), Err(Refusal::ListRoom));
    assert_eq!(calls::decode_text(def, place, length, &mut [0; 4]), Err(Refusal::ListRoom));
    assert_eq!(calls::decode_text(def, place, length + 1, &mut [0; 40]), Err(Refusal::Mark));
    assert_eq!(calls::decode_text(def, u64::MAX, u64::MAX, &mut [0; 4]), Err(Refusal::Mark));
}

/// A file in blocks and in parts has its own answer, wherever it is cut.
#[test]
fn blocks_and_parts() {
    let def = b"SSS VERSION 1.1 SURVEY RECORD R VARIABLE 1 NAME \"q\" LABEL \"\" TYPE SINGLE POSITION 1 TO 2 VALUES 1 TO 20 END VALUES
        END VARIABLE END RECORD END SURVEY END SSS";
    let definition = Definition::read(def).unwrap();
    let files: [&[u8]; 20] = [
        b"",
        b"07",
        b"07\r",
        b"07\n",
        b"07\r\n",
        b"07\n\r",
        b"\n",
        b"07\n08\n09\n10\n11\n",
        b"07\r\n08\r\n09\r\n10\r\n",
        b"07\r08\r09\r10\r",
        b"07\n\r08\n\r09\n\r10\n\r",
        b"07\r\n08\r\n09\r\n10",
        b"07\r\n08\r\n09\r\n10\r",
        b"07\r\n08\r\n21\r\n10\r\n",
        b"07\r\n08\r\n0\t\r\n10\r\n",
        b"07\r\n08\r\n0\r\n10\r\n",
        b"07\r\n08\r09\r\n10\r\n11\r\n",
        b"07\n08\n09 and so on, far beyond any part\n10\n",
        b"7\n8\n",
        b"07\n08\n09 and no end of it",
    ];
    for data in files {
        let whole = definition.judge(data);
        for size in 1..=data.len() + 1 {
            let mut blocks = definition.blocks();
            let (mut from, mut to) = (0, 0);
            let answer = loop {
                to = (to + size).min(data.len());
                if to == data.len() {
                    break blocks.end(&data[from..]);
                }
                match blocks.block(&data[from..to]) {
                    Ok(done) => from += done,
                    Err(fault) => break Err(fault),
                }
            };
            assert_eq!(answer, whole, "blocks of {size}: {}", data.escape_ascii());
            let parts = definition.parts(data, size - 1);
            assert!((1..=(size - 1).max(1)).contains(&parts.len()));
            let answers: Vec<_> = (0..parts.len()).map(|part| parts.judge(part)).collect();
            assert_eq!(parts.whole(&answers), whole, "{} parts: {}", size - 1, data.escape_ascii());
            assert_eq!(parts.whole(&answers[1..][..0]), whole);
        }
    }
    let shape = Shape::of(b"07\r\n").unwrap();
    assert_eq!((shape.terminator, shape.first, shape.stride()), (Terminator::CrLf, 2, 4));
    assert_eq!(Shape::of(b"0\n").map(|shape| shape.terminator.number()), Some(table::terminator::LF));
    let part = |terminator, last| calls::judge_part(definition.table(), b"07\n08", terminator, 2, last);
    assert_eq!(part(4, 0), Ok(1));
    assert_eq!(part(4, 1 << 32).map_err(|fault| (fault.record, fault.fault.refusal)), Err((2, Refusal::Unended)));
    assert_eq!(part(257, 0).map_err(|fault| (fault.record, fault.fault.refusal)), Err((0, Refusal::Terminator)));
}

/// Every call over slices.
#[test]
fn read_judge_write() {
    let mut table = vec![0; MAX_TABLE];
    let counts = calls::read_definition(SAMPLE, &mut table).unwrap();
    assert_eq!((counts.variables, counts.lines), (5, 3));
    table.truncate(counts.table_length());

    let mut record = *b" 710x1x-1.0ab   1";
    let mut list = [0; 3];
    for (row, value) in SOUND.iter().enumerate() {
        assert_eq!(calls::read_value(&table, row as u64, &record, &mut list), Ok(*value));
    }
    assert_eq!(calls::read_value(&table, 1, &record, &mut [0]), Err(Refusal::ListRoom.into()));
    assert_eq!(calls::read_value(&table, 5, &record, &mut list), Err(Refusal::Row.into()));
    assert_eq!(calls::judge_record(&table, &record), Ok(()));
    assert_eq!(calls::judge_record(&table, &record[1..]).unwrap_err().refusal, Refusal::Short);
    assert_eq!(calls::judge_record(&table[1..], &record).unwrap_err().refusal, Refusal::Table);

    let written = [Value::Number(12), Value::Set(&[2]), Value::Number(995), Value::Text(b"c d"), Value::Truth(false)];
    for (row, value) in written.iter().enumerate() {
        assert_eq!(calls::write_value(&table, row as u64, *value, &mut record), Ok(()));
    }
    assert_eq!(&record, b"1201x0x99.5c d  0");
    for (row, value) in written.iter().enumerate() {
        assert_eq!(calls::read_value(&table, row as u64, &record, &mut list), Ok(*value));
    }
    assert_eq!(calls::write_value(&table, 0, Value::Truth(true), &mut record), Err(Refusal::Type));
    assert_eq!(calls::write_value(&table, 0, Value::Number(13), &mut record), Err(Refusal::Value));
    for row in 0..5 {
        assert_eq!(calls::write_value(&table, row, Value::Missing, &mut record), Ok(()));
        assert_eq!(calls::read_value(&table, row, &record, &mut list), Ok(Value::Missing));
    }
    assert_eq!(&record, b"    x x          ");

    let refused = calls::read_definition(&SAMPLE[..39], &mut table).unwrap_err();
    assert_eq!((refused.refusal, refused.place), (Refusal::Token, 32));
    assert_eq!(calls::read_definition(SAMPLE, &mut table[..20]).unwrap_err().refusal, Refusal::TableRoom);
}

#[test]
fn variables() {
    let definition = Definition::read(SAMPLE).unwrap();
    assert_eq!(definition.table().len(), table::length(5, 3));
    assert_eq!(definition.record_length(), 17);
    assert_eq!(definition.text(), SAMPLE);
    let told: Vec<_> =
        definition.variables().map(|v| (v.row(), v.ident(), v.kind().word(), v.columns(), v.width())).collect();
    let expected = [
        (0, 1, "SINGLE", 1..=2, 2),
        (1, 2, "MULTIPLE", 3..=6, 4),
        (2, 3, "QUANTITY", 7..=11, 4),
        (3, 4, "CHARACTER", 12..=16, 5),
        (4, 5, "LOGICAL", 17..=17, 1),
    ];
    assert_eq!(told, expected);
    assert_eq!(definition.variables().rev().map(|v| v.ident()).collect::<Vec<_>>(), [5, 4, 3, 2, 1]);
    assert!(definition.variable(5).is_none());

    let [desk, seen, wait] = [0, 1, 2].map(|row| definition.variable(row).unwrap());
    assert_eq!((desk.kind(), desk.range(), desk.values().len()), (Kind::Single, Some(1..=12), 0));
    assert_eq!((seen.kind(), seen.range(), seen.places()), (Kind::Bits, None, 2..6));
    let lines: Vec<_> = seen.values().map(|line| (line.number, line.special, line.text.as_bytes())).collect();
    assert_eq!(lines, [(1, false, &b"a"[..]), (2, false, b"b"), (4, false, b"d")]);
    assert!(matches!(wait.kind(), Kind::Quantity { decimals: 1, point: true, .. }));
    assert_eq!(wait.range(), Some(-10..=995));
    assert_eq!((wait.name().as_bytes(), wait.label().as_bytes()), (&b"wait"[..], &b"Wait"[..]));
    assert_eq!(format!("{} {:?}", wait.name(), wait.label()), "wait \"Wait\"");
    assert!(format!("{definition:?}").contains("ident: 3, kind: Quantity"));
}

#[test]
fn spread_and_texts() {
    let text = SAMPLE_SPREAD.as_bytes();
    let definition = Definition::read(text).unwrap();
    let variable = definition.variable(0).unwrap();
    assert!(matches!(variable.kind(), Kind::Spread { subfields: 2, width: 3, .. }));
    // A name is handed on as it stands.
    assert_eq!(variable.name().as_bytes(), b"a{41}{\"}");
    assert_eq!(variable.label().to_string(), "\\xc3\\xa9");
    let values = definition.records(b"004042\n042042\n000000\n").map(|r| r.values().unwrap()).collect::<Vec<_>>();
    assert_eq!(values[0].get(0), Some(Ok(Value::Set(&[4, 42]))));
    assert_eq!(values[1].get(0), Some(Ok(Value::Set(&[42]))));
    assert_eq!(values[2].get(0), Some(Ok(Value::Set(&[]))));
    assert_eq!(values[2].get(1), None);
}

const SAMPLE_SPREAD: &str =
    "SSS VERSION 1.1 SURVEY RECORD R VARIABLE 7 NAME \"a{41}{\"}\" LABEL \"\u{e9}\" TYPE MULTIPLE POSITION 1 TO 6
SPREAD 2 OF 3 VALUES 1 TO 999 END VALUES END VARIABLE END RECORD END SURVEY END SSS";

/// A list of corrections: each with its mark, past every refusal, and the later accepted one counts; none of it where the record is short.
#[test]
fn corrections() {
    let definition = Definition::read(SAMPLE).unwrap();
    let mut record = *b" 710x1x-1.0ab   1";
    let given = [
        (Correction::number(0, 12), Ok(())),
        (Correction::number(0, 13), Err(Refusal::Value)),
        (Correction::number(2, 5), Ok(())),
        (Correction::truth(4, false), Ok(())),
        (Correction { row: 4, value: Given { kind: 4, number: 256 }, mark: 0 }, Err(Refusal::Value)),
        (Correction::truth(1, true), Err(Refusal::Type)),
        (Correction { row: 0, value: Given { kind: 2, number: 1 }, mark: 0 }, Err(Refusal::Type)),
        (Correction::missing(3), Ok(())),
        (Correction::missing(5), Err(Refusal::Row)),
        (Correction::number(0, 3), Ok(())),
    ];
    let mut list = given.map(|(c, _)| Correction { mark: 99, ..c });
    assert_eq!(definition.correct(&mut list, &mut record[1..]), Err(Refusal::Short));
    assert_eq!(calls::correct(&[11], &mut list, &mut record), Err(Refusal::Table));
    assert!(list.iter().all(|c| c.mark == 99) && record == *b" 710x1x-1.0ab   1");
    assert_eq!(definition.correct(&mut [], &mut record), Ok(()));
    assert_eq!(definition.correct(&mut list, &mut record), Ok(()));
    for (c, (asked, done)) in list.iter().zip(given) {
        assert_eq!((c.row, c.value, c.done()), (asked.row, asked.value, done));
    }
    assert_eq!(record, *b"0310x1x00.5     0");
}

/// Records that say the same get the same bytes; a refusal keeps the record; two rows that share a byte are refused before its length.
#[test]
fn normal_forms() {
    let definition = Definition::read(SAMPLE).unwrap();
    let (mut one, mut other) = (*b" 710x1x-1.0ab   1", *b"0710x1x-1.0ab   1");
    assert_eq!((definition.normal(&mut one), definition.normal(&mut other)), (Ok(()), Ok(())));
    assert_eq!((one, other), (*b"0710x1x-1.0ab   1", *b"0710x1x-1.0ab   1"));
    let mut wrong = *b"7 10x1x-1.0ab   1";
    let fault = definition.normal(&mut wrong).unwrap_err();
    assert_eq!(
        (Err(fault), fault.refusal, &wrong),
        (definition.judge_record(&wrong), Refusal::Stray, b"7 10x1x-1.0ab   1")
    );
    assert_eq!(definition.normal(&mut one[1..]).unwrap_err().refusal, Refusal::Short);
    assert_eq!(calls::normal(&[11], &mut one).unwrap_err().refusal, Refusal::Table);
    let shared =
        "SSS VERSION 1.1 SURVEY RECORD R VARIABLE 1 NAME \"a\" LABEL \"A\" TYPE CHARACTER POSITION 1 TO 2 SIZE 2
END VARIABLE VARIABLE 2 NAME \"b\" LABEL \"B\" TYPE LOGICAL POSITION 2 END VARIABLE END RECORD END SURVEY END SSS";
    let shared = Definition::read(shared.as_bytes()).unwrap();
    let fault = shared.normal(&mut []).unwrap_err();
    assert_eq!((fault.refusal, fault.row, fault.place, fault.number), (Refusal::Shared, None, None, None));
}

/// A damaged file mended: what is changed, in its order; a sound one comes out as it is; one too few of either room changes nothing.
#[test]
fn mended() {
    use table::mended::{BYTE, DROPPED, PAD, TERMINATOR};
    let definition = Definition::read(SAMPLE).unwrap();
    let damaged = b"\n 710x1x-1.0ab\r 710x1x-1.0ab\t  1\r\n\n\n 710x1x-1.0ab  11";
    let sound = b" 710x1x-1.0ab    \n 710x1x-1.0ab   1\n 710x1x-1.0ab  11\n";
    let changes = [
        [DROPPED, 1, 0],
        [PAD, 2, 14],
        [TERMINATOR, 2, 14],
        [BYTE, 3, 28],
        [TERMINATOR, 3, 32],
        [DROPPED, 4, 34],
        [DROPPED, 5, 35],
        [TERMINATOR, 6, 53],
    ];
    let (mut out, mut list) = ([b'?'; 60], [[-1; 3]; 9]);
    assert_eq!(definition.mend(damaged, &mut out[..53], &mut list), Err(Refusal::MendRoom));
    assert_eq!(definition.mend(damaged, &mut out, &mut list[..7]), Err(Refusal::MendRoom));
    assert_eq!(calls::mend(&[11], damaged, &mut out, &mut list), Err(Refusal::Table));
    assert!(out == [b'?'; 60] && list == [[-1; 3]; 9]);
    assert_eq!(definition.mend(damaged, &mut out, &mut list), Ok((54, 8)));
    assert!(out[..54] == *sound && out[54..] == *b"??????" && list[..8] == changes && list[8] == [-1; 3]);
    assert_eq!(definition.judge(sound), Ok(3));
    assert_eq!(definition.mend(sound, &mut out[..54], &mut []), Ok((54, 0)));
    assert_eq!(out[..54], *sound);
}

/// A file as a matrix: what it has, where it stands; one byte too few and a fault change nothing.
#[test]
fn matrices() {
    let definition = Definition::read(SAMPLE).unwrap();
    let data = b" 710x1x-1.0ab   1\n                 \n";
    let mut out = [0x55; 300];
    let matrix = definition.matrix(data, &mut out).unwrap();
    let (columns, total) = (matrix.columns, matrix.total);
    assert_eq!((matrix.records, total), (2, 24 + 24 * columns + 18 * columns));
    assert!(out[total..].iter().all(|&x| x == 0x55));
    let number = |at: usize| u32::from_le_bytes(out[at..at + 4].try_into().unwrap()) as usize;
    let header: Vec<usize> = (0..6).map(|i| number(4 * i)).collect();
    assert_eq!(header, [2, columns, 24, 24 + 24 * columns, 24 + 26 * columns, total]);
    assert_eq!(out[header[3]..header[4]], [[1, 0].map(|x| vec![x; columns])].concat().concat());
    assert_eq!(out[header[4]..header[4] + 8], 7f64.to_le_bytes());
    let kept = [0x55; 300];
    let mut out = kept;
    let short = definition.matrix(data, &mut out[..total - 1]).unwrap_err();
    assert_eq!((short.fault.refusal, short.record, short.fault.row), (Refusal::MatrixRoom, 0, None));
    let open = definition.matrix(&data[..data.len() - 1], &mut out).unwrap_err();
    assert_eq!((open.fault.refusal, open.record), (Refusal::Unended, 2));
    assert_eq!(calls::matrix(&[11], data, &mut out).unwrap_err().fault.refusal, Refusal::Table);
    assert_eq!(out, kept);
}

/// A file as text: what it says, where it stands; cut by a fault; 20, 40 and 60 change nothing.
#[test]
fn exports() {
    let definition = Definition::read(SAMPLE).unwrap();
    let data = b" 710x1x-1.0ab   1\n                 \n";
    let mut out = [0x55; 300];
    let exported = definition.export(data, &mut out).unwrap();
    assert_eq!((exported.records, exported.fault), (2, None));
    let text = out[..exported.length].to_vec();
    let lines: Vec<&[u8]> = text.split(|&x| x == b'\n').collect();
    assert_eq!(lines.len(), 4, "{}", text.escape_ascii());
    assert_eq!(lines[0].iter().filter(|&&x| x == b',').count(), definition.variables().count() - 1);
    assert_eq!(lines[2].iter().filter(|&&x| x != b',').count(), 1, "missing throughout, and CR");
    assert!(out[exported.length..].iter().all(|&x| x == 0x55));
    let kept = [0x55; 300];
    let mut out = kept;
    assert_eq!(definition.export(data, &mut out[..exported.length - 1]), Err(Refusal::ExportRoom));
    assert_eq!(calls::export(b"", definition.table(), data, &mut out), Err(Refusal::OtherTable));
    assert_eq!(calls::export(SAMPLE, &[11], data, &mut out), Err(Refusal::Table));
    assert_eq!(out, kept);
    let cut = definition.export(&data[..data.len() - 1], &mut out).unwrap();
    let fault = cut.fault.unwrap();
    assert_eq!((cut.records, fault.record, fault.fault.refusal), (1, 2, Refusal::Unended));
    assert_eq!(out[..cut.length], text[..cut.length]);
    assert!(cut.length < text.len() && out[cut.length] == 0x55);
}

/// Every buffer as the header says, every refusal with its place; above it the whole text in one call.
#[test]
fn clean_definitions() {
    let definition = Definition::read(SAMPLE).unwrap();
    let clean = definition.clean().unwrap();
    let again = Definition::read(&clean).unwrap();
    assert_eq!(again.clean().unwrap(), clean);
    let words = b"POSITION 17 TO 17\r\nEND VARIABLE\r\nEND RECORD\r\nEND SURVEY\r\nEND SSS\r\n";
    assert!(clean.ends_with(words), "{}", clean.escape_ascii());
    for (before, after) in definition.variables().zip(again.variables()) {
        assert_eq!((before.ident(), before.kind(), before.columns()), (after.ident(), after.kind(), after.columns()));
        assert_eq!((before.range(), before.name().as_bytes()), (after.range(), after.name().as_bytes()));
    }
    let mut out = vec![0x55; clean.len() + 3];
    assert_eq!(calls::write_definition(SAMPLE, definition.table(), &mut out), Ok(clean.len()));
    assert!(out[..clean.len()] == clean && out[clean.len()..] == [0x55; 3]);

    let kept = vec![0x55; clean.len()];
    let mut out = kept.clone();
    let refused = |def: &[u8], table: &[i64], out: &mut [u8]| {
        let error = calls::write_definition(def, table, out).unwrap_err();
        (error.refusal, error.place)
    };
    let table = definition.table();
    assert_eq!(refused(b"SSS VERSION 1.2", table, &mut out), (Refusal::Version, 12));
    assert_eq!(refused(&vec![b' '; 1_048_577], table, &mut out), (Refusal::TooLong, 0));
    assert_eq!(refused(SAMPLE, &table[..table.len() - 1], &mut out), (Refusal::OtherTable, 0));
    assert_eq!(refused(SAMPLE, again.table(), &mut out), (Refusal::OtherTable, 0));
    assert_eq!(refused(SAMPLE, table, &mut out[1..]), (Refusal::CleanRoom, 0));
    assert_eq!(out, kept);
    let error = calls::write_definition(SAMPLE, &[], &mut out).unwrap_err();
    assert_eq!(error.to_string(), "the table is not the one that this definition yields [40]");

    let title = format!("SURVEY TITLE \"{}\" RECORD", "x".repeat(1_048_576 - SAMPLE.len() - 9));
    let long = String::from_utf8(SAMPLE.to_vec()).unwrap().replace("SURVEY RECORD", &title);
    assert_eq!(Definition::read(long.as_bytes()).unwrap().clean(), Err(Refusal::CleanSize));
}

/// Text as records: what is built, where it stands; each refusal with its line and column, and the output as it was.
#[test]
fn imports() {
    let definition = Definition::read(SAMPLE).unwrap();
    let data = b" 710x1x-1.0ab   1\n                 \n";
    let mut text = [0; 300];
    let exported = definition.export(data, &mut text).unwrap();
    let text = &text[..exported.length];
    let length = 2 * (definition.record_length() + 2);
    let mut out = [0x55; 300];
    let imported = definition.import(text, &mut out).unwrap();
    assert_eq!((imported.records, imported.length), (2, length));
    assert!(out[length..].iter().all(|&x| x == 0x55));
    let built = out[..length].to_vec();
    assert_eq!(definition.judge(&built), Ok(2));
    let mut again = [0; 300];
    let exported = definition.export(&built, &mut again).unwrap();
    assert_eq!(&again[..exported.length], text);
    let kept = [0x55; 300];
    let mut out = kept;
    let mut refused = |text: &[u8], room: usize| {
        let fault = definition.import(text, &mut out[..room]).unwrap_err();
        assert_eq!(out, kept);
        (fault.refusal, fault.line, fault.column)
    };
    assert_eq!(refused(text, length - 1), (Refusal::ExportRoom, 0, 0));
    assert_eq!(refused(&text[..text.len() - 1], 300), (Refusal::Malformed, 3, definition.variables().len() as u64));
    assert_eq!(refused(&text[1..], 300), (Refusal::NameLine, 1, 1));
    assert_eq!(refused(&[text, b"\r\n"].concat(), 300), (Refusal::Fields, 4, 2));
    assert_eq!(refused(&[text, b"x,,,,\r\n"].concat(), 300), (Refusal::Field, 4, 1));
    let calls = |def: &[u8], table: &[i64]| calls::import(def, table, text, &mut []).unwrap_err().refusal;
    assert_eq!((calls(b"", definition.table()), calls(SAMPLE, &[11])), (Refusal::OtherTable, Refusal::Table));
}

#[test]
fn files() {
    let definition = Definition::read(SAMPLE).unwrap();
    let good = " 710x1x-1.0ab   1\r\n".repeat(3);
    assert_eq!(definition.judge(good.as_bytes()), Ok(3));
    assert_eq!(definition.judge(b""), Ok(0));
    let records: Vec<_> = definition.records(good.as_bytes()).collect();
    assert_eq!(records.iter().map(|r| (r.number(), r.place())).collect::<Vec<_>>(), [(1, 0), (2, 19), (3, 38)]);
    assert!(records.iter().all(|r| r.is_ended() && r.bytes() == b" 710x1x-1.0ab   1" && r.judge() == Ok(())));
    for record in &records {
        let values = record.values().unwrap();
        assert_eq!(values.len(), 5);
        assert!(values.iter().map(|(_, value)| value.unwrap()).eq(SOUND));
        assert_eq!(values.faults().count(), 0);
    }
    assert!(!definition.records(good.trim_end().as_bytes()).last().unwrap().is_ended());

    let fault = |data: &str| definition.judge(data.as_bytes()).unwrap_err();
    let said = |data: &str| fault(data).to_string();
    assert_eq!(said(good.trim_end()), "record 3, the last record has no terminator [30]");
    assert_eq!(said(&format!("{good}x\r\n")), "record 4, the record's length differs from the first record's [31]");
    assert_eq!(
        said(&format!("{good} 710x1x-1.0ab \t 1\r\n")),
        "record 4, byte 14: the record has a byte below 32 [23]"
    );
    assert_eq!(
        said(&format!("{good} 710x1x-1.0ab   2\r\n")),
        "record 4, row 4, byte 16: the field has a byte that cannot stand there [241]"
    );
    assert_eq!(
        said(&good.replacen(" 7", "99", 1)),
        "record 1, row 0, number 99: the field holds a number that is neither in the range nor on a line [242]"
    );
    assert_eq!(said("\n"), "record 1, the record is shorter than its definition needs [22]");
    let low = fault(&format!("{good} 710x1x-1.0ab \t 1\r\n"));
    assert_eq!((low.record, low.fault.row, low.fault.place), (4, None, Some(14)));
    assert_eq!(calls::judge_file(&[], b"").unwrap_err().to_string(), "the table is not well formed [20]");
}

/// All faults of a record at once, each with its row.
#[test]
fn faults_of_a_record() {
    let definition = Definition::read(SAMPLE).unwrap();
    let data = b"99123x9.999ab   2\n";
    let record = definition.records(data).next().unwrap();
    assert_eq!(record.judge().unwrap_err().row, Some(0));
    let values = record.values().unwrap();
    let faults: Vec<_> = values.faults().map(|(v, e)| (v.ident(), e.refusal, e.place, e.number)).collect();
    let expected = [
        (1, Refusal::NotLegal, None, Some(99)),
        (2, Refusal::Stray, Some(3), None),
        (3, Refusal::Point, Some(7), None),
        (5, Refusal::Stray, Some(16), None),
    ];
    assert_eq!(faults, expected);
    assert_eq!(values.get(3), Some(Ok(Value::Text(b"ab"))));
    assert_eq!(definition.records(b"short\n").next().unwrap().values().unwrap_err(), Refusal::Short);
}

/// The largest set fits, and what `values` gives is what the call for one row gives.
#[test]
fn the_largest_set() {
    let text = b"SSS VERSION 1.1 SURVEY RECORD R VARIABLE 1 NAME \"s\" LABEL \"\" TYPE MULTIPLE POSITION 1 TO 9999
VALUES 1 TO 9999 END VALUES END VARIABLE VARIABLE 2 NAME \"t\" LABEL \"\" TYPE MULTIPLE POSITION 1 TO 5
VALUES 1 TO 5 END VALUES END VARIABLE END RECORD END SURVEY END SSS";
    let definition = Definition::read(text).unwrap();
    let record = vec![b'1'; 9999];
    let mut list = vec![0; MAX_SET];
    let values = Values::read(&definition, &record).unwrap();
    let all: Vec<i64> = (1..=9999).collect();
    assert_eq!(values.get(0), Some(Ok(Value::Set(&all))));
    assert_eq!(values.get(1), Some(Ok(Value::Set(&[1, 2, 3, 4, 5]))));
    for row in 0..2 {
        assert_eq!(values.get(row), Some(calls::read_value(definition.table(), row as u64, &record, &mut list)));
    }
    let mut out = [[0; 4]; 2];
    assert_eq!(calls::read_record(definition.table(), &record, &mut out, &mut list), Err(Refusal::ListRoom));
    list.resize(MAX_SET + 5, 0);
    assert_eq!(calls::read_record(definition.table(), &record, &mut out, &mut list), Ok((10_004, 0)));
    assert_eq!(out, [[0, 2, 9999, 0], [0, 2, 5, 9999]]);
    assert_eq!(calls::read_record(definition.table(), &record, &mut out[..1], &mut list), Err(Refusal::ListRoom));
    assert_eq!(calls::read_record(definition.table(), &record[1..], &mut out, &mut list), Err(Refusal::Short));
}

/// One definition shared by threads that judge at once, each on a stack of 128 KiB.
#[test]
fn threads() {
    let definition = Definition::read(SAMPLE).unwrap();
    let good = " 710x1x-1.0ab   1\r\n".repeat(500);
    let bad = format!("{good}13\r\n");
    std::thread::scope(|scope| {
        for n in 0..8 {
            let (definition, data) = (&definition, if n % 2 == 0 { &good } else { &bad });
            let thread = std::thread::Builder::new().stack_size(128 << 10);
            let judge = move || {
                for _ in 0..20 {
                    assert_eq!(definition.judge(data.as_bytes()).is_ok(), n % 2 == 0);
                    assert_eq!(definition.records(data.as_bytes()).count(), 500 + n % 2);
                }
            };
            thread.spawn_scoped(scope, judge).unwrap();
        }
    });
}

/// A definition in XML: texts decode to UTF-8 whatever the file's encoding, a break is one, other languages say nothing; use and filter.
#[test]
fn xml() {
    let text = "<?xml version='1.0' encoding='ISO-8859-1'?><sss version='1.2' languages='en fr'><survey><record ident='A'>\
        <variable ident='9' type='quantity' use='serial'><name>No</name><label/><position start='1' finish='2'/>\
        <values><range from='1' to='99'/></values></variable>\
        <variable ident='2' type='logical'><name>\u{e9}t\u{e9}</name><label>a<br/>&#8364;<text xml:lang='fr'>b</text></label>\
        <position start='3'/></variable>\
        <variable ident='3' type='quantity' use='weight'><name>W</name><label/><position start='4' finish='6'/>\
        <values><range from='0.0' to='9.9'/></values></variable>\
        <variable ident='4' type='single'><name>S</name><label/><position start='7'/><filter>\u{e9}t\u{e9}</filter>\
        <values><value code='1'>yes</value></values></variable>\
        </record></survey></sss>";
    let latin: Vec<u8> = text.chars().map(|sign| sign as u8).collect();
    let definition = Definition::read(&latin).unwrap();
    assert!(definition.is_xml() && !Definition::read(SAMPLE).unwrap().is_xml());
    let uses: Vec<Use> = definition.variables().map(|variable| variable.usage()).collect();
    assert_eq!(uses, [Use::Serial, Use::No, Use::Weight, Use::No]);
    let filters: Vec<_> = definition.variables().map(|variable| variable.filter().map(|filter| filter.row())).collect();
    assert_eq!(filters, [None, None, None, Some(1)]);
    let summer = definition.variable(1).unwrap();
    let mut list = vec![0; summer.label().most().max(summer.name().most())];
    assert!(summer.name().is_utf8() && summer.name().as_bytes() == b"\xe9t\xe9");
    let name: Vec<u8> = summer.name().decode(&mut list).unwrap().bytes(b' ').collect();
    assert_eq!(name, "\u{e9}t\u{e9}".as_bytes());
    let label = summer.label().decode(&mut list).unwrap();
    assert!(
        label.lines().map(|line| line.bytes(0).collect::<Vec<_>>()).eq([b"a".to_vec(), "\u{20ac}".as_bytes().to_vec()])
    );
    // The names of an export are UTF-8, and come back.
    let data = b" 712.51\r\n";
    let (mut csv, mut out) = (vec![0; 100], vec![0; 100]);
    let exported = definition.export(data, &mut csv).unwrap();
    assert_eq!(&csv[..exported.length], "No,\u{e9}t\u{e9},W,S\r\n7,1,2.5,1\r\n".as_bytes());
    let imported = definition.import(&csv[..exported.length], &mut out).unwrap();
    assert_eq!(&out[..imported.length], b"0712.51\r\n");
    assert_eq!(definition.clean(), Err(Refusal::Token));
    // What only XML is refused with.
    let refused = |from: &str, to: &str| {
        let text = text.replace(from, to);
        let latin: Vec<u8> = text.chars().map(|sign| sign as u8).collect();
        let error = Definition::read(&latin).unwrap_err();
        (error.refusal, text.chars().skip(error.place).take(4).collect::<String>())
    };
    assert_eq!(refused("<label/>", "<label>"), (Refusal::Element, "<pos".into()));
    assert_eq!(refused("</survey>", "</Survey>"), (Refusal::Xml, "</Su".into()));
    assert_eq!(refused("use='weight'", "use='serial'"), (Refusal::Use, "seri".into()));
    assert_eq!(refused("'1.2'", "'2.0'"), (Refusal::Version, "2.0'".into()));
}

/// A refusal that this version doesn't know is a refusal, with its number, and no panic.
#[test]
fn unknown_refusals() {
    for number in [11, 24, 39, 53, u64::MAX] {
        let refusal = Refusal::of(number).unwrap();
        assert_eq!((refusal, refusal.number()), (Refusal::Unknown(number), number));
        assert!(refusal.to_string().ends_with(&format!("[{number}]")));
    }
    for &refusal in Refusal::ALL {
        assert_eq!(Refusal::of(refusal.number()), Some(refusal));
    }
}
