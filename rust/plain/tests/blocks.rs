//! What goes by blocks of bytes, tried at every place of a block and at a file's ends, against the plain words of the papers.

use zarfolin_plain::*;

/// A definition of these variables, each its words from TYPE to before END VARIABLE, and its table.
fn survey(variables: &[&str]) -> (Vec<u8>, Vec<i64>) {
    let mut def = String::from("SSS VERSION 1.1 SURVEY RECORD A\r\n");
    for (i, words) in variables.iter().enumerate() {
        def += &format!("VARIABLE {0} NAME \"v{0}\" LABEL \"\" {words} END VARIABLE\r\n", i + 1);
    }
    def += "END RECORD END SURVEY END SSS";
    let mut table = vec![0; 4_000];
    assert_eq!(read_definition(def.as_bytes(), &mut table).number, 0, "{def}");
    (def.into_bytes(), table)
}

/// The lines behind the name line that export gives for a file, or its refusal.
fn exported(def: &[u8], table: &[i64], data: &[u8]) -> Result<String, i64> {
    let mut out = vec![0; 20_000];
    let answer = export(def, table, data, &mut out);
    let text = String::from_utf8_lossy(&out[..answer[4] as usize]).into_owned();
    if answer[0] == 0 { Ok(text.split_once("\r\n").unwrap().1.to_string()) } else { Err(answer[0]) }
}

#[test]
fn a_byte_below_32_at_every_place() {
    let (_, table) = survey(&["TYPE LOGICAL POSITION 1"]);
    for length in (1..90).chain([127, 128, 129, 191, 192, 255, 256, 257, 383, 384, 385, 640, 641, 1_000]) {
        let mut data = vec![b'1'; length];
        data.extend(b"\r\n");
        assert_eq!(judge_file(&table, &data).numbers(), [0, 1, 0, 0]);
        for place in 0..length {
            let mut data = data.clone();
            data[place] = 31;
            assert_eq!(judge_file(&table, &data).numbers(), [23, 1, 0, place as i64]);
            let (mut out, mut list) = (vec![0; length + 2], vec![0; 3]);
            assert_eq!(mend(&table, &data, &mut out, &mut list), [0, length as i64 + 2, 1, 0]);
            assert_eq!(list, [2, 1, place as i64]);
            data[place] = b' ';
            assert_eq!(out, data);
        }
    }
}

#[test]
fn texts_of_every_length_and_with_every_byte() {
    for width in [1, 2, 15, 16, 17, 31, 32, 33, 40] {
        let (def, table) = survey(&[&format!("TYPE CHARACTER POSITION 1 TO {width} SIZE {width}")]);
        for length in 0..=width {
            for (place, byte) in (0..length).flat_map(|place| [b'x', b',', b'"', b' ', 200].map(|byte| (place, byte))) {
                let mut record = vec![b'a'; length];
                record[place] = byte;
                let mut data = record.clone();
                data.resize(width, b' ');
                data.extend(b"\n");
                let kept = String::from_utf8_lossy(&record).trim_end_matches(' ').to_string();
                let field = match byte {
                    b',' | b'"' => format!("\"{}\"", kept.replace('"', "\"\"")),
                    _ => kept,
                };
                assert_eq!(exported(&def, &table, &data), Ok(field + "\r\n"));
            }
        }
    }
}

#[test]
fn numbers_of_every_width_at_every_place() {
    for (w, decimals) in (1..=9).flat_map(|w| [0, 1, 2, 6].map(|decimals| (w, decimals))) {
        let least = if decimals > 0 { decimals + 2 } else { 1 };
        if w < least {
            continue;
        }
        let most = 10i64.pow((w - (decimals > 0) as usize) as u32) - 1;
        let written = |v: i64| match decimals {
            0 => v.to_string(),
            _ => {
                let digits = format!("{:0>1$}", v.unsigned_abs(), decimals + 1);
                let (whole, behind) = digits.split_at(digits.len() - decimals);
                format!("{}{whole}.{behind}", if v < 0 { "-" } else { "" })
            }
        };
        let lowest = if w > least { -(most / 10) } else { 0 };
        for before in 0..9 {
            let (start, finish) = (1 + before, before + w);
            let words = format!(
                "TYPE QUANTITY POSITION {start} TO {finish} VALUES {} TO {} END VALUES",
                written(lowest),
                written(most)
            );
            let (def, table) = survey(&[&words]);
            for v in [0, 1, 9, 10, 99, most / 3, most / 10, most - 1, most, -1, -9, lowest] {
                if v < lowest || v > most {
                    continue;
                }
                let text = written(v);
                // Spaces in front, or zeros behind the sign.
                let zeros = format!(
                    "{}{:0>2$}",
                    if v < 0 { "-" } else { "" },
                    text.trim_start_matches('-'),
                    w - (v < 0) as usize
                );
                for places in [format!("{text:>w$}"), zeros] {
                    let record = format!("{}{places}", "7".repeat(before));
                    assert_eq!(judge_record(&table, record.as_bytes()).number, 0, "{words}: {record}");
                    assert_eq!(
                        exported(&def, &table, format!("{record}\r").as_bytes()),
                        Ok(format!("{text}\r\n")),
                        "{words}"
                    );
                    for at in before..before + w {
                        let mut bad = record.clone().into_bytes();
                        bad[at] = b'/';
                        let number = judge_record(&table, &bad).number;
                        bad.push(b'\r');
                        assert_eq!(judge_file(&table, &bad).number, number, "{words}: {}", bad.escape_ascii());
                        assert_eq!(exported(&def, &table, &bad), Err(number as i64));
                    }
                }
            }
        }
    }
}

#[test]
fn categories_of_every_width_at_every_place() {
    for (w, most) in [(1, 9), (2, 99), (3, 999), (4, 9_999)] {
        for before in 0..5 {
            let words = format!("TYPE SINGLE POSITION {} TO {} VALUES 1 TO {most} END VALUES", before + 1, before + w);
            let (def, table) = survey(&[&words]);
            for c in 0..=most {
                let shown = if c == 0 { String::new() } else { c.to_string() };
                for places in [format!("{c:>w$}"), format!("{c:0>w$}")] {
                    let data = format!("{}{places}\r\n", "5".repeat(before));
                    assert_eq!(exported(&def, &table, data.as_bytes()), Ok(format!("{shown}\r\n")));
                }
            }
            for places in ["1 ", " /", ":1", "!1", "1!", "-1", "1\u{7f}", "  "].map(|bad| format!("{bad:>w$}")) {
                let record = format!("{}{}", "5".repeat(before), &places[places.len() - w..]);
                let judged = judge_record(&table, record.as_bytes()).number;
                assert_eq!(judge_file(&table, format!("{record}\r\n").as_bytes()).number, judged, "{record}");
                let spaces = record[before..].trim_start_matches(' ');
                assert_eq!(judged == 0, spaces.bytes().all(|x| x.is_ascii_digit()), "{record}");
            }
        }
    }
}

#[test]
fn dropped_bytes_at_every_place_of_a_definition() {
    let (def, _) = survey(&[
        "TYPE SINGLE POSITION 12 TO 13 VALUES 1 \"one thing, and another one\" 20 \"{\"}x{\"}\" SPECIAL END VALUES",
        "TYPE MULTIPLE POSITION 20 TO 31 SPREAD 4 VALUES 1 TO 100 WITH 200 \"\" END VALUES",
        "TYPE CHARACTER POSITION 32 TO 40 SIZE 9",
    ]);
    let written = |def: &[u8]| {
        let (mut table, mut out) = (vec![0; 4_000], vec![0; 4_000]);
        assert_eq!(read_definition(def, &mut table).number, 0, "{}", def.escape_ascii());
        let answer = write_definition(def, &table, &mut out);
        assert_eq!(answer[0], 0);
        out.truncate(answer[2] as usize);
        out
    };
    let clean = written(&def);
    assert_eq!(written(&clean), clean);
    for place in 0..=def.len() {
        for dropped in [&b"\r\n"[..], b"\0", b"\x1f\x01\x02"] {
            let with = [&def[..place], dropped, &def[place..]].concat();
            assert_eq!(written(&with), clean, "{}", with.escape_ascii());
        }
    }
}
