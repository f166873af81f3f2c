//! Definitions: document 01's rules, the readings and document 003's example, statement by statement.

use zarfolin_plain::*;

const HEAD: &str = "SSS VERSION 1.1 SURVEY RECORD R ";
const TAIL: &str = " END RECORD END SURVEY END SSS";

/// The numbers of a table of so many rows and lines.
fn size(rows: usize, lines: usize) -> usize {
    HEADER + ROW * rows + LINE * lines
}

fn read(def: &[u8]) -> (Definition, Vec<i64>) {
    let mut table = vec![-77; size(MAX_VARIABLES, MAX_LINES) + 3];
    let d = read_definition(def, &mut table);
    if d.number != 0 {
        assert!(table.iter().all(|&x| x == -77), "a refusal touched the table");
        assert_eq!((d.variables, d.lines), (0, 0));
    } else {
        let used = size(d.variables, d.lines);
        assert!(table[used..].iter().all(|&x| x == -77), "numbers beyond the table were touched");
        assert!(well_formed(&table), "a table that was read is not well formed");
        assert!(well_formed(&table[..used]));
        assert!(!well_formed(&table[..used - 1]));
        assert_eq!(d.place, 0);
        table.truncate(used);
    }
    (d, table)
}

/// A refusal with this number, at the place of the `^` in the text.
#[track_caller]
fn refused(number: u32, text: &str) {
    let place = text.find('^').expect("a place");
    let text = text.replacen('^', "", 1);
    let (d, _) = read(text.as_bytes());
    let near = String::from_utf8_lossy(&text.as_bytes()[place.saturating_sub(80)..(place + 80).min(text.len())]);
    assert_eq!((d.number, d.place), (number, place), "near {near:?}");
}

/// The same inside a whole record of variables.
#[track_caller]
fn refused_in_record(number: u32, text: &str) {
    refused(number, &format!("{HEAD}{text}{TAIL}"));
}

/// The same inside one variable, behind TYPE.
#[track_caller]
fn refused_in_variable(number: u32, text: &str) {
    refused_in_record(number, &format!("VARIABLE 1 NAME \"n\" LABEL \"l\" TYPE {text}"));
}

#[track_caller]
fn good(text: &str) -> Vec<i64> {
    let (d, table) = read(text.as_bytes());
    assert_eq!((d.number, d.place), (0, 0), "{text:?}");
    table
}

fn variable(text: &str) -> String {
    format!("{HEAD}VARIABLE 1 NAME \"n\" LABEL \"l\" TYPE {text} END VARIABLE{TAIL}")
}

/// The first row of a definition with one variable.
#[track_caller]
fn row(text: &str) -> Vec<i64> {
    good(&variable(text))[size(0, 0)..size(1, 0)].to_vec()
}

pub const SAMPLE: &str = "SSS VERSION 1.1 SURVEY RECORD R
VARIABLE 1 NAME \"desk\" LABEL \"Desk\" TYPE SINGLE POSITION 1 TO 2
VALUES 1 TO 12 END VALUES END VARIABLE
VARIABLE 2 NAME \"seen\" LABEL \"Seen\" TYPE MULTIPLE POSITION 3 TO 6
VALUES 1 \"a\" 2 \"b\" 4 \"d\" END VALUES END VARIABLE
VARIABLE 3 NAME \"wait\" LABEL \"Wait\" TYPE QUANTITY POSITION 7 TO 11
VALUES -1.0 TO 99.5 END VALUES END VARIABLE
END RECORD END SURVEY END SSS
";

#[test]
fn the_sample() {
    let t = good(SAMPLE);
    let at = |s: &str| SAMPLE.find(s).unwrap() as i64 + 1;
    assert_eq!(t[..HEADER], [11, 3, 3, 11, HEADER as i64, size(3, 0) as i64]);
    let row = |r: usize| &t[size(r, 0)..][..=column::LABEL_LENGTH];
    let (n, l) = (at("\"desk"), at("\"Desk"));
    assert_eq!(*row(0), [1, 1, 1, 2, 2, 0, 0, 0, 0, 1, 1, 12, 0, 0, n, 4, l, 4]);
    let (n, l) = (at("\"seen"), at("\"Seen"));
    assert_eq!(*row(1), [2, 2, 3, 6, 4, 0, 0, 0, 0, 0, 0, 0, 0, 3, n, 4, l, 4]);
    let (n, l) = (at("\"wait"), at("\"Wait"));
    assert_eq!(*row(2), [3, 3, 7, 11, 4, 1, 1, 0, 0, 1, -10, 995, 3, 0, n, 4, l, 4]);
    assert_eq!(t[size(3, 0)..], [1, 0, at("\"a\""), 1, 2, 0, at("\"b\""), 1, 4, 0, at("\"d\""), 1]);

    // Exactly enough room, and one number less.
    let mut table = vec![5; t.len()];
    assert_eq!(read_definition(SAMPLE.as_bytes(), &mut table).number, 0);
    assert_eq!(table, t);
    let mut table = vec![5; t.len() - 1];
    let d = read_definition(SAMPLE.as_bytes(), &mut table);
    assert_eq!(d, Definition { number: 10, place: 0, variables: 0, lines: 0 });
    assert!(table.iter().all(|&x| x == 5));
    assert_eq!(read_definition(SAMPLE.as_bytes(), &mut []).number, 10);
}

pub const HOUSE: &str = r#"SSS
VERSION 1.1
DATE "15/JUL/1997"
TIME "18:32"
ORIGIN "Export 1.42"
STANDARD NAMES
SURVEY
       TITLE "Historic House Exit Survey"
       RECORD V
              VARIABLE 1
                     NAME "Q1"
                     LABEL "Number of visits"
                     TYPE SINGLE
                     POSITION 1
                     VALUES
                             1 "First visit"
                            2 "Visited before within the year"
                             3 "Visited before that"
                     END VALUES
              END VARIABLE
              VARIABLE 2
                     NAME "Q2"
                     LABEL "Attractions visited"
                     TYPE MULTIPLE
                     POSITION 2 TO 10
                     VALUES
                             1 "Sherwood Forest"
                            2 "Nottingham Castle"
                             3 "{"}Friar Tuck{"} Restaurant"
                            4 "{"}Maid Marion{"} Cafe"
                            5 "Mining museum"
                            9 "Other"
                     END VALUES
              END VARIABLE
              VARIABLE 3
                     NAME "Q3"
                     LABEL "Other attractions visited"
                     TYPE CHARACTER
                     POSITION 11 TO 40
                     SIZE 30
              END VARIABLE
              VARIABLE 4
                     NAME "Q4"
                     LABEL "Two favourite attractions visited"
                     TYPE MULTIPLE
                     POSITION 41 TO 42
                     SPREAD 2
                                   <2 subfields of width 1>
                     NOTE "same answer list as Q2"
                     VALUES
                            1 "Sherwood Forest"
                            2 "Nottingham Castle"
                            3 "{"}Friar Tuck{"} Restaurant"
                            4 "{"}Maid Marion{"} Cafe"
                            5 "Mining museum"
                            9 "Other"
                     END VALUES
              END VARIABLE
       VARIABLE 5
                     NAME "Q5"
                     LABEL "Miles travelled"
                     TYPE QUANTITY
                     POSITION 43 TO 45
                     VALUES
                            1 TO 499
                            500 "500 or more"
                            999 "Not stated" SPECIAL
                     END VALUES
              END VARIABLE
              VARIABLE 6
                     NAME "Q6"
                     LABEL "Enjoyed visit"
                     TYPE LOGICAL
                     POSITION 46
              END VARIABLE
       END RECORD
END SURVEY
END SSS
"#;

#[test]
fn the_example_of_003() {
    let (d, _) = read(HOUSE.as_bytes());
    assert_eq!((d.number, d.place), (2, HOUSE.find("500 \"").unwrap()));
    let mended = HOUSE.replace("1 TO 499", "1 TO 499 WITH");
    let t = good(&mended);
    assert_eq!(t[..HEADER], [11, 6, 17, 46, 6, size(6, 0) as i64]);
    let row = |r: usize| &t[size(r, 0)..][..14];
    assert_eq!(*row(1), [2, 2, 2, 10, 9, 0, 0, 0, 0, 0, 0, 0, 3, 6]);
    assert_eq!(*row(2), [3, 4, 11, 40, 30, 0, 0, 0, 0, 0, 0, 0, 9, 0]);
    assert_eq!(*row(3), [4, 2, 41, 42, 1, 0, 0, 2, 1, 0, 0, 0, 9, 6]);
    assert_eq!(*row(4), [5, 3, 43, 45, 3, 0, 0, 0, 0, 1, 1, 499, 15, 2]);
    assert_eq!(*row(5), [6, 5, 46, 46, 1, 0, 0, 0, 0, 0, 0, 0, 17, 0]);
    let last = &t[size(6, 16)..];
    assert_eq!(last[..2], [999, 1]);

    // Its three respondents.
    let data = [
        format!("2101000001{:<30}190121", "Amusement Park"),
        format!("3010000000{:<30}209991", ""),
        format!("2100100001{:<30}940580", "\"Marco's\" Restaurant"),
    ];
    let read = |row, record: &str| {
        let mut list = [0i64; 9];
        match read_value(&t, row, record.as_bytes(), &mut list).unwrap() {
            Value::Missing => "missing".to_string(),
            Value::Number(n) => n.to_string(),
            Value::Set(n) => format!("{:?}", &list[..n]),
            Value::Text(p, n) => record[p..p + n].to_string(),
            Value::Truth(b) => b.to_string(),
        }
    };
    let all = |record: &str| (0..6).map(|row| read(row, record)).collect::<Vec<_>>();
    assert_eq!(all(&data[0]), ["2", "[1, 3, 9]", "Amusement Park", "[1, 9]", "12", "true"]);
    assert_eq!(all(&data[1]), ["3", "[2]", "missing", "[2]", "999", "true"]);
    assert_eq!(all(&data[2]), ["2", "[1, 4, 9]", "\"Marco's\" Restaurant", "[4, 9]", "58", "false"]);
    let file = data.concat().into_bytes();
    let file: Vec<u8> = file.chunks(46).flat_map(|r| [r, b"\r\n"].concat()).collect();
    assert_eq!(judge_file(&t, &file), FileJudgement { number: 0, record: 3, row: 0, place: 0 });
}

#[test]
fn dropped_bytes_and_case() {
    let plain = good(SAMPLE);
    // Every byte followed by a dropped one: all but the text places and lengths is the same.
    let odd: Vec<u8> = SAMPLE.bytes().flat_map(|b| [b, 7]).collect();
    let (d, t) = read(&odd);
    assert_eq!((d.number, d.variables, d.lines), (0, 3, 3));
    for r in 0..3 {
        let (a, b) = (&plain[size(r, 0)..], &t[size(r, 0)..]);
        assert_eq!(a[..14], b[..14]);
        assert_eq!([a[14] * 2 - 1, a[15] * 2 + 1], b[14..16]);
    }
    let (d, t) = read(SAMPLE.to_lowercase().as_bytes());
    assert_eq!(d.number, 0);
    assert_eq!(t, plain);
    good(
        "sssversion1.1surveyrecordrvariable1name\"n\"label\"l\"typelogicalposition1to1endvariableendrecordendsurveyendsssx",
    );
    good(
        "\r\nS\0S\nSVER\r\nSION1\r.\n1SURVEYRECORDrVARIABLE\n1\n2NAME\"\"LABEL\"\"TYPEQUANTITYPOSITION2\n1TO2\r\n4VALUES-\n1TO1\r0ENDVALUESENDVARIABLEENDRECORDENDSURVEYENDSSS<",
    );
    // A text's place is just behind its quote, even where that byte is dropped.
    let text = variable("LOGICAL POSITION 1").replace("\"n\"", "\"\r\nn\r\"");
    let t = good(&text);
    assert_eq!(t[20..22], [text.find("\"\r").unwrap() as i64 + 1, 4]);
}

#[test]
fn beginning() {
    refused(2, "^");
    refused(2, "\r\n^");
    refused(2, "^ SSS VERSION 1.1");
    refused(2, "\r\n^ SSS VERSION 1.1");
    refused(2, "\n^XSS");
    refused(2, "^SS");
    refused(2, "^S S S VERSION 1.1");
    refused(2, "SSS^");
    refused(2, "SSS ^X");
    refused(2, "SSS ^<c> VERSION 1.1");
    refused(2, "SSS ^VER SION 1.1");
    refused(2, "SSS ^NOTE \"x\" VERSION 1.1");
    refused(2, "SSS VERSION^");
    refused(2, "SSS VERSION ^<c> 1.1");
    refused(2, "SSS VERSION ^<");
    refused(2, "SSS VERSION ^x");
    refused(4, "SSS VERSION ^1.0 <");
    refused(4, "SSS VERSION ^01.1");
    refused(4, "SSS VERSION ^1.10");
    refused(4, "SSS VERSION ^1 .1");
    refused(4, "SSS VERSION ^+1.1");
    refused(4, "SSS VERSION ^.");
    refused(2, "SSS VERSION 1.1 ^.1");
    refused(2, "SSS VERSION 1\n.\r1^");
    refused(2, "SSS VERSION 1.1<c><\"<\">^");
    refused(2, "SSS VERSION 1.1 ^SURVE");
    refused(2, "SSS VERSION 1.1 ^>");
}

#[test]
fn head_statements() {
    good(&format!(
        "SSS VERSION 1.1 NOTE\"n\" USER \"u\" STANDARD <c> NAMES NOTE \"a\" NOTE \"b\" TIME \"t\" DATE\"d\" ORIGIN\"o\" SURVEY {}",
        &variable("LOGICAL POSITION 1")[HEAD.len() - 9..]
    ));
    for word in ["DATE", "TIME", "ORIGIN", "USER"] {
        refused(2, &format!("SSS VERSION 1.1 {word} \"x\" ^{word} \"y"));
        refused(2, &format!("SSS VERSION 1.1 {word} ^x"));
        refused(3, &format!("SSS VERSION 1.1 {word} ^\"x"));
    }
    refused(2, "SSS VERSION 1.1 STANDARD NAMES ^STANDARD NAMES");
    refused(2, "SSS VERSION 1.1 STANDARD ^NAME");
    refused(2, "SSS VERSION 1.1 STANDARD ^NOTE \"x\" NAMES");
    refused(2, "SSS VERSION 1.1 SURVEY ^DATE \"x\"");
    refused(2, "SSS VERSION 1.1 ^TITLE \"x\" SURVEY");
    refused(2, "SSS VERSION 1.1 ^RECORD R");
    refused(2, "SSS VERSION 1.1 SURVEY TITLE \"x\" ^TITLE \"y\" RECORD R");
    refused(2, "SSS VERSION 1.1 SURVEY RECORD ^1");
    refused(2, "SSS VERSION 1.1 SURVEY RECORD ^");
    refused(2, "SSS VERSION 1.1 SURVEY RECORD ^\u{e9}");
    refused(2, "SSS VERSION 1.1 SURVEY RECORD A^B");
    refused(2, "SSS VERSION 1.1 SURVEY RECORD N^OTE \"x\" A");
    refused(2, &format!("{HEAD}^{}", TAIL.trim_start()));
    good(
        "SSS VERSION 1.1 SURVEY NOTE \"1\" TITLE\"x\"NOTE\"2\"RECORDRNOTE\"3\"VARIABLE1NOTE\"4\"NAME\"a\"NOTE\"5\"LABEL\"b\"NOTE\"6\"TYPE MULTIPLE NOTE\"7\"POSITION 1 TO 4 NOTE\"8\"SPREAD 2 NOTE\"9\" VALUES NOTE\"10\" 1 TO 2 WITH NOTE\"11\" 1\"x\"NOTE\"12\"2\"y\"SPECIAL NOTE\"13\"END VALUES NOTE\"14\"END VARIABLE NOTE\"15\"END RECORD NOTE\"16\"END SURVEY NOTE\"17\" END SSS NOTE",
    );
    refused(2, "SSS VERSION 1.1 NOTE ^NOTE");
}

#[test]
fn the_end() {
    let v = &variable("LOGICAL POSITION 1");
    let cut = |s: &str| &v[..v.find(s).unwrap() + s.len()];
    refused(2, &format!("{}^", cut("END VARIABLE")));
    refused(2, &format!("{} END ^", cut("END VARIABLE")));
    refused(2, &format!("{} END ^SURVEY", cut("END VARIABLE")));
    refused(2, &format!("{} END ^NOTE \"x\" RECORD", cut("END VARIABLE")));
    refused(2, &format!("{} ^X", cut("END RECORD")));
    refused(2, &format!("{} END ^RECORD", cut("END RECORD")));
    refused(2, &format!("{} ^VARIABLE 2", cut("END RECORD")));
    refused(2, &format!("{} END ^SS", cut("END SURVEY")));
    good(&format!("{} END <c> SSSwhatever \" {{ < ", cut("END SURVEY")));
}

#[test]
fn comments_and_strings() {
    let deep = |n: usize| "<".repeat(n) + &">".repeat(n);
    good(&variable("LOGICAL POSITION 1").replacen("SURVEY", &format!("{} SURVEY", deep(32)), 1));
    refused(3, &format!("SSS VERSION 1.1 {}^< SURVEY", "<".repeat(32)));
    // Level 33 is met before the end shows that the outermost is unclosed; a bad form too.
    refused(3, "SSS VERSION 1.1 ^<<<\"");
    refused(3, "SSS VERSION 1.1 ^<\"abc");
    refused(3, "SSS VERSION 1.1 ^<\"abc{4");
    refused(3, "SSS VERSION 1.1 <\"abc^{4g}");
    refused(3, "SSS VERSION 1.1 <\"abc^{nl}\" \"");
    refused(3, "SSS VERSION 1.1 ^< < > { }");
    good(&variable("LOGICAL POSITION 1").replacen("SURVEY", "<{x> SURVEY", 1));
    good(&variable("LOGICAL POSITION 1").replacen("SURVEY", "<\"><\" {\"> SURVEY\" > SURVEY", 1));
    for form in ["{\"}", "{{}", "{NL}", "{41}", "{4a4B}", "}", "{0D0A}", "{\r4\n1\0}", "{\nN\nL\n}", "<", ">", "\u{fe}"]
    {
        let t = good(&variable("LOGICAL POSITION 1").replace("\"n\"", &format!("\"{form}\"")));
        assert_eq!(t[21], form.len() as i64);
    }
    for form in [
        "{}", "{4}", "{414}", "{nl}", "{Nl}", "{NL", "{N}", "{\"", "{{", "{x}", "{ 41}", "{41 }", "{4 1}", "{4\"}",
        "{41\"", "{<}",
    ] {
        let text = variable("LOGICAL POSITION 1").replace("\"n\"", &format!("\"^{form}\""));
        refused(3, &text);
    }
    // At the end a form that could still become good is unclosed with its string.
    for form in ["{", "{\"", "{{", "{N", "{NL", "{4", "{41", "{414", "{\n", "abc"] {
        refused(3, &format!("SSS VERSION 1.1 DATE ^\"{form}"));
        refused(3, &format!("SSS VERSION 1.1 DATE ^<\"{form}"));
    }
    refused(3, "SSS VERSION 1.1 DATE \"^{4\"");
    refused(2, "SSS VERSION 1.1 DATE \"a\" ^\"b\"");
}

#[test]
fn idents() {
    for id in ["0", "0000", "00001", "12345", "99999999999999999999999"] {
        refused_in_record(5, &format!("VARIABLE ^{id} <"));
    }
    refused_in_record(2, "VARIABLE ^NAME");
    refused_in_record(2, "VARIABLE ^-1 NAME");
    let one = "VARIABLE 7 NAME \"a\" LABEL \"b\" TYPE LOGICAL POSITION 1 END VARIABLE ";
    refused_in_record(5, &format!("{one} VARIABLE ^0007"));
    good(&format!("{HEAD}{one}VARIABLE 0\n00\r6 NAME \"a\" LABEL \"b\" TYPE LOGICAL POSITION 1 END VARIABLE{TAIL}"));
    refused_in_record(2, "VARIABLE 1 ^NAM \"x\"");
    refused_in_record(2, "VARIABLE 1 NAME \"x\" ^NAME");
    refused_in_record(2, "VARIABLE 1 NAME \"x\" LABEL \"y\" TYPE ^SINGL");
    refused_in_variable(2, "LOGICAL^X POSITION 1");
    refused_in_variable(2, "LOGICAL POSITION 1 ^VALUES");
    refused_in_variable(2, "SINGLE POSITION 1 ^END VARIABLE");
    refused_in_variable(2, "SINGLE POSITION 1 ^SPREAD 1");
    refused_in_variable(2, "CHARACTER POSITION 1 ^VALUES");
    refused_in_variable(2, "QUANTITY POSITION 1 ^SIZE 1");
}

#[test]
fn many_variables_and_lines() {
    let one = |i: usize| format!("VARIABLE {i} NAME \"a\" LABEL \"b\" TYPE LOGICAL POSITION 1 END VARIABLE ");
    let all: String = (1..=512).map(one).collect();
    assert_eq!(good(&format!("{HEAD}{all}{TAIL}"))[1], 512);
    refused_in_record(8, &format!("{all}VARIABLE ^513 <"));
    refused_in_record(5, &format!("{all}VARIABLE ^512 <"));
    refused_in_record(5, &format!("{all}VARIABLE ^0"));

    let block = |from: usize, to: usize| (from..=to).map(|i| format!("{i}\"\"")).collect::<String>();
    let half = |i: usize, from, to, more: &str| {
        format!(
            "VARIABLE {i} NAME \"a\" LABEL \"b\" TYPE QUANTITY POSITION 1 TO 9 VALUES {}{more} END VALUES END VARIABLE ",
            block(from, to)
        )
    };
    let t = good(&format!("{HEAD}{}{}{TAIL}", half(1, 1, 2048, ""), half(2, 1, 2048, "")));
    assert_eq!(t[1..3], [2, 4096]);
    assert_eq!(t[size(1, 0) + column::BEFORE..][..2], [2048, 2048]);
    refused_in_record(8, &format!("{}{}", half(1, 1, 2048, ""), half(2, 1, 2048, "^9999 \"x\"")));
    refused_in_record(6, &format!("{}{}", half(1, 1, 2048, ""), half(2, 1, 2048, "^17 \"x\"")));
    refused_in_record(6, &format!("{}{}", half(1, 1, 2048, ""), half(2, 1, 2048, "^1.7 \"x\"")));
    refused_in_record(3, &format!("{}{}", half(1, 1, 2048, ""), half(2, 1, 2048, "9999 ^\"x")));
    refused_in_record(6, &half(1, 1, 4000, "^2000\"\""));
    refused_in_record(6, &half(1, 1, 4000, "4500\"\" 4300\"\" 4400\"\" ^4300\"\""));
}

#[test]
fn too_long() {
    let mut long = variable("LOGICAL POSITION 1").into_bytes();
    long.resize(MAX_DEFINITION, b'x');
    assert_eq!(read(&long).0.number, 0);
    long.push(b'x');
    assert_eq!(read(&long).0, Definition { number: 1, place: 0, variables: 0, lines: 0 });
    assert_eq!(read(&vec![b'x'; MAX_DEFINITION + 1]).0.number, 1);
}

#[test]
fn positions() {
    let l = |p: &str| format!("LOGICAL POSITION {p}");
    assert_eq!(row(&l("16384"))[2..5], [16384, 16384, 1]);
    assert_eq!(row(&l("00000000000000000000000000000001 TO 000000000000000000000016384"))[2..5], [1, 16384, 1]);
    refused_in_variable(7, &l("^0 END"));
    refused_in_variable(7, &l("^0 TO 0"));
    refused_in_variable(7, &l("^0 TO 99999"));
    refused_in_variable(7, &l("5 TO ^4 <"));
    refused_in_variable(8, &l("^16385"));
    refused_in_variable(8, &l("16384 TO ^16385"));
    refused_in_variable(8, &l("^16385 TO 99999"));
    refused_in_variable(7, &l("16385 TO ^16384"));
    refused_in_variable(7, &l("99999999999999999999 TO ^99999999999999999998"));
    refused_in_variable(8, &l("^99999999999999999998 TO 99999999999999999999"));
    refused_in_variable(8, &l("^99999999999999999999 TO 099999999999999999999"));
    refused_in_variable(7, &l("100000000000000000000 TO ^99999999999999999999"));
    refused_in_variable(7, &l("18446744073709551617 TO ^1"));
    refused_in_variable(8, &l("1 TO ^18446744073709551617"));
    // Comments before an optional word, but not after the last.
    let cut = |text: &str| format!("{HEAD}VARIABLE 1 NAME \"n\" LABEL \"l\" TYPE LOGICAL POSITION {text}");
    refused(3, &cut("0 ^<"));
    refused(7, &cut("^0 TO 5 <"));
    refused(7, &cut("^0 T"));
    refused(7, &cut("^0 NOTE \"x"));
    refused(2, &cut("0 TO ^"));
    refused(2, &cut("0 TO ^x"));
    refused(2, &cut("1 ^T"));
    refused(2, &cut("1 NOTE \"x\" ^TO 5"));
    refused(2, &cut("1^.5"));
    refused(2, &cut("^-1"));
}

#[test]
fn sizes_and_spreads() {
    let c = |s: &str| format!("CHARACTER POSITION 1 TO 5000 {s}");
    assert_eq!(row(&c("SIZE 4096"))[4], 4096);
    refused_in_variable(7, &c("SIZE ^0 <"));
    refused_in_variable(8, &c("SIZE ^4097 <"));
    refused_in_variable(8, &c("SIZE ^99999999999999999999999"));
    refused_in_variable(7, "CHARACTER POSITION ^1 TO 5 SIZE 6 END VARIABLE");
    refused_in_variable(2, "CHARACTER POSITION 1 TO 5 SIZE 6 END ^X");
    assert_eq!(row("CHARACTER POSITION 1 TO 5 SIZE 5")[2..5], [1, 5, 5]);

    let m = |s: &str| format!("MULTIPLE POSITION 1 TO 12 SPREAD {s} VALUES 1 TO 100 END VALUES");
    assert_eq!(row(&m("4"))[4..9], [3, 0, 0, 4, 3]);
    assert_eq!(row(&m("3"))[4..9], [3, 0, 0, 3, 4]);
    assert_eq!(row(&m("3 OF 3"))[4..9], [3, 0, 0, 3, 3]);
    assert_eq!(row(&m("1 OF 12"))[4..9], [3, 0, 0, 1, 12]);
    refused_in_variable(7, &m("^5"));
    refused_in_variable(7, &m("^13"));
    refused_in_variable(7, &m("^0"));
    refused_in_variable(7, &m("^0 OF 0"));
    refused_in_variable(7, &m("1 OF ^0"));
    refused_in_variable(7, &m("^99999999999999999999999999"));
    let end = " END VARIABLE";
    let narrow = |s: &str| m(s).replacen("POSITION ", "POSITION ^", 1) + end;
    refused_in_variable(7, &narrow("6"));
    refused_in_variable(7, &narrow("5 OF 3"));
    refused_in_variable(7, &narrow("4 OF 2"));
    refused_in_variable(7, &narrow("99999999999999999999999999 OF 99999999999999999999999999"));
    refused_in_variable(7, &narrow("1 OF 18446744073709551617"));
    refused_in_variable(7, &narrow("4294967296 OF 4294967296"));
    let cut = |s: &str| format!("{HEAD}VARIABLE 1 NAME \"n\" LABEL \"l\" TYPE MULTIPLE POSITION 1 TO 12 SPREAD {s}");
    refused(3, &cut("0 ^<"));
    refused(7, &cut("^0 OF 1 <"));
    refused(7, &cut("^5 O"));
    refused(2, &cut("0 OF ^W"));
    refused(2, &cut("1 NOTE \"x\" ^OF 1"));
    refused(2, &cut("1 SPREAD 2").replace(" SPREAD 2", " ^SPREAD 2"));
}

#[test]
fn categories() {
    let s = |v: &str| format!("SINGLE POSITION 1 TO 4 VALUES {v} END VALUES");
    assert_eq!(row(&s("1 TO 9"))[4], 1);
    assert_eq!(row(&s("1 TO 9 WITH 10 \"x\""))[4], 2);
    assert_eq!(row(&s("9 \"x\" 0009999 \"y\" SPECIAL"))[4], 4);
    assert_eq!(row(&s("0000000000000000000000001 TO 09999"))[9..12], [1, 1, 9999]);
    refused_in_variable(6, &s("^0 TO 5"));
    refused_in_variable(6, &s("^00 \"x\""));
    refused_in_variable(6, &s("^-0 \"x\""));
    refused_in_variable(6, &s("^1. \"x\""));
    refused_in_variable(6, &s("^+1 \"x\""));
    refused_in_variable(6, &s("^-1 TO 5"));
    refused_in_variable(6, &s("5 TO ^4"));
    refused_in_variable(6, &s("5 TO ^1.0"));
    refused_in_variable(6, &s("^. TO ^1.0").replacen("TO ^", "TO ", 1));
    refused_in_variable(8, &s("^10000 \"x\""));
    refused_in_variable(8, &s("1 TO ^10000"));
    refused_in_variable(6, &s("10000 TO ^9999"));
    refused_in_variable(6, &s("99999999999999999999999 TO ^99999999999999999999998"));
    refused_in_variable(8, &s("^99999999999999999999998 TO 99999999999999999999999"));
    refused_in_variable(6, &s("1 \"a\" 2 \"b\" ^01 \"c\""));
    good(&variable(&s("1 TO 2 WITH 1 \"a\" 2 \"b\"")));
    refused_in_variable(2, &s("^").replace("^ ", " ^"));
    refused_in_variable(2, &s("1 TO 2 ^3 \"x\""));
    refused_in_variable(2, &s("1 TO 2 WITH^").replace("^ ", " ^"));
    refused_in_variable(2, &s("1 \"x\" 2 ^TO 3"));
    refused_in_variable(2, &s("1 TO 2 NOTE \"x\" ^WITH 1 \"x\""));
    refused_in_variable(2, &s("1 \"x\" NOTE \"x\" ^SPECIAL"));
    refused_in_variable(2, &s("1 ^NOTE \"x\""));
    refused_in_variable(2, &s("- ^1 \"x\""));
    refused_in_variable(2, &s("1 TO ^x"));
    refused_in_variable(2, &s("1 ^T 3"));
    refused_in_variable(6, &s("5 TO ^3 W"));
    refused_in_variable(6, &s("^0 \"x\" S"));
    refused_in_variable(6, &s("5 TO ^3 2"));
    refused_in_variable(2, &s("1 TO 3 ^W"));
    refused_in_variable(2, &s("0 ^x"));
    let cut = |s: &str| format!("{HEAD}VARIABLE 1 NAME \"n\" LABEL \"l\" TYPE SINGLE POSITION 1 TO 4 VALUES {s}");
    refused(3, &cut("5 TO 3 ^<"));
    refused(6, &cut("5 TO ^3 WITH <"));
    refused(3, &cut("0 \"x\" ^<"));
    refused(6, &cut("^0 \"x\" SPECIAL <"));
    refused(3, &cut("0 ^\"x"));
    refused(3, &cut("0 ^<"));
    // Widths.
    refused_in_variable(7, "SINGLE POSITION ^1 VALUES 1 TO 20 END VALUES END VARIABLE");
    refused_in_variable(7, "MULTIPLE POSITION ^21 TO 24 VALUES 1 \"\" 2 \"\" 3 \"\" 9 \"\" END VALUES END VARIABLE");
    refused_in_variable(2, "SINGLE POSITION 1 VALUES 1 TO 20 END VALUES END ^X");
    assert_eq!(row("MULTIPLE POSITION 1 TO 9999 VALUES 1 TO 2 WITH 9999 \"\" END VALUES")[4], 9999);
}

#[test]
fn quantities() {
    let q = |v: &str| format!("QUANTITY POSITION 1 TO 20 VALUES {v} END VALUES");
    // w, decimals, point; from, to.
    let facts = |v: &str| {
        let r = row(&q(v));
        (r[4], r[5], r[6], r[10], r[11])
    };
    assert_eq!(facts("0 TO 99"), (2, 0, 0, 0, 99));
    assert_eq!(facts("-99 TO 99"), (3, 0, 0, -99, 99));
    assert_eq!(facts("0.00 TO 99.99"), (5, 2, 1, 0, 9999));
    assert_eq!(facts("-1.00 TO 99.99"), (5, 2, 1, -100, 9999));
    assert_eq!(facts("-1 TO 99"), (2, 0, 0, -1, 99));
    assert_eq!(facts("1. TO 9"), (2, 0, 1, 1, 9));
    assert_eq!(facts("1 TO 9."), (2, 0, 1, 1, 9));
    assert_eq!(facts("1 TO 9 WITH 3. \"x\""), (2, 0, 1, 1, 9));
    assert_eq!(facts(".1 TO 0.9"), (3, 1, 1, 1, 9));
    assert_eq!(facts("-.1 TO 0.9"), (4, 1, 1, -1, 9));
    // C-13: every number written with no digit before the point.
    assert_eq!(facts(".1 TO .9"), (2, 1, 2, 1, 9));
    assert_eq!(facts("-.1 TO .9"), (3, 1, 2, -1, 9));
    assert_eq!(facts("-.00 TO .99"), (3, 2, 2, 0, 99));
    assert_eq!(facts(".00 TO 0.99"), (4, 2, 1, 0, 99));
    assert_eq!(facts(".5 \"a\" 0.7 \"b\""), (3, 1, 1, 0, 0));
    assert_eq!(facts(".00 TO .99 WITH 9.99 \"dk\""), (4, 2, 1, 0, 99));
    assert_eq!(facts("-0 TO 0"), (1, 0, 0, 0, 0));
    assert_eq!(facts("0 TO -0"), (1, 0, 0, 0, 0));
    assert_eq!(facts("-0.0 TO 000000000000000000000000001.5"), (3, 1, 1, 0, 15));
    assert_eq!(facts("-000.5 TO 9.0"), (4, 1, 1, -5, 90));
    assert_eq!(facts("-999999999999999 TO 999999999999999"), (16, 0, 0, -MAX_QUANTITY, MAX_QUANTITY));
    assert_eq!(facts("-999999.999999999 TO 0.000000000"), (17, 9, 1, -MAX_QUANTITY, 0));
    assert_eq!(facts("-5 \"x\" 17 \"y\""), (2, 0, 0, 0, 0));
    for bad in ["+1", "-", ".", "-.", "1-", "--1", "1.2.3", "1..", "+", "1+2", ".-1", "-+1"] {
        refused_in_variable(6, &q(&format!("^{bad} \"x\"")));
        refused_in_variable(6, &q(&format!("^{bad} TO 5")));
        refused_in_variable(6, &q(&format!("5 TO ^{bad}")));
        refused_in_variable(6, &q(&format!("99999999999999999999 TO ^{bad}")));
        refused_in_variable(6, &q(&format!("1 TO 5 WITH ^{bad} \"x\"")));
    }
    refused_in_variable(6, &q("1 TO ^2.0"));
    refused_in_variable(6, &q("1.00 TO ^2.0"));
    refused_in_variable(6, &q("1.0 TO 2.0 WITH ^1 \"x\""));
    refused_in_variable(6, &q("1.0 \"x\" ^1.00 \"x\""));
    refused_in_variable(6, &q("2 TO ^1"));
    refused_in_variable(6, &q("-1 TO ^-2"));
    refused_in_variable(6, &q("1 TO ^-1"));
    refused_in_variable(6, &q("1 \"x\" ^1. \"y\""));
    refused_in_variable(6, &q("0 \"x\" ^-0 \"y\""));
    refused_in_variable(6, &q("5 \"x\" ^05 \"y\""));
    refused_in_variable(8, &q("^1000000000000000 \"x\""));
    refused_in_variable(8, &q("^-1000000000000000 TO 5"));
    refused_in_variable(8, &q("1.0 TO ^100000000000000.0"));
    refused_in_variable(8, &q("^0.0000000000 \"x\""));
    refused_in_variable(8, &q("^0.0000000000 TO 0.0000000000"));
    refused_in_variable(6, &q("0.0000000000 TO ^0.0"));
    refused_in_variable(6, &q("0.0000000001 TO ^0.0000000000"));
    refused_in_variable(8, &q("^0.0000000000 TO 0.0000000001"));
    refused_in_variable(6, &q("99999999999999999999 TO ^5"));
    refused_in_variable(6, &q("99999999999999999999 TO ^99999999999999999998"));
    refused_in_variable(6, &q("-99999999999999999998 TO ^-99999999999999999999"));
    refused_in_variable(8, &q("^-99999999999999999999 TO 99999999999999999998"));
    refused_in_variable(8, &q("^99999999999999999999 TO 00099999999999999999999"));
    refused_in_variable(6, &q("-99999999999999999998 TO ^-0000099999999999999999999"));
    refused_in_variable(7, "QUANTITY POSITION ^21 TO 22 VALUES 0 TO 999 END VALUES END VARIABLE");
    refused_in_variable(7, "QUANTITY POSITION ^21 TO 23 VALUES 0.00 TO .99 END VALUES END VARIABLE");
    refused_in_variable(7, "QUANTITY POSITION ^21 TO 22 VALUES .00 TO .99 END VALUES END VARIABLE");
    assert_eq!(row("QUANTITY POSITION 21 TO 23 VALUES .00 TO .99 END VALUES")[4..7], [3, 2, 2]);
}

#[test]
fn standard_names() {
    let named = |names: &[&str]| {
        let variables: String = names
            .iter()
            .enumerate()
            .map(|(i, n)| format!("VARIABLE {} NAME {n} LABEL \"\" TYPE LOGICAL POSITION 1 END VARIABLE ", i + 1))
            .collect();
        format!("SSS VERSION 1.1 STANDARD NAMES SURVEY RECORD R {variables}{TAIL}")
    };
    good(&named(&["\"a\"", "\"Ab345678\"", "\"{41}{4142}c\"", "\"b\r\n\""]));
    for bad in [
        "\"\"",
        "\"1a\"",
        "\"a b\"",
        "\"a \"",
        "\"abcdefghi\"",
        "\"a_\"",
        "\"a{NL}\"",
        "\"a{0A}\"",
        "\"{\"}\"",
        "\"{31}a\"",
        "\"a\u{e9}\"",
        "\"\n\"",
    ] {
        refused(9, &named(&["\"x\"", &format!("^{bad}"), "\"x\""]));
    }
    refused(9, &named(&["\"Q1\"", "\"Q001\"", "^\"q1\"", "\"1\""]));
    refused(9, &named(&["\"Q1\"", "\"Q001\"", "^\"1\"", "\"q1\""]));
    refused(9, &named(&["\"a\"", "\"b\"", "\"c\"", "^\"{42}\"", "\"a\""]));
    // 9 only after END SSS, and before 10.
    refused(2, &named(&["\"1\""]).replace("END SSS", "END ^SS"));
    let text = named(&["\"1\""]);
    assert_eq!(read_definition(text.as_bytes(), &mut []).number, 9);
    assert_eq!(read_definition(named(&["\"a\""]).as_bytes(), &mut []).number, 10);
    // Without the statement any name will do.
    good(&named(&["\"1\"", "\"1\"", "\"\""]).replace("STANDARD NAMES", ""));
}
