//! Document 02's calls by worked examples, each derived by hand from the request and from the reading that it names; both sides must
//! give them.

use zarfolin_compare::coming::{Coming, Correction, sides};
use zarfolin_compare::face::{self, Face};
use zarfolin_compare::naive;

/// The table of a definition with these variables, as the plain Rust reads it.
fn table(variables: &str) -> Vec<i64> {
    let def = definition(variables);
    let mut table = vec![0; 40_000];
    let d = zarfolin_plain::read_definition(def.as_bytes(), &mut table);
    assert_eq!((d.number, d.place), (0, 0), "{def}");
    table.truncate(zarfolin_compare::shape::length(d.variables, d.lines));
    table
}

fn definition(variables: &str) -> String {
    format!("SSS VERSION 1.1 SURVEY RECORD R {variables} END RECORD END SURVEY END SSS")
}

fn variable(ident: u32, rest: &str) -> String {
    format!("VARIABLE {ident} NAME \"n{ident}\" LABEL \"\" TYPE {rest} END VARIABLE ")
}

/// SINGLE 1 to 20 in two bytes; LOGICAL; QUANTITY -9.9 to 9.9 in four; CHARACTER of two; bitstring 1, 3; spread 2 of 2, 1 to 40.
fn six() -> Vec<i64> {
    let variables = [
        variable(1, "SINGLE POSITION 1 TO 2 VALUES 1 TO 20 END VALUES"),
        variable(2, "LOGICAL POSITION 3"),
        variable(3, "QUANTITY POSITION 4 TO 7 VALUES -9.9 TO 9.9 END VALUES"),
        variable(4, "CHARACTER POSITION 8 TO 9 SIZE 2"),
        variable(5, "MULTIPLE POSITION 10 TO 12 VALUES 1 \"\" 3 \"\" END VALUES"),
        variable(6, "MULTIPLE POSITION 13 TO 16 SPREAD 2 OF 2 VALUES 1 TO 40 END VALUES"),
    ];
    table(&variables.concat())
}

fn each(try_it: impl Fn(&dyn Coming)) {
    for side in sides() {
        try_it(side);
    }
}

#[test]
fn c22_a_part_is_judged_as_a_file() {
    let t = table(&variable(1, "SINGLE POSITION 1 TO 2 VALUES 1 TO 20 END VALUES"));
    let library = face::other();
    for side in [&face::Plain as &dyn Face, &naive::Naive, &*library] {
        let judge = |data: &str, terminator, first, last| {
            let mut answer = [-7; 4];
            let number = side.judge_part(&t, data.as_bytes(), terminator, first, last, &mut answer);
            assert_eq!(number as i64, answer[0], "{}", side.name());
            answer
        };
        assert_eq!(judge("", 4, 2, 1), [0, 0, 0, 0]);
        assert_eq!(judge("07\n08\n", 4, 2, 1), [0, 2, 0, 0]);
        assert_eq!(judge("07\r\n08\r\n", 1, 2, 0), [0, 2, 0, 0]);
        assert_eq!(judge("07\n\r08\n\r", 2, 2, 0), [0, 2, 0, 0]);
        assert_eq!(judge("07\r08\r", 3, 2, 0), [0, 2, 0, 0]);
        // Half a pair belongs to the record, and is a byte below 32 there.
        assert_eq!(judge("07\r08\r\n", 1, 2, 1), [31, 1, 0, 0]);
        assert_eq!(judge("0\r\r\n", 1, 2, 1), [23, 1, 0, 1]);
        // A record that the part ends without: left alone, or 30. Left alone it isn't judged at all.
        assert_eq!(judge("07\n0", 4, 2, 0), [0, 1, 0, 0]);
        assert_eq!(judge("07\nxxxx\t", 4, 2, 0), [0, 1, 0, 0]);
        assert_eq!(judge("07\n0", 4, 2, 1), [30, 2, 0, 0]);
        assert_eq!(judge("07\n0", 4, 2, 256), [30, 2, 0, 0]);
        assert_eq!(judge("07", 4, 2, 0), [0, 0, 0, 0]);
        assert_eq!(judge("07\r", 1, 2, 1), [30, 1, 0, 0]);
        // The first record's length is told, not taken from the part.
        assert_eq!(judge("07\n", 4, 3, 1), [31, 1, 0, 0]);
        assert_eq!(judge("07x\n", 4, 3, 1), [0, 1, 0, 0]);
        assert_eq!(judge("7\n", 4, 1, 1), [22, 1, 0, 0]);
        assert_eq!(judge("07\n21\n", 4, 2, 1), [242, 2, 0, 21]);
        // 20, then 29; 64 bits.
        assert_eq!(judge("07", 0, 2, 1), [29, 0, 0, 0]);
        assert_eq!(judge("07", 5, 2, 1), [29, 0, 0, 0]);
        assert_eq!(judge("07\r\n", 257, 2, 1), [29, 0, 0, 0]);
        let mut answer = [-7; 4];
        assert_eq!((side.judge_part(&[], b"", 0, 0, 0, &mut answer), answer), (20, [20, 0, 0, 0]));
    }
}

#[test]
fn c14_an_element_is_32_bytes() {
    assert_eq!(size_of::<Correction>(), 32);
    assert_eq!(size_of::<zarfolin_plain::Correction>(), 32);
}

#[test]
fn c14_corrections_are_single_writes_in_list_order() {
    let t = six();
    let put = |row, kind, number| Correction { row, kind, number, mark: 77 };
    each(|side| {
        let correct = |list: &[Correction]| {
            let (mut list, mut record) = (list.to_vec(), b"................more".to_vec());
            let number = side.correct(&t, &mut list, &mut record);
            (number, list.iter().map(|c| c.mark).collect::<Vec<_>>(), String::from_utf8(record).unwrap())
        };
        assert_eq!(correct(&[]), (0, vec![], "................more".into()));
        // Past a refusal; the later accepted one of a row counts.
        let list = [put(0, 1, 7), put(0, 1, 21), put(1, 4, 1), put(2, 1, -5), put(0, 1, 9), put(0, 1, 0)];
        assert_eq!(correct(&list), (0, vec![0, 27, 0, 0, 0, 27], "091-0.5.........more".into()));
        // Missing fits every type, and the number beside it is not looked at.
        let list: Vec<_> = (0..6).map(|row| put(row, 0, i64::MIN)).collect();
        assert_eq!(correct(&list), (0, vec![0; 6], "          .     more".into()));
        // Reading 1: any other kind is 26, after 21, whatever the row's type.
        let list = [put(4, 2, 0), put(3, 3, 0), put(0, 5, 1), put(6, 2, 0), put(0, 1 << 32, 7), put(u64::MAX, 0, 0)];
        assert_eq!(correct(&list), (0, vec![26, 26, 26, 21, 26, 21], "................more".into()));
        // Reading 2: a truth other than 0 and 1.
        let list =
            [put(9, 4, 2), put(0, 4, 2), put(1, 4, 2), put(1, 4, 256), put(1, 4, -1), put(0, 4, 1), put(1, 1, 1)];
        assert_eq!(correct(&list), (0, vec![21, 26, 27, 27, 27, 26, 26], "................more".into()));
        // Reading 3: 20, then 22, turn away the whole call, also for an empty list, and keep every mark.
        let mut list = [put(0, 0, 0), put(99, 0, 0)];
        let before = list;
        assert_eq!(side.correct(&[11], &mut list, &mut [0; 3]), 20);
        assert_eq!(side.correct(&[11], &mut [], &mut []), 20);
        assert_eq!(side.correct(&t, &mut list, &mut [0; 15]), 22);
        assert_eq!(side.correct(&t, &mut [], &mut [0; 15]), 22);
        assert_eq!(list, before);
        // Reading 4: rows that share value places.
        let shared =
            table(&(variable(1, "LOGICAL POSITION 1") + &variable(2, "SINGLE POSITION 1 VALUES 1 TO 9 END VALUES")));
        let (mut list, mut record) = ([put(0, 4, 1), put(1, 1, 8), put(0, 4, 5)], *b"x");
        assert_eq!((side.correct(&shared, &mut list, &mut record), record), (0, *b"8"));
    });
}

#[test]
fn c21_the_normal_form() {
    let t = six();
    each(|side| {
        let normal = |record: &str| {
            let mut bytes = record.as_bytes().to_vec();
            let answer = side.normal(&t, &mut bytes);
            (answer, String::from_utf8(bytes).unwrap())
        };
        let done = |record: &str, is: &str| assert_eq!(normal(record), ([0; 4], is.to_string()), "{record:?}");
        // Reading 1: SINGLE 00 becomes spaces, numbers get zeros in front, a spread rises with zeros behind.
        done("001 0.5ab1x0 9 3", "  100.5ab1x00309");
        done(" 7 -0.0  0x10000", "07 00.0  0x10000");
        done("  1-0.5ab1x0 3 3", "  1-0.5ab1x00300");
        // An all-space spread stays; spaces and zeros mixed become zeros.
        done("  1    ab x     ", "  1    ab x     ");
        done("  1    ab x   00", "  1    ab x 0000");
        done("  1    ab x  0  ", "  1    ab x 0000");
        // Reading 2: longer than L, and every byte outside value places is kept.
        done(" 7      a1x0    tail\u{7f}", "07      a1x0    tail\u{7f}");
        // In order: 20, 90, 22, 23, the lowest row's.
        assert_eq!(side.normal(&[1, 2, 3], &mut []), [20, 0, 0, 0]);
        assert_eq!(normal(" 7"), ([22, 0, 0, 0], " 7".into()));
        assert_eq!(normal("21\t             "), ([23, 2, 0, 0], "21\t             ".into()));
        assert_eq!(normal(" 7x             ").0, [241, 1, 2, 0]);
        assert_eq!(normal("21x             ").0, [242, 0, 21, 0]);
    });
}

#[test]
fn c21_two_rows_share_a_value_place() {
    let two = |a: &str, b: &str| table(&(variable(1, a) + &variable(2, b)));
    let (logical, shared) = ("LOGICAL POSITION", [90, 0, 0, 0]);
    for (a, b, answer) in [
        // The positions meet, the value places don't: a wide logical has its last byte only.
        ("LOGICAL POSITION 1 TO 3", "LOGICAL POSITION 1 TO 2", [22, 0, 0, 0]),
        ("LOGICAL POSITION 1 TO 3", "LOGICAL POSITION 3", shared),
        ("CHARACTER POSITION 1 TO 3 SIZE 2", "LOGICAL POSITION 1 TO 3", [22, 0, 0, 0]),
        ("CHARACTER POSITION 1 TO 3 SIZE 3", "LOGICAL POSITION 1 TO 3", shared),
        ("SINGLE POSITION 1 TO 3 VALUES 1 TO 9 END VALUES", "CHARACTER POSITION 1 TO 2 SIZE 2", [22, 0, 0, 0]),
        ("SINGLE POSITION 1 TO 3 VALUES 1 TO 10 END VALUES", "CHARACTER POSITION 1 TO 2 SIZE 2", shared),
        // Of a bitstring only the bytes of defined categories.
        ("MULTIPLE POSITION 1 TO 3 VALUES 1 \"\" 3 \"\" END VALUES", "LOGICAL POSITION 2", [22, 0, 0, 0]),
        ("MULTIPLE POSITION 1 TO 3 VALUES 1 TO 3 END VALUES", "LOGICAL POSITION 2", shared),
        // A line within the range is no second place.
        ("MULTIPLE POSITION 1 TO 3 VALUES 1 TO 2 WITH 2 \"\" END VALUES", "LOGICAL POSITION 3", [22, 0, 0, 0]),
        // Of a spread the last w bytes of each subfield.
        ("MULTIPLE POSITION 1 TO 4 SPREAD 2 OF 2 VALUES 1 TO 9 END VALUES", "LOGICAL POSITION 3", [22, 0, 0, 0]),
        ("MULTIPLE POSITION 1 TO 4 SPREAD 2 OF 2 VALUES 1 TO 9 END VALUES", "LOGICAL POSITION 4", shared),
    ] {
        each(|side| assert_eq!(side.normal(&two(a, b), &mut []), answer, "{a}, {b}"));
        each(|side| assert_eq!(side.normal(&two(b, a), &mut []), answer, "{b}, {a}"));
    }
    // Words of stamps: places 64 apart, and a long text across them.
    for (from, to, at, answer) in
        [(1, 64, 65, [22, 0, 0, 0]), (1, 65, 65, shared), (64, 200, 63, [22, 0, 0, 0]), (64, 200, 128, shared)]
    {
        let text = format!("CHARACTER POSITION {from} TO {to} SIZE {}", to - from + 1);
        each(|side| assert_eq!(side.normal(&two(&text, &format!("{logical} {at}")), &mut []), answer));
        each(|side| assert_eq!(side.normal(&two(&format!("{logical} {at}"), &text), &mut []), answer));
    }
}

#[test]
fn c19_mending() {
    let t = table(&variable(1, "CHARACTER POSITION 1 TO 3 SIZE 3"));
    let library = face::other();
    for side in [&face::Plain as &dyn Face, &naive::Naive, &*library] {
        let ask = |t: &[i64], data: &[u8], out: &mut [u8], list: &mut [i64]| {
            let mut answer = [-7; 4];
            let number = side.mend(t, data, out, list, &mut answer);
            assert_eq!(number as i64, answer[0], "{}", side.name());
            answer
        };
        let mend = |data: &str| {
            let (mut out, mut list) = (vec![b'?'; 90], vec![-1; 60]);
            let answer = ask(&t, data.as_bytes(), &mut out, &mut list);
            assert_eq!((answer[0], answer[3]), (0, 0));
            let (length, entries) = (answer[1] as usize, answer[2] as usize);
            assert!(out[length..].iter().all(|&x| x == b'?') && list[3 * entries..].iter().all(|&x| x == -1));
            let list: Vec<[i64; 3]> = list[..3 * entries].as_chunks().0.to_vec();
            (String::from_utf8(out[..length].to_vec()).unwrap(), list)
        };
        let is =
            |data: &str, out: &str, list: &[[i64; 3]]| assert_eq!(mend(data), (out.into(), list.to_vec()), "{data:?}");
        // Reading 5: sound files come out identical with an empty list.
        is("", "", &[]);
        is("abc\nabd\n", "abc\nabd\n", &[]);
        is("   \n\r", "   \n\r", &[]);
        // Reading 1: LF CR LF is LF CR, then LF with an empty record between; pairs first.
        is("abc\n\r\n", "abc\n\r", &[[1, 2, 5]]);
        is("abc\n\nabc\n", "abc\nabc\n", &[[1, 2, 4]]);
        is("abc\r\n\r\n", "abc\r\n", &[[1, 2, 5]]);
        is("abc\nabd", "abc\nabd\n", &[[4, 2, 7]]);
        // Reading 2: the first boundary of the input, also where it ends a dropped record; CR LF if there is none.
        is("\rabc\n", "abc\r", &[[1, 1, 0], [4, 2, 4]]);
        is("abc", "abc\r\n", &[[4, 1, 3]]);
        is("abc\r\nabc\nabc\n\rabc\r\n", "abc\r\nabc\r\nabc\r\nabc\r\n", &[[4, 2, 8], [4, 3, 12]]);
        // Reading 3: order by place, then kind; one 3 a record, one 2 a byte; dropped records are counted.
        is("a\tb\0c\n\nx", "a b c\nx    \n", &[[2, 1, 1], [2, 1, 3], [1, 2, 6], [3, 3, 8], [4, 3, 8]]);
        // Reading 4: spaces are not empty; at least L; files of terminators only.
        is(" \n", "   \n", &[[3, 1, 1]]);
        is("a\nbcdef\n", "a    \nbcdef\n", &[[3, 1, 1]]);
        is("\r\n\r\n\r", "", &[[1, 1, 0], [1, 2, 2], [1, 3, 4]]);
        // Reading 6: 70 for either, an exact fit is enough; 20 before.
        let room = |out: usize, list: usize| {
            let (mut out, mut list) = (vec![b'?'; out], vec![-1; list]);
            let answer = ask(&t, b"a\nb", &mut out, &mut list);
            let kept = out.iter().all(|&x| x == b'?') && list.iter().all(|&x| x == -1);
            (answer, kept)
        };
        assert_eq!(room(8, 9), ([0, 8, 3, 0], false));
        assert_eq!(room(7, 9), ([70, 0, 0, 0], true));
        assert_eq!(room(8, 8), ([70, 0, 0, 0], true));
        assert_eq!(ask(&[], b"abc", &mut [], &mut []), [20, 0, 0, 0]);
    }
}

fn numbers(bytes: &[u8]) -> Vec<u32> {
    bytes.as_chunks::<4>().0.iter().map(|b| u32::from_le_bytes(*b)).collect()
}

fn floats(bytes: &[u8]) -> Vec<f64> {
    bytes.as_chunks::<8>().0.iter().map(|b| f64::from_le_bytes(*b)).collect()
}

/// A matrix, its number held against its answer.
fn asked(side: &dyn Face, table: &[i64], data: &[u8], out: &mut [u8]) -> [i64; 4] {
    let mut answer = [-7; 4];
    let number = side.matrix(table, data, out, &mut answer);
    assert_eq!(number as i64, answer[0], "{}", side.name());
    answer
}

#[test]
fn c20_a_matrix() {
    let t = six();
    // Columns: SINGLE, LOGICAL, QUANTITY, categories 1 and 3, categories 1 to 40: 45.
    let data = " 71-0.5ab1x00309\n  0    ab x     \n20  9.9  0x00000\n";
    let library = face::other();
    for side in [&face::Plain as &dyn Face, &naive::Naive, &*library] {
        let ask = |t: &[i64], data: &[u8], out: &mut [u8]| asked(side, t, data, out);
        let mut out = vec![0x55; 3_000];
        let total = 24 + 24 * 45 + 9 * 3 * 45;
        assert_eq!(ask(&t, data.as_bytes(), &mut out), [0, total as i64, 3, 45]);
        // Reading 3.
        assert_eq!(numbers(&out[..24]), [3, 45, 24, 24 + 24 * 45, 24 + 24 * 45 + 3 * 45, total as u32]);
        let summary = |k: usize| {
            let at = 24 + 24 * k;
            (u64::from_le_bytes(out[at..at + 8].try_into().unwrap()), floats(&out[at + 8..at + 24]))
        };
        let presence: Vec<&[u8]> = out[24 + 24 * 45..24 + 27 * 45].chunks(45).collect();
        let values = floats(&out[24 + 27 * 45..total]);
        let values: Vec<&[f64]> = values.chunks(45).collect();
        // Reading 1: the empty set is present with zeros; missing has presence 0 and zeros in each of its columns.
        assert_eq!(presence[0], [1; 45]);
        assert_eq!(presence[1][..6], [0, 1, 0, 0, 0, 0]);
        assert_eq!(presence[2][..6], [1, 0, 1, 1, 1, 1]);
        // Reading 2: one division; categories and truths 0 and 1.
        assert_eq!(values[0][..8], [7.0, 1.0, -0.5, 1.0, 0.0, 0.0, 0.0, 1.0]);
        assert_eq!((values[0][13], values[0][14]), (1.0, 0.0));
        assert_eq!(values[1], [0.0; 45]);
        assert_eq!(values[2][..6], [20.0, 0.0, 9.9, 0.0, 0.0, 0.0]);
        assert_eq!(values[2][2].to_bits(), (99f64 / 10f64).to_bits());
        assert_eq!(summary(0), (2, vec![7.0, 20.0]));
        assert_eq!(summary(1), (2, vec![0.0, 1.0]));
        assert_eq!(summary(2), (2, vec![-0.5, 9.9]));
        assert_eq!(summary(3), (2, vec![0.0, 1.0]));
        assert_eq!(summary(4), (2, vec![0.0, 0.0]));
        assert_eq!(summary(7), (2, vec![0.0, 1.0]));
        // Beyond the total the output is kept; no minus zero.
        assert!(out[total..].iter().all(|&x| x == 0x55));
        assert!(values.concat().iter().all(|v| v.to_bits() != 1 << 63));
        // Present and 1 throughout: both ends are 1.
        let logical = table(&variable(1, "LOGICAL POSITION 1"));
        let mut out = vec![0; 66];
        assert_eq!(ask(&logical, b"1\n1\n", &mut out), [0, 66, 2, 1]);
        assert_eq!(floats(&out[32..48]), [1.0, 1.0]);
        // No records: R is 0, summaries zero.
        assert_eq!(ask(&logical, b"", &mut out), [0, 48, 0, 1]);
        assert_eq!(numbers(&out[..24]), [0, 1, 24, 48, 48, 48]);
        assert_eq!(out[24..48], [0; 24]);
    }
}

#[test]
fn c20_refusals_in_their_order() {
    let text = table(&variable(1, "CHARACTER POSITION 1 TO 2 SIZE 2"));
    let logical = table(&variable(1, "LOGICAL POSITION 1"));
    let wide = table(&variable(1, "MULTIPLE POSITION 1 TO 4 SPREAD 1 OF 4 VALUES 1 TO 9999 END VALUES"));
    let library = face::other();
    for side in [&face::Plain as &dyn Face, &naive::Naive, &*library] {
        let matrix = |table: &[i64], data: &[u8], room: usize| {
            let mut out = vec![0x55; room];
            let answer = asked(side, table, data, &mut out);
            assert!(answer[0] == 0 || out.iter().all(|&x| x == 0x55));
            answer
        };
        assert_eq!(matrix(&[], b"x", 0), [20, 0, 0, 0]);
        // The file's own come before 80, as judge_file answers them.
        assert_eq!(matrix(&text, b"ab\na\n", 0), [31, 2, 0, 0]);
        assert_eq!(matrix(&text, b"ab", 0), [30, 1, 0, 0]);
        assert_eq!(matrix(&text, b"a\n", 0), [22, 1, 0, 0]);
        assert_eq!(matrix(&text, b"ab\na\t\n", 0), [23, 2, 0, 1]);
        assert_eq!(matrix(&logical, b"1\nx\n", 0), [241, 2, 0, 0]);
        assert_eq!(matrix(&text, b"ab\n", 0), [80, 0, 0, 0]);
        assert_eq!(matrix(&wide, &b"0007\n".repeat(184), 0), [81, 0, 0, 0]);
        assert_eq!(matrix(&wide, &b"0007\n".repeat(183), 0), [82, 0, 0, 0]);
        assert_eq!(matrix(&logical, b"1\n", 56), [82, 0, 0, 0]);
        assert_eq!(matrix(&logical, b"1\n", 57), [0, 57, 1, 1]);
    }
}

/// The variables of a survey for export and import, and its names as they are decoded: `a`, `b,"c`, a break between `d` and `e`.
fn spread_sheet() -> (String, Vec<i64>) {
    let variables = [
        "VARIABLE 1 NAME \"{61}\" LABEL \"\" TYPE SINGLE POSITION 1 TO 2 VALUES 1 TO 20 END VALUES END VARIABLE ",
        "VARIABLE 2 NAME \"b,{\"}c\" LABEL \"\" TYPE QUANTITY POSITION 3 TO 7 VALUES -9.99 TO 99.99 END VALUES END VARIABLE ",
        "VARIABLE 3 NAME \"d{NL}e\" LABEL \"\" TYPE MULTIPLE POSITION 8 TO 11 SPREAD 2 OF 2 VALUES 1 TO 40 END VALUES END VARIABLE ",
        "VARIABLE 4 NAME \"\" LABEL \"\" TYPE CHARACTER POSITION 12 TO 15 SIZE 4 END VARIABLE ",
        "VARIABLE 5 NAME \"\" LABEL \"\" TYPE LOGICAL POSITION 16 END VARIABLE ",
    ]
    .concat();
    (definition(&variables), table(&variables))
}

const NAMES: &str = "a,\"b,\"\"c\",\"d\ne\",,\r\n";

#[test]
fn c16_export() {
    let (def, t) = spread_sheet();
    each(|side| {
        let export = |data: &str| {
            let mut out = vec![b'?'; 300];
            let answer = side.export(def.as_bytes(), &t, data.as_bytes(), &mut out);
            let length = answer[4] as usize;
            assert!(out[length..].iter().all(|&x| x == b'?'));
            let text = String::from_utf8(out[..length].to_vec()).unwrap();
            (answer[..4].to_vec(), text.strip_prefix(NAMES).unwrap_or(&text).to_string(), text.starts_with(NAMES))
        };
        let done = |data: &str, records: i64, lines: &str| {
            assert_eq!(export(data), (vec![0, records, 0, 0], lines.to_string(), true), "{data:?}")
        };
        // Reading 5: no records, the name line alone. Readings 2 and 3: names decoded, quoted where they must be, empty ones as they are.
        done("", 0, "");
        // Reading 4: needless zeros go, decimals stay; codes joined by semicolons, the empty set, missing, truths.
        done(" 700.50 3 1ab  1\n", 1, "7,0.50,1;3,ab,1\r\n");
        done("20-0.500000    0\n", 1, "20,-0.50,none,,0\r\n");
        done("  00.00          \n", 1, ",0.00,,,\r\n");
        done("           ,\"   \n", 1, ",,,\",\"\"\",\r\n");
        // Every type missing.
        done("                \n", 1, ",,,,\r\n");
        // A fault: the lines before it stay, and judge_file's answer is told.
        let one = " 700.50 3 1ab  1\n";
        let line = "7,0.50,1;3,ab,1\r\n";
        assert_eq!(export(&format!("{one}{}", one.replace(" 7", "21"))), (vec![242, 2, 0, 21], line.into(), true));
        assert_eq!(export(&format!("{one}x")), (vec![30, 2, 0, 0], line.into(), true));
        assert_eq!(export(&format!("{one}x{one}")), (vec![31, 2, 0, 0], line.into(), true));
        assert_eq!(export("x\n"), (vec![22, 1, 0, 0], "".into(), true));
        // Reading 1: 20, 40, 60 in this order, with zeros behind; a refused definition is 40 too.
        let refused = |def: &str, t: &[i64], data: &str, room: usize| {
            let mut out = vec![b'?'; room];
            let answer = side.export(def.as_bytes(), t, data.as_bytes(), &mut out);
            assert_eq!((&answer[1..], out.iter().all(|&x| x == b'?')), (&[0; 4][..], true));
            answer[0]
        };
        let mut other = t.clone();
        other[zarfolin_compare::shape::row_at(0) + 14] += 1;
        assert_eq!(refused("", &t[..9], "", 0), 20);
        assert_eq!(refused("", &t, "x", 0), 40);
        assert_eq!(refused(&def, &other, "x", 0), 40);
        // 60 if the text before the fault doesn't fit, whatever the fault.
        assert_eq!(refused(&def, &t, "x", NAMES.len() - 1), 60);
        // More numbers than the table's are not looked at.
        other.clone_from(&t);
        other.push(-3);
        let answer = side.export(def.as_bytes(), &other, b"", &mut vec![0; NAMES.len()]);
        assert_eq!(answer, [0, 0, 0, 0, NAMES.len() as i64]);
    });
}

#[test]
fn c23_import() {
    let (def, t) = spread_sheet();
    each(|side| {
        let import = |text: &str| {
            let mut out = vec![b'?'; 100];
            let answer = side.import(def.as_bytes(), &t, text.as_bytes(), &mut out);
            let length = if answer[0] == 0 { answer[2] as usize } else { 0 };
            assert!(out[length..].iter().all(|&x| x == b'?'));
            (answer, String::from_utf8(out[..length].to_vec()).unwrap())
        };
        let lines = |lines: &str| import(&format!("{NAMES}{lines}"));
        let built =
            |line: &str, record: &str| assert_eq!(lines(line), ([0, 1, 18, 0], format!("{record}\r\n")), "{line:?}");
        let refused = |line: &str, number: i64, row: i64, column: i64| {
            assert_eq!(lines(line), ([number, row, column, 0], "".into()), "{line:?}")
        };
        assert_eq!(lines(""), ([0, 0, 0, 0], "".into()));
        built("7,0.50,1;3,ab,1\r\n", "0700.500103ab  1");
        built("20,-0.50,none,,0\r\n", "20-0.500000    0");
        built(",,,\",\"\"\",\r\n", "           ,\"   ");
        // Reading 2: zeros cut from the end of decimals, and the point where none is left.
        built("7,12.5,,,\r\n", "0712.50         ");
        built("7,12,,,\r\n", "0712.00         ");
        built("7,12.0,,,\r\n", "0712.00         ");
        // Reading 3: quoted without need; an empty one is missing.
        built("\"7\",\"\",\"1;2\",\"ab\",\"1\"\r\n", "07     0102ab  1");
        // Reading 2: 64, at the lowest column.
        for (field, column) in [
            ("007,,,,", 1),
            ("+7,,,,", 1),
            (" 7,,,,", 1),
            ("0,,,,", 1),
            ("21,,,,", 1),
            ("7.,,,,", 1),
            ("7.0,,,,", 1),
            ("-7,,,,", 1),
            (",-0,,,", 2),
            (",-0.00,,,", 2),
            (",7.,,,", 2),
            (",.5,,,", 2),
            (",12.505,,,", 2),
            (",12.500,,,", 2),
            (",00.50,,,", 2),
            (",100,,,", 2),
            (",1e1,,,", 2),
            (",,2;1,,", 3),
            (",,1;1,,", 3),
            (",,1;2;3,,", 3),
            (",,41,,", 3),
            (",,0,,", 3),
            (",,01,,", 3),
            (",,1;,,", 3),
            (",,None,,", 3),
            (",,,ab ,", 4),
            (",,, ,", 4),
            (",,,abcde,", 4),
            (",,,\"a\r\nb\",", 4),
            (",,,a\tb,", 4),
            (",,,,2", 5),
            (",,,,true", 5),
            (",,,,01", 5),
            ("x,x,x,,", 1),
        ] {
            refused(&format!("{field}\r\n"), 64, 2, column);
        }
        // Reading 3: 61.
        for (line, column) in [
            ("7\",,,,\r\n", 1),
            ("\"7\"x,,,,\r\n", 1),
            (",\"7\" ,,,\r\n", 2),
            (",,,a\nb,\r\n", 4),
            (",,,a\rb,\r\n", 4),
            (",,,\"ab,1\r\n", 4),
            (",,,,", 5),
            (",,,,1", 5),
            (",,,,\r", 5),
            (",,,,\n", 5),
            ("\"7\"", 1),
            ("x", 1),
        ] {
            refused(line, 61, 2, column);
        }
        // Reading 4: 61 of a line before its 63 and 64, an earlier line before all; an empty line is one empty field.
        refused("x,,\"", 61, 2, 3);
        refused("x,,,,\r\n\"", 64, 2, 1);
        refused(",,,,\r\n\r\n", 63, 3, 2);
        refused("\r\n", 63, 2, 2);
        refused("x,,,\r\n", 63, 2, 5);
        refused("x,,,,,,\r\n", 63, 2, 6);
        // The name line: 61 at 1, 1 for an empty text; 62 at the first column that differs, or is on one side only.
        assert_eq!(import("").0, [61, 1, 1, 0]);
        assert_eq!(import(NAMES.trim_end()).0, [61, 1, 5, 0]);
        assert_eq!(import(&NAMES.replacen('a', "A", 1)).0, [62, 1, 1, 0]);
        assert_eq!(import(&NAMES.replacen('a', "\"a\"", 1)).0, [0, 0, 0, 0]);
        assert_eq!(import(&NAMES.replacen("\ne", "\r\ne", 1)).0, [62, 1, 3, 0]);
        assert_eq!(import(&NAMES.replacen(",,", ",", 1)).0, [62, 1, 5, 0]);
        assert_eq!(import(&NAMES.replacen("\r\n", ",\r\n", 1)).0, [62, 1, 6, 0]);
        assert_eq!(import("a,b\r\n").0, [62, 1, 2, 0]);
        // Reading 6: 20, 40, 90, the lines, then 60.
        let bare = |def: &str, t: &[i64], text: &str| side.import(def.as_bytes(), t, text.as_bytes(), &mut []);
        assert_eq!(bare("", &[], "\""), [20, 0, 0, 0]);
        assert_eq!(bare("", &t, "\""), [40, 0, 0, 0]);
        let two = variable(1, "LOGICAL POSITION 1") + &variable(2, "LOGICAL POSITION 1");
        assert_eq!(bare(&definition(&two), &table(&two), "\""), [90, 0, 0, 0]);
        assert_eq!(bare(&def, &t, &format!("{NAMES},,,,\r\n,\r\n")), [63, 3, 3, 0]);
        assert_eq!(bare(&def, &t, &format!("{NAMES},,,,\r\n")), [60, 0, 0, 0]);
    });
}

/// The table that a whole definition yields.
fn yielded(def: &[u8]) -> Vec<i64> {
    let mut table = vec![0; 40_000];
    let d = zarfolin_plain::read_definition(def, &mut table);
    assert_eq!((d.number, d.place), (0, 0), "{}", def.escape_ascii());
    table.truncate(zarfolin_compare::shape::length(d.variables, d.lines));
    table
}

#[test]
fn c11_a_clean_definition() {
    let def = "SSS version1.1<c <d> \"e>\"> STANDARD NAMES USER\"u{NL}\" note \"n\" DATE \"\" survey TITLE \"t{2\n2}x\r\n\" RECORDr
        VARIABLE 007 NAME \"a\" LABEL \"b{0a}\" TYPE multiple POSITION 0\n5 SPREAD 1 VALUES NOTE \"x\" 1 TO 9 END VALUES END VARIABLE
        VARIABLE 8 NAME \"c\" NOTE \"\" LABEL \"\" TYPE quantity POSITION 6 TO 010
          VALUES -0.50TO 1.00<y>WITH 2.00\"two\"SPECIAL 03.00 \"three\" END VALUES END VARIABLE
        VARIABLE 9 NAME \"d\" LABEL \"\" TYPE MULTIPLE POSITION 11 TO 15 SPREAD 2 OF 02 VALUES 1 \"\" 2 \"\" END VALUES END VARIABLE
        VARIABLE 10 NAME \"e\" LABEL \"\" TYPE CHARACTER POSITION 16TO19 SIZE 04 ENDVARIABLE
        VARIABLE 11 NAME \"f\" LABEL \"\" TYPE MULTIPLE POSITION 20TO22 VALUES 3\"\"END VALUES END VARIABLE
        VARIABLE 12 NAME \"g\" LABEL \"\" TYPE LOGICAL POSITION 23 ENDVARIABLE ENDRECORDENDSURVEYENDSSS and what follows \"";
    // Readings 1 to 4: numbers as they stand, widths always stated, a line a statement in this order, every brace form as read.
    let clean = [
        "SSS",
        "VERSION 1.1",
        "DATE \"\"",
        "USER \"u{NL}\"",
        "STANDARD NAMES",
        "SURVEY",
        "TITLE \"t{22}x\"",
        "RECORD r",
        "VARIABLE 007",
        "NAME \"a\"",
        "LABEL \"b{0a}\"",
        "TYPE MULTIPLE",
        "POSITION 05 TO 05",
        "SPREAD 1 OF 1",
        "VALUES",
        "1 TO 9",
        "END VALUES",
        "END VARIABLE",
        "VARIABLE 8",
        "NAME \"c\"",
        "LABEL \"\"",
        "TYPE QUANTITY",
        "POSITION 6 TO 010",
        "VALUES",
        "-0.50 TO 1.00 WITH",
        "2.00 \"two\" SPECIAL",
        "03.00 \"three\"",
        "END VALUES",
        "END VARIABLE",
        "VARIABLE 9",
        "NAME \"d\"",
        "LABEL \"\"",
        "TYPE MULTIPLE",
        "POSITION 11 TO 15",
        "SPREAD 2 OF 02",
        "VALUES",
        "1 \"\"",
        "2 \"\"",
        "END VALUES",
        "END VARIABLE",
        "VARIABLE 10",
        "NAME \"e\"",
        "LABEL \"\"",
        "TYPE CHARACTER",
        "POSITION 16 TO 19",
        "SIZE 04",
        "END VARIABLE",
        "VARIABLE 11",
        "NAME \"f\"",
        "LABEL \"\"",
        "TYPE MULTIPLE",
        "POSITION 20 TO 22",
        "VALUES",
        "3 \"\"",
        "END VALUES",
        "END VARIABLE",
        "VARIABLE 12",
        "NAME \"g\"",
        "LABEL \"\"",
        "TYPE LOGICAL",
        "POSITION 23 TO 23",
        "END VARIABLE",
        "END RECORD",
        "END SURVEY",
        "END SSS",
        "",
    ]
    .join("\r\n");
    let t = yielded(def.as_bytes());
    each(|side| {
        let mut out = vec![b'?'; clean.len() + 9];
        assert_eq!(side.write_definition(def.as_bytes(), &t, &mut out), [0, 0, clean.len() as i64, 0]);
        assert_eq!(String::from_utf8(out).unwrap(), clean.clone() + "?????????");
        // Reading 7: cleaning it again gives it again.
        let mut again = vec![0; clean.len()];
        let own = yielded(clean.as_bytes());
        assert_eq!(side.write_definition(clean.as_bytes(), &own, &mut again)[..1], [0]);
        assert_eq!(String::from_utf8(again).unwrap(), clean);
    });
}

#[test]
fn c11_refusals_in_their_order() {
    let variables = variable(1, "LOGICAL POSITION 1");
    let (def, t) = (definition(&variables), table(&variables));
    // A title that makes the clean text just as long as it may be.
    let titled = |n: usize| def.replace("SURVEY RECORD", &format!("SURVEY TITLE \"{}\" RECORD", "x".repeat(n)));
    each(|side| {
        let write = |def: &str, t: &[i64], room: usize| {
            let mut out = vec![b'?'; room];
            let answer = side.write_definition(def.as_bytes(), t, &mut out);
            assert!(answer[0] == 0 || out.iter().all(|&x| x == b'?'));
            answer
        };
        // Reading 5: 1 to 9 first, with their place; then 40 for a table that differs anywhere, or is shorter; no 20 here.
        assert_eq!(write(&" ".repeat(1_048_577), &[], 0), [1, 0, 0, 0]);
        assert_eq!(write("<sss>", &[], 0), [2, 0, 0, 0]);
        assert_eq!(write(&def.replace("1.1", "1.2"), &[], 0), [4, 12, 0, 0]);
        assert_eq!(write(&def, &[], 0), [40, 0, 0, 0]);
        assert_eq!(write(&def, &t[..t.len() - 1], 0), [40, 0, 0, 0]);
        for i in 0..t.len() {
            let mut other = t.clone();
            other[i] += 1;
            assert_eq!(write(&def, &other, 500), [40, 0, 0, 0], "cell {i}");
        }
        // More numbers are not looked at.
        let length = write(&def, &[&t[..], &[-1]].concat(), 500)[2];
        // Reading 6: 41 before 42; exactly 1,048,576 bytes is no 41; an exact fit is enough.
        let room = 1_048_576 - length as usize - "TITLE \"\"\r\n".len();
        let long = titled(room);
        assert_eq!(write(&long, &yielded(long.as_bytes()), 1_048_576), [0, 0, 1_048_576, 0]);
        assert_eq!(write(&long, &yielded(long.as_bytes()), 1_048_575), [42, 0, 0, 0]);
        let long = titled(room + 1);
        assert_eq!(write(&long, &yielded(long.as_bytes()), 2_000_000), [41, 0, 0, 0]);
        assert_eq!(write(&long, &yielded(long.as_bytes()), 0), [41, 0, 0, 0]);
        assert_eq!(write(&long, &t, 0), [40, 0, 0, 0]);
    });
}
