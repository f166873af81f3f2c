//! Tables, records and files: document 01's list "Proved readings", 003's tables, the readings, and writes.

use zarfolin_plain::*;

fn table(variables: &str) -> Vec<i64> {
    let def = format!("SSS VERSION 1.1 SURVEY RECORD R {variables} END RECORD END SURVEY END SSS");
    let mut table = vec![0; 40_000];
    let d = read_definition(def.as_bytes(), &mut table);
    assert_eq!((d.number, d.place), (0, 0), "{def}");
    table.truncate(HEADER + ROW * d.variables + LINE * d.lines);
    table
}

fn one(rest: &str) -> Vec<i64> {
    table(&format!("VARIABLE 1 NAME \"n\" LABEL \"l\" TYPE {rest} END VARIABLE"))
}

fn read(table: &[i64], record: &str) -> String {
    let mut list = vec![-9; 10_000];
    let answer = read_value(table, 0, record.as_bytes(), &mut list);
    let judged = judge_record(table, record.as_bytes());
    let mut used = 0;
    let text = match answer {
        Err(e) if e.number > 240 => format!("{} {}", e.number, e.beside),
        Err(e) => e.number.to_string(),
        Ok(Value::Missing) => "missing".into(),
        Ok(Value::Number(n)) => format!("N {n}"),
        Ok(Value::Truth(t)) => format!("L {t}"),
        Ok(Value::Text(p, n)) => format!("T {p} {}", &record[p..p + n]),
        Ok(Value::Set(n)) => {
            used = n;
            if n > 0 {
                // One number less is 25, and the list is kept.
                let mut short = vec![-9; n - 1];
                assert_eq!(read_value(table, 0, record.as_bytes(), &mut short), refused(25));
                assert!(short.iter().all(|&x| x == -9));
            }
            format!("S {:?}", &list[..n])
        }
    };
    assert!(list[used..].iter().all(|&x| x == -9));
    let fault = answer.err().filter(|e| e.number > 240);
    let row = Refused { number: judged.number, beside: judged.beside };
    assert_eq!((judged.number > 240).then_some(row), fault, "{record:?}");
    text
}

fn refused(number: u32) -> Reading {
    Err(Refused { number, beside: 0 })
}

fn block(values: &[i64]) -> String {
    values.iter().map(|v| format!("{v}\"\"")).collect::<String>()
}

#[test]
fn proved_readings() {
    let t = one("SINGLE POSITION 1 TO 2 VALUES 1 TO 20 END VALUES");
    for (record, value) in [
        ("07", "N 7"),
        (" 7", "N 7"),
        ("  ", "missing"),
        ("00", "missing"),
        ("7 ", "241 1"),
        ("21", "242 21"),
        (" 0", "missing"),
        ("-7", "241 0"),
        ("0x", "241 1"),
        ("20", "N 20"),
    ] {
        assert_eq!(read(&t, record), value, "{record:?}");
    }
    let t = one(&format!("MULTIPLE POSITION 1 TO 9 VALUES {} END VALUES", block(&[1, 2, 3, 9])));
    for (record, value) in [
        ("100xxxxx0", "S [1]"),
        ("   xxxxx ", "missing"),
        ("000xxxxx ", "241 8"),
        ("0002", "22"),
        ("011111111", "S [2, 3, 9]"),
        ("200000000", "241 0"),
    ] {
        assert_eq!(read(&t, record), value, "{record:?}");
    }
    // Out of order, and lines among a range.
    let t = one(&format!("MULTIPLE POSITION 1 TO 9 VALUES {} END VALUES", block(&[9, 3, 1, 2])));
    assert_eq!(read(&t, "111xxxxx1"), "S [1, 2, 3, 9]");
    let t = one(&format!("MULTIPLE POSITION 1 TO 9 VALUES 3 TO 5 WITH {} END VALUES", block(&[1, 4, 8])));
    assert_eq!(read(&t, "1x111xx1x"), "S [1, 3, 4, 5, 8]");
    assert_eq!(read(&t, "1x010xx1x"), "S [1, 4, 8]");
    assert_eq!(read(&t, "1x0 0xx1x"), "241 3");
    let t = one(&format!("MULTIPLE POSITION 1 TO 9 VALUES 3 TO 5 WITH {} END VALUES", block(&[8, 1, 4])));
    assert_eq!(read(&t, "1x111xx1x"), "S [1, 3, 4, 5, 8]");
    let t = one("MULTIPLE POSITION 1 TO 9 VALUES 1 TO 9 END VALUES");
    assert_eq!(read(&t, "000000000"), "S []");
    assert_eq!(read(&t, "101000000"), "S [1, 3]");
    let t = one("MULTIPLE POSITION 1 TO 10 VALUES 1 TO 9 END VALUES");
    assert_eq!(read(&t, "010000010x"), "S [2, 8]");
    let t = one("MULTIPLE POSITION 1 TO 6 SPREAD 2 OF 3 VALUES 1 TO 999 END VALUES");
    for (record, value) in [
        ("001042", "S [1, 42]"),
        ("      ", "missing"),
        ("000000", "S []"),
        ("   000", "S []"),
        ("  9  9", "S [9]"),
        ("042  1", "S [1, 42]"),
        ("1  000", "241 1"),
        ("00x000", "241 2"),
    ] {
        assert_eq!(read(&t, record), value, "{record:?}");
    }
    let t = one("MULTIPLE POSITION 1 TO 4 SPREAD 2 OF 2 VALUES 1 TO 9 END VALUES");
    assert_eq!(read(&t, "x1x0"), "S [1]");
    assert_eq!(read(&t, "x0x1"), "S [1]");
    let t = one(&format!("MULTIPLE POSITION 1 TO 4 SPREAD 2 OF 1 VALUES {} END VALUES", block(&[1, 2, 3, 9])));
    for (record, value) in [
        ("20xx", "S [2]"),
        ("02xx", "S [2]"),
        ("13xx", "S [1, 3]"),
        ("04xx", "242 4"),
        ("  xx", "missing"),
        ("00xx", "S []"),
        ("11xx", "S [1]"),
    ] {
        assert_eq!(read(&t, record), value, "{record:?}");
    }
    let t = one("QUANTITY POSITION 1 TO 3 VALUES -99 TO 99 END VALUES");
    for (record, value) in [
        ("-07", "N -7"),
        (" -7", "N -7"),
        ("  7", "N 7"),
        ("0-7", "241 1"),
        ("- 7", "241 1"),
        ("-  ", "241 1"),
        ("7  ", "241 1"),
        ("-00", "N 0"),
        ("000", "N 0"),
        ("100", "242 100"),
        ("   ", "missing"),
        ("+07", "241 0"),
    ] {
        assert_eq!(read(&t, record), value, "{record:?}");
    }
    let t = one("QUANTITY POSITION 1 TO 6 VALUES -1.00 TO 99.99 END VALUES");
    for (record, value) in [
        ("x-1.00", "N -100"),
        ("x 7.00", "N 700"),
        ("x07.00", "N 700"),
        ("x  .00", "241 2"),
        ("x -.00", "241 2"),
        ("x70000", "243 3"),
        ("x7.000", "243 2"),
        ("x     ", "missing"),
        ("x   . ", "241 2"),
        ("x-1.01", "242 -101"),
        ("x-0.00", "N 0"),
    ] {
        assert_eq!(read(&t, record), value, "{record:?}");
    }
    let t = one("QUANTITY POSITION 1 TO 2 VALUES 1 TO 9. END VALUES");
    for (record, value) in [
        ("7.", "N 7"),
        ("07", "243 1"),
        (" 7", "241 0"),
        (" .", "241 0"),
        ("  ", "missing"),
        ("0.", "242 0"),
        ("-.", "241 0"),
    ] {
        assert_eq!(read(&t, record), value, "{record:?}");
    }
    let t = one("QUANTITY POSITION 1 TO 2 VALUES 0 TO 50 WITH 99 \"\" END VALUES");
    assert_eq!(read(&t, "99"), "N 99");
    assert_eq!(read(&t, "98"), "242 98");
    assert_eq!(read(&t, "-0"), "N 0");
    assert_eq!(read(&t, "-1"), "242 -1");
    let t = one("LOGICAL POSITION 1 TO 2");
    for (record, value) in [("x1", "L true"), ("10", "L false"), ("1 ", "missing"), ("11", "L true"), (" 2", "241 1")] {
        assert_eq!(read(&t, record), value, "{record:?}");
    }
    let t = one("CHARACTER POSITION 2 TO 12 SIZE 10");
    for (record, value) in [
        ("xCHARACTER xx", "T 1 CHARACTER"),
        ("x  a       xx", "T 1   a"),
        ("x          xx", "missing"),
        ("x0123456789xx", "T 1 0123456789"),
    ] {
        assert_eq!(read(&t, record), value, "{record:?}");
    }
    assert_eq!(read_value(&t, 0, b"x  \n       xx", &mut []), Err(Refused { number: 241, beside: 3 }));
    assert_eq!(judge_record(&t, b"x  \n       xx"), Judgement { number: 23, place: 3, beside: 0 });
    assert_eq!(read_value(&t, 0, b"\0 a        \0x", &mut []), Ok(Value::Text(1, 2)));
    assert_eq!(read_value(&t, 0, b"x  \xff       xx", &mut []), Ok(Value::Text(1, 3)));
}

#[test]
fn singles_of_003() {
    let t = |position: &str, most: i64| one(&format!("SINGLE POSITION {position} VALUES 1 TO {most} END VALUES"));
    let field = |s: &str| format!("{:20}{s}", "");
    for (most, position, data, value) in [
        (9, "21 to 21", "7", "N 7"),
        (9, "21 to 22", "x7", "N 7"),
        (20, "21 to 22", "07", "N 7"),
        (20, "21 to 22", " 7", "N 7"),
        (20, "21 to 24", "xx07", "N 7"),
        (20, "21 to 24", "xx 7", "N 7"),
        (20, "21 to 22", "17", "N 17"),
        (20, "21 to 24", "xx17", "N 17"),
        (9999, "21 to 24", "0142", "N 142"),
        (9999, "21 to 24", " 142", "N 142"),
        (9999, "21 to 24", "    ", "missing"),
    ] {
        assert_eq!(read(&t(position, most), &field(data)), value);
    }
    for (block, position, data, value) in [
        ("0 TO 99", "21 to 22", " 7", "N 7"),
        ("0.00 TO 99.99", "21 to 25", " 7.00", "N 700"),
        ("-99 TO 99", "21 to 23", " -7", "N -7"),
        ("-1 TO 99", "21 to 22", "07", "N 7"),
        ("-1 TO 99", "21 to 23", "x 7", "N 7"),
        ("-1.00 TO 99.99", "21 to 26", "x-1.00", "N -100"),
        ("0 TO 50 WITH 99 \"\"", "21 to 22", "99", "N 99"),
        ("0 TO 999", "21 to 23", "   ", "missing"),
    ] {
        let t = one(&format!("QUANTITY POSITION {position} VALUES {block} END VALUES"));
        assert_eq!(read(&t, &field(data)), value);
    }
}

#[test]
fn calls_in_order() {
    let t = one("SINGLE POSITION 1 TO 2 VALUES 1 TO 20 END VALUES");
    let mut bad = t.clone();
    bad[3] = 3;
    let mut list = [1, 2, 3];
    assert_eq!(read_value(&bad, u64::MAX, b"", &mut list), refused(20));
    assert_eq!(read_value(&[], 0, b"  ", &mut list), refused(20));
    assert_eq!(read_value(&t, 1, b"", &mut list), refused(21));
    assert_eq!(read_value(&t, u64::MAX, b"  ", &mut list), refused(21));
    assert_eq!(read_value(&t, 0, b"7", &mut list), refused(22));
    assert_eq!(list, [1, 2, 3]);
    assert_eq!(judge_record(&bad, b""), Judgement { number: 20, place: 0, beside: 0 });
    assert_eq!(judge_record(&t, b"7"), Judgement { number: 22, place: 0, beside: 0 });
    assert_eq!(judge_record(&t, b"7 \x1f\x1e"), Judgement { number: 23, place: 2, beside: 0 });
    assert_eq!(judge_record(&t, b"7 "), Judgement { number: 241, place: 0, beside: 1 });
    let two = table(
        "VARIABLE 1 NAME \"\" LABEL \"\" TYPE LOGICAL POSITION 1 END VARIABLE
         VARIABLE 2 NAME \"\" LABEL \"\" TYPE LOGICAL POSITION 2 END VARIABLE
         VARIABLE 3 NAME \"\" LABEL \"\" TYPE LOGICAL POSITION 3 END VARIABLE",
    );
    assert_eq!(judge_record(&two, b"122"), Judgement { number: 241, place: 1, beside: 1 });
    assert_eq!(judge_record(&two, b"0 1\xff"), Judgement { number: 0, place: 0, beside: 0 });
}

#[test]
fn writes() {
    let s = one("SINGLE POSITION 2 TO 4 VALUES 1 TO 20 END VALUES");
    let mut r = *b"abcdef";
    assert_eq!(write_number(&s, 0, 7, &mut r), 0);
    assert_eq!(&r, b"ab07ef");
    for bad in [0, 21, -1, i64::MIN, i64::MAX] {
        assert_eq!(write_number(&s, 0, bad, &mut r), 27);
    }
    assert_eq!(write_truth(&s, 0, 9, &mut r), 26);
    assert_eq!(write_set(&s, 0, &[1], &mut r), 26);
    assert_eq!(write_text(&s, 0, b"", &mut r), 26);
    assert_eq!(write_number(&s, 1, 7, &mut r), 21);
    assert_eq!(write_number(&s, 0, 0, &mut r[..3]), 22);
    assert_eq!(&r, b"ab07ef");
    assert_eq!(write_missing(&s, 0, &mut r), 0);
    assert_eq!(&r, b"ab  ef");

    let q = one("QUANTITY POSITION 1 TO 7 VALUES -9.5 TO 99.5 WITH 777.7 \"\" END VALUES");
    for (v, bytes) in [(0i64, b"xx000.0"), (-95, b"xx-09.5"), (995, b"xx099.5"), (7777, b"xx777.7"), (-1, b"xx-00.1")] {
        let mut r = *b"xxxxxxx";
        assert_eq!(write_number(&q, 0, v, &mut r), 0);
        assert_eq!(&r, bytes);
        assert_eq!(read_value(&q, 0, &r, &mut []), Ok(Value::Number(v)));
    }
    assert_eq!(write_number(&q, 0, 996, &mut [0; 7]), 27);
    let q = one("QUANTITY POSITION 1 TO 3 VALUES -5 TO 9. END VALUES");
    let mut r = *b"xxx";
    assert_eq!(write_number(&q, 0, -5, &mut r), 0);
    assert_eq!(&r, b"-5.");

    let m = one(&format!("MULTIPLE POSITION 1 TO 9 VALUES 4 TO 5 WITH {} END VALUES", block(&[9, 1])));
    let mut r = *b"abcdefghi";
    assert_eq!(write_set(&m, 0, &[1, 5], &mut r), 0);
    assert_eq!(&r, b"1bc01fgh0");
    assert_eq!(write_set(&m, 0, &[], &mut r), 0);
    assert_eq!(&r, b"0bc00fgh0");
    for bad in [&[2][..], &[1, 1], &[5, 4], &[0], &[10], &[i64::MIN], &[1, i64::MAX]] {
        assert_eq!(write_set(&m, 0, bad, &mut r), 27);
    }
    assert_eq!(write_missing(&m, 0, &mut r), 0);
    assert_eq!(&r, b" bc  fgh ");

    let m = one("MULTIPLE POSITION 1 TO 9 SPREAD 2 OF 4 VALUES 1 TO 20 END VALUES");
    let mut r = *b"abcdefghi";
    assert_eq!(write_set(&m, 0, &[7], &mut r), 0);
    assert_eq!(&r, b"ab07ef00i");
    assert_eq!(write_set(&m, 0, &[7, 20], &mut r), 0);
    assert_eq!(&r, b"ab07ef20i");
    assert_eq!(write_set(&m, 0, &[1, 2, 3], &mut r), 28);
    assert_eq!(write_set(&m, 0, &[1, 2, 21], &mut r), 27);
    assert_eq!(write_missing(&m, 0, &mut r), 0);
    assert_eq!(&r, b"ab  ef  i");

    let c = one("CHARACTER POSITION 2 TO 6 SIZE 4");
    let mut r = *b"abcdefg";
    assert_eq!(write_text(&c, 0, b" x", &mut r), 0);
    assert_eq!(&r, b"a x  fg");
    assert_eq!(write_text(&c, 0, b"\xff\x7f34", &mut r), 0);
    assert_eq!(&r, b"a\xff\x7f34fg");
    for bad in [&b""[..], b"x ", b" ", b"12345", b"a\x1fb"] {
        assert_eq!(write_text(&c, 0, bad, &mut r), 27);
    }
    assert_eq!(write_number(&c, 0, 1, &mut r), 26);
    assert_eq!(write_missing(&c, 0, &mut r), 0);
    assert_eq!(&r, b"a    fg");

    let l = one("LOGICAL POSITION 2 TO 3");
    let mut r = *b"abcd";
    assert_eq!(write_truth(&l, 0, 1, &mut r), 0);
    assert_eq!(&r, b"ab1d");
    assert_eq!(write_truth(&l, 0, 2, &mut r), 27);
    assert_eq!(write_truth(&l, 0, 255, &mut r), 27);
    assert_eq!(write_missing(&l, 0, &mut r), 0);
    assert_eq!(&r, b"ab d");
}

#[test]
fn well_formed_clauses() {
    let t = table(
        "VARIABLE 1 NAME \"\" LABEL \"\" TYPE SINGLE POSITION 1 TO 2 VALUES 1 TO 20 WITH 3 \"\" 30 \"\" END VALUES END VARIABLE
         VARIABLE 2 NAME \"\" LABEL \"\" TYPE MULTIPLE POSITION 3 TO 8 SPREAD 2 OF 3 VALUES 1 \"\" 2 \"\" END VALUES END VARIABLE
         VARIABLE 3 NAME \"\" LABEL \"\" TYPE QUANTITY POSITION 9 TO 14 VALUES -1.0 TO 5.0 WITH 7.0 \"\" END VALUES END VARIABLE
         VARIABLE 4 NAME \"\" LABEL \"\" TYPE CHARACTER POSITION 20 TO 30 SIZE 9 END VARIABLE
         VARIABLE 5 NAME \"\" LABEL \"\" TYPE LOGICAL POSITION 20 END VARIABLE
         VARIABLE 6 NAME \"\" LABEL \"\" TYPE MULTIPLE POSITION 1 TO 9 VALUES 7 \"\" END VALUES END VARIABLE",
    );
    assert!(well_formed(&t));
    let row = |r: usize, c: usize| HEADER + ROW * r + c;
    let line = |l: usize, c: usize| row(6, LINE * l + c);
    let with = |changes: &[(usize, i64)]| {
        let mut t = t.clone();
        for &(i, x) in changes {
            t[i] = x;
        }
        well_formed(&t)
    };
    for i in 0..t.len() {
        assert!(!with(&[(i, i64::MIN)]), "cell {i}");
        assert!(!with(&[(i, i64::MAX)]), "cell {i}");
        if t[i] >= 0 && ![row(2, 10), row(2, 11), line(4, 0)].contains(&i) {
            assert!(!with(&[(i, -1)]), "cell {i}");
        }
    }
    assert!(with(&[(row(0, 0), 9999)]));
    assert!(!with(&[(row(0, 0), 10000)]));
    assert!(!with(&[(row(0, 0), 2)]));
    assert!(!with(&[(row(0, 10), 0)]));
    assert!(!with(&[(row(0, 10), 21)]));
    assert!(with(&[(row(0, 11), 99)]));
    assert!(!with(&[(row(0, 11), 100)]));
    assert!(!with(&[(row(0, 11), 100), (row(0, 4), 3)]));
    assert!(!with(&[(line(0, 0), 30)]));
    assert!(with(&[(line(0, 0), 31)]));
    assert!(!with(&[(line(0, 0), 0)]));
    assert!(!with(&[(line(0, 1), 2)]));
    assert!(with(&[(line(0, 2), 1_048_576), (line(0, 3), 1_048_576)]));
    assert!(!with(&[(line(0, 2), 1_048_577)]));
    // Taking the range away leaves the lines; from and to must go too.
    assert!(!with(&[(row(0, 9), 0)]));
    assert!(with(&[(row(0, 9), 0), (row(0, 10), 0), (row(0, 11), 0)]));
    // The spread.
    assert!(with(&[(row(1, 7), 3), (row(1, 8), 2)]));
    assert!(!with(&[(row(1, 7), 3)]));
    assert!(!with(&[(row(1, 7), 0)]));
    assert!(!with(&[(row(1, 8), 0)]));
    assert!(!with(&[(row(1, 7), 0), (row(1, 8), 0)]));
    assert!(with(&[(row(1, 7), 0), (row(1, 8), 0), (row(1, 4), 2)]));
    assert!(!with(&[(row(1, 7), 1 << 33), (row(1, 8), 1 << 31)]));
    // The quantity: w stays 4 with -1.0 and 7.0.
    assert!(with(&[(row(2, 10), -99)]));
    assert!(!with(&[(row(2, 10), -100)]));
    assert!(with(&[(row(2, 10), -100), (row(2, 4), 5)]));
    assert!(!with(&[(row(2, 6), 0)]));
    // With no decimals but a point: `-10.` and `70.`.
    assert!(with(&[(row(2, 5), 0)]));
    assert!(!with(&[(row(2, 5), 0), (row(2, 6), 0)]));
    assert!(with(&[(row(2, 5), 0), (row(2, 6), 0), (row(2, 4), 3)]));
    assert!(!with(&[(row(2, 5), 10), (row(2, 4), 13), (row(2, 3), 30)]));
    assert!(with(&[(line(4, 0), -5)]));
    // The text and the logical.
    assert!(with(&[(row(3, 4), 11)]));
    assert!(!with(&[(row(3, 4), 12)]));
    assert!(!with(&[(row(3, 4), 0)]));
    assert!(!with(&[(row(4, 4), 2), (row(4, 3), 21)]));
    assert!(!with(&[(row(4, 5), 1)]));
    // L, counts, and the header.
    assert!(!with(&[(3, 31)]));
    assert!(with(&[(3, 31), (row(3, 3), 31)]));
    assert!(!with(&[(3, 16385), (row(3, 3), 16385)]));
    assert!(with(&[(3, 16384), (row(3, 3), 16384)]));
    assert!(!with(&[(1, 0)]));
    assert!(!with(&[(2, 5)]));
    assert!(with(&[(0, MARK_XML)]));
    assert!(!with(&[(0, 10)]));
    assert!(!with(&[(0, 13)]));
    // 1.1 has no use and no filter: a weight and a filter that XML would allow.
    assert!(!with(&[(row(2, column::USE), 2)]));
    assert!(!with(&[(row(5, column::FILTER), 5)]));
    for n in 0..t.len() {
        assert!(!well_formed(&t[..n]));
    }
    let mut longer = t.clone();
    longer.push(i64::MIN);
    assert!(well_formed(&longer));
}

/// The readings of C-15, point 1, a clause at a time.
#[test]
fn uses_and_filters() {
    let mut t = table(
        "VARIABLE 1 NAME \"\" LABEL \"\" TYPE LOGICAL POSITION 1 END VARIABLE
         VARIABLE 2 NAME \"\" LABEL \"\" TYPE LOGICAL POSITION 2 END VARIABLE
         VARIABLE 3 NAME \"\" LABEL \"\" TYPE SINGLE POSITION 3 VALUES 1 \"\" SPECIAL 2 \"\" END VALUES END VARIABLE
         VARIABLE 4 NAME \"\" LABEL \"\" TYPE CHARACTER POSITION 4 TO 5 SIZE 2 END VARIABLE
         VARIABLE 5 NAME \"\" LABEL \"\" TYPE QUANTITY POSITION 6 VALUES 0 TO 9 END VALUES END VARIABLE
         VARIABLE 6 NAME \"\" LABEL \"\" TYPE QUANTITY POSITION 7 VALUES 0 TO 9 END VALUES END VARIABLE",
    );
    let uses = |r: usize| HEADER + ROW * r + column::USE;
    let filter = |r: usize| HEADER + ROW * r + column::FILTER;
    let special = HEADER + ROW * 6 + 1;
    t[0] = MARK_XML;
    assert!(!well_formed(&t), "SPECIAL");
    t[special] = 0;
    assert!(well_formed(&t));
    let with = |changes: &[(usize, i64)]| {
        let mut t = t.clone();
        changes.iter().for_each(|&(i, x)| t[i] = x);
        well_formed(&t)
    };
    // A serial, a weight and a chain of filters.
    assert!(with(&[(uses(3), 1), (uses(4), 2), (filter(1), 1), (filter(2), 2), (filter(5), 1)]));
    // Of uses: 0 to 2; the types; one of each.
    assert!(!with(&[(uses(4), 3)]));
    assert!(!with(&[(uses(4), -1)]));
    assert!(with(&[(uses(5), 1)]));
    for r in [0, 1, 2] {
        assert!(!with(&[(uses(r), 1)]), "serial row {r}");
        assert!(!with(&[(uses(r), 2)]), "weight row {r}");
    }
    assert!(!with(&[(uses(3), 2)]));
    assert!(!with(&[(uses(3), 1), (uses(4), 1)]));
    assert!(!with(&[(uses(4), 2), (uses(5), 2)]));
    assert!(with(&[(uses(4), 1), (uses(5), 2)]));
    // Neither with a filter.
    assert!(!with(&[(uses(3), 1), (filter(3), 1)]));
    assert!(!with(&[(uses(4), 2), (filter(4), 2)]));
    // Of filters: an earlier logical.
    for r in 0..6 {
        for f in -1..8 {
            assert_eq!(
                with(&[(filter(r), f)]),
                f == 0 || (f == 1 && r > 0) || (f == 2 && r > 1),
                "row {r}, filter {f}"
            );
        }
    }
}

#[test]
fn files() {
    let t = one("SINGLE POSITION 1 TO 2 VALUES 1 TO 20 END VALUES");
    let judge = |data: &[u8]| {
        let j = judge_file(&t, data);
        (j.number, j.record, j.row, j.place)
    };
    assert_eq!(judge(b""), (0, 0, 0, 0));
    for end in ["\r\n", "\n\r", "\r", "\n"] {
        for n in 0..4 {
            assert_eq!(judge(format!(" 7{end}").repeat(n).as_bytes()), (0, n, 0, 0));
        }
        assert_eq!(judge(format!(" 7{end} 7").as_bytes()), (30, 2, 0, 0));
        assert_eq!(judge(format!(" 7{end} 71{end}").as_bytes()), (31, 2, 0, 0));
        assert_eq!(judge(format!("7{end}7{end}").as_bytes()), (22, 1, 0, 0));
        assert_eq!(judge(format!(" 7x{end} 7\x01{end}").as_bytes()), (23, 2, 0, 2));
        assert_eq!(judge(format!(" 7{end}x7{end}").as_bytes()), (241, 2, 0, 0));
        assert_eq!(judge(format!("{end}{end}").as_bytes()), (22, 1, 0, 0));
        assert_eq!(judge(format!(" 7{end}{end}").as_bytes()), (31, 2, 0, 0));
    }
    assert_eq!(judge(b" 7"), (30, 1, 0, 0));
    assert_eq!(judge(b"x"), (30, 1, 0, 0));
    // Half a pair belongs to the record.
    assert_eq!(judge(b" 7\r\n\r7\r\n"), (23, 2, 0, 0));
    assert_eq!(judge(b" 7\r\n 7\r"), (30, 2, 0, 0));
    assert_eq!(judge(b" 7x\r\n 7\r\r\n"), (23, 2, 0, 2));
    assert_eq!(judge(b" 7\r\r\n"), (31, 2, 0, 0));
    assert_eq!(judge(b" 7\n 7\r\n"), (31, 2, 0, 0));
    assert_eq!(judge(b" 7x\n 7\r\n"), (23, 2, 0, 2));
    assert_eq!(judge_file(&t[1..], b"").number, 20);

    assert_eq!(next_record(b"", 0), NextRecord::None);
    assert_eq!(next_record(b"ab", 2), NextRecord::None);
    assert_eq!(next_record(b"ab", u64::MAX), NextRecord::None);
    assert_eq!(next_record(b"ab", 1), NextRecord::NotEnded { start: 1, end: 2 });
    assert_eq!(next_record(b"ab\r\ncd\r\n", 0), NextRecord::Ended { start: 0, end: 2, next: 4 });
    assert_eq!(next_record(b"ab\r\ncd\r\n", 3), NextRecord::Ended { start: 3, end: 6, next: 8 });
    assert_eq!(next_record(b"ab\r\ncd\r", 4), NextRecord::NotEnded { start: 4, end: 7 });
    assert_eq!(next_record(b"ab\n\n", 3), NextRecord::Ended { start: 3, end: 3, next: 4 });
}

/// The list of readings C-18, in one row of each kind: number and place, or the number that is not legal.
#[test]
fn faults() {
    let spread = one("MULTIPLE POSITION 1 TO 4 SPREAD 2 OF 2 VALUES 1 TO 40 END VALUES");
    let tenths = one("QUANTITY POSITION 1 TO 4 VALUES 0.0 TO 50.0 END VALUES");
    let cents = one("QUANTITY POSITION 1 TO 5 VALUES 0.00 TO 99.99 END VALUES");
    let whole = one("QUANTITY POSITION 1 TO 4 VALUES -999 TO 500 END VALUES");
    let bits = one("MULTIPLE POSITION 1 TO 3 VALUES 1 TO 3 END VALUES");
    for (t, record, fault) in [
        (&bits, " 10", "241 0"),
        (&bits, "0.1", "241 1"),
        (&tenths, "  .5", "241 1"),
        (&tenths, " 0 5", "243 2"),
        (&tenths, "1.15", "243 1"),
        (&tenths, "50.1", "242 501"),
        (&tenths, "-0.5", "242 -5"),
        (&cents, "  750", "241 1"),
        (&whole, "- 15", "241 1"),
        (&whole, "1 15", "241 1"),
        (&whole, "--15", "241 1"),
        (&whole, "  - ", "241 3"),
        (&whole, "   -", "241 3"),
        (&whole, "1.15", "243 1"),
        (&whole, "+115", "241 0"),
        (&spread, "99x1", "241 2"),
        (&spread, "9941", "242 99"),
        (&spread, "0041", "242 41"),
        (&spread, "0.01", "241 1"),
        (&spread, "-1 1", "241 0"),
    ] {
        assert_eq!(read(t, record), fault, "{record:?}");
    }
}
