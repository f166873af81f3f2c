//! The crate's names and messages are those of include/zarfolin.h.

use std::collections::BTreeMap;
use zarfolin::table::{self, column, header, kind, limit, line, mended, next, terminator, usage, value};
use zarfolin::{Refusal, VERSION};

fn text() -> String {
    let path = concat!(env!("CARGO_MANIFEST_DIR"), "/../../include/zarfolin.h");
    std::fs::read_to_string(path).expect("the header is in the repository")
}

/// Every name that the header gives a plain number: `NAME = n` in an enum, `#define NAME n`.
fn named(text: &str) -> BTreeMap<String, u64> {
    let number = |s: &str| s.trim_start_matches("INT64_C(").trim_end_matches(')').parse().ok();
    let one = |row: &str| {
        let row = row.split("/*").next().unwrap().trim().trim_end_matches(',');
        let (name, value) = match row.strip_prefix("#define ") {
            Some(rest) => rest.split_once(' ')?,
            None => row.split_once(" = ")?,
        };
        Some((name.trim().strip_prefix("ZARFOLIN_")?.to_string(), number(value.trim())?))
    };
    text.lines().filter_map(one).collect()
}

#[test]
fn numbers() {
    let text = text();
    let mut named = named(&text);
    let mut take = |name: &str, value: u64| assert_eq!(named.remove(name), Some(value), "{name}");
    macro_rules! same {
        ($prefix:literal, $module:ident: $($name:ident)*) => { $(take(concat!($prefix, stringify!($name)), $module::$name as u64);)* };
    }
    same!("", table: HEADER ROW LINE MARK MARK_XML);
    same!("H_", header: MARK VARIABLES LINES RECORD ROWS_AT LINES_AT);
    same!("", column: IDENT TYPE START FINISH WIDTH DECIMALS POINT SUBFIELDS SUBFIELD_WIDTH RANGE FROM TO LINES_BEFORE LINES);
    same!("", column: NAME NAME_LENGTH LABEL LABEL_LENGTH USE FILTER);
    same!("", usage: NO_USE SERIAL WEIGHT);
    same!("LINE_", line: VALUE SPECIAL TEXT TEXT_LENGTH);
    same!("", kind: SINGLE MULTIPLE QUANTITY CHARACTER LOGICAL);
    same!("", value: MISSING);
    same!("IS_", value: NUMBER SET TEXT TRUTH);
    same!("", next: NO_RECORD RECORD OPEN_RECORD);
    same!("", terminator: CR_LF LF_CR CR LF);
    same!("MENDED_", mended: DROPPED BYTE PAD TERMINATOR);
    take("MENDED", 3);
    same!("", limit: MAX_DEFINITION MAX_VARIABLES MAX_LINES MAX_CATEGORY MAX_QUANTITY MAX_DECIMALS MAX_SIZE MAX_LOCATION);
    same!("", limit: MAX_LEVEL MAX_MATRIX);
    take("VERSION", VERSION);
    take("ANSWER", 4);
    take("EXPORT_ANSWER", 5);
    take("OK", 0);
    assert_eq!(limit::MAX_SET as i64, limit::MAX_CATEGORY);
    assert!(text.contains("#define ZARFOLIN_MAX_SET ZARFOLIN_MAX_CATEGORY"));

    // What is left: the refusals, one name each, and the stack of each call.
    named.retain(|name, _| !name.starts_with("STACK_"));
    assert!(named.keys().all(|name| name.starts_with("E_")), "names that this crate has not: {named:?}");
    let mut numbers: Vec<u64> = named.into_values().collect();
    numbers.sort_unstable();
    assert_eq!(numbers, Refusal::ALL.iter().map(|r| r.number()).collect::<Vec<_>>());
}

#[test]
fn messages() {
    let text = text();
    let body = &text[text.find("*zarfolin_message(").unwrap()..];
    let numbers = named(&text);
    for &refusal in Refusal::ALL {
        let name = numbers.iter().find(|(name, n)| name.starts_with("E_") && **n == refusal.number()).unwrap().0;
        let case =
            body.split(&format!("case ZARFOLIN_{name}:")).nth(1).unwrap_or_else(|| panic!("no message of {name}"));
        let said: String = case.split(';').next().unwrap().split('"').skip(1).step_by(2).collect();
        assert_eq!(said, refusal.message(), "{name}");
    }
}

/// The manual has every refusal too, with its name and its words.
#[test]
fn manual() {
    let page = std::fs::read_to_string(concat!(env!("CARGO_MANIFEST_DIR"), "/../../man/zarfolin.3")).unwrap();
    let names = named(&text());
    for &refusal in Refusal::ALL {
        let number = refusal.number();
        let name = names.iter().find(|(name, n)| name.starts_with("E_") && **n == number).unwrap().0;
        let row = format!("\n{number}\tZARFOLIN_{name}\tT{{\n{}\nT}}\n", refusal.message());
        assert!(page.contains(&row), "man/zarfolin.3 has no {row}");
    }
    for call in text().split("\nzarfolin_number ").skip(1).filter_map(|rest| rest.split('(').next()) {
        assert!(page.contains(&format!("zarfolin_number {call}(")), "man/zarfolin.3 has no {call}");
    }
}
