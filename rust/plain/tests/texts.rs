//! Texts decoded, by the papers' own words: document 01 on strings, document 02's C-17 and its readings.

use zarfolin_plain::{BREAK, decode_text};

/// What the whole of some bytes decodes to, in a list with room and one number more that must stay.
fn whole(text: &[u8]) -> Result<Vec<i64>, u32> {
    let mut list = vec![-1; text.len() + 1];
    let count = decode_text(text, 0, text.len() as u64, &mut list)?;
    assert!(list[count..].iter().all(|&x| x == -1));
    list.truncate(count);
    Ok(list)
}

#[test]
fn forms() {
    assert_eq!(whole(b""), Ok(vec![]));
    assert_eq!(whole(b"ab c}<>"), Ok(b"ab c}<>".map(i64::from).to_vec()));
    assert_eq!(whole(b"{\"}{{}"), Ok(vec![34, 123]));
    assert_eq!(whole(b"{NL}"), Ok(vec![BREAK]));
    assert_eq!(whole(b"{0A}"), Ok(vec![10]));
    assert_eq!(whole(b"{0D0A}{0d0a}"), Ok(vec![13, 10, 13, 10]));
    assert_eq!(whole(b"a\r\nb{N\r\nL}{0\tA}"), Ok(vec![97, 98, BREAK, 10]));
    assert_eq!(whole(b"{00FF}\xff"), Ok(vec![0, 255, 255]));
}

#[test]
fn not_the_inside_of_a_text() {
    for text in [
        &b"\""[..],
        b"a\"b",
        b"{nl}",
        b"{Nl}",
        b"{}",
        b"{ }",
        b"{0}",
        b"{0A0}",
        b"{0A 0A}",
        b"{NL0A}",
        b"{0ANL}",
        b"{\"\"}",
    ] {
        assert_eq!(whole(text), Err(3), "{}", text.escape_ascii());
    }
    for unfinished in [&b"{"[..], b"{\"", b"{{", b"{N", b"{NL", b"{0", b"{0A", b"{0A0A", b"{0A\r"] {
        assert_eq!(whole(unfinished), Err(3), "{}", unfinished.escape_ascii());
    }
}

#[test]
fn places_and_room() {
    let def = b"x\"a{NL}\"";
    let mut list = [-1; 3];
    assert_eq!(decode_text(def, 2, 5, &mut list), Ok(2));
    assert_eq!(list, [97, BREAK, -1]);
    for (place, length) in [(2, 6), (2, 4), (8, 1), (9, 0), (u64::MAX, 1), (2, u64::MAX), (u64::MAX, u64::MAX)] {
        let mut list = [-1; 3];
        assert_eq!(decode_text(def, place, length, &mut list), Err(3), "{place} {length}");
        assert_eq!(list, [-1; 3]);
    }
    assert_eq!(decode_text(def, 8, 0, &mut []), Ok(0));
    let mut short = [-1; 1];
    assert_eq!(decode_text(def, 2, 5, &mut short), Err(25));
    assert_eq!(short, [-1]);
    // 3 is judged before 25.
    assert_eq!(decode_text(b"abc\"", 0, 4, &mut []), Err(3));
}
