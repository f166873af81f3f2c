//! C-15: the plain Rust's XML reader held against the slow and literal one, over surveys that are written at random and over damaged
//! ones. Answers and tables have to be the same, number by number; a refusal keeps the table.

use zarfolin_compare::naive_xml;
use zarfolin_compare::rng::Rng;
use zarfolin_compare::sheets::{damaged, survey};

const ROOM: usize = 6 + 20 * 40 + 4 * 400;

/// Both readers' answers; whether they differ.
fn held(file: &[u8]) -> Result<[i64; 4], String> {
    let (mut a, mut b) = (vec![-7; ROOM], vec![-7; ROOM]);
    let p = zarfolin_plain::read_xml(file, &mut a);
    let plain = [i64::from(p.number), p.place as i64, p.variables as i64, p.lines as i64];
    let slow = naive_xml::read_xml(file, &mut b);
    if plain != slow {
        return Err(format!("plain {plain:?}, slow {slow:?}"));
    }
    if a != b {
        let k = (0..ROOM).find(|&k| a[k] != b[k]).unwrap();
        return Err(format!("both {plain:?}, tables differ at {k}: plain {}, slow {}", a[k], b[k]));
    }
    if plain[0] != 0 && a.iter().any(|&n| n != -7) {
        return Err(format!("a refusal {plain:?} wrote to the table"));
    }
    Ok(plain)
}

/// How many files of so many the two readers answer differently; the first are printed. Every number has to be met.
fn differences(seed: u64, count: usize) -> usize {
    let mut r = Rng::new(seed);
    let mut seen = std::collections::BTreeMap::new();
    let mut differ = 0;
    for k in 0..count {
        let good = survey(&mut r);
        let file = if k % 8 == 0 { good } else { damaged(&mut r, &good) };
        if zarfolin_plain::is_xml(&file) != naive_xml::is_xml(&file) {
            panic!("is_xml differs on {:?}", String::from_utf8_lossy(&file));
        }
        if !naive_xml::is_xml(&file) {
            continue;
        }
        match held(&file) {
            Ok(answer) => *seen.entry(answer[0]).or_insert(0) += 1,
            Err(what) => {
                differ += 1;
                if differ <= 20 {
                    let place = what
                        .split('[')
                        .nth(1)
                        .and_then(|s| s.split(", ").nth(1))
                        .and_then(|s| s.parse::<usize>().ok())
                        .unwrap_or(0);
                    let from = place.saturating_sub(90);
                    let to = (place + 60).min(file.len());
                    println!("{k}: {what}\n    {:?}", String::from_utf8_lossy(&file[from.min(to)..to]));
                }
            }
        }
    }
    println!("{seen:?}");
    for number in [0, 2, 4, 5, 6, 7, 8, 9, 50, 51, 52] {
        assert!(seen.get(&number).is_some_and(|&n: &usize| n > 0), "no file of {count} answers {number}");
    }
    differ
}

#[test]
fn xml_readers_agree() {
    assert_eq!(differences(15, 12_000), 0);
}

#[test]
#[ignore = "long: for a change of either reader"]
fn xml_readers_agree_at_length() {
    assert_eq!((0..20).map(|seed| differences(1_000 + seed, 60_000)).sum::<usize>(), 0);
}

/// Document 000's example: as printed 50 at the declaration's `>`, then 9 at the name that is printed 03; mended it is read.
#[test]
fn the_example_of_document_000() {
    let mended = include_str!("../../plain/tests/example_000.xml");
    let named = mended.replace("<name>Q3<", "<name>03<");
    let printed = named.replace("ISO-8859-1\"?>", "ISO-8859-1\">");
    assert_ne!(printed, named);
    assert_eq!(held(printed.as_bytes()), Ok([50, printed.find("\">").unwrap() as i64 + 1, 0, 0]));
    assert_eq!(held(named.as_bytes()), Ok([9, named.find("03<").unwrap() as i64, 0, 0]));
    assert_eq!(held(mended.as_bytes()), Ok([0, 0, 8, 20]));
    let mut table = vec![0; ROOM];
    naive_xml::read_xml(mended.as_bytes(), &mut table);
    assert_eq!((&table[..6], table[6 + 20 * 6 + 19]), (&[12, 8, 20, 54, 6, 166][..], 6));
}

/// Every text of a survey that was read, and stretches of any kind, say the same to both.
#[test]
fn decoded_texts_agree() {
    let mut r = Rng::new(17);
    let (mut texts, mut refused, mut breaks) = (0, 0, 0);
    for _ in 0..4_000 {
        let file = survey(&mut r);
        let mut table = vec![0; ROOM];
        let answer = naive_xml::read_xml(&file, &mut table);
        let mut stretches: Vec<(usize, usize)> = (0..6).map(|_| (r.below(file.len() + 2), r.below(60))).collect();
        if answer[0] == 0 {
            let (v, e) = (answer[2] as usize, answer[3] as usize);
            let rows = (0..v).flat_map(|k| [(6 + 20 * k + 14, 6 + 20 * k + 15), (6 + 20 * k + 16, 6 + 20 * k + 17)]);
            let lines = (0..e).map(|k| (6 + 20 * v + 4 * k + 2, 6 + 20 * v + 4 * k + 3));
            stretches.extend(rows.chain(lines).map(|(p, l)| (table[p] as usize, table[l] as usize)));
        }
        for (place, length) in stretches {
            let slow = naive_xml::decoded(&file, place, length);
            let mut list = vec![-1; 400];
            let plain = zarfolin_plain::decode_xml(&file, place as u64, length as u64, &mut list);
            let said = plain.map(|n| list[..n].to_vec());
            assert_eq!(said, slow.clone().ok_or(3), "{place}, {length} of {:?}", String::from_utf8_lossy(&file));
            texts += usize::from(slow.is_some());
            refused += usize::from(slow.is_none());
            breaks += usize::from(slow.is_some_and(|s| s.contains(&256)));
        }
    }
    assert!(texts > 2_000 && refused > 2_000 && breaks > 100, "{texts} texts, {refused} refused, {breaks} with breaks");
}

#[test]
fn the_short_table_is_refused_last() {
    let file = b"<sss version='1.2'><survey><record ident='A'><variable ident='1' type='logical'><name>a</name><label/><position start='1'/></variable></record></survey></sss>";
    for room in [0, 6, 25] {
        let (mut a, mut b) = (vec![5; room], vec![5; room]);
        let p = zarfolin_plain::read_xml(file, &mut a);
        assert_eq!((p.number, naive_xml::read_xml(file, &mut b)), (10, [10, 0, 0, 0]));
        assert_eq!((a, b), (vec![5; room], vec![5; room]));
    }
    let mut a = vec![5; 26];
    assert_eq!(naive_xml::read_xml(file, &mut a), [0, 0, 1, 0]);
    assert_eq!(zarfolin_plain::read_xml(file, &mut a).number, 0);
}
