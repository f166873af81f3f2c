//! Document 02's calls: the plain Rust against the naive Rust on generated inputs, every buffer between guards, with the laws that
//! the requests name. Each test fails if a number that it should meet was not met; faults planted in a copy must be found.

use std::collections::BTreeMap;
use std::fmt::Debug;
use zarfolin_compare::coming::{Coming, Correction, Naive, Plain};
use zarfolin_compare::definitions::{self, Size, Style};
use zarfolin_compare::naive_02::value_places;
use zarfolin_compare::records;
use zarfolin_compare::rng::Rng;
use zarfolin_compare::shape::{column, kind, line_at, row_at};
use zarfolin_compare::tables;

/// How often each number was met, or the first difference.
type Met = Result<BTreeMap<i64, u64>, String>;

/// Two sides, and how often each number was met.
struct Pair<'a> {
    a: &'a dyn Coming,
    b: &'a dyn Coming,
    met: BTreeMap<i64, u64>,
}

impl<'a> Pair<'a> {
    fn new(a: &'a dyn Coming, b: &'a dyn Coming) -> Pair<'a> {
        Pair { a, b, met: BTreeMap::new() }
    }

    fn note(&mut self, number: i64) {
        *self.met.entry(number).or_default() += 1;
    }

    /// Asks both; the answer, if it is the same.
    fn ask<T: PartialEq + Debug>(&self, what: String, call: impl Fn(&dyn Coming) -> T) -> Result<T, String> {
        let (x, y) = (call(self.a), call(self.b));
        if x == y {
            return Ok(x);
        }
        let cut = |text: String| text.chars().take(2_000).collect::<String>();
        let (x, y) = (cut(format!("{x:?}")), cut(format!("{y:?}")));
        Err(format!("{}\n  {}: {x}\n  {}: {y}", cut(what), self.a.name(), self.b.name()))
    }
}

fn hold(law: bool, what: impl Fn() -> String) -> Result<(), String> {
    if law { Ok(()) } else { Err(what()) }
}

/// A buffer of so many elements between guards of eight.
fn guarded<T: Copy>(inner: &[T], guard: T) -> Vec<T> {
    [&[guard; 8], inner, &[guard; 8]].concat()
}

fn within<T>(all: &mut [T]) -> &mut [T] {
    let length = all.len();
    &mut all[8..length - 8]
}

/// The generators' seeds, so many times as ZARFOLIN_CASES says.
fn seeds(count: u64) -> std::ops::Range<u64> {
    let times = std::env::var("ZARFOLIN_CASES").map_or(1, |times| times.parse().expect("ZARFOLIN_CASES is a number"));
    0..count * times
}

fn end(what: &str, met: Met, wanted: &[i64]) {
    let met = met.unwrap_or_else(|difference| panic!("{what}: {difference}"));
    println!("{what}: {} calls, numbers met {met:?}", met.values().sum::<u64>());
    for number in wanted {
        assert!(met.contains_key(number), "{what}: {number} was not met");
    }
}

fn table(r: &mut Rng, lines: usize) -> Vec<i64> {
    let size = match r.below(40) {
        0 => Size { variables: 30, lines: 8, text: 1 },
        _ => Size { variables: 4, lines, text: 1 },
    };
    let mut table = tables::sound_table(r, size);
    if !r.once_in(4) {
        tables::apart(r, &mut table);
    }
    if r.once_in(30) {
        tables::changed(r, &mut table);
    }
    table
}

// ---------------------------------------------------------------------------------------------------------- C-22

fn parts(a: &dyn Coming, b: &dyn Coming, count: u64) -> Met {
    let mut pair = Pair::new(a, b);
    for seed in seeds(count) {
        let mut r = Rng::new(seed ^ 0x2222);
        let table = table(&mut r, 4);
        let sound = zarfolin_plain::well_formed(&table);
        let data =
            if sound && r.once_in(2) { records::sound_file(&mut r, &table, 6) } else { records::file(&mut r, &table) };
        let at = data.iter().position(|&x| x == 13 || x == 10).unwrap_or(data.len());
        let own = match data.get(at..).unwrap_or(&[]) {
            [13, 10, ..] => 1,
            [10, 13, ..] => 2,
            [13, ..] => 3,
            _ => 4,
        };
        let terminator = if r.once_in(8) { r.pick(&[0, 1, 2, 3, 4, 5, 257, 1 << 32, u64::MAX]) } else { own };
        let first = if r.once_in(8) { r.pick(&[0, at as u64 + 1, (1 << 32) + at as u64, u64::MAX]) } else { at as u64 };
        let last = r.pick(&[0, 0, 1, 256, 1 << 32]);
        let mut part = data.clone();
        if r.once_in(3) {
            part.truncate(r.below(data.len() + 1));
        }
        let what = || {
            format!("seed {seed}: judge_part({table:?}, b\"{}\", {terminator}, {first}, {last})", part.escape_ascii())
        };
        let answer = pair.ask(what(), |side| side.judge_part(&table, &part, terminator, first, last))?;
        pair.note(answer[0]);
        // A file cut anywhere into parts, each beginning where the one before left off, gives the file's own answer.
        let judged = zarfolin_plain::judge_file(&table, &data).numbers();
        let length = at + if own < 3 { 2 } else { 1 };
        let (mut start, mut stop, mut before) = (0, 0, 0);
        let whole = loop {
            stop = (stop + 1 + r.below(data.len() / 2 + 2)).min(data.len());
            let last = (stop == data.len()) as u64;
            let mut answer = pair.a.judge_part(&table, &data[start..stop], own, at as u64, last);
            if answer[0] == 20 {
                break answer;
            }
            answer[1] += before;
            if answer[0] != 0 || last == 1 {
                break answer;
            }
            start += (answer[1] - before) as usize * length;
            before = answer[1];
        };
        hold(whole == judged, || format!("{}: in parts {whole:?}, whole {judged:?}", what()))?;
    }
    Ok(pair.met)
}

// ---------------------------------------------------------------------------------------------------------- C-14

fn corrections(a: &dyn Coming, b: &dyn Coming, count: u64) -> Met {
    let mut pair = Pair::new(a, b);
    for seed in seeds(count) {
        let mut r = Rng::new(seed ^ 0x1414);
        let table = table(&mut r, 5);
        let record = records::record(&mut r, &table);
        let mut list = vec![];
        for _ in 0..r.below(8) {
            let row = records::row(&mut r, &table);
            let kind =
                if r.once_in(12) { r.pick(&[2, 3, 5, 256, 1 << 32, u64::MAX]) } else { r.pick(&[0, 1, 1, 1, 4, 4]) };
            let number = match kind {
                1 => records::written_number(&mut r, &table, row),
                4 if !r.once_in(5) => r.range(0, 1),
                _ => r.pick(&[0, 1, 2, -1, 256, 257, 1 << 32, i64::MIN, i64::MAX]),
            };
            list.push(Correction { row, kind, number, mark: r.pick(&[0, 7, 21, 26, u64::MAX]) });
        }
        let guard = Correction { row: 1, kind: 2, number: 3, mark: 4 };
        let what = format!("seed {seed}: correct({table:?}, {list:?}, b\"{}\")", record.escape_ascii());
        let (number, done, written) = pair.ask(what.clone(), |side| {
            let (mut list, mut bytes) = (guarded(&list, guard), guarded(&record, 0x7e));
            let number = side.correct(&table, within(&mut list), within(&mut bytes));
            (number, list, bytes)
        })?;
        pair.note(number as i64);
        let (done, written) = (&done[8..8 + list.len()], &written[8..8 + record.len()]);
        if number != 0 {
            hold(done == list && written == record, || format!("{what}: a refusal changed something"))?;
            continue;
        }
        for (c, done) in list.iter().zip(done) {
            // Marks are noted from 1000 on.
            pair.note(1000 + done.mark as i64);
            hold(*done == Correction { mark: done.mark, ..*c }, || format!("{what}: more than marks changed"))?;
        }
    }
    Ok(pair.met)
}

// ---------------------------------------------------------------------------------------------------------- C-21

/// All rows of a record: the numbers, the members, the texts.
fn readings(table: &[i64], record: &[u8]) -> Vec<(Vec<i64>, Vec<u8>)> {
    (0..table[1] as u64)
        .map(|row| {
            let mut list = vec![0; 10_000];
            match zarfolin_plain::read_value(table, row, record, &mut list).expect("a sound record") {
                zarfolin_plain::Value::Missing => (vec![], vec![]),
                zarfolin_plain::Value::Number(n) => (vec![1, n], vec![]),
                zarfolin_plain::Value::Set(count) => ([&[2], &list[..count]].concat(), vec![]),
                zarfolin_plain::Value::Text(at, length) => (vec![3], record[at..at + length].to_vec()),
                zarfolin_plain::Value::Truth(truth) => (vec![4, truth as i64], vec![]),
            }
        })
        .collect()
}

fn normals(a: &dyn Coming, b: &dyn Coming, count: u64) -> Met {
    let mut pair = Pair::new(a, b);
    for seed in seeds(count) {
        let mut r = Rng::new(seed ^ 0x2121);
        let table = table(&mut r, 6);
        let sound = zarfolin_plain::well_formed(&table);
        let record = if sound && !r.once_in(4) {
            records::sound_record(&mut r, &table)
        } else {
            records::record(&mut r, &table)
        };
        let what = |record: &[u8]| format!("seed {seed}: normal({table:?}, b\"{}\")", record.escape_ascii());
        let ask = |pair: &Pair, record: &[u8]| {
            pair.ask(what(record), |side| {
                let mut bytes = guarded(record, 0x7e);
                let answer = side.normal(&table, within(&mut bytes));
                (answer, bytes)
            })
        };
        let (answer, bytes) = ask(&pair, &record)?;
        pair.note(answer[0]);
        let written = &bytes[8..8 + record.len()];
        if answer[0] != 0 {
            hold(written == record, || format!("{}: a refusal changed the record", what(&record)))?;
            continue;
        }
        // Positions that overlap though no value place is shared are noted as 1000.
        let spans: Vec<_> = (0..table[1] as usize).map(|i| (table[row_at(i) + 2], table[row_at(i) + 3])).collect();
        if (0..spans.len()).any(|i| (0..i).any(|j| spans[i].0 <= spans[j].1 && spans[j].0 <= spans[i].1)) {
            pair.note(1000);
        }
        hold(readings(&table, written) == readings(&table, &record), || format!("{}: reads otherwise", what(&record)))?;
        let (answer, again) = ask(&pair, written)?;
        hold(answer[0] == 0 && again == bytes, || format!("{}: a second pass", what(&record)))?;
        // Another record of this length that agrees outside the value places.
        let mut other = record.clone();
        let places = value_places(&table);
        if r.once_in(2) {
            for row in 0..table[1] as usize {
                if r.once_in(3) {
                    records::field(&mut r, &table, row, &mut other);
                }
            }
        } else {
            // Zeros for spaces, or the other way round.
            for &place in places.iter().filter(|_| r.once_in(2)) {
                other[place] = if other[place] == b' ' { b'0' } else { other[place] };
            }
        }
        for (i, x) in other.iter_mut().enumerate().filter(|(i, _)| !places.contains(i)) {
            *x = record[i];
        }
        let (answer, others) = ask(&pair, &other)?;
        if answer[0] == 0 {
            let equal = readings(&table, &other) == readings(&table, &record);
            // Records that read equal are noted as 2001, others as 2000; those that differ in bytes and read equal as 2002.
            pair.note(2000 + equal as i64);
            if equal && other != record {
                pair.note(2002);
            }
            hold(equal == (others == bytes), || format!("{} and b\"{}\"", what(&record), other.escape_ascii()))?;
        }
    }
    Ok(pair.met)
}

// ---------------------------------------------------------------------------------------------------------- C-19

fn mends(a: &dyn Coming, b: &dyn Coming, count: u64) -> Met {
    let mut pair = Pair::new(a, b);
    for seed in seeds(count) {
        let mut r = Rng::new(seed ^ 0x1919);
        let table = table(&mut r, 3);
        let sound = zarfolin_plain::well_formed(&table);
        let data = match r.below(6) {
            0 if sound => records::sound_file(&mut r, &table, 4),
            1 => records::file(&mut r, &table),
            2 => records::loose_data(&mut r),
            _ => records::damaged_file(&mut r, &table),
        };
        let what = |data: &[u8]| format!("seed {seed}: mend({table:?}, b\"{}\")", data.escape_ascii());
        let ask = |pair: &Pair, data: &[u8], out: usize, list: usize| {
            pair.ask(format!("{} in {out}, {list}", what(data)), |side| {
                let (mut bytes, mut numbers) = (guarded(&vec![0x55; out], 0x7e), guarded(&vec![-5; list], -6));
                let answer = side.mend(&table, data, within(&mut bytes), within(&mut numbers));
                (answer, bytes, numbers)
            })
        };
        let (answer, bytes, list) = ask(&pair, &data, 100_000, 3_000)?;
        pair.note(answer[0]);
        if answer[0] != 0 {
            continue;
        }
        let (length, entries) = (answer[1] as usize, answer[2] as usize);
        let mended = &bytes[8..8 + length];
        for entry in list[8..8 + 3 * entries].chunks(3) {
            pair.note(1000 + entry[0]);
        }
        // Sound exactly when output is input exactly when the list is empty. Judged with a text of one byte and the same L, a file is
        // refused for nothing but 30, 31, 22 and 23.
        let loose = tables::one_row(&[
            (column::IDENT, 1),
            (column::TYPE, kind::CHARACTER),
            (column::START, 1),
            (column::FINISH, table[3]),
            (column::WIDTH, 1),
        ]);
        let faulty = zarfolin_plain::judge_file(&loose, &data).number != 0;
        hold(faulty == (entries != 0) && faulty == (mended != data), || format!("{}: sound or not", what(&data)))?;
        let number = zarfolin_plain::judge_file(&loose, mended).number;
        hold(number == 0, || format!("{}: mended gives {number}", what(&data)))?;
        let again = ask(&pair, mended, length, 0)?;
        hold(again.0 == [0, length as i64, 0, 0] && again.1[8..8 + length] == *mended, || {
            format!("{}: mended twice", what(&data))
        })?;
        // An exact fit, and one too few of either.
        let exact = ask(&pair, &data, length, 3 * entries)?;
        hold(exact.0 == answer && exact.1[8..8 + length] == *mended, || format!("{}: an exact fit", what(&data)))?;
        for (out, room) in [(length.wrapping_sub(1), 3 * entries), (length, (3 * entries).wrapping_sub(1))] {
            if out.max(room) < 1 << 30 {
                let (short, bytes, numbers) = ask(&pair, &data, out, room)?;
                pair.note(short[0]);
                let kept =
                    bytes[8..8 + out].iter().all(|&x| x == 0x55) && numbers[8..8 + room].iter().all(|&x| x == -5);
                hold(short == [70, 0, 0, 0] && kept, || format!("{}: {short:?} in {out}, {room}", what(&data)))?;
            }
        }
    }
    Ok(pair.met)
}

// ---------------------------------------------------------------------------------------------------------- C-20

fn matrices(a: &dyn Coming, b: &dyn Coming, count: u64) -> Met {
    let mut pair = Pair::new(a, b);
    for seed in seeds(count) {
        let mut r = Rng::new(seed ^ 0x2020);
        let mut table = table(&mut r, 5);
        let mut data = if zarfolin_plain::well_formed(&table) && !r.once_in(4) {
            records::sound_file(&mut r, &table, 5)
        } else {
            records::file(&mut r, &table)
        };
        if seed % 200 == 7 {
            // A spread over all categories: 183 records fit, 184 don't.
            table = tables::one_row(&[
                (column::IDENT, 1),
                (column::TYPE, kind::MULTIPLE),
                (column::START, 1),
                (column::FINISH, 4),
                (column::WIDTH, 4),
                (column::SUBFIELDS, 1),
                (column::SUBFIELD_WIDTH, 4),
                (column::RANGE, 1),
                (column::FROM, 1),
                (column::TO, 9_999),
            ]);
            data = b"   7\n".repeat(if seed % 400 == 7 { 183 } else { 184 });
        }
        let what = format!("seed {seed}: matrix({table:?}, b\"{}\")", data.escape_ascii());
        let ask = |pair: &Pair, room: usize| {
            pair.ask(format!("{what} in {room}"), |side| {
                let mut bytes = guarded(&vec![0x55; room], 0x7e);
                let answer = side.matrix(&table, &data, within(&mut bytes));
                (answer, bytes)
            })
        };
        let (short, bytes) = ask(&pair, r.below(40))?;
        pair.note(short[0]);
        if short[0] != 0 {
            hold(bytes[8..bytes.len() - 8].iter().all(|&x| x == 0x55), || format!("{what}: {short:?} wrote"))?;
        }
        if short[0] != 82 {
            continue;
        }
        // Room for it, and some more.
        let mut enough = 1_000;
        while pair.a.matrix(&table, &data, &mut vec![0; enough])[0] == 82 {
            enough *= 4;
        }
        let (answer, bytes) = ask(&pair, enough)?;
        let total = answer[1] as usize;
        pair.note(answer[0]);
        hold(bytes[8 + total..bytes.len() - 8].iter().all(|&x| x == 0x55), || format!("{what}: beyond {total}"))?;
        let exact = ask(&pair, total)?;
        hold(exact.0 == answer && exact.1[8..8 + total] == bytes[8..8 + total], || format!("{what}: an exact fit"))?;
        let less = ask(&pair, total - 1)?;
        hold(less.0 == [82, 0, 0, 0], || format!("{what}: {:?} one short of {total}", less.0))?;
    }
    Ok(pair.met)
}

// --------------------------------------------------------------------------------------------------- C-16 and C-23

/// A definition and its table; mostly one in which no two rows share a value place, which takes a few tries.
fn survey(r: &mut Rng) -> (Vec<u8>, Vec<i64>) {
    let mut tries = if r.once_in(4) { 1 } else { 60 };
    loop {
        let variables = 1 + r.below(3);
        let m = definitions::model(r, Size { variables, lines: 4, text: 4 });
        let style = Style::any(r);
        let (def, table) = definitions::sound(r, style, &m);
        tries -= 1;
        if tries == 0 || (table[3] < 200 && zarfolin_plain::normal(&table, &mut [])[0] != 90) {
            return (def, table);
        }
    }
}

/// A table or a definition that don't go together, now and then.
fn parted(r: &mut Rng, def: &mut Vec<u8>, table: &mut Vec<i64>) {
    match r.below(40) {
        0 => tables::changed(r, table),
        1 => definitions::damage_bytes(r, def),
        2 => *def = survey(r).0,
        3 => {
            // A text place that the definition doesn't yield leaves a table well formed.
            table[row_at(0) + 14] += 1;
        }
        4 => table.push(7),
        _ => {}
    }
}

fn exports(a: &dyn Coming, b: &dyn Coming, count: u64) -> Met {
    let mut pair = Pair::new(a, b);
    for seed in seeds(count) {
        let mut r = Rng::new(seed ^ 0x1616);
        let (mut def, mut table) = survey(&mut r);
        let mut data = records::sound_file(&mut r, &table, 4);
        if r.once_in(4) {
            data = records::file(&mut r, &table);
        } else if r.once_in(3) && !data.is_empty() {
            let at = r.below(data.len());
            data[at] = r.pick(b"\r\n\t x,\"09");
        }
        parted(&mut r, &mut def, &mut table);
        let what = format!("seed {seed}: export(b\"{}\", {table:?}, b\"{}\")", def.escape_ascii(), data.escape_ascii());
        let ask = |pair: &Pair, room: usize| {
            pair.ask(format!("{what} in {room}"), |side| {
                let mut bytes = guarded(&vec![0x55; room], 0x7e);
                let answer = side.export(&def, &table, &data, within(&mut bytes));
                (answer, bytes)
            })
        };
        let (answer, bytes) = ask(&pair, 60_000)?;
        pair.note(answer[0]);
        let length = answer[4] as usize;
        hold(bytes[8 + length..60_008].iter().all(|&x| x == 0x55), || format!("{what}: beyond {length}"))?;
        if matches!(answer[0], 20 | 40 | 60) {
            hold(answer[1..] == [0; 4], || format!("{what}: {answer:?}"))?;
            continue;
        }
        // The fault is judge_file's own, with the lines before it.
        let judged = zarfolin_plain::judge_file(&table, &data).numbers();
        hold(judged == answer[..4], || format!("{what}: judged {judged:?}"))?;
        let exact = ask(&pair, length)?;
        hold(exact.0 == answer && exact.1[8..8 + length] == bytes[8..8 + length], || format!("{what}: an exact fit"))?;
        let (short, kept) = ask(&pair, length - 1)?;
        pair.note(short[0]);
        hold(short == [60, 0, 0, 0, 0] && kept[8..7 + length].iter().all(|&x| x == 0x55), || {
            format!("{what}: {short:?} one short of {length}")
        })?;
        // Importing the export of a sound file gives records whose rows read as the originals.
        if answer[0] == 0 && zarfolin_plain::normal(&table, &mut [])[0] != 90 {
            pair.note(1000);
            let least = table[3] as usize;
            let mut out = vec![0; answer[1] as usize * (least + 2)];
            let back = pair.a.import(&def, &table, &bytes[8..8 + length], &mut out);
            hold(back == [0, answer[1], out.len() as i64, 0], || format!("{what}: its import gives {back:?}"))?;
            let step = data.len() / (answer[1] as usize).max(1);
            for (record, original) in out.chunks(least + 2).zip(data.chunks(step.max(1))) {
                let same = readings(&table, record) == readings(&table, original);
                hold(same, || format!("{what}: imported b\"{}\"", record.escape_ascii()))?;
            }
            let mut again = vec![0; length];
            pair.a.export(&def, &table, &out, &mut again);
            hold(again == bytes[8..8 + length], || format!("{what}: exported again"))?;
        }
    }
    Ok(pair.met)
}

/// Text that is nearly an export: as it is, with needless quotes, with zeros cut, with bytes or fields changed.
fn changed_text(r: &mut Rng, text: &mut Vec<u8>) {
    for _ in 0..r.below(3) {
        if text.is_empty() {
            return;
        }
        let at = r.below(text.len());
        match r.below(9) {
            0 => drop(text.remove(at)),
            1 => text.insert(at, r.pick(b",;\"\r\n0 -.5x\t")),
            2 => text[at] = r.pick(b",;\"\r\n01 -.59x\t\xff"),
            3 => text.truncate(at),
            4 => text.extend(b"\r\n"),
            // A field quoted without need, zeros cut or added, and other forms of a number.
            5 | 6 => {
                let plain = |x: &u8| b"0123456789.;-".contains(x);
                let start = text[..at].iter().rposition(|x| !plain(x)).map_or(0, |i| i + 1);
                let end = at + text[at..].iter().position(|x| !plain(x)).unwrap_or(text.len() - at);
                let field = String::from_utf8_lossy(&text[start..end.max(start)]).into_owned();
                let field = match r.below(8) {
                    0 | 1 => format!("\"{field}\""),
                    2 | 3 => field.strip_suffix('0').unwrap_or(&field).to_string(),
                    4 => field.trim_end_matches('0').trim_end_matches('.').to_string(),
                    5 => format!("0{field}"),
                    6 => format!("{field}0"),
                    _ => format!("-{field}"),
                };
                text.splice(start..end.max(start), field.into_bytes());
            }
            7 => {
                let at = text[at..].windows(2).position(|w| w == b"\r\n").map_or(at, |i| at + i);
                text.insert(at, b',');
            }
            _ => {
                if let Some(i) = text[at..].iter().position(|&x| x == b'0') {
                    text.remove(at + i);
                }
            }
        }
    }
}

fn imports(a: &dyn Coming, b: &dyn Coming, count: u64) -> Met {
    let mut pair = Pair::new(a, b);
    for seed in seeds(count) {
        let mut r = Rng::new(seed ^ 0x2323);
        let (mut def, mut table) = survey(&mut r);
        let data = records::sound_file(&mut r, &table, 3);
        let mut text = vec![0; 60_000];
        let answer = zarfolin_plain::export(&def, &table, &data, &mut text);
        text.truncate(answer[4] as usize);
        changed_text(&mut r, &mut text);
        parted(&mut r, &mut def, &mut table);
        let what = format!("seed {seed}: import(b\"{}\", {table:?}, b\"{}\")", def.escape_ascii(), text.escape_ascii());
        let ask = |pair: &Pair, room: usize| {
            pair.ask(format!("{what} in {room}"), |side| {
                let mut bytes = guarded(&vec![0x55; room], 0x7e);
                let answer = side.import(&def, &table, &text, within(&mut bytes));
                (answer, bytes)
            })
        };
        let (answer, bytes) = ask(&pair, 60_000)?;
        pair.note(answer[0]);
        let length = if answer[0] == 0 { answer[2] as usize } else { 0 };
        hold(bytes[8 + length..60_008].iter().all(|&x| x == 0x55), || format!("{what}: beyond {length}"))?;
        if answer[0] != 0 || length == 0 {
            continue;
        }
        let exact = ask(&pair, length)?;
        hold(exact.0 == answer && exact.1[8..8 + length] == bytes[8..8 + length], || format!("{what}: an exact fit"))?;
        let (short, kept) = ask(&pair, length - 1)?;
        pair.note(short[0]);
        hold(short == [60, 0, 0, 0] && kept[8..7 + length].iter().all(|&x| x == 0x55), || {
            format!("{what}: {short:?} one short of {length}")
        })?;
        // What is accepted otherwise than byte for byte is noted as 1000.
        let mut again = vec![0; 60_000];
        let exported = pair.a.export(&def, &table, &bytes[8..8 + length], &mut again);
        hold(exported[..2] == [0, answer[1]], || format!("{what}: built a file that gives {exported:?}"))?;
        if again[..exported[4] as usize] != text {
            pair.note(1000);
        }
    }
    Ok(pair.met)
}

// ---------------------------------------------------------------------------------------------------------- C-11

fn cleans(a: &dyn Coming, b: &dyn Coming, count: u64) -> Met {
    let mut pair = Pair::new(a, b);
    for seed in seeds(count) {
        let mut r = Rng::new(seed ^ 0x1111);
        let m = definitions::model(&mut r, definitions::SMALL);
        let style = Style::any(&mut r);
        let (mut def, mut table) = definitions::sound(&mut r, style, &m);
        if r.once_in(6) {
            // Widths not stated, figures with zeros, faults.
            let mut tokens = m.tokens.clone();
            definitions::damage_figures(&mut r, &mut tokens);
            def = definitions::render(&mut r, style, &tokens).0;
            table.resize(table.len() + 100, 0);
            zarfolin_plain::read_definition(&def, &mut table);
        }
        parted(&mut r, &mut def, &mut table);
        if seed % 1_000 == 5 {
            // A clean text beyond the limit: each line of it grows.
            let lines: String = (0..4_096).map(|i| format!("{i}\"{}\"", "x".repeat(249))).collect();
            def = format!(
                "SSSVERSION1.1SURVEYRECORDRVARIABLE1NAME\"\"LABEL\"\"TYPEQUANTITYPOSITION1TO9VALUES{lines}ENDVALUES\
                 ENDVARIABLEENDRECORDENDSURVEYENDSSS"
            )
            .into_bytes();
            table.resize(30_000, 0);
            zarfolin_plain::read_definition(&def, &mut table);
        }
        let what = format!("seed {seed}: write_definition(b\"{}\", {table:?})", def.escape_ascii());
        let ask = |pair: &Pair, def: &[u8], table: &[i64], room: usize| {
            pair.ask(format!("{what} in {room}"), |side| {
                let mut bytes = guarded(&vec![0x55; room], 0x7e);
                let answer = side.write_definition(def, table, within(&mut bytes));
                (answer, bytes)
            })
        };
        let (answer, bytes) = ask(&pair, &def, &table, 20_000)?;
        pair.note(answer[0]);
        let length = answer[2] as usize;
        hold(bytes[8 + length..20_008].iter().all(|&x| x == 0x55), || format!("{what}: beyond {length}"))?;
        if answer[0] != 0 {
            continue;
        }
        let clean = &bytes[8..8 + length];
        let exact = ask(&pair, &def, &table, length)?;
        hold(exact.0 == answer && exact.1[8..8 + length] == *clean, || format!("{what}: an exact fit"))?;
        let (short, kept) = ask(&pair, &def, &table, length - 1)?;
        pair.note(short[0]);
        hold(short == [42, 0, 0, 0] && kept[8..7 + length].iter().all(|&x| x == 0x55), || {
            format!("{what}: {short:?}")
        })?;
        // Reading it gives the same table apart from text places and lengths; cleaning it again gives it again.
        let mut own = vec![0; 30_000];
        let read = zarfolin_plain::read_definition(clean, &mut own);
        let used = length_of(&own);
        let apart = |table: &[i64]| {
            let mut table = table[..used].to_vec();
            let rows = table[1] as usize;
            (0..rows).for_each(|i| table[row_at(i) + column::NAME..=row_at(i) + column::LABEL_LENGTH].fill(0));
            (0..table[2] as usize).for_each(|i| table[line_at(rows, i) + 2..line_at(rows, i) + 4].fill(0));
            table
        };
        hold(read.number == 0 && apart(&own) == apart(&table), || format!("{what}: reads otherwise"))?;
        let (again, bytes) = ask(&pair, clean, &own, length)?;
        hold(again == answer && bytes[8..8 + length] == *clean, || format!("{what}: cleaned again"))?;
    }
    Ok(pair.met)
}

fn length_of(table: &[i64]) -> usize {
    line_at(table[1] as usize, table[2] as usize)
}

#[test]
fn clean_definitions() {
    end("clean", cleans(&Plain, &Naive, 2_500), &[0, 2, 3, 5, 6, 7, 8, 40, 41, 42]);
}

/// A fault planted in the plain Rust.
struct Wrong(u32);

impl Coming for Wrong {
    fn name(&self) -> &'static str {
        "planted"
    }
    fn judge_part(&self, table: &[i64], data: &[u8], terminator: u64, first: u64, last: u64) -> [i64; 4] {
        match self.0 {
            // Another terminator before the table; numbers cut to 8 and 32 bits; a record left alone counted.
            0 if !(1..=4).contains(&terminator) => [29, 0, 0, 0],
            1 => Plain.judge_part(table, data, terminator, first, last as u8 as u64),
            2 => Plain.judge_part(table, data, terminator & 0xff, first, last),
            3 => Plain.judge_part(table, data, terminator, first as u32 as u64, last),
            _ => Plain.judge_part(table, data, terminator, first, last),
        }
    }
    fn correct(&self, table: &[i64], corrections: &mut [Correction], record: &mut [u8]) -> u64 {
        let number = Plain.correct(table, corrections, record);
        match self.0 {
            // It stops at a refusal; 26 before 21; a mark where the whole call is turned away.
            4 if number == 0 => {
                if let Some(i) = corrections.iter().position(|c| c.mark != 0) {
                    corrections[i + 1..].iter_mut().for_each(|c| c.mark = 0);
                }
            }
            5 if number == 0 => {
                corrections.iter_mut().filter(|c| ![0, 1, 4].contains(&c.kind)).for_each(|c| c.mark = 26);
            }
            6 if number == 22 => corrections.iter_mut().for_each(|c| c.mark = 22),
            _ => {}
        }
        number
    }
    fn normal(&self, table: &[i64], record: &mut [u8]) -> [i64; 4] {
        match self.0 {
            // 22 before 90; positions in place of value places.
            7 if zarfolin_plain::well_formed(table) && record.len() < table[3] as usize => [22, 0, 0, 0],
            8 if zarfolin_plain::well_formed(table) => {
                let span = |i: usize| (table[row_at(i) + 2], table[row_at(i) + 3]);
                let meet = |a: (i64, i64), b: (i64, i64)| a.0 <= b.1 && b.0 <= a.1;
                let rows = table[1] as usize;
                if (0..rows).any(|i| (0..i).any(|j| meet(span(i), span(j)))) {
                    return [90, 0, 0, 0];
                }
                Plain.normal(table, record)
            }
            // What was judged sound is left as it is.
            9 => {
                let mut copy = record.to_vec();
                Plain.normal(table, &mut copy)
            }
            _ => Plain.normal(table, record),
        }
    }
    fn mend(&self, table: &[i64], data: &[u8], out: &mut [u8], list: &mut [i64]) -> [i64; 4] {
        let room = list.len();
        match self.0 {
            // Room counted in entries; 3 after 4; nothing told of an unended record.
            10 => Plain.mend(table, data, out, &mut vec![0; 3 * room]),
            11 => {
                let answer = Plain.mend(table, data, out, list);
                let entries = list.as_chunks_mut::<3>().0;
                for i in 1..answer[2] as usize {
                    if entries[i - 1][0] == 3 && entries[i][0] == 4 {
                        entries.swap(i - 1, i);
                    }
                }
                answer
            }
            12 => {
                let mut answer = Plain.mend(table, data, out, list);
                if answer[2] > 0 && list[3 * answer[2] as usize - 1] == data.len() as i64 {
                    answer[2] -= 1;
                }
                answer
            }
            _ => Plain.mend(table, data, out, list),
        }
    }
    fn write_definition(&self, def: &[u8], table: &[i64], out: &mut [u8]) -> [i64; 4] {
        let answer = Plain.write_definition(def, table, out);
        match self.0 {
            // 42 before 41; 20 in place of 40; the last CR LF missing.
            20 if answer[0] == 41 => [42, 0, 0, 0],
            21 if answer[0] == 40 && !zarfolin_plain::well_formed(table) => [20, 0, 0, 0],
            22 if answer[0] == 0 => [0, 0, answer[2] - 2, 0],
            _ => answer,
        }
    }
    fn export(&self, def: &[u8], table: &[i64], data: &[u8], out: &mut [u8]) -> [i64; 5] {
        let mut answer = Plain.export(def, table, data, out);
        match self.0 {
            // 40 before 20; the length not told where the data is faulty.
            16 if answer[0] == 20 => answer[0] = 40,
            17 if answer[0] > 20 && answer[4] > 0 => answer[4] = 0,
            _ => {}
        }
        answer
    }
    fn import(&self, def: &[u8], table: &[i64], text: &[u8], out: &mut [u8]) -> [i64; 4] {
        match self.0 {
            // The last line without its CR LF; a bare LF as a line end.
            18 if !text.ends_with(b"\r\n") => Plain.import(def, table, &[text, b"\r\n"].concat(), out),
            19 => {
                let mut mended: Vec<u8> = vec![];
                for &x in text {
                    if x == b'\n' && mended.last() != Some(&b'\r') {
                        mended.push(b'\r');
                    }
                    mended.push(x);
                }
                Plain.import(def, table, &mended, out)
            }
            _ => Plain.import(def, table, text, out),
        }
    }
    fn matrix(&self, table: &[i64], data: &[u8], out: &mut [u8]) -> [i64; 4] {
        let answer = Plain.matrix(table, data, out);
        match self.0 {
            // 82 before 81; the byte behind the total; the least value starts at 0.
            13 if answer[0] == 81 => return [82, 0, 0, 0],
            14 if answer[0] == 0 => {
                if let Some(x) = out.get_mut(answer[1] as usize) {
                    *x = 0;
                }
            }
            15 if answer[0] == 0 => {
                for summary in out[24..24 + 24 * answer[3] as usize].chunks_mut(24) {
                    let least = f64::from_le_bytes(summary[8..16].try_into().unwrap());
                    summary[8..16].copy_from_slice(&least.min(0.0).to_le_bytes());
                }
            }
            _ => {}
        }
        answer
    }
}

#[test]
fn planted_faults_are_found() {
    for fault in 0..23 {
        let wrong = Wrong(fault);
        let met = match fault {
            0..4 => parts(&wrong, &Naive, 4_000),
            4..7 => corrections(&wrong, &Naive, 2_000),
            7..10 => normals(&wrong, &Naive, 4_000),
            10..13 => mends(&wrong, &Naive, 500),
            13..16 => matrices(&wrong, &Naive, 300),
            16..18 => exports(&wrong, &Naive, 1_000),
            18..20 => imports(&wrong, &Naive, 1_000),
            _ => cleans(&wrong, &Naive, 1_000),
        };
        assert!(met.is_err(), "planted fault {fault} was not found");
    }
}

#[test]
fn parts_of_files() {
    end("parts", parts(&Plain, &Naive, 8_000), &[0, 20, 22, 23, 241, 242, 243, 29, 30, 31]);
}

#[test]
fn lists_of_corrections() {
    end("corrections", corrections(&Plain, &Naive, 10_000), &[0, 20, 22, 1000, 1021, 1026, 1027]);
}

#[test]
fn normal_forms() {
    end("normal", normals(&Plain, &Naive, 4_000), &[0, 20, 22, 23, 241, 242, 243, 90, 1000, 2000, 2001, 2002]);
}

#[test]
fn mended_files() {
    end("mend", mends(&Plain, &Naive, 3_000), &[0, 20, 70, 1001, 1002, 1003, 1004]);
}

#[test]
fn matrices_of_files() {
    end("matrix", matrices(&Plain, &Naive, 600), &[0, 20, 22, 23, 241, 242, 243, 30, 31, 80, 81, 82]);
}

#[test]
fn exports_of_files() {
    end("export", exports(&Plain, &Naive, 2_000), &[0, 20, 22, 23, 241, 242, 243, 30, 31, 40, 60, 1000]);
}

#[test]
fn imports_of_texts() {
    end("import", imports(&Plain, &Naive, 4_000), &[0, 20, 40, 60, 61, 62, 63, 64, 90, 1000]);
}
