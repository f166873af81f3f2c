//! One call with its inputs, what two implementations leave behind, and how a case that differs is cut down.

use crate::face::{Correction, Face};
use crate::shape::{HEADER, ROW};
use std::time::{Duration, Instant};

/// The calls, in the order in which the bridge numbers them.
#[derive(Clone, Copy, Debug, PartialEq, Eq)]
pub enum Call {
    ReadDefinition = 0,
    ReadValue,
    JudgeRecord,
    WriteMissing,
    WriteNumber,
    WriteTruth,
    WriteSet,
    WriteText,
    JudgeFile,
    NextRecord,
    ReadRecord,
    /// The place stands in `row`, the length in `number`.
    DecodeText,
    /// The terminator stands in `row`, the first record's length in `number`.
    JudgePart,
    /// The list has four numbers a correction: row, kind, number, mark.
    Correct,
    Normal,
    /// The output stands in `text`.
    Mend,
    /// Here too.
    Matrix,
    /// Here too. The definition stands before the data, its length in `row`; the fifth number goes to the list.
    Export,
    /// The clean text goes to `text`.
    WriteDefinition,
    /// The definition stands before the text, its length in `row`; the records go to `text`.
    Import,
}

/// A call and its inputs; those that the call doesn't take are empty or 0.
#[derive(Clone, Debug)]
pub struct Case {
    pub call: Call,
    pub table: Vec<i64>,
    pub row: u64,
    pub number: i64,
    /// Whether a part is a file's last.
    pub last: u64,
    pub list: Vec<i64>,
    /// Definition, record or data.
    pub bytes: Vec<u8>,
    /// A text that is written, or the room for mended data, a matrix, an export, a clean definition or imported records.
    pub text: Vec<u8>,
    /// A record's numbers.
    pub out: Vec<i64>,
}

impl Case {
    pub fn new(call: Call) -> Case {
        Case { call, table: vec![], row: 0, number: 0, last: 0, list: vec![], bytes: vec![], text: vec![], out: vec![] }
    }
}

/// All that a call leaves: its number, its answer and every buffer, with the guards around them.
#[derive(Clone, Debug, PartialEq, Eq)]
pub struct Outcome {
    pub number: u64,
    pub answer: [i64; 4],
    pub table: Vec<i64>,
    pub list: Vec<i64>,
    pub bytes: Vec<u8>,
    pub text: Vec<u8>,
    pub out: Vec<i64>,
}

const GUARD: usize = 8;

struct Guarded<T> {
    all: Vec<T>,
    length: usize,
}

impl<T: Copy> Guarded<T> {
    fn new(inner: &[T], guard: T) -> Guarded<T> {
        let mut all = Vec::with_capacity(inner.len() + 2 * GUARD);
        all.resize(GUARD, guard);
        all.extend_from_slice(inner);
        all.resize(GUARD + inner.len() + GUARD, guard);
        Guarded { all, length: inner.len() }
    }

    fn inner(&mut self) -> &mut [T] {
        &mut self.all[GUARD..GUARD + self.length]
    }
}

/// The corrections of a list of numbers, four each; what is left over is none.
pub fn corrections_of(list: &[i64]) -> Vec<Correction> {
    let one = |c: &[i64; 4]| Correction { row: c[0] as u64, kind: c[1] as u64, number: c[2], mark: c[3] as u64 };
    list.as_chunks::<4>().0.iter().map(one).collect()
}

/// And back.
pub fn numbers_of(corrections: &[Correction]) -> Vec<i64> {
    corrections.iter().flat_map(|c| [c.row as i64, c.kind as i64, c.number, c.mark as i64]).collect()
}

/// Stands around a list of corrections.
const AROUND: Correction = Correction { row: 1, kind: 4, number: 1, mark: 0x7777 };

/// Lends the numbers as corrections, between guards.
fn corrected(face: &dyn Face, table: &[i64], list: &mut [i64], record: &mut [u8]) -> u64 {
    let mut lent = Guarded::new(&corrections_of(list), AROUND);
    let number = face.correct(table, lent.inner(), record);
    let done = numbers_of(lent.inner());
    list[..done.len()].copy_from_slice(&done);
    let end = lent.all.len() - GUARD;
    assert!(lent.all[..GUARD].iter().chain(&lent.all[end..]).all(|c| *c == AROUND), "{}: past the list", face.name());
    number
}

const ANSWER: i64 = 0x7a61_7266_6f6c_696e;

/// Runs the case. Every buffer stands between guards, and all of it is in the outcome.
pub fn run(face: &dyn Face, case: &Case) -> Outcome {
    let mut table = Guarded::new(&case.table, -0x5a5a_5a5a);
    let mut list = Guarded::new(&case.list, -0x3c3c_3c3c);
    let mut bytes = Guarded::new(&case.bytes, 0x7e);
    let mut text = Guarded::new(&case.text, 0x31);
    let mut out = Guarded::new(&case.out, -0x6b6b_6b6b);
    let mut answer = [ANSWER; 4];
    let (t, l, b, x) = (table.inner(), list.inner(), bytes.inner(), text.inner());
    let a = &mut answer;
    let number = match case.call {
        Call::ReadDefinition => face.read_definition(b, t, a),
        Call::ReadValue => face.read_value(t, case.row, b, l, a),
        Call::JudgeRecord => face.judge_record(t, b, a),
        Call::WriteMissing => face.write_missing(t, case.row, b),
        Call::WriteNumber => face.write_number(t, case.row, case.number, b),
        Call::WriteTruth => face.write_truth(t, case.row, case.number as u8, b),
        Call::WriteSet => face.write_set(t, case.row, l, b),
        Call::WriteText => face.write_text(t, case.row, x, b),
        Call::JudgeFile => face.judge_file(t, b, a),
        Call::NextRecord => face.next_record(b, case.row, a),
        Call::ReadRecord => face.read_record(t, b, out.inner(), l, a),
        Call::DecodeText => face.decode_text(b, case.row, case.number as u64, l, a),
        Call::JudgePart => face.judge_part(t, b, case.row, case.number as u64, case.last, a),
        Call::Correct => corrected(face, t, l, b),
        Call::Normal => face.normal(t, b, a),
        Call::Mend => face.mend(t, b, x, l, a),
        Call::Matrix => face.matrix(t, b, x, a),
        Call::Export => {
            let mut five = [ANSWER; 5];
            let (def, data) = b.split_at(b.len().min(case.row as usize));
            let number = face.export(def, t, data, x, &mut five);
            a.copy_from_slice(&five[..4]);
            l[0] = five[4];
            number
        }
        Call::WriteDefinition => face.write_definition(b, t, x, a),
        Call::Import => {
            let (def, text) = b.split_at(b.len().min(case.row as usize));
            face.import(def, t, text, x, a)
        }
    };
    Outcome { number, answer, table: table.all, list: list.all, bytes: bytes.all, text: text.all, out: out.all }
}

/// What a case may change, held against its inputs: a refusal changes nothing, and a call only what is lent to it.
pub fn keeps(case: &Case, outcome: &Outcome) -> bool {
    let same = |all: &[u8], input: &[u8]| all[GUARD..all.len() - GUARD] == *input;
    let same_numbers = |all: &[i64], input: &[i64]| all[GUARD..all.len() - GUARD] == *input;
    let refused = outcome.number != 0;
    let table = same_numbers(&outcome.table, &case.table);
    let list = same_numbers(&outcome.list, &case.list);
    let bytes = same(&outcome.bytes, &case.bytes);
    let text = same(&outcome.text, &case.text);
    let out = same_numbers(&outcome.out, &case.out);
    let guards = outcome.table[..GUARD]
        .iter()
        .chain(&outcome.table[outcome.table.len() - GUARD..])
        .all(|&x| x == -0x5a5a_5a5a)
        && outcome.list[..GUARD].iter().chain(&outcome.list[outcome.list.len() - GUARD..]).all(|&x| x == -0x3c3c_3c3c)
        && outcome.bytes[..GUARD].iter().chain(&outcome.bytes[outcome.bytes.len() - GUARD..]).all(|&x| x == 0x7e)
        && outcome.text[..GUARD].iter().chain(&outcome.text[outcome.text.len() - GUARD..]).all(|&x| x == 0x31)
        && outcome.out[..GUARD].iter().chain(&outcome.out[outcome.out.len() - GUARD..]).all(|&x| x == -0x6b6b_6b6b);
    let (table_lent, list_lent, bytes_lent) = match case.call {
        Call::ReadDefinition => (!refused, false, false),
        Call::ReadValue | Call::ReadRecord | Call::DecodeText | Call::Mend => (false, !refused, false),
        Call::JudgeRecord
        | Call::JudgeFile
        | Call::NextRecord
        | Call::JudgePart
        | Call::Matrix
        | Call::WriteDefinition
        | Call::Import => (false, false, false),
        Call::Correct => (false, !refused, !refused),
        Call::Export => (false, true, false),
        _ => (false, false, !refused),
    };
    let out_lent = case.call == Call::ReadRecord && !refused;
    // An export that the data's fault ends leaves the lines before it.
    let cut = case.call == Call::Export && !matches!(outcome.number, 20 | 40 | 60);
    let built = matches!(case.call, Call::Mend | Call::Matrix | Call::WriteDefinition | Call::Import);
    let text_lent = built && !refused || cut;
    let numbers = (table || table_lent) && (list || list_lent) && (out || out_lent);
    guards && numbers && (bytes || bytes_lent) && (text || text_lent)
}

/// A difference: what tells it from others (the call and both numbers), and a report with the case cut down.
pub struct Difference {
    pub kind: (Call, u64, u64),
    pub report: String,
}

/// Compares the two on the case: what a left, or the difference.
pub fn compare(a: &dyn Face, b: &dyn Face, case: &Case) -> Result<Outcome, (Call, u64, u64)> {
    let x = run(a, case);
    let y = run(b, case);
    assert!(keeps(case, &x), "{}: a call changed what it must keep: {}", a.name(), show(case));
    if x == y { Ok(x) } else { Err((case.call, x.number, y.number)) }
}

/// The report on a case that differs, cut down to a smaller one that differs with the same two numbers.
#[cold]
pub fn report(a: &dyn Face, b: &dyn Face, seed: u64, case: &Case) -> Difference {
    let kind = |c: &Case| {
        let (x, y) = (run(a, c), run(b, c));
        (x != y).then_some((c.call, x.number, y.number))
    };
    let whole = kind(case);
    let small = shrink(case.clone(), 20_000, |c| kind(c) == whole);
    let (x, y) = (run(a, &small), run(b, &small));
    let mut unlike = String::new();
    if (x.number, x.answer) != (y.number, y.answer) {
        unlike +=
            &format!("  {}: {} {:?}\n  {}: {} {:?}\n", a.name(), x.number, x.answer, b.name(), y.number, y.answer);
    }
    for (what, p, q) in [("table", &x.table, &y.table), ("list", &x.list, &y.list), ("out", &x.out, &y.out)] {
        if let Some(i) = (0..p.len()).find(|&i| p[i] != q[i]) {
            unlike += &format!(
                "  {what}[{}]: {} has {}, {} has {}\n",
                i as i64 - GUARD as i64,
                a.name(),
                p[i],
                b.name(),
                q[i]
            );
        }
    }
    for (what, p, q) in [("bytes", &x.bytes, &y.bytes), ("text", &x.text, &y.text)] {
        if let Some(i) = (0..p.len()).find(|&i| p[i] != q[i]) {
            unlike += &format!(
                "  {what}[{}]: {} has {}, {} has {}\n",
                i as i64 - GUARD as i64,
                a.name(),
                p[i],
                b.name(),
                q[i]
            );
        }
    }
    let report = format!(
        "\nDIFFERENCE, seed {seed} (try again with ZARFOLIN_SEED={seed}), cut down to\n{}\n{unlike}",
        show(&small)
    );
    Difference { kind: (case.call, x.number, y.number), report }
}

/// The case in a form to paste into a test.
pub fn show(case: &Case) -> String {
    let mut text =
        format!("  call {:?}, row/from {}, number {}, last {}\n", case.call, case.row, case.number, case.last);
    text += &format!("  bytes ({}) b\"{}\"\n", case.bytes.len(), cut(case.bytes.escape_ascii().to_string()));
    if !case.text.is_empty() {
        text += &format!("  text b\"{}\"\n", cut(case.text.escape_ascii().to_string()));
    }
    if case.call == Call::ReadDefinition {
        return text + &format!("  table: room for {} numbers", case.table.len());
    }
    if !case.table.is_empty() {
        text += &format!("  table header {:?}\n", &case.table[..case.table.len().min(HEADER)]);
        let rows = case.table.get(1).map_or(0, |&v| v.clamp(0, 512) as usize);
        let rest = case.table.get(HEADER..).unwrap_or(&[]);
        for row in rest.chunks(ROW).take(rows.min(8)) {
            text += &format!("  row {row:?}\n");
        }
        let lines = rest.get(ROW * rows..).unwrap_or(&[]);
        text += &format!("  lines {}\n", cut(format!("{:?}", lines)));
    }
    if !case.out.is_empty() {
        text += &format!("  out: {} numbers\n", case.out.len());
    }
    text + &format!("  list {}", cut(format!("{:?}", case.list)))
}

fn cut(text: String) -> String {
    match text.char_indices().nth(3000) {
        Some((at, _)) => format!("{}.. ({} more)", &text[..at], text.len() - at),
        None => text,
    }
}

/// Cuts a case down as long as `differs` holds, with at most `tries` tries and for a few seconds.
pub fn shrink(mut case: Case, tries: usize, differs: impl Fn(&Case) -> bool) -> Case {
    let start = Instant::now();
    let mut left = tries;
    // One change tried: kept if the case still differs. None when the tries or the time are used up.
    let mut attempt = |case: &mut Case, change: &dyn Fn(&mut Case)| -> Option<bool> {
        if left == 0 || start.elapsed() > Duration::from_secs(3) {
            return None;
        }
        left -= 1;
        let mut next = case.clone();
        change(&mut next);
        let better = differs(&next);
        if better {
            *case = next;
        }
        Some(better)
    };
    loop {
        let mut changed = false;
        for which in 0..5 {
            // Parts out, halves first.
            let length = |c: &Case| [c.bytes.len(), c.text.len(), c.list.len(), c.table.len(), c.out.len()][which];
            let mut size = length(&case).next_power_of_two();
            while size > 0 {
                let mut at = 0;
                while at < length(&case) {
                    let end = (at + size).min(length(&case));
                    let change = |next: &mut Case| match which {
                        0 => drop(next.bytes.drain(at..end)),
                        1 => drop(next.text.drain(at..end)),
                        2 => drop(next.list.drain(at..end)),
                        3 => drop(next.table.drain(at..end)),
                        _ => drop(next.out.drain(at..end)),
                    };
                    match attempt(&mut case, &change) {
                        None => return case,
                        Some(true) => changed = true,
                        Some(false) => at += size,
                    }
                }
                size /= 2;
            }
        }
        // Plainer bytes and numbers.
        for at in 0..case.bytes.len() {
            for plain in [b' ', b'0', b'x'] {
                if case.bytes[at] == plain {
                    break;
                }
                match attempt(&mut case, &|next| next.bytes[at] = plain) {
                    None => return case,
                    Some(true) => {
                        changed = true;
                        break;
                    }
                    Some(false) => {}
                }
            }
        }
        let cells = if case.call == Call::ReadDefinition { 0 } else { case.table.len() };
        for at in 0..cells {
            for plain in [0, 1] {
                if case.table[at] == plain {
                    break;
                }
                match attempt(&mut case, &|next| next.table[at] = plain) {
                    None => return case,
                    Some(true) => {
                        changed = true;
                        break;
                    }
                    Some(false) => {}
                }
            }
        }
        for row in [0, case.row / 2] {
            if row < case.row {
                match attempt(&mut case, &|next| next.row = row) {
                    None => return case,
                    Some(better) => changed |= better,
                }
            }
        }
        if !changed {
            return case;
        }
    }
}
