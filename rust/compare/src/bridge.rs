//! The library in a process of its own, behind two pipes: for machines that can't link its x86-64 code. See
//! rust/bridge/bridge.c.

use crate::case::{Call, corrections_of, numbers_of};
use crate::face::{Correction, Face};
use std::io::{Read, Write};
use std::process::{Child, ChildStdin, ChildStdout, Command, Stdio};
use std::sync::Mutex;

struct Pipes {
    child: Child,
    to: ChildStdin,
    from: ChildStdout,
    request: Vec<u8>,
    reply: Vec<u8>,
}

pub struct Bridge(Mutex<Pipes>);

/// The buffers of a call; those it doesn't take are empty.
#[derive(Default)]
struct Inputs<'a> {
    row: u64,
    number: i64,
    last: u64,
    table: &'a [i64],
    list: &'a [i64],
    bytes: &'a [u8],
    text: &'a [u8],
    out: &'a [i64],
}

impl Bridge {
    /// Starts the command: the bridge, or an emulator and the bridge.
    pub fn start(command: &str) -> Bridge {
        let mut words = command.split_whitespace();
        let mut child = Command::new(words.next().expect("ZARFOLIN_BRIDGE is a command"))
            .args(words)
            .stdin(Stdio::piped())
            .stdout(Stdio::piped())
            .spawn()
            .unwrap_or_else(|e| panic!("the bridge `{command}` doesn't start: {e}"));
        let (to, from) = (child.stdin.take().unwrap(), child.stdout.take().unwrap());
        Bridge(Mutex::new(Pipes { child, to, from, request: vec![], reply: vec![] }))
    }

    /// One call: the number, the answer, and the changed buffer's bytes through `take`.
    fn call(&self, call: Call, inputs: Inputs, answer: &mut [i64; 4], lent: usize, take: impl FnOnce(&[u8])) -> u64 {
        let mut pipes = self.0.lock().unwrap();
        let Pipes { child, to, from, request, reply } = &mut *pipes;
        request.clear();
        let lengths = [inputs.table.len(), inputs.list.len(), inputs.bytes.len(), inputs.text.len(), inputs.out.len()];
        let head = [call as u64, inputs.row, inputs.number as u64].into_iter().chain(lengths.map(|n| n as u64));
        for number in head.chain([inputs.last]) {
            request.extend(number.to_le_bytes());
        }
        for number in inputs.table.iter().chain(inputs.list) {
            request.extend(number.to_le_bytes());
        }
        request.extend(inputs.bytes);
        request.extend(inputs.text);
        for number in inputs.out {
            request.extend(number.to_le_bytes());
        }
        reply.resize(48 + lent, 0);
        let done = to.write_all(request).and_then(|()| to.flush()).and_then(|()| from.read_exact(reply));
        if let Err(e) = done {
            panic!("the library's process broke off in {call:?} ({e}; it ended with {:?})", child.wait());
        }
        let word = |i: usize| u64::from_le_bytes(reply[8 * i..8 * i + 8].try_into().unwrap());
        assert_eq!(word(5), 0, "{call:?} changed what it may not change");
        for (i, x) in answer.iter_mut().enumerate() {
            *x = word(1 + i) as i64;
        }
        take(&reply[48..]);
        word(0)
    }

    fn write(&self, call: Call, inputs: Inputs, record: &mut [u8]) -> u64 {
        let copy = record.to_vec();
        let n = copy.len();
        let inputs = Inputs { bytes: &copy, ..inputs };
        self.call(call, inputs, &mut [0; 4], n, |changed| record.copy_from_slice(changed))
    }
}

impl Drop for Pipes {
    fn drop(&mut self) {
        // Its input ends with us; it ends then.
        let _ = self.child.kill();
        let _ = self.child.wait();
    }
}

fn numbers(to: &mut [i64], bytes: &[u8]) {
    for (x, eight) in to.iter_mut().zip(bytes.as_chunks::<8>().0) {
        *x = i64::from_le_bytes(*eight);
    }
}

impl Face for Bridge {
    fn name(&self) -> &'static str {
        "libzarfolin.a in its own process"
    }

    fn read_definition(&self, def: &[u8], table: &mut [i64], answer: &mut [i64; 4]) -> u64 {
        let copy = table.to_vec();
        let inputs = Inputs { bytes: def, table: &copy, ..Inputs::default() };
        self.call(Call::ReadDefinition, inputs, answer, 8 * copy.len(), |changed| numbers(table, changed))
    }

    fn read_value(&self, table: &[i64], row: u64, record: &[u8], list: &mut [i64], answer: &mut [i64; 4]) -> u64 {
        let copy = list.to_vec();
        let inputs = Inputs { table, row, bytes: record, list: &copy, ..Inputs::default() };
        self.call(Call::ReadValue, inputs, answer, 8 * copy.len(), |changed| numbers(list, changed))
    }

    fn judge_record(&self, table: &[i64], record: &[u8], answer: &mut [i64; 4]) -> u64 {
        let inputs = Inputs { table, bytes: record, ..Inputs::default() };
        self.call(Call::JudgeRecord, inputs, answer, 0, |_| {})
    }

    fn write_missing(&self, table: &[i64], row: u64, record: &mut [u8]) -> u64 {
        self.write(Call::WriteMissing, Inputs { table, row, ..Inputs::default() }, record)
    }

    fn write_number(&self, table: &[i64], row: u64, number: i64, record: &mut [u8]) -> u64 {
        self.write(Call::WriteNumber, Inputs { table, row, number, ..Inputs::default() }, record)
    }

    fn write_truth(&self, table: &[i64], row: u64, truth: u8, record: &mut [u8]) -> u64 {
        self.write(Call::WriteTruth, Inputs { table, row, number: truth as i64, ..Inputs::default() }, record)
    }

    fn write_set(&self, table: &[i64], row: u64, list: &[i64], record: &mut [u8]) -> u64 {
        self.write(Call::WriteSet, Inputs { table, row, list, ..Inputs::default() }, record)
    }

    fn write_text(&self, table: &[i64], row: u64, text: &[u8], record: &mut [u8]) -> u64 {
        self.write(Call::WriteText, Inputs { table, row, text, ..Inputs::default() }, record)
    }

    fn judge_file(&self, table: &[i64], data: &[u8], answer: &mut [i64; 4]) -> u64 {
        let inputs = Inputs { table, bytes: data, ..Inputs::default() };
        self.call(Call::JudgeFile, inputs, answer, 0, |_| {})
    }

    fn next_record(&self, data: &[u8], from: u64, answer: &mut [i64; 4]) -> u64 {
        let inputs = Inputs { bytes: data, row: from, ..Inputs::default() };
        self.call(Call::NextRecord, inputs, answer, 0, |_| {})
    }

    fn read_record(&self, t: &[i64], record: &[u8], out: &mut [i64], list: &mut [i64], answer: &mut [i64; 4]) -> u64 {
        let (out_copy, list_copy) = (out.to_vec(), list.to_vec());
        let inputs = Inputs { table: t, bytes: record, list: &list_copy, out: &out_copy, ..Inputs::default() };
        let lent = 8 * (out_copy.len() + list_copy.len());
        self.call(Call::ReadRecord, inputs, answer, lent, |changed| {
            let (changed_list, changed_out) = changed.split_at(8 * list.len());
            numbers(list, changed_list);
            numbers(out, changed_out);
        })
    }

    fn decode_text(&self, def: &[u8], place: u64, length: u64, list: &mut [i64], answer: &mut [i64; 4]) -> u64 {
        let copy = list.to_vec();
        let inputs = Inputs { bytes: def, row: place, number: length as i64, list: &copy, ..Inputs::default() };
        self.call(Call::DecodeText, inputs, answer, 8 * copy.len(), |changed| numbers(list, changed))
    }

    fn judge_part(&self, t: &[i64], data: &[u8], end: u64, first: u64, last: u64, answer: &mut [i64; 4]) -> u64 {
        let inputs = Inputs { table: t, bytes: data, row: end, number: first as i64, last, ..Inputs::default() };
        self.call(Call::JudgePart, inputs, answer, 0, |_| {})
    }

    fn correct(&self, table: &[i64], corrections: &mut [Correction], record: &mut [u8]) -> u64 {
        let (mut list, bytes) = (numbers_of(corrections), record.to_vec());
        let (copy, lent) = (list.clone(), 8 * list.len() + bytes.len());
        let inputs = Inputs { table, list: &copy, bytes: &bytes, ..Inputs::default() };
        let number = self.call(Call::Correct, inputs, &mut [0; 4], lent, |changed| {
            let (changed_list, changed_record) = changed.split_at(8 * list.len());
            numbers(&mut list, changed_list);
            record.copy_from_slice(changed_record);
        });
        corrections.copy_from_slice(&corrections_of(&list));
        number
    }

    fn normal(&self, table: &[i64], record: &mut [u8], answer: &mut [i64; 4]) -> u64 {
        let copy = record.to_vec();
        let inputs = Inputs { table, bytes: &copy, ..Inputs::default() };
        self.call(Call::Normal, inputs, answer, copy.len(), |changed| record.copy_from_slice(changed))
    }

    fn mend(&self, t: &[i64], data: &[u8], out: &mut [u8], list: &mut [i64], answer: &mut [i64; 4]) -> u64 {
        let (out_copy, list_copy) = (out.to_vec(), list.to_vec());
        let inputs = Inputs { table: t, bytes: data, text: &out_copy, list: &list_copy, ..Inputs::default() };
        let lent = 8 * list_copy.len() + out_copy.len();
        self.call(Call::Mend, inputs, answer, lent, |changed| {
            let (changed_list, changed_out) = changed.split_at(8 * list.len());
            numbers(list, changed_list);
            out.copy_from_slice(changed_out);
        })
    }

    fn matrix(&self, t: &[i64], data: &[u8], out: &mut [u8], answer: &mut [i64; 4]) -> u64 {
        let copy = out.to_vec();
        let inputs = Inputs { table: t, bytes: data, text: &copy, ..Inputs::default() };
        self.call(Call::Matrix, inputs, answer, copy.len(), |changed| out.copy_from_slice(changed))
    }

    fn export(&self, def: &[u8], t: &[i64], data: &[u8], out: &mut [u8], answer: &mut [i64; 5]) -> u64 {
        let (copy, both) = (out.to_vec(), [def, data].concat());
        let row = def.len() as u64;
        let inputs = Inputs { table: t, row, bytes: &both, text: &copy, list: &[0], ..Inputs::default() };
        let (mut four, mut last) = ([0; 4], [0]);
        let number = self.call(Call::Export, inputs, &mut four, 8 + copy.len(), |changed| {
            let (changed_last, changed_out) = changed.split_at(8);
            numbers(&mut last, changed_last);
            out.copy_from_slice(changed_out);
        });
        answer[..4].copy_from_slice(&four);
        answer[4] = last[0];
        number
    }

    fn write_definition(&self, def: &[u8], t: &[i64], out: &mut [u8], answer: &mut [i64; 4]) -> u64 {
        let copy = out.to_vec();
        let inputs = Inputs { table: t, bytes: def, text: &copy, ..Inputs::default() };
        self.call(Call::WriteDefinition, inputs, answer, copy.len(), |changed| out.copy_from_slice(changed))
    }

    fn import(&self, def: &[u8], t: &[i64], text: &[u8], out: &mut [u8], answer: &mut [i64; 4]) -> u64 {
        let (copy, both) = (out.to_vec(), [def, text].concat());
        let inputs = Inputs { table: t, row: def.len() as u64, bytes: &both, text: &copy, ..Inputs::default() };
        self.call(Call::Import, inputs, answer, copy.len(), |changed| out.copy_from_slice(changed))
    }
}
