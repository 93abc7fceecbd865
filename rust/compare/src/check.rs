//! Replays the fixed list against the port alone. It shows that the file can be read as REPLAY.md says.
use std::process::ExitCode;

use crate::answer::{hex, Answer};
use crate::pair::{joined, words};
use crate::port::{self, By, Reader};
use crate::replay::{BOOT, HISTORY, LOOKUP, MAGIC, RECORD, STEP};

struct Words<'a>(&'a [u8]);

impl Words<'_> {
    fn word(&mut self) -> u64 {
        let (head, rest) = self.0.split_at(8);
        self.0 = rest;
        u64::from_le_bytes(head.try_into().expect("eight bytes"))
    }

    fn words(&mut self, n: usize) -> Vec<u64> {
        (0..n).map(|_| self.word()).collect()
    }

    fn bytes(&mut self) -> Vec<u8> {
        let length = self.word() as usize;
        let (head, rest) = self.0.split_at(length.next_multiple_of(8));
        self.0 = rest;
        head[..length].to_vec()
    }

    fn sparse(&mut self) -> Vec<u8> {
        let mut all = vec![0; self.word() as usize];
        for _ in 0..self.word() {
            let at = self.word() as usize;
            let piece = self.bytes();
            all[at..at + piece.len()].copy_from_slice(&piece);
        }
        all
    }

    /// Whether an answer is the number and the `n` words that come next.
    fn is(&mut self, answer: &Answer, n: usize) -> bool {
        let number = self.word();
        let written = self.words(n);
        let (given, mut words) = match answer {
            Answer::Accepted(words) => (0, words.clone()),
            Answer::Refused(number, values) => (*number, values.clone()),
            _ => return false,
        };
        words.resize(n, 0);
        given == number && words == written
    }
}

fn repair(w: &mut Words) -> bool {
    let mut record = w.sparse();
    let mut wanted = record.clone();
    let answer = port::repair(&mut record);
    let same = w.is(&answer, 3);
    for _ in 0..w.word() {
        let at = w.word() as usize;
        wanted[at] = w.word() as u8;
    }
    same && record == wanted
}

/// One call of a history: what to call, refusal and two values, spans with neighbouring holes joined, the reader, the data position.
fn call(w: &mut Words, list: &[u8], cluster: u64, size: u64, reader: &mut Reader) -> bool {
    let (kind, a, b) = (w.word(), w.word(), w.word());
    let mut spans = vec![];
    let answer = match kind {
        0 => {
            let (answer, opened) = Reader::open(list, cluster, size);
            *reader = opened;
            answer
        }
        1 => reader.seek(list, a, By::Unsigned(b)),
        2 => reader.seek(list, a, By::Signed(b as i64)),
        _ => {
            let given = reader.read(list, a, b as usize);
            spans = words(&joined(&given.spans));
            given.answer
        }
    };
    let answer = if answer.is_accepted() { Answer::Accepted(vec![]) } else { answer };
    let same = w.is(&answer, 2);
    let n = w.word() as usize;
    let spans = w.words(3 * n) == spans;
    let stand = w.words(9) == reader.0[..9];
    let position = Answer::Accepted(w.words(2)) == reader.data_position();
    same && spans && stand && position
}

fn history(w: &mut Words) -> bool {
    let (cluster, size) = (w.word(), w.word());
    let list = w.bytes();
    let mut reader = Reader([0; crate::raw::READER]);
    (0..w.word()).all(|_| call(w, &list, cluster, size, &mut reader))
}

fn entry(kind: u64, w: &mut Words) -> bool {
    match kind {
        BOOT => {
            let sector = w.sparse();
            w.is(&port::geometry(&sector), 8)
        }
        RECORD => repair(w),
        STEP => {
            let (cluster, at, lcn) = (w.word(), w.word(), w.word());
            let list = w.bytes();
            w.is(&port::next_run(&list, cluster, at, lcn), 6)
        }
        LOOKUP => {
            let (cluster, offset) = (w.word(), w.word());
            let list = w.bytes();
            w.is(&port::lookup(&list, cluster, offset), 2)
        }
        HISTORY => history(w),
        _ => false,
    }
}

pub fn replay(file: &str) -> ExitCode {
    let Ok(bytes) = std::fs::read(file) else {
        eprintln!("{file} can't be read");
        return ExitCode::FAILURE;
    };
    let mut w = Words(&bytes[MAGIC.len()..]);
    let count = w.word();
    let mut failed = 0;
    for n in 0..count {
        let (kind, length) = (w.word(), w.word() as usize);
        let (payload, rest) = w.0.split_at(length);
        w = Words(rest);
        let mut inner = Words(payload);
        if !entry(kind, &mut inner) || !inner.0.is_empty() {
            println!("entry {n} of kind {kind} differs: {}", hex(payload));
            failed += 1;
        }
    }
    println!("{file}: {count} entries, {failed} differ");
    if failed == 0 && w.0.is_empty() && bytes.starts_with(MAGIC) {
        ExitCode::SUCCESS
    } else {
        ExitCode::FAILURE
    }
}
