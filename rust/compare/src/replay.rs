//! A fixed list of the Rust's own answers, for a program that has no Rust at hand. REPLAY.md has the format.
use std::collections::BTreeMap;
use std::process::ExitCode;

use crate::answer::{Answer, Side};
use crate::boot;
use crate::domain::Verdict;
use crate::generate;
use crate::histories::{self, Rooms, Told};
use crate::lists;
use crate::pair::{Judged, Pair};
use crate::port::By;
use crate::random::Random;
use crate::records;
use crate::report::{Outcome, Report};
use oracle::api::{Stand, Volume};

pub const MAGIC: &[u8; 8] = b"NTFS-0.4";
pub const BOOT: u64 = 1;
pub const RECORD: u64 = 2;
pub const STEP: u64 = 3;
pub const LOOKUP: u64 = 4;
pub const HISTORY: u64 = 5;

/// Words, little-endian.
#[derive(Default)]
pub struct Words(Vec<u8>);

impl Words {
    fn word(&mut self, word: u64) {
        self.0.extend(word.to_le_bytes());
    }

    fn words(&mut self, words: &[u64]) {
        words.iter().for_each(|w| self.word(*w));
    }

    /// A length, and the bytes with zeros behind them up to a whole word.
    fn bytes(&mut self, bytes: &[u8]) {
        self.word(bytes.len() as u64);
        self.0.extend(bytes);
        self.0.resize(self.0.len().next_multiple_of(8), 0);
    }

    /// Bytes that are mostly 0: the length, how many pieces, and each piece with its place.
    fn sparse(&mut self, bytes: &[u8]) {
        let pieces = pieces(bytes);
        self.words(&[bytes.len() as u64, pieces.len() as u64]);
        for (at, end) in pieces {
            self.word(at as u64);
            self.bytes(&bytes[at..end]);
        }
    }

    /// The number, 0 if accepted, and `n` words: the answer's, or the refusal's values, the rest 0.
    fn answer(&mut self, answer: &Answer, n: usize) {
        let (number, mut words) = match answer {
            Answer::Accepted(words) => (0, words.clone()),
            Answer::Refused(number, values) => (*number, values.clone()),
            _ => unreachable!("only what both sides answer alike is written"),
        };
        words.resize(n, 0);
        self.word(number);
        self.words(&words);
    }
}

/// Parts with no long row of zeros inside, from start to end.
fn pieces(bytes: &[u8]) -> Vec<(usize, usize)> {
    let mut pieces: Vec<(usize, usize)> = Vec::new();
    for at in (0..bytes.len()).filter(|at| bytes[*at] != 0) {
        match pieces.last_mut() {
            Some((_, end)) if at < *end + 16 => *end = at + 1,
            _ => pieces.push((at, at + 1)),
        }
    }
    pieces
}

struct Writer {
    entries: Vec<(u64, Words)>,
    seen: BTreeMap<(u64, Option<u64>), u64>,
    random: Random,
    report: Report,
}

impl Writer {
    fn entry(&mut self, kind: u64, payload: Words) {
        self.entries.push((kind, payload));
    }

    /// Whether one more answer of this kind is wanted, so that rare refusals get their share.
    fn wanted(&mut self, kind: u64, answer: &Answer, accepted: u64, refused: u64) -> bool {
        let seen = self.seen.entry((kind, answer.number())).or_default();
        *seen += 1;
        *seen <= if answer.is_accepted() { accepted } else { refused }
    }

    /// Keeps to the bytes that a boot sector's fields have, so that the file stays small.
    fn boots(&mut self, count: usize) -> Outcome {
        let mut all = boot::pairs();
        for at in [40, 48, 56, 72] {
            all.extend((0..300).map(|_| boot::with(&[(at, &(self.random.word() >> self.random.below(64)).to_le_bytes())])));
        }
        all.extend((0..600).map(|_| boot::with(&[(68, &[self.random.word() as u8])])));
        let start = self.entries.len();
        while self.entries.len() < start + count {
            let mut sector = all[self.random.below(all.len() as u64) as usize].clone();
            for gap in [0..11, 14..40, 65..68, 69..72, 80..510] {
                sector[gap].fill(0);
            }
            let (verdict, answer) = boot::compare(&mut self.report, &sector)?;
            if verdict == Verdict::Same && self.wanted(BOOT, &answer, 110, 55) {
                let mut payload = Words::default();
                payload.sparse(&sector);
                payload.answer(&answer, 8);
                self.entry(BOOT, payload);
            }
        }
        Ok(())
    }

    fn records(&mut self, count: usize) -> Outcome {
        let lengths: Vec<usize> = records::lengths().filter(|n| (8..=4096).contains(n)).collect();
        let start = self.entries.len();
        while self.entries.len() < start + count {
            let usual = self.random.one_in(2);
            let length = if usual { self.random.pick(&[512, 1024, 2048, 4096]) } else { self.random.pick(&lengths) };
            let offset = if usual { 48 } else { self.random.pick(&records::offsets(length)) };
            let n = if usual { length / 512 + 1 } else { self.random.pick(&records::counts(length, offset)) };
            let filling = self.random.pick(&records::FILLINGS);
            let mut record = records::record(&mut self.random, length, offset, n, filling);
            thin(&mut record, offset, n);
            let (verdict, rust) = records::compare(&mut self.report, &record)?;
            if verdict == Verdict::Same && self.wanted(RECORD, &rust.answer, 220, 100) {
                self.entry(RECORD, repaired(&record, &rust));
            }
        }
        Ok(())
    }

    fn steps(&mut self, count: usize) -> Outcome {
        let start = self.entries.len();
        while self.entries.len() < start + count {
            let cluster = generate::cluster(&mut self.random);
            let list = generate::list(&mut self.random, cluster);
            let mut found = Vec::new();
            lists::decode(&mut self.report, &list, cluster, |step| {
                // The answers may be alike though the Rust's decoder has moved (D5): the replay looks at answers only.
                if step.verdict == Verdict::Same || step.port == step.rust.answer {
                    let mut payload = Words::default();
                    payload.words(&[cluster as u64, step.at, step.lcn]);
                    payload.bytes(&list);
                    payload.answer(&step.rust.answer, 6);
                    found.push((payload, step.rust.answer.clone()));
                }
            })?;
            let at = self.random.below(found.len().max(1) as u64) as usize;
            let Some((payload, answer)) = found.into_iter().nth(at) else { continue };
            if self.wanted(STEP, &answer, 650, 120) {
                self.entry(STEP, payload);
            }
        }
        Ok(())
    }

    fn lookups(&mut self, count: usize) -> Outcome {
        let start = self.entries.len();
        while self.entries.len() < start + count {
            let cluster = generate::cluster(&mut self.random);
            let list = generate::list(&mut self.random, cluster);
            let volume = Volume::new(cluster);
            let edges = histories::edges(&volume, &list);
            let offset = histories::offset(&mut self.random, &edges, 4000);
            let (verdict, answer) = histories::lookup(&mut self.report, &volume, &list, cluster, offset)?;
            if verdict == Verdict::Same && self.wanted(LOOKUP, &answer, 260, 50) {
                let mut payload = Words::default();
                payload.words(&[cluster as u64, offset]);
                payload.bytes(&list);
                payload.answer(&answer, 2);
                self.entry(LOOKUP, payload);
            }
        }
        Ok(())
    }

    fn histories(&mut self, count: usize) -> Outcome {
        let start = self.entries.len();
        while self.entries.len() < start + count {
            let mut head = Words::default();
            let mut calls = Words::default();
            let mut made = 0;
            histories::one(&mut self.report, &mut self.random, Rooms::Ample, |told, judged, pair| {
                if made == 0 {
                    head.words(&[pair.cluster as u64, pair.rust.size()]);
                    head.bytes(pair.list);
                }
                if let Some((told, answer)) = agreed(told, judged) {
                    call(&mut calls, told, answer, pair);
                    made += 1;
                }
                made < 6
            })?;
            if made > 1 {
                head.word(made);
                head.0.extend(calls.0);
                self.entry(HISTORY, head);
            }
        }
        Ok(())
    }

    fn all(&mut self) -> Outcome {
        self.boots(420)?;
        self.records(520)?;
        self.steps(1100)?;
        self.lookups(500)?;
        self.histories(500)
    }
}

/// Zeros wherever the repair doesn't look.
fn thin(record: &mut [u8], offset: usize, count: usize) {
    let array = offset..offset + 2 * count.min(20);
    for (at, byte) in record.iter_mut().enumerate() {
        if at >= 8 && !array.contains(&at) && at % 512 < 510 {
            *byte = 0;
        }
    }
}

fn repaired(record: &[u8], rust: &Side<Vec<u8>>) -> Words {
    let mut payload = Words::default();
    payload.sparse(record);
    payload.answer(&rust.answer, 3);
    let changed: Vec<usize> = (0..record.len()).filter(|at| record[*at] != rust.left[*at]).collect();
    payload.word(changed.len() as u64);
    changed.iter().for_each(|at| payload.words(&[*at as u64, rust.left[*at] as u64]));
    payload
}

fn reader(cluster: u32, s: Stand) -> [u64; 9] {
    let (kind, size, position) = match s.run {
        None => (0, 0, 0),
        Some(run) => (if run.position.is_some() { 1 } else { 2 }, run.size, run.position.unwrap_or(0)),
    };
    [cluster as u64, s.cursor, s.lcn, kind, size, position, s.displacement, s.place, s.size]
}

/// The call to write for one that was made, with the Rust's answer. A call that can't be compared is left out if the port refused it, since
/// that changes nothing; a read that gave bytes is written as one of just those, which the Rust was asked for then.
fn agreed(told: Told, judged: &Judged) -> Option<(Told, &Answer)> {
    match (judged.verdict, told, &judged.port.answer) {
        (Verdict::Same, ..) => Some((told, &judged.rust.answer)),
        (_, Told::Read(_, store), answer @ Answer::Accepted(spans)) => {
            let bytes = spans.chunks_exact(3).map(|span| span[1]).sum();
            Some((Told::Read(bytes, store), answer))
        }
        _ => None,
    }
}

fn call(out: &mut Words, told: Told, answer: &Answer, pair: &Pair) {
    let asked = match told {
        Told::Open => [0, 0, 0],
        Told::Seek(from, By::Unsigned(by)) => [1, from, by],
        Told::Seek(from, By::Signed(by)) => [2, from, by as u64],
        Told::Read(w, store) => [3, w, store],
    };
    out.words(&asked);
    let spans = match (answer, told) {
        (Answer::Accepted(words), Told::Read(..)) => words.clone(),
        _ => vec![],
    };
    match answer {
        Answer::Accepted(_) => out.words(&[0, 0, 0]),
        refused => out.answer(refused, 2),
    }
    out.word(spans.len() as u64 / 3);
    out.words(&spans);
    out.words(&reader(pair.cluster, pair.rust.stand()));
    let position = pair.rust.data_position();
    out.words(&[position.is_some() as u64, position.unwrap_or(0)]);
}

pub fn write(file: &str, seed: u64) -> ExitCode {
    let mut writer = Writer { entries: vec![], seen: BTreeMap::new(), random: Random::new(seed), report: Report::new("replay", seed) };
    if writer.all().is_err() {
        return ExitCode::FAILURE;
    }
    let mut out = Words(MAGIC.to_vec());
    out.word(writer.entries.len() as u64);
    for (kind, payload) in &writer.entries {
        out.words(&[*kind, payload.0.len() as u64]);
        out.0.extend(&payload.0);
    }
    if let Err(error) = std::fs::write(file, &out.0) {
        eprintln!("{file}: {error}");
        return ExitCode::FAILURE;
    }
    println!("{}\n{file}: {} entries, {} bytes", writer.report.line(), writer.entries.len(), out.0.len());
    ExitCode::SUCCESS
}
