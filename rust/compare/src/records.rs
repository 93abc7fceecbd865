//! Records: short ones, and those around the sector and the size limits, with sequence arrays in every kind of place.
use crate::answer::{hex, Answer, Side};
use crate::domain::{Call, Verdict};
use crate::port;
use crate::random::Random;
use crate::report::{Failure, Outcome, Report};
use oracle::api;

pub fn lengths() -> impl Iterator<Item = usize> {
    (0..=40).chain(506..=516).chain(1020..=1028).chain([1535, 1536, 1537, 2048]).chain(4088..=4100).chain([5000, 65_536])
}

pub fn offsets(length: usize) -> Vec<usize> {
    let mut all: Vec<usize> = (0..=16).chain([40, 42, 48, 65_534, 65_535]).collect();
    for middle in [length, 512, 1024, 4096] {
        all.extend(middle.saturating_sub(8)..=middle + 2);
    }
    all.retain(|o| *o <= length + 2 || *o > 65_530);
    all.retain(|o| *o <= 65_535);
    all
}

pub fn counts(length: usize, offset: usize) -> Vec<usize> {
    let fitting = length.saturating_sub(offset) / 2;
    let mut all: Vec<usize> = (0..=4).chain([65_535]).collect();
    all.extend((length / 512).saturating_sub(1)..=length / 512 + 2);
    all.extend(fitting.saturating_sub(1)..=fitting + 1);
    all.sort();
    all.dedup();
    all
}

/// How the bytes besides offset and count are chosen.
#[derive(Clone, Copy, PartialEq)]
pub enum Filling {
    /// All sectors end in the sequence number.
    Sound,
    /// All but one.
    Torn,
    /// Few different bytes, so that arrays that lie across a sector's end go on for a while.
    Few,
}

pub const FILLINGS: [Filling; 3] = [Filling::Sound, Filling::Torn, Filling::Few];

pub fn record(random: &mut Random, length: usize, offset: usize, count: usize, filling: Filling) -> Vec<u8> {
    let few = filling == Filling::Few;
    let mut r: Vec<u8> = (0..length).map(|_| if few { (random.below(8) == 0) as u8 } else { random.word() as u8 }).collect();
    let mut set = |at: usize, bytes: &[u8]| {
        if let Some(part) = r.get_mut(at..at + bytes.len()) {
            part.copy_from_slice(bytes);
        }
    };
    let number = if few { [0, 0] } else { [random.word() as u8, random.word() as u8] };
    set(offset, &number);
    let torn = random.below(count.clamp(2, 9) as u64 - 1) as usize;
    for k in 0..length / 512 {
        let tear = filling == Filling::Torn && k == torn;
        if !few || random.below(4) > 0 {
            set(510 + 512 * k, &[number[0], number[1] ^ tear as u8]);
        }
    }
    set(4, &(offset as u16).to_le_bytes());
    set(6, &(count as u16).to_le_bytes());
    r
}

/// Compares one; the Rust's side is for the replay.
pub fn compare(report: &mut Report, record: &[u8]) -> Result<(Verdict, Side<Vec<u8>>), Failure> {
    let mut lent = record.to_vec();
    let answer = port::repair(&mut lent);
    let port = Side { answer, left: lent };
    let (answer, left) = api::fixup(record);
    let rust = Side { answer: Answer::of_rust(answer, 0, |_| vec![]), left };
    let verdict = report.judge(Call::Repair { length: record.len() }, &record.to_vec(), &port, &rust, || hex(record))?;
    Ok((verdict, rust))
}

pub fn all(report: &mut Report) -> Outcome {
    let mut random = Random::new(report.seed);
    for length in lengths() {
        for offset in offsets(length) {
            for count in counts(length, offset) {
                for filling in FILLINGS {
                    let record = record(&mut random, length, offset, count, filling);
                    compare(report, &record)?;
                }
            }
        }
    }
    Ok(())
}
