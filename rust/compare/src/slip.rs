//! Deliberate mistakes on the port's side. With any of them the comparison has to fail; that is what shows that it looks.
use std::borrow::Cow;

use crate::answer::Answer;
use crate::port::By;
use crate::raw::{OUT, READER};

#[derive(Clone, Copy, Debug, PartialEq)]
pub enum Slip {
    None,
    /// The delta FE is 254.
    ZeroExtended,
    /// A hole sets the previous LCN to 0.
    HoleResets,
    /// A read goes on to the end of the runs.
    AllocatedSize,
    /// A forward seek forgets the displacement.
    FromRunStart,
    /// Sectors per cluster 129 to 243 are taken as exponents, here as if they were 244.
    Exponents,
    /// The last sector isn't repaired.
    LastSector,
    /// An offset equal to a run's size belongs to that run.
    LookupInclusive,
    /// A seek to the place it is at rewinds, and so goes on to the next run at a run's end.
    SeekInPlace,
    /// A refused call on a reader moves its place.
    RefusedMoves,
    /// The word behind the eighth of `out` is written.
    NinthWord,
}

pub const ALL: [(&str, Slip); 10] = [
    ("zero-extended", Slip::ZeroExtended),
    ("hole-resets", Slip::HoleResets),
    ("allocated-size", Slip::AllocatedSize),
    ("from-run-start", Slip::FromRunStart),
    ("exponents", Slip::Exponents),
    ("last-sector", Slip::LastSector),
    ("lookup-inclusive", Slip::LookupInclusive),
    ("seek-in-place", Slip::SeekInPlace),
    ("refused-moves", Slip::RefusedMoves),
    ("ninth-word", Slip::NinthWord),
];

pub fn sector(slip: Slip, sector: &[u8]) -> Cow<'_, [u8]> {
    let mut sector = Cow::Borrowed(sector);
    if slip == Slip::Exponents && sector.get(13).is_some_and(|b| (129..=243).contains(b)) {
        sector.to_mut()[13] = 244;
    }
    sector
}

/// Hides the last entry of the sequence array, and says what to put back.
pub fn before_repair(slip: Slip, record: &mut [u8]) -> Option<u8> {
    if slip != Slip::LastSector || record.len() < 8 || record[6] < 2 {
        return None;
    }
    let kept = record[6];
    record[6] = kept - 1;
    Some(kept)
}

pub fn after_repair(record: &mut [u8], kept: Option<u8>) {
    if let Some(count) = kept {
        record[6] = count;
    }
}

pub fn run(slip: Slip, answer: Answer, list: &[u8], cluster: u64, at: u64) -> Answer {
    let Answer::Accepted(mut words) = answer else { return answer };
    if words[0] == 1 {
        let header = list[at as usize];
        let (low, high) = ((header & 15) as usize, (header >> 4) as u32);
        let delta = &list[at as usize + 1 + low..words[4] as usize];
        if slip == Slip::ZeroExtended && high < 8 && delta.last().is_some_and(|b| *b >= 128) {
            let more = 1u64 << (8 * high);
            words[5] = words[5].wrapping_add(more);
            words[2] = words[5].wrapping_mul(cluster);
            words[3] = 1;
        }
        if slip == Slip::HoleResets && delta.iter().all(|b| *b == 0) {
            words[5] = 0;
        }
    }
    Answer::Accepted(words)
}

pub fn offset(slip: Slip, offset: u64) -> u64 {
    if slip == Slip::LookupInclusive {
        offset.saturating_sub(1)
    } else {
        offset
    }
}

pub fn before_seek(slip: Slip, reader: &mut [u64; READER], from: u64, by: By) {
    let base = [0, reader[7], reader[8]][from.min(2) as usize] as i128;
    let target = match by {
        By::Unsigned(by) => base + by as i128,
        By::Signed(by) => base + by as i128,
    };
    let place = reader[7] as i128;
    if slip == Slip::FromRunStart && target > place && target <= u64::MAX as i128 {
        reader[6] = 0;
    }
    if slip == Slip::SeekInPlace && target == place && place > 0 {
        // The place can't be 0 then, so a place just behind it makes the port rewind.
        reader[7] = reader[7].saturating_add(1);
        if from == 1 {
            reader[7] -= 1;
        }
    }
}

/// The data size to put back after the read.
pub fn before_read(slip: Slip, reader: &mut [u64; READER]) -> u64 {
    let size = reader[8];
    if slip == Slip::AllocatedSize {
        reader[8] = u64::MAX;
    }
    size
}

/// For the hostile calls, which don't come through port.rs.
pub fn after_call(slip: Slip, number: u64, reader: &mut [u64], out: &mut [u64]) {
    let written = match slip {
        Slip::RefusedMoves if (1..=22).contains(&number) => reader.get_mut(7),
        Slip::NinthWord => out.get_mut(OUT),
        _ => None,
    };
    if let Some(word) = written {
        *word = word.wrapping_add(1);
    }
}
