//! Boot sectors: each field over all its values, other bytes, lengths, and the judged fields against each other at their limits.
use crate::answer::{hex, Answer, Side};
use crate::domain::{Call, Verdict};
use crate::port;
use crate::report::{Failure, Outcome, Report};
use oracle::api;

/// A sector with 512-byte sectors and 4,096-byte clusters.
pub fn good() -> Vec<u8> {
    let mut s: Vec<u8> = (0..512).map(|i| (i * 7 % 251) as u8).collect();
    s[11..14].copy_from_slice(&[0, 2, 8]);
    s[64] = 0xf6;
    s[510..].copy_from_slice(&[0x55, 0xaa]);
    s
}

pub fn with(changes: &[(usize, &[u8])]) -> Vec<u8> {
    let mut s = good();
    for (at, bytes) in changes {
        s[*at..*at + bytes.len()].copy_from_slice(bytes);
    }
    s
}

/// Every byte of the sector over all values, and every sector size.
fn single() -> impl Iterator<Item = Vec<u8>> {
    let bytes = (0..512).flat_map(|at| (0..=255u8).map(move |b| with(&[(at, &[b])])));
    let sizes = (0..=u16::MAX).map(|n| with(&[(11, &n.to_le_bytes())]));
    let words = [0, 1, 255, 256, 1 << 32, i64::MAX as u64, 1 << 63, u64::MAX];
    let words = words.into_iter().flat_map(|n| [40, 48, 56, 72].map(|at| with(&[(at, &n.to_le_bytes())])));
    let lengths = (0..=600).map(|n| good().into_iter().chain(0..).take(n).collect());
    bytes.chain(sizes).chain(words).chain(lengths)
}

/// Sectors per cluster with each sector size; record size info with each cluster size; all five judged fields at their limits.
pub fn pairs() -> Vec<Vec<u8>> {
    let mut all = Vec::new();
    let sizes: [u16; 12] = [0, 1, 256, 511, 512, 513, 1024, 2048, 4096, 4097, 8192, 65535];
    for size in sizes.map(u16::to_le_bytes) {
        all.extend((0..=255u8).map(|b| with(&[(11, &size), (13, &[b])])));
    }
    for per_cluster in [1, 2, 8, 128, 244, 245, 255u8] {
        all.extend((0..=255u8).map(|b| with(&[(13, &[per_cluster]), (64, &[b])])));
    }
    for size in sizes.map(u16::to_le_bytes) {
        for per_cluster in [0, 1, 3, 128, 129, 243, 244, 255u8] {
            for mft in [0, 1, u64::MAX].map(u64::to_le_bytes) {
                for info in [0, 1, 127, -9, -10, -12, -13, -128i8].map(|i| [i as u8]) {
                    let judged: [(usize, &[u8]); 4] = [(11, &size), (13, &[per_cluster]), (48, &mft), (64, &info)];
                    let whole = with(&judged);
                    let mut unmarked = whole.clone();
                    unmarked[510..].copy_from_slice(&[0xaa, 0x55]);
                    all.extend([whole, unmarked]);
                }
            }
        }
    }
    all
}

pub fn inputs() -> impl Iterator<Item = Vec<u8>> {
    single().chain(pairs())
}

/// Compares one; the Rust's answer is for the replay.
pub fn compare(report: &mut Report, sector: &[u8]) -> Result<(Verdict, Answer), Failure> {
    let port = Side { answer: port::geometry(sector), left: () };
    let rust = Side { answer: Answer::of_rust(api::boot(sector), 0, |g| g.to_vec()), left: () };
    let verdict = report.judge(Call::Plain, &(), &port, &rust, || hex(sector))?;
    Ok((verdict, rust.answer))
}

pub fn all(report: &mut Report) -> Outcome {
    inputs().try_for_each(|sector| compare(report, &sector).map(|_| ()))
}
