//! The rule for run lists, written once more and as plainly as it goes: no cursor is kept, each question starts at the list's start.
#![allow(dead_code)] // each test file uses its part

/// List B of the scope of work.
pub const B: [u8; 12] = [0x11, 0x02, 0x0a, 0x11, 0x01, 0xfe, 0x01, 0x03, 0x11, 0x02, 0x05, 0x00];

const MAX: i128 = u64::MAX as i128;

/// The answer for one offset.
#[derive(Clone, Debug, PartialEq)]
pub enum Found {
    /// How much of the run is left from the offset on, and where that lies (`None` in a hole).
    Run(u64, Option<u64>),
    Over,
    /// The refusal's number and values.
    Refused(u64, Vec<i128>),
}

/// A little-endian number with or without a sign; no bytes are 0.
fn number(bytes: &[u8], signed: bool) -> i128 {
    let value = bytes.iter().rev().fold(0, |n, byte| n * 256 + i128::from(*byte));
    let negative = signed && bytes.last().is_some_and(|byte| *byte >= 128);
    if negative {
        value - (1 << (8 * bytes.len()))
    } else {
        value
    }
}

/// `length` bytes from `at` on, or the refusal of the run at `head`.
fn field(list: &[u8], head: usize, at: usize, length: usize) -> Result<&[u8], Found> {
    if length > 8 {
        return Err(Found::Refused(13, vec![head as i128]));
    }
    list.get(at..at + length).ok_or(Found::Refused(14, vec![head as i128]))
}

/// The run at `head`: size, place, the next header and LCN.
fn run(list: &[u8], cluster: u64, head: usize, lcn: i128) -> Result<(i128, Option<i128>, usize, i128), Found> {
    let refused = |n| Err(Found::Refused(n, vec![head as i128]));
    let (low, high) = ((list[head] & 15) as usize, (list[head] >> 4) as usize);
    let count = number(field(list, head, head + 1, low)?, false);
    let size = count * i128::from(cluster);
    if count == 0 {
        return refused(15);
    }
    if size > MAX {
        return refused(16);
    }
    let delta = number(field(list, head, head + 1 + low, high)?, true);
    let (next, to) = (head + 1 + low + high, lcn + delta);
    if !(0..=MAX).contains(&to) {
        return Err(Found::Refused(17, vec![head as i128, lcn]));
    }
    if delta == 0 || to == 0 {
        return Ok((size, None, next, to));
    }
    let place = to * i128::from(cluster);
    match (place > MAX, place + size > MAX) {
        (true, _) => refused(18),
        (_, true) => refused(19),
        _ => Ok((size, Some(place), next, to)),
    }
}

/// The lookup rule: an offset belongs to the first run if it is below its size, otherwise to the rest of the list with the size taken off.
pub fn find(list: &[u8], cluster: u64, offset: u64) -> Found {
    let (mut at, mut lcn, mut offset) = (0, 0, i128::from(offset));
    while at < list.len() && list[at] != 0 {
        let (size, place, next, to) = match run(list, cluster, at, lcn) {
            Ok(run) => run,
            Err(refused) => return refused,
        };
        if offset < size {
            return Found::Run((size - offset) as u64, place.map(|place| (place + offset) as u64));
        }
        (at, lcn, offset) = (next, to, offset - size);
    }
    Found::Over
}

/// xorshift64*, so that every run of the tests is the same.
pub struct Random(pub u64);

impl Random {
    pub fn word(&mut self) -> u64 {
        self.0 ^= self.0 >> 12;
        self.0 ^= self.0 << 25;
        self.0 ^= self.0 >> 27;
        self.0.wrapping_mul(0x2545_f491_4f6c_dd1d)
    }

    pub fn below(&mut self, n: u64) -> u64 {
        (self.word() >> 11) % n
    }

    /// A list of up to five runs, small ones and now and then a huge one; one list in three is damaged or simply noise.
    pub fn list(&mut self) -> Vec<u8> {
        let mut list = Vec::new();
        for _ in 0..self.below(6) {
            match self.below(12) {
                0..=4 => list.extend([0x11, 1 + self.below(4) as u8, self.below(100) as u8]),
                5..=6 => list.extend([0x11, 1 + self.below(4) as u8, self.below(20).wrapping_neg() as u8]),
                7..=8 => list.extend([0x01, 1 + self.below(4) as u8]),
                9 => list.extend([0x21, 1 + self.below(4) as u8, self.below(256) as u8, self.below(256) as u8]),
                10 => list.extend([0x17, 0xff, 0xff, 0xff, 0xff, 0xff, 0xff, 0x7f - self.below(2) as u8, self.below(3) as u8]),
                _ => list.extend([0x81, 1, 0, 0, 0, 0, 0, 0, 0x7f + self.below(2) as u8, self.below(2) as u8]),
            }
        }
        match self.below(6) {
            0 => list.truncate(self.below(1 + list.len() as u64) as usize),
            1 => (0..self.below(8)).for_each(|_| list.push(self.word() as u8)),
            2 => (),
            _ => list.push(0),
        }
        list
    }
}
