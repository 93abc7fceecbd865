use crate::ffi::Out;
use std::error::Error;
use std::fmt;

/// Name and count of values of each refusal, number 1 first.
const TABLE: [(&str, usize); 22] = [
    ("short boot sector", 0),
    ("boot mark", 2),
    ("sectors per cluster", 1),
    ("sector size", 1),
    ("cluster size", 1),
    ("MFT LCN", 0),
    ("file record size", 2),
    ("record length", 1),
    ("sequence number", 1),
    ("sequence count", 0),
    ("sequence array", 1),
    ("torn record", 3),
    ("run header", 1),
    ("cut run", 1),
    ("empty run", 1),
    ("run size", 1),
    ("run LCN", 2),
    ("run place", 1),
    ("run end", 1),
    ("seek target", 0),
    ("unsound", 0),
    ("list length", 0),
];

/// The one refusal with a value that may be below 0.
const FILE_RECORD_SIZE: u64 = 7;

/// Why a call said no: a number from 1 to 22, its name, and the values that go with it.
///
/// ```
/// use archthimble::lookup;
///
/// // the list ends inside the run whose header is at 0
/// let refusal = lookup(&[0x21, 0x18, 0x34], 512, 0).unwrap_err();
/// assert_eq!((refusal.number(), refusal.name(), refusal.values()), (14, "cut run", &[0][..]));
/// assert_eq!(refusal.to_string(), "refused (14, cut run): the list ends inside the run at 0");
/// ```
#[derive(Clone, Copy, Debug, PartialEq, Eq, Hash)]
pub struct Refusal {
    number: u64,
    /// What the refusal doesn't use is 0, so that refusals which say the same are equal.
    values: [i128; 3],
}

impl Refusal {
    /// The refusal that the library told: its number, and its values in front of `out`.
    ///
    /// # Panics
    /// At a number that the library never gives to this crate: another library was linked, and no answer of it can be trusted.
    pub(crate) fn told(number: u64, out: &Out) -> Refusal {
        assert!((1..=22).contains(&number), "the linked library isn't the one that archthimble.h declares: it answered {number}");
        let mut values = [0; 3];
        for (value, word) in values.iter_mut().zip(out).take(TABLE[number as usize - 1].1) {
            *value = i128::from(*word);
        }
        if number == FILE_RECORD_SIZE {
            // two's complement only here: an LCN may be as large as 2^64 - 1 and must not turn negative
            values[0] = i128::from(out[0] as i64);
        }
        Refusal { number, values }
    }

    /// The number, 1 to 22.
    pub fn number(&self) -> u64 {
        self.number
    }

    /// The name, as in the project's table of refusals.
    pub fn name(&self) -> &'static str {
        self.row().0
    }

    /// The values, in the order of the project's table. They are wide enough for both a file record size's info, which may be below 0, and
    /// an LCN, which may be anything up to 2^64 − 1.
    pub fn values(&self) -> &[i128] {
        &self.values[..self.row().1]
    }

    fn row(&self) -> (&'static str, usize) {
        TABLE[self.number as usize - 1]
    }
}

impl fmt::Display for Refusal {
    fn fmt(&self, f: &mut fmt::Formatter<'_>) -> fmt::Result {
        let [a, b, c] = self.values;
        write!(f, "refused ({}, {}): ", self.number, self.name())?;
        match self.number {
            1 => write!(f, "the boot sector has under 512 bytes"),
            2 => write!(f, "the boot sector ends in {a:02X} {b:02X} where 55 AA must be"),
            3 => write!(f, "the byte for sectors per cluster is {a}, neither a power of two from 1 to 128 nor 244 to 255"),
            4 => write!(f, "the sector size is {a}, not 512, 1024, 2048 or 4096"),
            5 => write!(f, "the cluster size would be {a}, which is not from 512 to 2097152"),
            6 => write!(f, "the MFT would start at LCN 0"),
            7 => write!(f, "the file record size info is {a} at cluster size {b}, neither above 0 nor -10, -11 or -12"),
            8 => write!(f, "the record has {a} bytes, not 8 to 4096"),
            9 => write!(f, "the sequence number at {a} isn't inside the record"),
            10 => write!(f, "the record's sequence count is 0"),
            11 => write!(f, "a sequence count of {a} is too much for the record's length"),
            12 => write!(f, "the record is torn: sector {a} ends in {b:02X} {c:02X}, not in the sequence number"),
            13 => write!(f, "a half of the run header at {a} is over 8"),
            14 => write!(f, "the list ends inside the run at {a}"),
            15 => write!(f, "the run at {a} has no clusters"),
            16 => write!(f, "the size of the run at {a} is over 2^64 - 1"),
            17 => write!(f, "the LCN of the run at {a}, counted from LCN {b}, is below 0 or over 2^64 - 1"),
            18 => write!(f, "the place of the run at {a} is over 2^64 - 1"),
            19 => write!(f, "the end of the run at {a} is over 2^64 - 1"),
            20 => write!(f, "the target of the seek is below 0 or over 2^64 - 1"),
            21 => write!(f, "the cluster size is no power of two from 512 to 2097152, or the reader doesn't fit the list"),
            _ => write!(f, "a list to look up in has over 4096 bytes"),
        }
    }
}

impl Error for Refusal {}

#[cfg(test)]
mod tests {
    use super::*;

    #[test]
    fn values_keep_their_sign() {
        let out = [u64::MAX - 8, u64::MAX, u64::MAX, u64::MAX, 0, 0, 0, 0];
        assert_eq!(Refusal::told(7, &out).values(), [-9, i128::from(u64::MAX)]);
        assert_eq!(Refusal::told(17, &out).values(), [i128::from(u64::MAX - 8), i128::from(u64::MAX)]);
        assert_eq!(Refusal::told(20, &out), Refusal::told(20, &[0; 8]));
    }

    #[test]
    fn every_sentence_is_of_its_own() {
        let sentences: std::collections::HashSet<String> = (1..=22).map(|n| Refusal::told(n, &[1; 8]).to_string()).collect();
        assert_eq!(sentences.len(), 22);
    }

    #[test]
    #[should_panic(expected = "it answered 255")]
    fn another_library_is_no_refusal() {
        Refusal::told(255, &[0; 8]);
    }
}
