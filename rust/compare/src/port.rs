//! The port's C interface, made safe, with the planted slips.
use std::sync::OnceLock;

use crate::answer::Answer;
use crate::raw::*;
use crate::slip::{self, Slip};
use oracle::api::{Run, Span, Stand};

pub static SLIP: OnceLock<Slip> = OnceLock::new();

/// Behind the words of `out` stands one that must keep its value.
const MARK: u64 = 0xa5a5_a5a5_a5a5_a5a5;

/// How many values each refusal has, by its number.
pub const VALUES: [usize; 23] = [0, 0, 2, 1, 1, 1, 0, 2, 1, 1, 0, 1, 3, 1, 1, 1, 1, 2, 1, 1, 0, 0, 0];

/// Makes a call with a marked `out` and reads its answer, of which the first `words` count. Words that must be 0 or kept and aren't are
/// an answer that nothing else equals.
fn told(words: usize, call: impl FnOnce(*mut u64, usize) -> u64) -> Answer {
    let mut out = [MARK; OUT + 1];
    let number = call(out.as_mut_ptr(), out.len());
    let used = if number == 0 { words } else { VALUES.get(number as usize).copied().unwrap_or(0) };
    if out[OUT] != MARK || out[used..OUT].iter().any(|w| *w != 0) {
        return Answer::Refused(1000 + number, vec![]);
    }
    match number {
        0 => Answer::Accepted(out[..used].to_vec()),
        n => Answer::Refused(n, out[..used].to_vec()),
    }
}

pub fn slip() -> Slip {
    SLIP.get().copied().unwrap_or(Slip::None)
}

pub fn lcn_plus(lcn: u64, delta: i64) -> Answer {
    // SAFETY: `out` is good for the length beside it.
    told(2, |out, n| unsafe { archthimble_lcn_plus(lcn, delta, out, n) })
}

pub fn lcn_position(lcn: u64, cluster: u64) -> Answer {
    // SAFETY: as above.
    told(2, |out, n| unsafe { archthimble_lcn_position(lcn, cluster, out, n) })
}

pub fn geometry(sector: &[u8]) -> Answer {
    let sector = &slip::sector(slip(), sector)[..];
    // SAFETY: both pointers are good for the lengths beside them, and so in all calls below.
    told(8, |out, n| unsafe { archthimble_geometry(sector.as_ptr(), sector.len(), out, n) })
}

pub fn repair(record: &mut [u8]) -> Answer {
    let kept = slip::before_repair(slip(), record);
    // SAFETY: see `geometry`; the record is lent for writing.
    let answer = told(0, |out, n| unsafe { archthimble_repair(record.as_mut_ptr(), record.len(), out, n) });
    slip::after_repair(record, kept);
    answer
}

pub fn next_run(list: &[u8], cluster: u64, at: u64, lcn: u64) -> Answer {
    // SAFETY: see `geometry`.
    let answer = told(6, |out, n| unsafe { archthimble_next_run(list.as_ptr(), list.len(), cluster, at, lcn, out, n) });
    slip::run(slip(), answer, list, cluster, at)
}

pub fn lookup(list: &[u8], cluster: u64, offset: u64) -> Answer {
    let offset = slip::offset(slip(), offset);
    // SAFETY: see `geometry`.
    told(2, |out, n| unsafe { archthimble_lookup(list.as_ptr(), list.len(), cluster, offset, out, n) })
}

#[derive(Clone, Copy, Debug, PartialEq)]
pub enum By {
    Unsigned(u64),
    Signed(i64),
}

/// What a read of the port gave.
pub struct Given {
    pub answer: Answer,
    pub spans: Vec<Span>,
    pub bytes: u64,
}

/// The words of a reader.
#[derive(Clone, Debug, PartialEq)]
pub struct Reader(pub [u64; READER]);

impl Reader {
    pub fn open(list: &[u8], cluster: u64, size: u64) -> (Answer, Reader) {
        let mut r = [MARK; READER];
        let answer = told(0, |out, n| {
            // SAFETY: see `geometry`; the reader is good for its length.
            unsafe { archthimble_open(list.as_ptr(), list.len(), cluster, size, r.as_mut_ptr(), READER, out, n) }
        });
        let kept = answer.is_accepted() || r == [MARK; READER];
        let opened = Reader(r);
        (opened.checked(if kept { answer } else { Answer::Refused(1000, vec![]) }), opened)
    }

    /// An accepted call must leave a tidy reader; if it doesn't, the answer becomes one of no number.
    fn checked(&self, answer: Answer) -> Answer {
        if answer.is_accepted() && !tidy(&self.0) {
            Answer::Refused(1000, vec![])
        } else {
            answer
        }
    }

    pub fn seek(&mut self, list: &[u8], from: u64, by: By) -> Answer {
        slip::before_seek(slip(), &mut self.0, from, by);
        let r = self.0.as_mut_ptr();
        let answer = told(0, |out, n| match by {
            // SAFETY: see `open`.
            By::Unsigned(by) => unsafe { archthimble_seek(list.as_ptr(), list.len(), r, READER, from, by, out, n) },
            // SAFETY: see `open`.
            By::Signed(by) => unsafe { archthimble_seek_signed(list.as_ptr(), list.len(), r, READER, from, by, out, n) },
        });
        self.checked(answer)
    }

    /// Reads with a store of `words` words. Words behind the spans that didn't keep their values turn the answer into one of no number.
    pub fn read(&mut self, list: &[u8], w: u64, words: usize) -> Given {
        let mut store = vec![MARK; words];
        let size = slip::before_read(slip(), &mut self.0);
        let r = self.0.as_mut_ptr();
        let mut answer = told(2, |out, n| {
            // SAFETY: see `open`; the store is lent for writing.
            unsafe { archthimble_read(list.as_ptr(), list.len(), r, READER, w, store.as_mut_ptr(), store.len(), out, n) }
        });
        self.0[8] = size;
        let (count, bytes) = match &answer {
            Answer::Accepted(words) => (words[0], words[1]),
            _ => (0, 0),
        };
        let spans = spans(&store, count, bytes);
        let kept = spans.as_ref().is_some_and(|spans| store[3 * spans.len()..].iter().all(|w| *w == MARK));
        if !kept {
            answer = Answer::Refused(1000, vec![]);
        }
        let answer = self.checked(answer);
        Given { answer, spans: spans.unwrap_or_default(), bytes }
    }

    pub fn data_position(&self) -> Answer {
        // SAFETY: see `open`.
        told(2, |out, n| unsafe { archthimble_data_position(self.0.as_ptr(), READER, out, n) })
    }

    pub fn stand(&self) -> Stand {
        let w = &self.0;
        let run = match w[3] {
            0 => None,
            1 => Some(Run { position: Some(w[5]), size: w[4] }),
            _ => Some(Run { position: None, size: w[4] }),
        };
        Stand { cursor: w[1], lcn: w[2], run, displacement: w[6], place: w[7], size: w[8] }
    }
}

/// Whether the words of a reader that say nothing are 0, as the library leaves them.
pub fn tidy(w: &[u64; READER]) -> bool {
    let silent = match w[3] {
        0 => w[4] == 0 && w[5] == 0,
        1 => true,
        kind => kind == 2 && w[5] == 0,
    };
    silent && w[9..].iter().all(|w| *w == 0)
}

/// The first `count` spans of a store, or `None` where it hasn't room for them, one of them is none, or they aren't `bytes` long.
pub fn spans(store: &[u64], count: u64, bytes: u64) -> Option<Vec<Span>> {
    let words = usize::try_from(count).ok()?.checked_mul(3)?;
    let spans: Vec<Span> = store.get(..words)?.chunks_exact(3).map(span).collect::<Option<_>>()?;
    let sum: u128 = spans.iter().map(|s| s.length as u128).sum();
    (sum == bytes as u128).then_some(spans)
}

/// A span of the store, or `None` where it is empty or its kind is none of the two.
fn span(words: &[u64]) -> Option<Span> {
    let position = match words[2] {
        1 => Some(words[0]),
        0 if words[0] == 0 => None,
        _ => return None,
    };
    (words[1] > 0).then_some(Span { position, length: words[1] })
}
