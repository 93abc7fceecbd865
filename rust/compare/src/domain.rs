//! The domain of the comparison.
use crate::answer::{Answer, Side};
use oracle::api::Stand;

/// What was called, with what the rule below needs to know of it.
#[derive(Clone, Copy, Debug)]
pub enum Call {
    /// LCN plus delta, boot sector, data position: nothing is left behind.
    Plain,
    LcnPosition {
        lcn: u64,
    },
    Repair {
        length: usize,
    },
    /// One run; left behind are cursor and LCN. `past`, here and below: by the Rust too, the run that the port refuses with 19 ends past
    /// 2^64 - 1.
    Step {
        past: bool,
    },
    Lookup {
        past: bool,
    },
    Open {
        past: bool,
    },
    /// `spoken`: the Rust has a call for it.
    Seek {
        spoken: bool,
        past: bool,
    },
    /// `w` as the Rust was given it; `next` is the refusal that the port's next read gives, if this one gave less than w.
    Read {
        w: u64,
        next: Option<u64>,
        past: bool,
    },
}

#[derive(Clone, Copy, Debug, PartialEq)]
pub enum Verdict {
    Same,
    /// Not comparable; the entry of docs/DIFFERENCES.md.
    Apart(&'static str),
    Failed,
}

/// What a call can leave behind, as the rule looks at it.
pub trait Left: PartialEq {
    fn stand(&self) -> Option<Stand> {
        None
    }
    /// The same but for the LCN.
    fn but_lcn(&self, _other: &Self) -> bool {
        false
    }
}

impl Left for () {}
impl Left for Vec<u8> {}

/// Cursor and LCN of a decoder.
impl Left for (u64, u64) {
    fn but_lcn(&self, other: &Self) -> bool {
        self.0 == other.0
    }
}

impl Left for Option<Stand> {
    fn stand(&self) -> Option<Stand> {
        *self
    }
    fn but_lcn(&self, other: &Self) -> bool {
        matches!((self, other), (Some(a), Some(b)) if Stand { lcn: b.lcn, ..*a } == *b)
    }
}

/// THE RULE. Both sides got the same input, and started from `before`. They must give the same answer and leave the same behind, except:
///
/// - D1: a record under 8 bytes. The Rust panics, or refuses by the bytes it can still reach.
/// - D2: a record of 65,536 bytes or more on which the Rust panics: its sum in 16 bits.
/// - D3: the port refuses with 8 (a longer record than 4,096 bytes), 21 (a cluster size out of bounds), 22, or 19 where by the Rust too the
///   run ends past 2^64 - 1; or its read stops before such a run.
/// - D4: the port's read gave bytes and stops before a refused run, and the Rust's is refused with just that run's refusal.
/// - D5: both refuse with 18; the Rust has moved its previous LCN, and nothing else.
/// - D6: both refuse a seek alike; the Rust's reader has moved.
/// - D7: both read the same, up to the data's end and short of w; the Rust has gone on to a later run.
/// - D10: the position of LCN 0.
/// - D11: as D7, but the Rust meets a refused run on its way and is refused; the port gives what it read.
/// - D12: a boot sector under 512 bytes: what the Rust says is up to the stand-in for its parser.
/// - D13: a seek that the Rust has no call for (a negative number from the start, more than i64 from place or end) and whose target
///   doesn't fit either: the port refuses with 20. (Where the target fits, the Rust is asked for it from the start.)
///
/// Whatever the Rust does, a refusal of the port's other than 12 leaves record and reader as they were.
pub fn verdict<L: Left>(call: Call, before: &L, port: &Side<L>, rust: &Side<L>) -> Verdict {
    let changed = port.left != *before && port.answer.number().is_some_and(|n| n != 12);
    if changed {
        return Verdict::Failed;
    }
    if let Some(entry) = outside(call, port, rust) {
        return Verdict::Apart(entry);
    }
    if port == rust {
        return Verdict::Same;
    }
    match moved(call, port, rust) {
        Some(entry) => Verdict::Apart(entry),
        None => Verdict::Failed,
    }
}

/// Inputs that aren't compared, whatever the answers.
fn outside<L: Left>(call: Call, port: &Side<L>, rust: &Side<L>) -> Option<&'static str> {
    let number = port.answer.number();
    match (call, number) {
        (Call::Repair { length: 0..=7 }, Some(8)) => Some("D1"),
        (Call::Repair { length: 65_536.. }, Some(8)) if rust.answer == Answer::Panicked => Some("D2"),
        (Call::Repair { length: 4_097.. }, Some(8)) => Some("D3"),
        (Call::Step { past: true } | Call::Lookup { past: true } | Call::Open { past: true }, Some(19)) => Some("D3"),
        (Call::Seek { past: true, .. } | Call::Read { past: true, .. }, Some(19)) => Some("D3"),
        (Call::Read { next: Some(19), past: true, .. }, None) => Some("D3"),
        (Call::Step { .. } | Call::Open { .. }, Some(21)) | (Call::Lookup { .. }, Some(21 | 22)) => Some("D3"),
        (Call::LcnPosition { lcn: 0 }, None) => Some("D10"),
        (Call::Plain, Some(1)) => Some("D12"),
        (Call::Seek { spoken: false, .. }, Some(20)) => Some("D13"),
        _ => None,
    }
}

/// Answers that differ in a way that has an entry, with the port's side of it checked.
fn moved<L: Left>(call: Call, port: &Side<L>, rust: &Side<L>) -> Option<&'static str> {
    if port.answer == rust.answer && port.answer.number().is_some() {
        return match call {
            _ if port.answer.number() == Some(18) && port.left.but_lcn(&rust.left) => Some("D5"),
            Call::Seek { .. } => Some("D6"),
            _ => None,
        };
    }
    let (Call::Read { w, next, .. }, Some(stand)) = (call, port.left.stand()) else { return None };
    let Answer::Accepted(words) = &port.answer else { return None };
    let bytes: u64 = words.chunks_exact(3).map(|span| span[1]).sum();
    let at_the_end = stand.place >= stand.size && bytes < w;
    let refused = rust.answer.number();
    let same_place = rust.left.stand().is_some_and(|r| r.place == stand.place && r.size == stand.size);
    match refused {
        Some(13..=18) if at_the_end => Some("D11"),
        Some(13..=18) if bytes > 0 && refused == next => Some("D4"),
        None if at_the_end && same_place && port.answer == rust.answer => Some("D7"),
        _ => None,
    }
}
