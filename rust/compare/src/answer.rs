//! What either side answers, in the same terms.
use oracle::api;

#[derive(Clone, Debug, PartialEq)]
pub enum Answer {
    /// The words that archthimble.h names for the call.
    Accepted(Vec<u64>),
    /// The scope's number and its values.
    Refused(u64, Vec<u64>),
    Panicked,
    /// The Rust has no such call.
    NoCall,
}

impl Answer {
    pub fn number(&self) -> Option<u64> {
        match self {
            Answer::Refused(number, _) => Some(*number),
            _ => None,
        }
    }

    pub fn is_accepted(&self) -> bool {
        matches!(self, Answer::Accepted(_))
    }

    /// The Rust's answer. Its errors for 14 and 18 don't say where the refused run is: `cursor`, where its decoder stands, does.
    pub fn of_rust<T>(answer: api::Answer<T>, cursor: u64, words: impl FnOnce(T) -> Vec<u64>) -> Self {
        match answer {
            api::Answer::Accepted(value) => Answer::Accepted(words(value)),
            api::Answer::Refused(api::Refusal { number, values }) => {
                Answer::Refused(number, values.into_iter().map(|v| v.unwrap_or(cursor)).collect())
            }
            api::Answer::Panicked => Answer::Panicked,
        }
    }
}

/// An answer with what the call leaves behind: a record's bytes, a decoder's or a reader's stand.
#[derive(Clone, Debug, PartialEq)]
pub struct Side<L> {
    pub answer: Answer,
    pub left: L,
}

pub fn hex(bytes: &[u8]) -> String {
    let shown: Vec<String> = bytes.iter().map(|b| format!("{b:02X}")).collect();
    shown.join(" ")
}
