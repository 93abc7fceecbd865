//! Counts, and what is printed of a failure.
use std::collections::BTreeMap;
use std::fmt::{Debug, Display};

use crate::answer::Side;
use crate::domain::{verdict, Call, Left, Verdict};

pub struct Report {
    pub kind: &'static str,
    pub seed: u64,
    compared: u64,
    apart: BTreeMap<&'static str, u64>,
    /// Calls that are compared with nothing, by what came of them.
    called: BTreeMap<&'static str, u64>,
    failed: u64,
}

/// A failure ends its kind; it has been printed.
pub struct Failure;
pub type Outcome = Result<(), Failure>;

impl Report {
    pub fn new(kind: &'static str, seed: u64) -> Self {
        Report { kind, seed, compared: 0, apart: BTreeMap::new(), called: BTreeMap::new(), failed: 0 }
    }

    /// Judges one call; `input` is only asked for what to print.
    pub fn judge<L: Left + Debug>(
        &mut self,
        call: Call,
        before: &L,
        port: &Side<L>,
        rust: &Side<L>,
        input: impl FnOnce() -> String,
    ) -> Result<Verdict, Failure> {
        let verdict = verdict(call, before, port, rust);
        match verdict {
            Verdict::Same => self.compared += 1,
            Verdict::Apart(entry) => *self.apart.entry(entry).or_default() += 1,
            Verdict::Failed => return Err(self.fail(&input(), &format!("{call:?}\n  port: {port:?}\n  Rust: {rust:?}"))),
        }
        Ok(verdict)
    }

    pub fn fail(&mut self, input: &str, what: &str) -> Failure {
        self.failed += 1;
        println!("DIFFERENT in {} (seed {})\n  input: {input}\n  call: {what}", self.kind, self.seed);
        Failure
    }

    pub fn called(&mut self, came: &'static str) {
        *self.called.entry(came).or_default() += 1;
    }

    pub fn line(&self) -> String {
        let Report { kind, compared, failed, .. } = self;
        if !self.called.is_empty() {
            let calls: u64 = self.called.values().sum();
            return format!("{kind}: {calls} called, {}; {failed} failed", listed(&self.called));
        }
        let apart = if self.apart.is_empty() { "none".into() } else { listed(&self.apart) };
        format!("{kind}: {compared} compared, excluded: {apart}; {failed} failed")
    }
}

/// Names with their counts.
pub fn listed<N: Display>(counts: &BTreeMap<N, u64>) -> String {
    let counts: Vec<String> = counts.iter().map(|(name, n)| format!("{name} {n}")).collect();
    counts.join(", ")
}
