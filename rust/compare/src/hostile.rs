//! Calls that nobody should make, straight through the C functions: any lengths, words, lists, records, sectors and readers. Each is held
//! to what archthimble.h promises of every call, whatever was lent; the Rust has no part in it.
use std::collections::BTreeMap;

use crate::functions::{Fills, Function, Number, Part, FUNCTIONS};
use crate::generate::CLUSTERS;
use crate::lend::Lent;
use crate::port;
use crate::random::Random;
use crate::raw::{OUT, READER};
use crate::report::{listed, Outcome, Report};
use crate::slip;

/// What a call answers where a store is too short: ARCHTHIMBLE_SHORT in the header.
const SHORT: u64 = 255;

/// A call: what was lent, what is left of it, and the number.
struct Call {
    f: Function,
    before: Lent,
    after: Lent,
    number: u64,
}

impl Call {
    fn make(random: &mut Random) -> Self {
        let f = random.pick(&FUNCTIONS);
        let before = Lent::new(random, &f);
        let mut after = before.clone();
        let number = f.call(&mut after);
        slip::after_call(port::slip(), number, &mut after.reader, &mut after.out);
        Call { f, before, after, number }
    }

    fn lends(&self, part: Part) -> bool {
        self.f.lends.contains(&part)
    }

    fn accepted(&self) -> bool {
        self.number == 0
    }

    /// Whether it was accepted and may then change the part.
    fn may_change(&self, part: Part) -> bool {
        self.accepted() && self.f.changes.contains(&part)
    }

    /// The first promise that it broke.
    fn broken(&self) -> Option<&'static str> {
        let short = self.before.out.len() < OUT || (self.lends(Part::Reader) && self.before.reader.len() < READER);
        if short || self.number == SHORT {
            let held = short && self.number == SHORT && self.after == self.before;
            return (!held).then_some("where a store is too short, and only there, the number is 255 and nothing changes");
        }
        let promises = [
            ("the number is 0 or a refusal of this call's", self.accepted() || self.f.refuses.iter().any(|r| r.contains(&self.number))),
            ("21 is given where something is unsound, and only there", (self.number == 21) == self.unsound()),
            ("out has the words or the values that are named, and 0 behind them; a header's place lies in the list", self.told()),
            ("words of out behind the eighth stay", self.after.out[OUT..] == self.before.out[OUT..]),
            ("only a repair changes bytes, and only the ends of the sectors that it repairs", self.bytes_held()),
            ("only an accepted call changes a reader, to a sound and tidy one; words behind the sixteenth stay", self.reader_held()),
            ("only an accepted read changes the store, to spans that add up to at most w; the rest stays", self.store_held()),
        ];
        promises.into_iter().find(|(_, held)| !held).map(|(promise, _)| promise)
    }

    /// By the table: a cluster size, a cursor, or a reader of which one of the rules doesn't hold. A reader to open is not looked at.
    fn unsound(&self) -> bool {
        let Lent { bytes, reader, .. } = &self.before;
        let end = bytes.len() as u64;
        match self.f.number(Number::Cluster, &self.before) {
            Some(cluster) => !sound_cluster(cluster) || self.f.number(Number::Cursor, &self.before).is_some_and(|at| at > end),
            None => self.lends(Part::Reader) && !sound(reader, self.lends(Part::List).then_some(end)),
        }
    }

    fn told(&self) -> bool {
        let out = &self.after.out;
        let used = match (self.number, self.f.fills) {
            (0, Fills::Words(n)) => n,
            (0, Fills::Tagged(most, _)) if out[0] > most => return false,
            (0, Fills::Tagged(_, n)) if out[0] == 1 => n,
            (0, Fills::Tagged(..)) => 1,
            (n, _) => port::VALUES.get(n as usize).copied().unwrap_or(0),
        };
        let in_list = !(13..=19).contains(&self.number) || out[0] < self.before.bytes.len() as u64;
        in_list && out[used..OUT].iter().all(|w| *w == 0)
    }

    /// A torn sector, 12, leaves those before it repaired.
    fn bytes_held(&self) -> bool {
        let sectors = match self.number {
            12 => self.after.out[0],
            _ if self.may_change(Part::Record) => u64::MAX,
            _ => 0,
        };
        let may_change = |at: usize| at % 512 >= 510 && (at as u64 / 512) < sectors;
        let mut both = self.before.bytes.iter().zip(&self.after.bytes).enumerate();
        both.all(|(at, (before, after))| before == after || may_change(at))
    }

    fn reader_held(&self) -> bool {
        let (before, after) = (&self.before.reader, &self.after.reader);
        if !self.may_change(Part::Reader) {
            return before == after;
        }
        let Some((words, behind)) = after.split_first_chunk::<READER>() else { return false };
        port::tidy(words) && sound(words, Some(self.before.bytes.len() as u64)) && *behind == before[READER..]
    }

    fn store_held(&self) -> bool {
        let (before, after) = (&self.before.store, &self.after.store);
        if !self.may_change(Part::Store) {
            return before == after;
        }
        let (count, bytes, w) = (self.after.out[0], self.after.out[1], self.before.numbers[0]);
        let Some(spans) = port::spans(after, count, bytes) else { return false };
        let used = 3 * spans.len();
        bytes <= w && before[used..] == after[used..]
    }

    fn judge(&self, report: &mut Report, n: u64) -> Outcome {
        report.called(match self.number {
            0 => "accepted",
            SHORT => "too short (255)",
            _ => "refused",
        });
        let Some(promise) = self.broken() else { return Ok(()) };
        let Call { f, before, after, number } = self;
        let input = format!("hostile call {n}: {:?} with {before:?}", f.name);
        let what = format!("answered {number} and left {after:?}\n  broken: {promise}");
        Err(report.fail(&input, &what))
    }
}

fn sound_cluster(cluster: u64) -> bool {
    CLUSTERS.iter().any(|c| *c as u64 == cluster)
}

/// Whether a reader is sound, over a list of `end` bytes if there is one.
fn sound(reader: &[u64], end: Option<u64>) -> bool {
    let [cluster, cursor, _, kind, size, place, displacement] = reader[..7] else { return false };
    let run = match kind {
        0 => displacement == 0,
        1 => displacement <= size && place.checked_add(size).is_some(),
        _ => displacement <= size,
    };
    run && sound_cluster(cluster) && end.is_none_or(|end| cursor <= end)
}

pub fn all(report: &mut Report, calls: u64) -> Outcome {
    let mut random = Random::new(report.seed);
    let mut numbers = BTreeMap::new();
    let (mut on_readers, mut accepted) = (0, 0);
    for n in 0..calls {
        let call = Call::make(&mut random);
        call.judge(report, n)?;
        *numbers.entry(call.number).or_default() += 1;
        if call.lends(Part::Reader) {
            on_readers += 1;
            accepted += call.accepted() as u64;
        }
    }
    println!("hostile: answers by number: {}", listed(&numbers));
    println!("hostile: of {on_readers} calls on a reader {accepted} were accepted");
    Ok(())
}
