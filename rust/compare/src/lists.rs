//! Run lists, decoded to their end: every short one, and random ones.
use crate::answer::{hex, Answer, Side};
use crate::domain::{Call, Verdict};
use crate::generate;
use crate::port;
use crate::random::Random;
use crate::report::{Failure, Outcome, Report};
use oracle::api::{Runs, Volume};

/// One decoding step on both sides, from where the Rust's decoder is.
pub struct Step {
    pub verdict: Verdict,
    pub at: u64,
    pub lcn: u64,
    pub port: Answer,
    pub rust: Side<(u64, u64)>,
}

/// A disk run of the Rust's that ends past 2^64 - 1.
fn past_the_end(answer: &Answer) -> bool {
    matches!(answer, Answer::Accepted(w) if w[0] == 1 && w[3] == 1 && w[1].checked_add(w[2]).is_none())
}

/// Whether an answer is the refusal 19 and rightly so: the run at its cursor ends past 2^64 - 1 as the Rust decodes it.
pub fn rightly_19(answer: &Answer, volume: &Volume, list: &[u8]) -> bool {
    let Answer::Refused(19, values) = answer else { return false };
    let mut runs = volume.runs(list);
    loop {
        let cursor = runs.cursor();
        let Some(Some(run)) = runs.step().accepted() else { return false };
        if values[..] == [cursor] {
            return run.position.is_some_and(|p| p.checked_add(run.size).is_none());
        }
    }
}

pub fn step(report: &mut Report, list: &[u8], cluster: u32, runs: &mut Runs, at: u64, lcn: u64) -> Result<Step, Failure> {
    let answer = port::next_run(list, cluster as u64, at, lcn);
    let left = match &answer {
        Answer::Accepted(w) if w[0] == 1 => (w[4], w[5]),
        Answer::Accepted(_) => (list.len() as u64, lcn),
        _ => (at, lcn),
    };
    let port = Side { answer, left };
    let next = runs.step();
    let left = (runs.cursor(), runs.previous_lcn());
    let answer = Answer::of_rust(next, left.0, |run| match run {
        Some(run) => vec![1, run.size, run.position.unwrap_or(0), run.position.is_some() as u64, left.0, left.1],
        None => vec![0; 6],
    });
    let rust = Side { answer, left };
    let input = || format!("list {}, cluster size {cluster}, at {at} after LCN {lcn}", hex(list));
    let past = port.answer.number() == Some(19) && past_the_end(&rust.answer);
    let verdict = report.judge(Call::Step { past }, &(at, lcn), &port, &rust, input)?;
    Ok(Step { verdict, at, lcn, port: port.answer, rust })
}

/// Decodes to the end, or to the first step after which the two don't stand alike.
pub fn decode(report: &mut Report, list: &[u8], cluster: u32, mut each: impl FnMut(&Step)) -> Outcome {
    let volume = Volume::new(cluster);
    let mut runs = volume.runs(list);
    let (mut at, mut lcn) = (0, 0);
    loop {
        let step = step(report, list, cluster, &mut runs, at, lcn)?;
        each(&step);
        let on = matches!(&step.rust.answer, Answer::Accepted(w) if w[0] == 1) && step.verdict == Verdict::Same;
        if !on {
            return Ok(());
        }
        (at, lcn) = step.rust.left;
    }
}

/// All lists of `length` bytes, one after the other.
fn every(length: usize, mut each: impl FnMut(&[u8]) -> Outcome) -> Outcome {
    let mut list = vec![0u8; length];
    loop {
        each(&list)?;
        let Some(at) = list.iter().position(|b| *b != 255) else { return Ok(()) };
        list[..at].fill(0);
        list[at] += 1;
    }
}

/// Whether the first run is whole. A list where it isn't is over or refused there, as shorter lists show.
fn opens_with_a_run(list: &[u8]) -> bool {
    let (low, high) = (list[0] as usize & 15, list[0] as usize >> 4);
    low > 0 && low + high < list.len()
}

/// All lists of up to 3 bytes, and from 4 on those that open with a run.
pub fn exhaustive(report: &mut Report, length: usize) -> Outcome {
    for cluster in [512, 4096] {
        for n in 0..=length {
            every(n, |list| if n < 4 || opens_with_a_run(list) { decode(report, list, cluster, |_| ()) } else { Ok(()) })?;
        }
    }
    Ok(())
}

/// Bytes that make headers, counts and deltas that matter.
const LETTERS: [u8; 12] = [0x00, 0x01, 0x02, 0x09, 0x10, 0x11, 0x12, 0x21, 0x7f, 0x80, 0x90, 0xff];

/// All lists of up to 6 of twelve letters: those have several runs.
pub fn letters(report: &mut Report) -> Outcome {
    for cluster in [512, 2_097_152] {
        for length in 4..=6 {
            for n in 0..LETTERS.len().pow(length) {
                let list: Vec<u8> = (0..length).map(|i| LETTERS[n / LETTERS.len().pow(i) % LETTERS.len()]).collect();
                decode(report, &list, cluster, |_| ())?;
            }
        }
    }
    Ok(())
}

pub fn random(report: &mut Report, count: u64) -> Outcome {
    let mut random = Random::new(report.seed);
    for _ in 0..count {
        let cluster = generate::cluster(&mut random);
        let list = generate::list(&mut random, cluster);
        decode(report, &list, cluster, |_| ())?;
    }
    Ok(())
}

const LCNS: [u64; 8] = [0, 1, 2, 1 << 32, (1 << 55) - 1, 1 << 55, 1 << 63, u64::MAX];

/// LCN plus delta, and LCN to position, around their limits.
pub fn numbers(report: &mut Report) -> Outcome {
    let mut random = Random::new(report.seed);
    for lcn in LCNS.into_iter().chain((0..2000).map(|_| random.word() >> random.below(64))) {
        for delta in [0, 1, -1, 2, -2, i64::MAX, i64::MIN, i64::MIN + 1, lcn as i64, (lcn as i64).wrapping_neg()] {
            let port = Side { answer: port::lcn_plus(lcn, delta), left: () };
            let rust = oracle::api::lcn_plus(lcn, delta);
            let rust = Side { answer: Answer::of_rust(rust, 0, |l| l.map_or(vec![0, 0], |l| vec![1, l])), left: () };
            report.judge(Call::Plain, &(), &port, &rust, || format!("LCN {lcn} plus {delta}"))?;
        }
        for cluster in generate::CLUSTERS {
            position(report, lcn, cluster)?;
        }
    }
    Ok(())
}

/// The Rust refuses a position that is too big (18); the port's own function answers that there is none.
pub fn position(report: &mut Report, lcn: u64, cluster: u32) -> Result<(Verdict, Answer), Failure> {
    let port = Side { answer: port::lcn_position(lcn, cluster as u64), left: () };
    let rust = Answer::of_rust(oracle::api::lcn_position(lcn, cluster), 0, |p| vec![1, p.unwrap_or(0)]);
    let rust = if rust.number() == Some(18) { Answer::Accepted(vec![0, 0]) } else { rust };
    let rust = Side { answer: rust, left: () };
    let verdict = report.judge(Call::LcnPosition { lcn }, &(), &port, &rust, || format!("LCN {lcn}, cluster size {cluster}"))?;
    Ok((verdict, port.answer))
}
