//! Random histories of calls, and lookups, over random lists.
use std::time::{Duration, Instant};

use crate::answer::{hex, Answer, Side};
use crate::domain::{Call, Verdict};
use crate::generate;
use crate::lists;
use crate::pair::{Judged, Pair, BUFFER};
use crate::port::{self, By};
use crate::random::Random;
use crate::report::{Failure, Outcome, Report};
use oracle::api::{self, Volume};
use std::io::SeekFrom;

/// What a history is told to do, as the replay names it.
#[derive(Clone, Copy, Debug)]
pub enum Told {
    Open,
    Seek(u64, By),
    Read(u64, u64),
}

/// Which stores a history's reads are given.
#[derive(Clone, Copy, PartialEq)]
pub enum Rooms {
    Any,
    /// Room for every run, so that the Rust can be asked for the very same w.
    Ample,
}

/// Where runs start and end, as far as the list decodes.
pub fn edges(volume: &Volume, list: &[u8]) -> Vec<u64> {
    let mut runs = volume.runs(list);
    let mut edges = vec![0u64];
    while let api::Answer::Accepted(Some(run)) = runs.step() {
        edges.push(edges[edges.len() - 1].saturating_add(run.size));
    }
    edges
}

fn data_size(random: &mut Random, edges: &[u64]) -> u64 {
    let covered = edges[edges.len() - 1];
    match random.below(8) {
        0 => random.pick(&[0, 1, 4000, u64::MAX]),
        1 => covered.saturating_add(random.below(3000)),
        2 => random.pick(edges),
        3 => random.below(covered.saturating_add(1).max(1)),
        _ => covered.saturating_sub(random.below(700)),
    }
}

/// An offset near an edge, or anywhere.
pub fn offset(random: &mut Random, edges: &[u64], size: u64) -> u64 {
    let edge = if random.one_in(4) { size } else { random.pick(edges) };
    match random.below(8) {
        0 => random.word() >> random.below(64),
        1 => random.pick(&[0, i64::MAX as u64, 1 << 63, u64::MAX]),
        2 => edge,
        3 => edge.wrapping_sub(1),
        4 => edge.wrapping_add(1),
        5 => edge.saturating_sub(random.below(600)),
        _ => edge.saturating_add(random.below(1500)),
    }
}

fn seek(random: &mut Random, edges: &[u64], place: u64, size: u64) -> Told {
    let from = random.pick(&[0, 0, 1, 1, 2, 3, u64::MAX]);
    if random.one_in(12) {
        let signed = random.pick(&[i64::MIN, i64::MIN + 1, i64::MAX, -1, 0, 1]);
        return Told::Seek(from, if random.one_in(2) { By::Signed(signed) } else { By::Unsigned(signed as u64) });
    }
    let target = if random.one_in(10) { place } else { offset(random, edges, size) };
    let base = [0, place, size][from.min(2) as usize];
    let by = target as i128 - base as i128;
    match (i64::try_from(by), u64::try_from(by)) {
        (Ok(signed), Ok(unsigned)) => Told::Seek(from, if random.one_in(2) { By::Signed(signed) } else { By::Unsigned(unsigned) }),
        (Ok(signed), _) => Told::Seek(from, By::Signed(signed)),
        (_, Ok(unsigned)) => Told::Seek(from, By::Unsigned(unsigned)),
        _ => Told::Seek(0, By::Unsigned(target)),
    }
}

/// A length to read and a store; a length that would need too long a buffer is cut down.
fn read(random: &mut Random, pair: &Pair, edges: &[u64], size: u64, rooms: Rooms) -> Told {
    let place = pair.port.stand().place;
    let w = match random.below(8) {
        0 => random.pick(&[0, 1, u64::MAX, 1 << 63]),
        1 | 2 => offset(random, edges, size).saturating_sub(place),
        3 => random.below(40_000),
        _ => random.below(2_500),
    };
    let ample = 3 * (pair.list.len() as u64 / 2 + 1);
    let short = rooms == Rooms::Any && random.one_in(2);
    let store = if short { random.below(13) } else { ample + random.below(3) };
    if rooms == Rooms::Ample {
        return Told::Read(w % 40_000, store);
    }
    let bytes = pair.port.clone().read(pair.list, w, store as usize).bytes;
    Told::Read(if bytes > BUFFER { w % 40_000 } else { w }, store)
}

pub fn lookup(report: &mut Report, volume: &Volume, list: &[u8], cluster: u32, offset: u64) -> Result<(Verdict, Answer), Failure> {
    let port = Side { answer: port::lookup(list, cluster as u64, offset), left: () };
    let rust = match volume.open(list, u64::MAX) {
        api::Answer::Accepted(mut stream) => {
            let answer = stream.seek(SeekFrom::Start(offset));
            let stand = stream.stand();
            Answer::of_rust(answer, stand.cursor, |_| match stand.run {
                None => vec![0, 0],
                Some(run) if run.position.is_none() => vec![2, 0],
                _ => vec![1, stream.data_position().unwrap_or(0)],
            })
        }
        other => Answer::of_rust(other, 0, |_| vec![]),
    };
    let rust = Side { answer: rust, left: () };
    let input = || format!("lookup of {offset} in list {}, cluster size {cluster}", hex(list));
    let past = lists::rightly_19(&port.answer, volume, list);
    let verdict = report.judge(Call::Lookup { past }, &(), &port, &rust, input)?;
    Ok((verdict, rust.answer))
}

/// One history of 1 to 30 calls. `each` sees every call with what came of it and says whether to go on.
pub fn one(report: &mut Report, random: &mut Random, rooms: Rooms, mut each: impl FnMut(Told, &Judged, &Pair) -> bool) -> Outcome {
    let cluster = generate::cluster(random);
    let list = generate::list(random, cluster);
    let volume = Volume::new(cluster);
    let edges = edges(&volume, &list);
    let size = data_size(random, &edges);
    for _ in 0..random.below(4) {
        let offset = offset(random, &edges, size);
        lookup(report, &volume, &list, cluster, offset)?;
    }
    let (opened, pair) = Pair::open(report, &volume, &list, cluster, size)?;
    let Some(mut pair) = pair else { return Ok(()) };
    if !each(Told::Open, &opened, &pair) {
        return Ok(());
    }
    for _ in 0..1 + random.below(30) {
        let place = pair.port.stand().place;
        let told = if random.one_in(2) { seek(random, &edges, place, size) } else { read(random, &pair, &edges, size, rooms) };
        let judged = match told {
            Told::Seek(from, by) => pair.seek(report, from, by)?,
            Told::Read(w, store) => pair.read(report, w, store as usize)?,
            Told::Open => continue,
        };
        if !each(told, &judged, &pair) {
            return Ok(());
        }
    }
    Ok(())
}

/// How long to go on.
#[derive(Clone, Copy)]
pub enum Until {
    Count(u64),
    Seconds(u64),
}

/// Lookups around the longest list that the port looks up in: holes of one cluster each.
fn long_lists(report: &mut Report) -> Outcome {
    let volume = Volume::new(512);
    for length in 4_094..4_100 {
        let list: Vec<u8> = [0x01, 0x01].into_iter().cycle().take(length).collect();
        for offset in [0, 1_000_000, 1_048_063, 1_048_064, 1_048_575, 1_048_576, u64::MAX] {
            lookup(report, &volume, &list, 512, offset)?;
        }
    }
    Ok(())
}

pub fn all(report: &mut Report, until: Until) -> Outcome {
    long_lists(report)?;
    let mut random = Random::new(report.seed);
    let start = Instant::now();
    let mut done = 0;
    let on = |done: u64| match until {
        Until::Count(n) => done < n,
        Until::Seconds(n) => start.elapsed() < Duration::from_secs(n),
    };
    while on(done) {
        one(report, &mut random, Rooms::Any, |_, _, _| true)?;
        done += 1;
    }
    println!("histories: {done} histories");
    Ok(())
}
