//! C1 to C16 of the scope of work, by name: what the paper says, the port and the Rust.
use crate::answer::Answer;
use crate::domain::Verdict;
use crate::lists;
use crate::pair::{Judged, Pair};
use crate::port::By;
use crate::report::{Failure, Outcome, Report};
use oracle::api::Volume;
use std::fmt::Debug;

const B: [u8; 12] = [0x11, 0x02, 0x0a, 0x11, 0x01, 0xfe, 0x01, 0x03, 0x11, 0x02, 0x05, 0x00];
const SIZE: u64 = 4000;
/// Room enough for any list here.
const AMPLE: usize = 30;

/// What became of a call: the verdict, and whether the two gave the same answer.
type Judgement = (Verdict, bool);

/// Prints a case's line; what the paper says must be what was seen.
fn check<T: PartialEq + Debug>(report: &mut Report, name: &str, paper: T, seen: T, judgement: Judgement) -> Outcome {
    if paper != seen {
        return Err(report.fail(name, &format!("by the paper {paper:?}\n  seen: {seen:?}")));
    }
    let how = match judgement {
        (Verdict::Apart(entry), false) => format!("the port as the paper says, the Rust otherwise ({entry})"),
        (Verdict::Apart(entry), true) => format!("port and Rust as the paper says; what the Rust leaves behind differs ({entry})"),
        _ => "port and Rust as the paper says".to_string(),
    };
    println!("{name}: {how}");
    Ok(())
}

fn judgement(judged: &Judged) -> Judgement {
    (judged.verdict, judged.port.answer == judged.rust.answer)
}

/// The runs of a list as (size, position or 0, kind), or the refusal that ends it.
fn runs(report: &mut Report, name: &str, list: &[u8], cluster: u32, paper: &[(u64, u64, u64)], refusal: Option<u64>) -> Outcome {
    let mut seen = Vec::new();
    let mut ended = (None, (Verdict::Same, true));
    lists::decode(report, list, cluster, |step| {
        match &step.port {
            Answer::Accepted(w) if w[0] == 1 => seen.push((w[1], w[2], w[3])),
            other => ended = (other.number(), (step.verdict, step.rust.answer == *other)),
        };
    })?;
    check(report, name, (paper.to_vec(), refusal), (seen, ended.0), ended.1)
}

fn open<'a>(report: &mut Report, volume: &'a Volume, list: &'a [u8]) -> Result<Pair<'a>, Failure> {
    let (_, pair) = Pair::open(report, volume, list, 512, SIZE)?;
    pair.ok_or_else(|| report.fail("open", "refused"))
}

fn spans(judged: &Judged) -> (Option<u64>, Vec<u64>) {
    match &judged.port.answer {
        Answer::Accepted(words) => (None, words.clone()),
        other => (other.number(), vec![]),
    }
}

fn place(judged: &Judged) -> u64 {
    judged.port.left.map_or(0, |stand| stand.place)
}

fn position(pair: &Pair) -> Answer {
    pair.port.data_position()
}

fn readers(report: &mut Report) -> Outcome {
    let volume = Volume::new(512);
    let mut pair = open(report, &volume, &B)?;
    pair.seek(report, 0, By::Unsigned(900))?;
    let read = pair.read(report, 1000, 9)?;
    let paper = ((None, vec![6020, 124, 1, 4096, 512, 1, 0, 364, 0]), 1900);
    check(report, "C4", paper, (spans(&read), place(&read)), judgement(&read))?;

    let mut pair = open(report, &volume, &B)?;
    pair.seek(report, 0, By::Unsigned(3900))?;
    let read = pair.read(report, 500, AMPLE)?;
    check(report, "C5", (None, vec![7484, 100, 1]), spans(&read), judgement(&read))?;

    let mut pair = open(report, &volume, &B)?;
    let read = pair.read(report, 1024, AMPLE)?;
    check(report, "C6, read", Answer::Accepted(vec![1, 6144]), position(&pair), judgement(&read))?;
    let mut pair = open(report, &volume, &B)?;
    let sought = pair.seek(report, 0, By::Unsigned(1024))?;
    check(report, "C6, seek", Answer::Accepted(vec![1, 4096]), position(&pair), judgement(&sought))?;

    let list = [0x11, 0x01, 0x0a, 0x09];
    let mut pair = open(report, &volume, &list)?;
    let read = pair.read(report, 600, AMPLE)?;
    check(report, "C15, first read", (None, vec![5120, 512, 1]), spans(&read), judgement(&read))?;
    let read = pair.read(report, 600, AMPLE)?;
    check(report, "C15, next read", (Some(13), vec![]), spans(&read), judgement(&read))?;
    let mut pair = open(report, &volume, &list)?;
    let sought = pair.seek(report, 0, By::Unsigned(512))?;
    check(report, "C15, seek", Some(13), sought.port.answer.number(), judgement(&sought))?;

    let mut pair = open(report, &volume, &B)?;
    let sought = pair.seek(report, 2, By::Signed(i64::MIN))?;
    check(report, "C16", Some(20), sought.port.answer.number(), judgement(&sought))
}

pub fn all(report: &mut Report) -> Outcome {
    let c12 = [0x71, 0x01, 0xff, 0xff, 0xff, 0xff, 0xff, 0xff, 0x7f];
    let c13 = [0x81, 0x01, 0, 0, 0, 0, 0, 0, 0x80, 0];
    let c14 = [0x18, 255, 255, 255, 255, 255, 255, 255, 255];
    runs(report, "C1", &[0x21, 0x18, 0x34, 0x56, 0], 4096, &[(98_304, 90_390_528, 1)], None)?;
    runs(report, "C2", &[0x11, 0x01, 0x00], 512, &[(512, 0, 0)], None)?;
    runs(report, "C3", &B, 512, &[(1024, 5120, 1), (512, 4096, 1), (1536, 0, 0), (1024, 6656, 1)], None)?;
    readers(report)?;
    runs(report, "C7", &[0x11, 0x01, 0x80], 512, &[], Some(17))?;
    runs(report, "C8", &[0x21, 0x18, 0x34], 512, &[], Some(14))?;
    runs(report, "C9", &[0x09], 512, &[], Some(13))?;
    runs(report, "C10", &[0x90], 512, &[], Some(15))?;
    runs(report, "C11", &[0x91, 0x01], 512, &[], Some(13))?;
    runs(report, "C12", &c12, 512, &[], Some(19))?;
    runs(report, "C13", &c13, 512, &[], Some(18))?;
    runs(report, "C14", &c14, 512, &[], Some(16))
}
