//! A reader of the port's and one of the Rust's on the same list, kept in step.
use crate::answer::{hex, Answer, Side};
use crate::domain::{Call, Verdict};
use crate::lists::rightly_19;
use crate::port::{By, Given, Reader};
use crate::report::{Failure, Report};
use oracle::api::{self, Span, Stand, Stream, Volume};
use std::io::SeekFrom;

/// The longest buffer that the Rust is given.
pub const BUFFER: u64 = 1 << 17;

pub struct Pair<'a> {
    pub volume: &'a Volume,
    pub list: &'a [u8],
    pub cluster: u32,
    pub port: Reader,
    pub rust: Stream<'a>,
    /// The calls so far, for a failure's sake.
    pub calls: Vec<String>,
}

/// A call's verdict, with both sides.
pub struct Judged {
    pub verdict: Verdict,
    pub port: Side<Option<Stand>>,
    pub rust: Side<Option<Stand>>,
}

/// Spans as a buffer shows them: neighbouring holes are one.
pub fn joined(spans: &[Span]) -> Vec<Span> {
    let mut all: Vec<Span> = Vec::new();
    for span in spans {
        match all.last_mut() {
            Some(last) if last.position.is_none() && span.position.is_none() => last.length += span.length,
            _ => all.push(*span),
        }
    }
    all
}

pub fn words(spans: &[Span]) -> Vec<u64> {
    spans.iter().flat_map(|s| [s.position.unwrap_or(0), s.length, s.position.is_some() as u64]).collect()
}

fn input(list: &[u8], cluster: u32, size: u64, calls: &[String]) -> String {
    format!("list {}, cluster size {cluster}, data size {size}, calls: {}", hex(list), calls.join("; "))
}

/// The Rust's call for a seek of the port's: its own where it has one, otherwise one from the start to the same target, if that fits.
fn spoken(from: u64, by: By, stand: &Stand) -> Option<SeekFrom> {
    let base = [0, stand.place, stand.size][from.min(2) as usize];
    let by = match by {
        By::Unsigned(n) => n as i128,
        By::Signed(n) => n as i128,
    };
    let start = u64::try_from(base as i128 + by).ok().map(SeekFrom::Start);
    match (from, i64::try_from(by)) {
        (1, Ok(n)) => Some(SeekFrom::Current(n)),
        (2.., Ok(n)) => Some(SeekFrom::End(n)),
        _ => start,
    }
}

impl<'a> Pair<'a> {
    pub fn open(
        report: &mut Report,
        volume: &'a Volume,
        list: &'a [u8],
        cluster: u32,
        size: u64,
    ) -> Result<(Judged, Option<Self>), Failure> {
        let (answer, reader) = Reader::open(list, cluster as u64, size);
        let left = answer.is_accepted().then(|| reader.stand());
        let port = Side { answer, left };
        let opened = volume.open(list, size);
        let left = match &opened {
            api::Answer::Accepted(stream) => Some(stream.stand()),
            _ => None,
        };
        let rust = Side { answer: Answer::of_rust(opened.clone(), 0, |_| vec![]), left };
        let past = rightly_19(&port.answer, volume, list);
        let verdict = report.judge(Call::Open { past }, &None, &port, &rust, || input(list, cluster, size, &[]))?;
        let both = (verdict == Verdict::Same).then(|| opened.accepted()).flatten();
        let pair = both.map(|rust| Pair { volume, list, cluster, port: reader, rust, calls: vec![] });
        Ok((Judged { verdict, port, rust }, pair))
    }

    fn input(&self) -> String {
        input(self.list, self.cluster, self.rust.size(), &self.calls)
    }

    pub fn seek(&mut self, report: &mut Report, from: u64, by: By) -> Result<Judged, Failure> {
        let before = self.port.stand();
        self.calls.push(format!("seek from {from} by {by:?}"));
        let answer = match self.port.seek(self.list, from, by) {
            Answer::Accepted(_) => Answer::Accepted(vec![self.port.stand().place]),
            refused => refused,
        };
        let port = Side { answer, left: Some(self.port.stand()) };
        let mut moved = self.rust.clone();
        let to = spoken(from, by, &before);
        let answer = to.map(|to| moved.seek(to));
        let stand = moved.stand();
        let answer = answer.map_or(Answer::NoCall, |a| Answer::of_rust(a, stand.cursor, |place| vec![place]));
        let rust = Side { answer, left: Some(stand) };
        let call = Call::Seek { spoken: to.is_some(), past: rightly_19(&port.answer, self.volume, self.list) };
        let verdict = report.judge(call, &Some(before), &port, &rust, || self.input())?;
        if verdict == Verdict::Same {
            self.rust = moved;
        }
        self.position(report)?;
        Ok(Judged { verdict, port, rust })
    }

    /// Reads with a store of `store` words. Where the port stops for want of room, the Rust is asked for just the bytes that fitted.
    /// The Rust's buffer can't have 2^64 bytes: where the port stops short of w for another reason, a buffer longer than what there is
    /// serves for w.
    pub fn read(&mut self, report: &mut Report, w: u64, store: usize) -> Result<Judged, Failure> {
        let before = self.port.stand();
        self.calls.push(format!("read {w} with {store} words"));
        let Given { answer, spans, bytes } = self.port.read(self.list, w, store);
        let accepted = answer.is_accepted();
        let spans_used = spans.len();
        let spans = joined(&spans);
        let answer = if accepted { Answer::Accepted(words(&spans)) } else { answer };
        let port = Side { answer, left: Some(self.port.stand()) };
        let no_room = accepted && spans_used == store / 3 && bytes < w;
        let length = if no_room { bytes } else { w.min(BUFFER.max(bytes + 1)) };
        let mut moved = self.rust.clone();
        let answer = moved.read(length as usize);
        let stand = moved.stand();
        let rust = Side { answer: Answer::of_rust(answer, stand.cursor, traced), left: Some(stand) };
        let short = accepted && bytes < length;
        let next = if short { self.port.clone().read(self.list, 1, 3).answer } else { port.answer.clone() };
        let past = rightly_19(&next, self.volume, self.list);
        let verdict = report.judge(Call::Read { w: length, next: next.number(), past }, &Some(before), &port, &rust, || self.input())?;
        match verdict {
            Verdict::Same => self.rust = moved,
            _ => self.again(report, &port, bytes)?,
        }
        self.position(report)?;
        Ok(Judged { verdict, port, rust })
    }

    /// After a read that can't be compared: the Rust reads just what the port gave, and must then stand where the port does.
    fn again(&mut self, report: &mut Report, port: &Side<Option<Stand>>, bytes: u64) -> Result<(), Failure> {
        let answer = self.rust.read(bytes as usize);
        let rust = Side { answer: Answer::of_rust(answer, 0, traced), left: Some(self.rust.stand()) };
        let same = rust.left == port.left && (rust.answer == port.answer || !port.answer.is_accepted());
        if same {
            return Ok(());
        }
        Err(report.fail(&self.input(), &format!("the same read with {bytes} bytes asked\n  port: {port:?}\n  Rust: {rust:?}")))
    }

    fn position(&self, report: &mut Report) -> Result<Verdict, Failure> {
        let port = Side { answer: self.port.data_position(), left: () };
        let position = self.rust.data_position();
        let rust = Side { answer: Answer::Accepted(position.map_or(vec![0, 0], |p| vec![1, p])), left: () };
        report.judge(Call::Plain, &(), &port, &rust, || format!("data position; {}", self.input()))
    }
}

/// The words of the Rust's spans; 3 words of no meaning where the buffer doesn't hold what the disk has.
fn traced(spans: Option<Vec<Span>>) -> Vec<u64> {
    spans.map_or(vec![7; 3], |spans| words(&spans))
}
