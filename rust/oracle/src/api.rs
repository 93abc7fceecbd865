//! What the published Rust answers, as plain values. A panic is an answer too.
use std::cell::Cell;
use std::panic::{self, AssertUnwindSafe};
use std::sync::Once;

use crate::attribute_value::non_resident::{NtfsDataRuns, NtfsNonResidentAttributeValue};
use crate::boot_sector::BootSector;
use crate::disk::{byte, Disk, Dry};
use crate::error::NtfsError;
use crate::ntfs::Ntfs;
use crate::record::Record;
use crate::refusal::refusal;
use crate::traits::NtfsReadSeek;
use crate::types::{Lcn, NtfsPosition, Vcn};
use binrw::io::{Cursor, Read, Seek, SeekFrom};
use binrw::BinRead;

/// Where lists and records are said to stand. At 0 the Rust's errors would lose their place.
pub(crate) const POSITION: u64 = 1 << 20;

/// A refusal's number in the scope of work, and its values; `None` where the Rust's error doesn't carry one.
#[derive(Clone, Debug, PartialEq)]
pub struct Refusal {
    pub number: u64,
    pub values: Vec<Option<u64>>,
}

#[derive(Clone, Debug, PartialEq)]
pub enum Answer<T> {
    Accepted(T),
    Refused(Refusal),
    Panicked,
}

impl<T> Answer<T> {
    pub fn accepted(self) -> Option<T> {
        match self {
            Answer::Accepted(value) => Some(value),
            _ => None,
        }
    }
}

thread_local!(static INSIDE: Cell<bool> = const { Cell::new(false) });
static HOOK: Once = Once::new();

/// Runs the Rust. Its panics are caught and not printed; those of the comparison itself still are.
fn run<T>(offset: u64, call: impl FnOnce() -> Result<T, NtfsError>) -> Answer<T> {
    HOOK.call_once(|| {
        let usual = panic::take_hook();
        panic::set_hook(Box::new(move |info| {
            if !INSIDE.get() {
                usual(info);
            }
        }));
    });
    INSIDE.set(true);
    let result = panic::catch_unwind(AssertUnwindSafe(call));
    INSIDE.set(false);
    match result {
        Ok(Ok(value)) => Answer::Accepted(value),
        Ok(Err(error)) => Answer::Refused(refusal(error, offset)),
        Err(_) => Answer::Panicked,
    }
}

/// The number behind `key` in a `Debug` output.
fn number(text: &str, key: &str) -> u64 {
    let start = text.find(key).expect("the field is shown") + key.len();
    let digits = text[start..].find(|c: char| !c.is_ascii_digit() && c != '-').unwrap_or(text.len() - start);
    let digits = &text[start..start + digits];
    digits.parse::<u64>().or_else(|_| digits.parse::<i64>().map(|n| n as u64)).expect("a number")
}

pub fn lcn_plus(lcn: u64, delta: i64) -> Answer<Option<u64>> {
    run(0, || Ok(Lcn::from(lcn).checked_add(Vcn::from(delta)).map(|l| l.value())))
}

/// The position, `None` where the Rust gives none.
pub fn lcn_position(lcn: u64, cluster: u32) -> Answer<Option<u64>> {
    let ntfs = Ntfs { cluster_size: cluster };
    run(0, || Ok(Lcn::from(lcn).position(&ntfs)?.value().map(|p| p.get())))
}

/// Sector size, cluster size, total sectors, MFT LCN, mirror LCN, record size, index info, serial, by the parameter block's own functions
/// in the order of the scope's table.
pub fn boot(bytes: &[u8]) -> Answer<[u64; 8]> {
    run(0, || {
        let sector = BootSector::read(&mut Cursor::new(bytes))?;
        sector.validate()?;
        let bpb = sector.bpb();
        let cluster_size = bpb.cluster_size()? as u64;
        let mft_lcn = bpb.mft_lcn()?.value();
        let record_size = bpb.file_record_size()? as u64;
        let shown = format!("{bpb:?}");
        let mirror = number(&shown, "mft_mirror_lcn: Lcn(");
        let index_info = number(&shown, "index_record_size_info: ");
        let sector_size = bpb.sector_size()? as u64;
        Ok([sector_size, cluster_size, bpb.total_sectors(), mft_lcn, mirror, record_size, index_info, bpb.serial_number()])
    })
}

/// The repair's answer, and the record as it is left; a panic leaves nothing to look at.
pub fn fixup(bytes: &[u8]) -> (Answer<()>, Vec<u8>) {
    let offset = bytes.get(4..6).map_or(0, |b| u16::from_le_bytes([b[0], b[1]]) as u64);
    let mut record = Record::new(bytes.to_vec(), NtfsPosition::new(POSITION));
    let answer = run(offset, || record.fixup());
    (answer, record.into_data())
}

pub struct Volume(Ntfs);

impl Volume {
    pub fn new(cluster: u32) -> Self {
        Volume(Ntfs { cluster_size: cluster })
    }

    pub fn runs<'a>(&'a self, list: &'a [u8]) -> Runs<'a> {
        Runs(NtfsDataRuns::new(&self.0, list, NtfsPosition::new(POSITION)))
    }

    pub fn open<'a>(&'a self, list: &'a [u8], size: u64) -> Answer<Stream<'a>> {
        run(0, || NtfsNonResidentAttributeValue::new(&self.0, list, NtfsPosition::new(POSITION), size).map(Stream))
    }
}

#[derive(Clone, Copy, Debug, PartialEq)]
pub struct Run {
    /// `None` for a hole.
    pub position: Option<u64>,
    pub size: u64,
}

#[derive(Clone)]
pub struct Runs<'a>(NtfsDataRuns<'a, 'a>);

impl Runs<'_> {
    /// The next run, or `None` where the list is over.
    pub fn step(&mut self) -> Answer<Option<Run>> {
        run(0, || {
            let Some(next) = self.0.next() else { return Ok(None) };
            let next = next?;
            let position = next.data_position().value().map(|p| p.get());
            Ok(Some(Run { position, size: next.allocated_size() }))
        })
    }

    pub fn cursor(&self) -> u64 {
        self.0.position().value().map_or(0, |p| p.get() - POSITION)
    }

    pub fn previous_lcn(&self) -> u64 {
        number(&format!("{:?}", self.0.clone().into_state()), "previous_lcn: Lcn(")
    }
}

/// Everything a reader holds besides its list.
#[derive(Clone, Copy, Debug, PartialEq)]
pub struct Stand {
    pub cursor: u64,
    pub lcn: u64,
    pub run: Option<Run>,
    pub displacement: u64,
    pub place: u64,
    pub size: u64,
}

/// Where delivered bytes came from: `position` on the disk, or `None` for a hole. Neighbouring holes are one, since a buffer can't tell.
#[derive(Clone, Copy, Debug, PartialEq)]
pub struct Span {
    pub position: Option<u64>,
    pub length: u64,
}

#[derive(Clone)]
pub struct Stream<'a>(NtfsNonResidentAttributeValue<'a, 'a>);

impl Stream<'_> {
    pub fn seek(&mut self, to: SeekFrom) -> Answer<u64> {
        run(0, || self.0.seek(&mut Disk::default(), to))
    }

    /// Reads into a buffer of that length and says where the bytes came from. `None`: the buffer isn't what those places hold.
    pub fn read(&mut self, length: usize) -> Answer<Option<Vec<Span>>> {
        let mut disk = Disk::default();
        // A byte that the reader leaves alone shows as 2, which the disk never hands out.
        let mut buffer = vec![2; length];
        let answer = run(0, || self.0.read(&mut disk, &mut buffer));
        match answer {
            Answer::Accepted(count) => Answer::Accepted(traced(&buffer, count, &disk.asked)),
            Answer::Refused(r) => Answer::Refused(r),
            Answer::Panicked => Answer::Panicked,
        }
    }

    /// Reads from any disk: the number of bytes.
    pub fn read_from<D: Read + Seek>(&mut self, disk: &mut D, buffer: &mut [u8]) -> Answer<usize> {
        run(0, || self.0.read(disk, buffer))
    }

    /// Reads from a disk that hands out nothing: the number of bytes.
    pub fn read_dry(&mut self, length: usize) -> Answer<usize> {
        run(0, || self.0.read(&mut Dry, &mut vec![0; length]))
    }

    pub fn data_position(&self) -> Option<u64> {
        self.0.data_position().value().map(|p| p.get())
    }

    pub fn place(&self) -> u64 {
        self.0.stream_position()
    }

    pub fn size(&self) -> u64 {
        self.0.len()
    }

    pub fn stand(&self) -> Stand {
        let text = format!("{:?}", self.0);
        let (runs, state) = text.split_once("stream_state: ").expect("the field is shown");
        let run = state.split_once("stream_data_run: Some(").map(|(_, run)| {
            let disk = run.contains("NtfsPosition(Some(");
            let position = disk.then(|| number(run, "NtfsPosition(Some("));
            Run { position, size: number(run, "allocated_size: ") }
        });
        Stand {
            cursor: number(runs, "state: DataRunsState { offset: "),
            lcn: number(runs, "previous_lcn: Lcn("),
            run,
            displacement: run.map_or(0, |_| number(state, "stream_position: ")),
            place: self.place(),
            size: self.size(),
        }
    }
}

/// The spans behind a buffer's first `count` bytes: zeros are holes, all else must be what the disk was asked for, in that order.
fn traced(buffer: &[u8], count: usize, asked: &[(u64, u64)]) -> Option<Vec<Span>> {
    let mut spans = Vec::new();
    let mut asked = asked.iter();
    let mut at = 0;
    while at < count {
        let zeros = buffer[at..count].iter().take_while(|b| **b == 0).count();
        if zeros > 0 {
            spans.push(Span { position: None, length: zeros as u64 });
            at += zeros;
            continue;
        }
        let (position, length) = *asked.next()?;
        let bytes = buffer[..count].get(at..at + length as usize)?;
        let held = bytes.iter().enumerate().all(|(i, b)| *b == byte(position.wrapping_add(i as u64)));
        if !held || length == 0 {
            return None;
        }
        spans.push(Span { position: Some(position), length });
        at += length as usize;
    }
    let rest_untouched = buffer[count..].iter().all(|b| *b == 2);
    (asked.next().is_none() && rest_untouched).then_some(spans)
}
