use crate::ffi::{self, Words};
use crate::refusal::Refusal;
use crate::runs::{place, Place, Run};
use std::fmt;
use std::io::SeekFrom;
use std::iter::FusedIterator;

// Where each thing stands in a reader's words, as the header lists them.
const CLUSTER: usize = 0;
const RUN_KIND: usize = 3;
const RUN_SIZE: usize = 4;
const RUN_PLACE: usize = 5;
const PLACE: usize = 7;
const SIZE: usize = 8;

/// What a seek counts from. Import it by name: a glob import of this crate would hide the prelude's trait `From`.
#[derive(Clone, Copy, Debug, PartialEq, Eq, Hash)]
pub enum From {
    /// The stream's start.
    Start,
    /// The reader's place.
    Place,
    /// The data size.
    End,
}

/// How far a seek goes.
#[derive(Clone, Copy, Debug, PartialEq, Eq, Hash)]
pub enum By {
    /// Forward.
    Unsigned(u64),
    /// Forward, or back where it is below 0.
    Signed(i64),
}

/// The reader of a stream: it says where the next bytes lie, and touches no disk itself. The run list is lent with each call; it should be
/// the same each time. With another the answers are those of that other list from where the reader stands, or a refusal (21).
///
/// A refused call leaves the reader as it was.
///
/// ```
/// use archthimble::{Place, Reader, Span};
/// use std::io::SeekFrom;
///
/// let list = [0x11, 0x02, 0x0a, 0x11, 0x01, 0xfe, 0x01, 0x03, 0x11, 0x02, 0x05, 0x00];
/// let mut reader = Reader::open(&list, 512, 4000)?;
/// reader.seek(&list, SeekFrom::Start(900))?;
///
/// let mut store = [0; 9]; // three words a span
/// let spans = reader.read(&list, 1000, &mut store)?;
/// assert_eq!(spans.bytes(), 1000);
/// let spans: Vec<Span> = spans.collect();
/// assert_eq!(spans[0], Span { place: Place::Disk(6020), length: 124 });
/// assert_eq!(spans[1], Span { place: Place::Disk(4096), length: 512 });
/// assert_eq!(spans[2], Span { place: Place::Hole, length: 364 });
/// assert_eq!(reader.place(), 1900);
/// # Ok::<(), archthimble::Refusal>(())
/// ```
#[derive(Clone, Copy, PartialEq, Eq)]
pub struct Reader {
    words: Words,
}

impl Reader {
    /// Opens a stream of `size` bytes at its start. Only the first run is decoded; an empty list opens without one.
    ///
    /// # Errors
    /// 21 for a cluster size that can't be one, 13 to 19 for the first run.
    pub fn open(list: &[u8], cluster: u64, size: u64) -> Result<Reader, Refusal> {
        let mut words = [0; crate::raw::READER];
        ffi::open(list, cluster, size, &mut words)?;
        Ok(Reader { words })
    }

    /// Moves to a place, which may lie past the data or the runs, and answers it.
    ///
    /// # Errors
    /// 20 for a target below 0 or over 2^64 − 1, 13 to 19 for a run on the way, 21 for a list that doesn't fit the reader.
    pub fn seek(&mut self, list: &[u8], to: SeekFrom) -> Result<u64, Refusal> {
        match to {
            SeekFrom::Start(n) => self.seek_by(list, From::Start, By::Unsigned(n)),
            SeekFrom::Current(n) => self.seek_by(list, From::Place, By::Signed(n)),
            SeekFrom::End(n) => self.seek_by(list, From::End, By::Signed(n)),
        }
    }

    /// The same, with all kinds of seek there are.
    ///
    /// # Errors
    /// As for [`Reader::seek`].
    pub fn seek_by(&mut self, list: &[u8], from: From, by: By) -> Result<u64, Refusal> {
        let from = match from {
            From::Start => 0,
            From::Place => 1,
            From::End => 2,
        };
        match by {
            By::Unsigned(by) => ffi::seek(list, &mut self.words, from, by)?,
            By::Signed(by) => ffi::seek_signed(list, &mut self.words, from, by)?,
        };
        Ok(self.place())
    }

    /// Where the next up to `w` bytes lie, and moves past them. The spans are written to `store`, three words each; the read ends where `w`
    /// is reached, the store is full, the data is over, the runs are over, or, once there is a span, at a run that is refused.
    ///
    /// # Errors
    /// 13 to 19 where the very first run needed is refused, 21 for a list that doesn't fit the reader. The store is then as it was.
    pub fn read<'s>(&mut self, list: &[u8], w: u64, store: &'s mut [u64]) -> Result<Spans<'s>, Refusal> {
        let [spans, bytes, ..] = ffi::read(list, &mut self.words, w, store)?;
        Ok(Spans { words: &store[..3 * spans as usize], bytes })
    }

    /// Where the reader stands on the disk: `None` in a hole or without a run. After a read that used up a run it is that run's end; after
    /// a seek to the same place, the next run's start.
    ///
    /// # Errors
    /// The library refuses unsound readers (21); none that this crate hands out is.
    pub fn data_position(&self) -> Result<Option<u64>, Refusal> {
        let [some, position, ..] = ffi::data_position(&self.words)?;
        Ok((some == 1).then_some(position))
    }

    /// The place in the stream.
    pub fn place(&self) -> u64 {
        self.words[PLACE]
    }

    /// The data size.
    pub fn size(&self) -> u64 {
        self.words[SIZE]
    }

    /// Bytes a cluster.
    pub fn cluster_size(&self) -> u64 {
        self.words[CLUSTER]
    }

    /// The run that the reader is in, or at the end of.
    pub fn current_run(&self) -> Option<Run> {
        let kind = self.words[RUN_KIND];
        (kind != 0).then(|| Run { size: self.words[RUN_SIZE], place: place(kind, self.words[RUN_PLACE]) })
    }
}

// By hand, since the words themselves say nothing to a reader of a log.
impl fmt::Debug for Reader {
    fn fmt(&self, f: &mut fmt::Formatter<'_>) -> fmt::Result {
        f.debug_struct("Reader")
            .field("place", &self.place())
            .field("size", &self.size())
            .field("cluster_size", &self.cluster_size())
            .field("current_run", &self.current_run())
            .finish_non_exhaustive()
    }
}

/// Bytes of a stream that lie in one piece.
#[derive(Clone, Copy, Debug, PartialEq, Eq, Hash)]
pub struct Span {
    /// Where the first of them is.
    pub place: Place,
    /// How many; never 0.
    pub length: u64,
}

/// The spans of a read, in the stream's order.
#[derive(Clone, Debug)]
pub struct Spans<'s> {
    words: &'s [u64],
    bytes: u64,
}

impl Spans<'_> {
    /// How many bytes the read moved by: the sum over all its spans, also over those that were already taken.
    pub fn bytes(&self) -> u64 {
        self.bytes
    }
}

impl Iterator for Spans<'_> {
    type Item = Span;

    fn next(&mut self) -> Option<Span> {
        let (span, rest) = self.words.split_first_chunk::<3>()?;
        self.words = rest;
        let [position, length, kind] = *span;
        Some(Span { place: place(kind, position), length })
    }

    fn size_hint(&self) -> (usize, Option<usize>) {
        (self.words.len() / 3, Some(self.words.len() / 3))
    }
}

impl ExactSizeIterator for Spans<'_> {}
impl FusedIterator for Spans<'_> {}
