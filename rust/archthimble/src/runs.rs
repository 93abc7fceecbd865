use crate::ffi;
use crate::refusal::Refusal;
use std::iter::FusedIterator;

/// Where bytes of a stream lie.
#[derive(Clone, Copy, Debug, PartialEq, Eq, Hash)]
pub enum Place {
    /// On the disk, from this byte on.
    Disk(u64),
    /// Nowhere: they are zeros.
    Hole,
}

/// A run of a list: that many bytes, and where they lie. The end of one on the disk is never over 2^64 − 1.
#[derive(Clone, Copy, Debug, PartialEq, Eq, Hash)]
pub struct Run {
    /// Bytes; never 0.
    pub size: u64,
    /// Where the first of them is.
    pub place: Place,
}

/// The runs of a list, in order. Over after the list's end, and after the first refusal.
///
/// ```
/// use archthimble::{DataRuns, Place, Run};
///
/// let list = [0x11, 0x02, 0x0a, 0x11, 0x01, 0xfe, 0x01, 0x03, 0x11, 0x02, 0x05, 0x00];
/// let runs: Vec<Run> = DataRuns::new(&list, 512).collect::<Result<_, _>>()?;
/// assert_eq!(runs[1], Run { size: 512, place: Place::Disk(4096) });
/// assert_eq!(runs[2], Run { size: 1536, place: Place::Hole });
/// assert_eq!(runs.len(), 4);
/// # Ok::<(), archthimble::Refusal>(())
/// ```
#[derive(Clone, Debug)]
pub struct DataRuns<'a> {
    list: &'a [u8],
    cluster: u64,
    at: u64,
    lcn: u64,
    over: bool,
}

impl<'a> DataRuns<'a> {
    /// The runs of `list` in a volume with clusters of `cluster` bytes. A cluster size that can't be one is refused (21) as first item.
    pub fn new(list: &'a [u8], cluster: u64) -> DataRuns<'a> {
        DataRuns { list, cluster, at: 0, lcn: 0, over: false }
    }
}

impl Iterator for DataRuns<'_> {
    type Item = Result<Run, Refusal>;

    fn next(&mut self) -> Option<Result<Run, Refusal>> {
        if self.over {
            return None;
        }
        match ffi::next_run(self.list, self.cluster, self.at, self.lcn) {
            Ok([1, size, position, kind, at, lcn, ..]) => {
                (self.at, self.lcn) = (at, lcn);
                Some(Ok(Run { size, place: place(kind, position) }))
            }
            Ok(_) => {
                self.over = true;
                None
            }
            Err(refusal) => {
                // asked again, the library would say the same for ever
                self.over = true;
                Some(Err(refusal))
            }
        }
    }
}

impl FusedIterator for DataRuns<'_> {}

/// A place as the library writes it, with 1 for the disk.
pub(crate) fn place(kind: u64, position: u64) -> Place {
    if kind == 1 {
        Place::Disk(position)
    } else {
        Place::Hole
    }
}

/// What [`lookup`] found.
#[derive(Clone, Copy, Debug, PartialEq, Eq, Hash)]
pub enum Where {
    /// The byte lies on the disk, here.
    Disk(u64),
    /// The byte is in a hole: it is 0.
    Hole,
    /// No run covers the offset.
    NotCovered,
}

/// Where the byte at `offset` of a stream lies, by its run list of up to 4,096 bytes. Runs behind the one that answers aren't looked at.
///
/// ```
/// use archthimble::{lookup, Where};
///
/// let list = [0x11, 0x02, 0x0a, 0x11, 0x01, 0xfe, 0x01, 0x03, 0x11, 0x02, 0x05, 0x00];
/// assert_eq!(lookup(&list, 512, 900)?, Where::Disk(6020));
/// assert_eq!(lookup(&list, 512, 1536)?, Where::Hole);
/// assert_eq!(lookup(&list, 512, 4096)?, Where::NotCovered);
/// # Ok::<(), archthimble::Refusal>(())
/// ```
///
/// # Errors
/// 21 for a cluster size that can't be one, 22 for a list that is too long, and 13 to 19 for a run on the way.
pub fn lookup(list: &[u8], cluster: u64, offset: u64) -> Result<Where, Refusal> {
    let out = ffi::lookup(list, cluster, offset)?;
    Ok(match out[0] {
        1 => Where::Disk(out[1]),
        2 => Where::Hole,
        _ => Where::NotCovered,
    })
}

/// An LCN plus a signed delta, or `None` where that is below 0 or over 2^64 − 1.
///
/// ```
/// assert_eq!(archthimble::lcn_plus(10, -2), Some(8));
/// assert_eq!(archthimble::lcn_plus(1, -2), None);
/// ```
pub fn lcn_plus(lcn: u64, delta: i64) -> Option<u64> {
    word(ffi::lcn_plus(lcn, delta))
}

/// The byte at which an LCN starts, or `None` where that is over 2^64 − 1.
///
/// ```
/// assert_eq!(archthimble::lcn_position(10, 512), Some(5120));
/// assert_eq!(archthimble::lcn_position(u64::MAX, 512), None);
/// ```
pub fn lcn_position(lcn: u64, cluster: u64) -> Option<u64> {
    word(ffi::lcn_position(lcn, cluster))
}

/// The two calls above have no refusal: what doesn't fit is an answer of theirs.
fn word(told: Result<ffi::Out, Refusal>) -> Option<u64> {
    match told {
        Ok([1, word, ..]) => Some(word),
        _ => None,
    }
}
