//! The Rust's errors in the numbers of the scope of work.
use crate::api::{Refusal, POSITION};
use crate::error::NtfsError;
use crate::types::NtfsPosition;
use binrw::io::ErrorKind;

/// Where in the list or the record, which stand at `POSITION`, an error points to.
fn inside(position: NtfsPosition) -> Option<u64> {
    position.value().map(|p| p.get() - POSITION)
}

fn some(values: &[u64]) -> Vec<Option<u64>> {
    values.iter().map(|v| Some(*v)).collect()
}

/// Number and values as the scope has them; `None` for a value that the Rust's error doesn't carry. Payloads that say the same otherwise
/// are turned round here: 11 has the count less 1, 12 the entry's position instead of k (`offset` is the record's sequence offset), 15
/// and 16 share a variant. An error that stands for no number gets 0.
pub fn refusal(error: NtfsError, offset: u64) -> Refusal {
    use NtfsError::*;
    let (number, values) = match error {
        InvalidTwoByteSignature { actual, .. } => (2, some(&[actual[0] as u64, actual[1] as u64])),
        InvalidSectorsPerCluster { sectors_per_cluster } => (3, some(&[sectors_per_cluster as u64])),
        UnsupportedSectorSize { actual, .. } => (4, some(&[actual as u64])),
        UnsupportedClusterSize { actual, .. } => (5, some(&[actual as u64])),
        InvalidMftLcn => (6, vec![]),
        InvalidRecordSizeInfo { size_info, cluster_size } => (7, some(&[size_info as i64 as u64, cluster_size as u64])),
        InvalidUpdateSequenceNumberRange { range, .. } => (9, some(&[range.start as u64])),
        InvalidUpdateSequenceCount { .. } => (10, vec![]),
        UpdateSequenceArrayExceedsRecordSize { array_count, .. } => (11, some(&[array_count as u64 + 1])),
        UpdateSequenceNumberMismatch { position, actual, .. } => {
            let k = inside(position).and_then(|p| p.checked_sub(offset + 2)).map(|p| p / 2);
            (12, vec![k, Some(actual[0] as u64), Some(actual[1] as u64)])
        }
        InvalidByteCountInDataRunHeader { position, .. } => (13, vec![inside(position)]),
        Io(e) if e.kind() == ErrorKind::UnexpectedEof => (14, vec![None]),
        InvalidClusterCountInDataRunHeader { position, cluster_count: 0 } => (15, vec![inside(position)]),
        InvalidClusterCountInDataRunHeader { position, .. } => (16, vec![inside(position)]),
        InvalidVcnInDataRunHeader { position, previous_lcn, .. } => (17, vec![inside(position), Some(previous_lcn.value())]),
        LcnTooBig { .. } => (18, vec![None]),
        Io(e) if e.kind() == ErrorKind::InvalidInput => (20, vec![]),
        _ => (0, vec![]),
    };
    Refusal { number, values }
}
