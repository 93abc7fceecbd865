use crate::ffi;
use crate::refusal::Refusal;

/// Repairs a file or index record of 8 to 4,096 bytes in place: each sector's last two bytes must be the sequence number, and become what
/// the record has kept of them.
///
/// ```
/// let mut record = [0; 1024];
/// record[4..8].copy_from_slice(&[0x30, 0, 3, 0]); // the sequence is at 0x30 and has 3 entries: the number, and one for each sector
/// record[0x30..0x36].copy_from_slice(&[7, 0, b'a', b'b', b'c', b'd']);
/// record[510] = 7;
/// record[1022] = 7;
///
/// archthimble::repair(&mut record)?;
/// assert_eq!((&record[510..512], &record[1022..]), (&b"ab"[..], &b"cd"[..]));
///
/// // a second time the sectors don't end in the sequence number any more
/// assert_eq!(archthimble::repair(&mut record).unwrap_err().name(), "torn record");
/// # Ok::<(), archthimble::Refusal>(())
/// ```
///
/// # Errors
/// 8 to 12, the first that fits. At 8 to 11 the record is as it was; at 12, the sectors before the torn one are repaired.
pub fn repair(record: &mut [u8]) -> Result<(), Refusal> {
    ffi::repair(record).map(|_| ())
}
