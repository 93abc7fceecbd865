//! One safe function for each call of the C interface. All `unsafe` of the crate is here.
//!
//! What makes the calls sound is the same each time: every pointer comes from a slice or an array with its own length beside it, the slices
//! to be written are borrowed for that, and the library is proved to stay inside. Slices of length 0 may have any pointer.
use crate::raw::*;
use crate::refusal::Refusal;

pub(crate) type Out = [u64; OUT];
pub(crate) type Words = [u64; READER];

/// Makes a call with an `out` that is long enough, so that the answer "too short" never comes, and sorts what it says.
fn told(call: impl FnOnce(&mut Out) -> u64) -> Result<Out, Refusal> {
    let mut out = [0; OUT];
    match call(&mut out) {
        0 => Ok(out),
        number => Err(Refusal::told(number, &out)),
    }
}

pub(crate) fn lcn_plus(lcn: u64, delta: i64) -> Result<Out, Refusal> {
    // SAFETY: `out` is an array of OUT words, borrowed to be written.
    told(|out| unsafe { archthimble_lcn_plus(lcn, delta, out.as_mut_ptr(), OUT) })
}

pub(crate) fn lcn_position(lcn: u64, cluster: u64) -> Result<Out, Refusal> {
    // SAFETY: `out` is an array of OUT words, borrowed to be written.
    told(|out| unsafe { archthimble_lcn_position(lcn, cluster, out.as_mut_ptr(), OUT) })
}

pub(crate) fn geometry(sector: &[u8]) -> Result<Out, Refusal> {
    // SAFETY: the sector's pointer and length are of one slice; `out` as above.
    told(|out| unsafe { archthimble_geometry(sector.as_ptr(), sector.len(), out.as_mut_ptr(), OUT) })
}

pub(crate) fn repair(record: &mut [u8]) -> Result<Out, Refusal> {
    // SAFETY: the record's pointer and length are of one slice, which is borrowed to be written; `out` as above.
    told(|out| unsafe { archthimble_repair(record.as_mut_ptr(), record.len(), out.as_mut_ptr(), OUT) })
}

pub(crate) fn next_run(list: &[u8], cluster: u64, at: u64, lcn: u64) -> Result<Out, Refusal> {
    // SAFETY: the list's pointer and length are of one slice; `out` as above. A cursor past the list is refused by the library.
    told(|out| unsafe { archthimble_next_run(list.as_ptr(), list.len(), cluster, at, lcn, out.as_mut_ptr(), OUT) })
}

pub(crate) fn lookup(list: &[u8], cluster: u64, offset: u64) -> Result<Out, Refusal> {
    // SAFETY: the list's pointer and length are of one slice; `out` as above.
    told(|out| unsafe { archthimble_lookup(list.as_ptr(), list.len(), cluster, offset, out.as_mut_ptr(), OUT) })
}

pub(crate) fn open(list: &[u8], cluster: u64, size: u64, reader: &mut Words) -> Result<Out, Refusal> {
    // SAFETY: the list as in `lookup`; the reader is an array of READER words, borrowed to be written; `out` as above.
    told(|out| unsafe { archthimble_open(list.as_ptr(), list.len(), cluster, size, reader.as_mut_ptr(), READER, out.as_mut_ptr(), OUT) })
}

pub(crate) fn seek(list: &[u8], reader: &mut Words, from: u64, by: u64) -> Result<Out, Refusal> {
    // SAFETY: list, reader and `out` as in `open`.
    told(|out| unsafe { archthimble_seek(list.as_ptr(), list.len(), reader.as_mut_ptr(), READER, from, by, out.as_mut_ptr(), OUT) })
}

pub(crate) fn seek_signed(list: &[u8], reader: &mut Words, from: u64, by: i64) -> Result<Out, Refusal> {
    // SAFETY: list, reader and `out` as in `open`.
    told(|out| unsafe { archthimble_seek_signed(list.as_ptr(), list.len(), reader.as_mut_ptr(), READER, from, by, out.as_mut_ptr(), OUT) })
}

pub(crate) fn read(list: &[u8], reader: &mut Words, w: u64, store: &mut [u64]) -> Result<Out, Refusal> {
    let (words, room) = (store.as_mut_ptr(), store.len());
    // SAFETY: list, reader and `out` as in `open`; `words` and `room` are of one slice, which is borrowed to be written.
    told(|out| unsafe { archthimble_read(list.as_ptr(), list.len(), reader.as_mut_ptr(), READER, w, words, room, out.as_mut_ptr(), OUT) })
}

pub(crate) fn data_position(reader: &Words) -> Result<Out, Refusal> {
    // SAFETY: the reader is an array of READER words; `out` as above.
    told(|out| unsafe { archthimble_data_position(reader.as_ptr(), READER, out.as_mut_ptr(), OUT) })
}
