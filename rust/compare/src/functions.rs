//! The eleven C functions: what each is lent, what it may answer by archthimble.h and the table of README.md, and how it is called.
use std::ops::RangeInclusive;

use crate::lend::Lent;
use crate::raw::*;
use Fills::*;
use Name::*;
use Number::*;
use Part::*;

#[derive(Clone, Copy, Debug, PartialEq)]
pub enum Name {
    LcnPlus,
    LcnPosition,
    Geometry,
    Repair,
    NextRun,
    Lookup,
    Open,
    Seek,
    SeekSigned,
    Read,
    DataPosition,
}

/// A buffer that is lent besides `out`.
#[derive(Clone, Copy, PartialEq)]
pub enum Part {
    Sector,
    Record,
    List,
    Reader,
    Store,
}

/// A number that is handed over, by what it stands for.
#[derive(Clone, Copy, PartialEq)]
pub enum Number {
    Any,
    /// A cluster size; 21 judges it.
    Cluster,
    /// A place in the list; 21 judges it.
    Cursor,
    /// Where a seek counts from.
    From,
}

/// What an accepted call fills of `out`.
#[derive(Clone, Copy)]
pub enum Fills {
    /// So many words.
    Words(usize),
    /// `Tagged(most, n)`: the first word, at most `most`, says which answer it is. Others stand behind a 1 only, and then it is n in all.
    Tagged(u64, usize),
}

#[derive(Clone, Copy)]
pub struct Function {
    pub name: Name,
    pub lends: &'static [Part],
    /// Which of them an accepted call may change.
    pub changes: &'static [Part],
    pub numbers: &'static [Number],
    pub fills: Fills,
    pub refuses: &'static [RangeInclusive<u64>],
}

/// Of a call that decodes runs: theirs, and unsound.
const RUNS: &[RangeInclusive<u64>] = &[13..=19, 21..=21];

/// THE TABLE.
pub const FUNCTIONS: [Function; 11] = [
    Function { name: LcnPlus, lends: &[], changes: &[], numbers: &[Any, Any], fills: Tagged(1, 2), refuses: &[] },
    Function { name: LcnPosition, lends: &[], changes: &[], numbers: &[Any, Any], fills: Tagged(1, 2), refuses: &[] },
    Function { name: Geometry, lends: &[Sector], changes: &[], numbers: &[], fills: Words(8), refuses: &[1..=7] },
    Function { name: Repair, lends: &[Record], changes: &[Record], numbers: &[], fills: Words(0), refuses: &[8..=12] },
    Function { name: NextRun, lends: &[List], changes: &[], numbers: &[Cluster, Cursor, Any], fills: Tagged(1, 6), refuses: RUNS },
    Function { name: Lookup, lends: &[List], changes: &[], numbers: &[Cluster, Any], fills: Tagged(2, 2), refuses: &[13..=19, 21..=22] },
    Function { name: Open, lends: &[List, Reader], changes: &[Reader], numbers: &[Cluster, Any], fills: Words(0), refuses: RUNS },
    Function { name: Seek, lends: &[List, Reader], changes: &[Reader], numbers: &[From, Any], fills: Words(0), refuses: &[13..=21] },
    Function { name: SeekSigned, lends: &[List, Reader], changes: &[Reader], numbers: &[From, Any], fills: Words(0), refuses: &[13..=21] },
    Function { name: Read, lends: &[List, Reader, Store], changes: &[Reader, Store], numbers: &[Any], fills: Words(2), refuses: RUNS },
    Function { name: DataPosition, lends: &[Reader], changes: &[], numbers: &[], fills: Tagged(1, 2), refuses: &[21..=21] },
];

impl Function {
    /// The number that stands for `what`, if one does.
    pub fn number(&self, what: Number, lent: &Lent) -> Option<u64> {
        self.numbers.iter().position(|n| *n == what).map(|at| lent.numbers[at])
    }

    pub fn call(&self, lent: &mut Lent) -> u64 {
        let (bytes, length) = (lent.bytes.as_mut_ptr(), lent.bytes.len());
        let (reader, words) = (lent.reader.as_mut_ptr(), lent.reader.len());
        let (store, room) = (lent.store.as_mut_ptr(), lent.store.len());
        let (out, n) = (lent.out.as_mut_ptr(), lent.out.len());
        let [a, b, c] = lent.numbers;
        // SAFETY: each pointer is good for the length beside it, and none overlap, since each buffer is an allocation of its own.
        unsafe {
            match self.name {
                LcnPlus => archthimble_lcn_plus(a, b as i64, out, n),
                LcnPosition => archthimble_lcn_position(a, b, out, n),
                Geometry => archthimble_geometry(bytes, length, out, n),
                Repair => archthimble_repair(bytes, length, out, n),
                NextRun => archthimble_next_run(bytes, length, a, b, c, out, n),
                Lookup => archthimble_lookup(bytes, length, a, b, out, n),
                Open => archthimble_open(bytes, length, a, b, reader, words, out, n),
                Seek => archthimble_seek(bytes, length, reader, words, a, b, out, n),
                SeekSigned => archthimble_seek_signed(bytes, length, reader, words, a, b as i64, out, n),
                Read => archthimble_read(bytes, length, reader, words, a, store, room, out, n),
                DataPosition => archthimble_data_position(reader, words, out, n),
            }
        }
    }
}
