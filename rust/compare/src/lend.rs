//! What hostile calls are lent: words at their extremes, and lists, records, sectors and readers from sound to noise.
use std::fmt;

use crate::answer::hex;
use crate::boot;
use crate::functions::{Function, Number, Part};
use crate::generate;
use crate::random::Random;
use crate::raw::{OUT, READER};
use crate::records;

/// Each buffer is an allocation of its own and of just its length, so that Valgrind sees a step outside. An empty one is what Rust has for
/// an empty slice: a pointer that is aligned and not null, with nothing behind it.
#[derive(Clone, PartialEq)]
pub struct Lent {
    /// A sector, a record or a list.
    pub bytes: Box<[u8]>,
    pub reader: Box<[u64]>,
    pub store: Box<[u64]>,
    pub out: Box<[u64]>,
    pub numbers: [u64; 3],
}

impl Lent {
    pub fn new(random: &mut Random, f: &Function) -> Self {
        let cluster = generate::cluster(random);
        let bytes = match f.lends.first() {
            Some(Part::Sector) => sector(random),
            Some(Part::Record) => record(random),
            Some(Part::List) => list(random, cluster),
            _ => vec![],
        };
        let reader = if f.lends.contains(&Part::Reader) { reader(random, cluster, bytes.len()) } else { vec![] };
        let mut numbers = [0; 3];
        for (number, what) in numbers.iter_mut().zip(f.numbers) {
            *number = match what {
                Number::Any => word(random),
                Number::Cluster => mostly(random, cluster as u64),
                Number::Cursor => {
                    let inside = cursor(random, bytes.len());
                    mostly(random, inside)
                }
                Number::From => {
                    let other = word(random);
                    random.pick(&[0, 1, 2, other])
                }
            };
        }
        let store = if f.lends.contains(&Part::Store) { words(random, 0, 24) } else { vec![] };
        let out = words(random, OUT, 24);
        Lent { bytes: bytes.into(), reader: reader.into(), store: store.into(), out: out.into(), numbers }
    }
}

impl fmt::Debug for Lent {
    fn fmt(&self, f: &mut fmt::Formatter) -> fmt::Result {
        let Lent { bytes, reader, store, out, numbers } = self;
        let length = bytes.len();
        write!(f, "{length} bytes {}, reader {reader:?}, store {store:?}, out {out:?}, numbers {numbers:?}", hex(bytes))
    }
}

const EXTREMES: [u64; 7] = [0, 0, 1, i64::MAX as u64, 1 << 63, u64::MAX - 1, u64::MAX];

/// A word at an extreme, at a power of two, of any size, or of 64 bits.
fn word(random: &mut Random) -> u64 {
    let power = 1 << random.below(64);
    match random.below(6) {
        0 => random.pick(&EXTREMES),
        1 => power,
        2 => power - 1,
        3 => random.word(),
        _ => random.word() >> random.below(64),
    }
}

/// `sound`, but for one time in four.
fn mostly(random: &mut Random, sound: u64) -> u64 {
    if random.one_in(4) {
        word(random)
    } else {
        sound
    }
}

/// A place inside a list of so many bytes, or its end.
fn cursor(random: &mut Random, list: usize) -> u64 {
    let end = list as u64;
    let any = random.below(end + 1);
    random.pick(&[0, 0, end, any])
}

/// A length up to `most`, and most times not under `enough`.
fn length(random: &mut Random, enough: usize, most: usize) -> usize {
    let least = if random.one_in(3) { 0 } else { enough };
    least + random.below((most - least) as u64 + 1) as usize
}

fn words(random: &mut Random, enough: usize, most: usize) -> Vec<u64> {
    let length = length(random, enough, most);
    (0..length).map(|_| random.word()).collect()
}

fn noise(random: &mut Random, length: usize) -> Vec<u8> {
    (0..length.div_ceil(8)).flat_map(|_| random.word().to_le_bytes()).take(length).collect()
}

/// A sector whose judged fields are sound or not, or noise.
fn sector(random: &mut Random) -> Vec<u8> {
    let length = length(random, 512, 600);
    if random.one_in(8) {
        return noise(random, length);
    }
    let size = random.pick(&[512u16, 512, 1024, 4096, 4097]).to_le_bytes();
    let per_cluster = [random.pick(&[1, 2, 8, 128, 129, 244])];
    let mft = word(random).to_le_bytes();
    let info = [random.pick(&[1, 0x7f, 0xf4, 0xf6, 0xf7])];
    let mark = [0x55, random.pick(&[0xaa, 0xaa, 0xaa, 0x55])];
    let mut sector = boot::with(&[(11, &size), (13, &per_cluster), (48, &mft), (64, &info), (510, &mark)]);
    sector.resize(length, random.word() as u8);
    sector
}

/// A record with its sequence array anywhere, or noise.
fn record(random: &mut Random) -> Vec<u8> {
    let any = random.below(4201) as usize;
    let length = random.pick(&[any, any, any, 0, 7, 8, 512, 1024, 4096, 4097]);
    if random.one_in(4) {
        return noise(random, length);
    }
    let offset = random.pick(&records::offsets(length));
    let count = random.pick(&records::counts(length, offset));
    let filling = random.pick(&records::FILLINGS);
    records::record(random, length, offset, count, filling)
}

/// Runs of one cluster each that go on for a long list: holes, and a file in pieces.
const LONG: [&[u8]; 2] = [&[0x01, 0x01], &[0x11, 0x01, 0x02]];

fn list(random: &mut Random, cluster: u32) -> Vec<u8> {
    let long = random.pick(&[4096, 4097]);
    let short = random.below(65) as usize;
    match random.below(64) {
        0 => random.pick(&LONG).iter().copied().cycle().take(long).collect(),
        1 => noise(random, long),
        2..12 => noise(random, short),
        _ => {
            let mut list = generate::list(random, cluster);
            list.truncate(64);
            list
        }
    }
}

/// A reader for a list of so many bytes: one in four of any words, the others sound, and one in three of those but for one word.
fn reader(random: &mut Random, cluster: u32, list: usize) -> Vec<u64> {
    let mut words = [0; READER].map(|_| word(random));
    if !random.one_in(4) {
        mend(random, &mut words, cluster, list);
        if random.one_in(3) {
            words[random.below(9) as usize] = word(random);
        }
    }
    let length = length(random, READER, 20);
    (0..length).map(|at| words.get(at).copied().unwrap_or_else(|| random.word())).collect()
}

/// Makes any words those of a sound reader. Words that say nothing, such as the place of a hole, stay what they are.
fn mend(random: &mut Random, words: &mut [u64; READER], cluster: u32, list: usize) {
    words[0] = cluster as u64;
    words[1] = cursor(random, list);
    words[3] = random.pick(&[0, 1, 1, 2, 3, u64::MAX]);
    words[6] = if words[3] == 0 { 0 } else { words[6].min(words[4]) };
    if words[3] == 1 {
        words[5] = words[5].min(u64::MAX - words[4]);
    }
    if !random.one_in(4) {
        // With its place in front of the data's end a reader has something to read.
        words[7..9].sort();
    }
}
