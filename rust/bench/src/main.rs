//! The port against the Rust, the same work on the same input, turn by turn in one run. Each figure is the fastest of some rounds, so that
//! what else the machine does counts as little as it can; the ratio is of those two.
use archthimble::{DataRuns, Geometry, Reader, Stream};
use oracle::api::{self, Volume};
use std::hint::black_box;
use std::io::{Cursor, Read, Seek, SeekFrom};
use std::time::Instant;

const ROUNDS: usize = 15;
const RUNS: u64 = 2_000;
const CLUSTER: u64 = 512;
/// Runs of one to four clusters, on a disk small enough to hold in memory.
const DISK: usize = 8 << 20;

/// A list of 2,000 runs of four bytes each and its stream's size; every tenth run is a hole.
fn list() -> (Vec<u8>, u64) {
    let (mut bytes, mut size) = (Vec::new(), 0);
    for i in 0..RUNS {
        let count = 1 + i % 4;
        size += count * CLUSTER;
        if i % 10 == 9 {
            bytes.extend([0x01, count as u8]);
        } else {
            let delta: i16 = if i % 2 == 0 { 7 } else { -2 };
            bytes.extend([0x21, count as u8, delta as u8, (delta >> 8) as u8]);
        }
    }
    bytes.push(0);
    (bytes, size)
}

/// Places all over the stream, always the same ones.
fn places(size: u64, count: usize) -> Vec<u64> {
    let mut x = 88_172_645_463_325_252u64;
    let next = |_| {
        x ^= x << 13;
        x ^= x >> 7;
        x ^= x << 17;
        x % size
    };
    (0..count).map(next).collect()
}

fn nanoseconds(count: usize, work: &mut dyn FnMut()) -> f64 {
    let start = Instant::now();
    work();
    start.elapsed().as_nanos() as f64 / count as f64
}

/// Keeps the compiler from leaving out what made this.
fn used<T>(x: T) {
    black_box(x);
}

/// `count` is how many times a piece does the thing that is named.
fn line(name: &str, count: usize, mut port: impl FnMut(), mut rust: impl FnMut()) {
    let (mut ours, mut theirs) = (f64::MAX, f64::MAX);
    for _ in 0..ROUNDS {
        ours = ours.min(nanoseconds(count, &mut port));
        theirs = theirs.min(nanoseconds(count, &mut rust));
    }
    println!("| {name} | {ours:.1} | {theirs:.1} | {:.2} |", ours / theirs);
}

fn decoding(list: &[u8], volume: &Volume) {
    let count = RUNS as usize;
    let port = || DataRuns::new(list, CLUSTER).for_each(|run| used(run));
    let rust = || {
        let mut runs = volume.runs(list);
        while let Some(Some(run)) = runs.step().accepted() {
            black_box(run);
        }
    };
    line("decode a run", count, port, rust);
}

fn seeking(list: &[u8], size: u64, volume: &Volume) {
    let targets = places(size, 10_000);
    let mut reader = Reader::open(list, CLUSTER, size).expect("the list opens");
    let mut stream = volume.open(list, size).accepted().expect("the list opens");
    let port = || targets.iter().for_each(|t| used(reader.seek(list, SeekFrom::Start(*t))));
    let rust = || targets.iter().for_each(|t| used(stream.seek(SeekFrom::Start(*t)).accepted()));
    line("random seek over 2,000 runs", targets.len(), port, rust);
    let mut reader = Reader::open(list, CLUSTER, size).expect("the list opens");
    let mut stream = volume.open(list, size).accepted().expect("the list opens");
    let steps = 20_000;
    let port = || {
        black_box(reader.seek(list, SeekFrom::Start(0))).expect("in range");
        (0..steps).for_each(|_| used(reader.seek(list, SeekFrom::Current(16))));
    };
    let rust = || {
        black_box(stream.seek(SeekFrom::Start(0)).accepted());
        (0..steps).for_each(|_| used(stream.seek(SeekFrom::Current(16)).accepted()));
    };
    line("seek 16 bytes forward", steps, port, rust);
}

/// Bytes off a disk in memory, by the port's adapter and by the Rust's own reader.
fn reading(list: &[u8], size: u64, volume: &Volume) {
    let targets = places(size - 4_096, 2_000);
    let disk = vec![0x5a; DISK];
    let mut buffer = vec![0; 4_096];
    let mut port = Stream::open(Cursor::new(disk.clone()), list, CLUSTER, size).expect("the list opens");
    let mut rust = volume.open(list, size).accepted().expect("the list opens");
    let mut theirs = (Cursor::new(disk), vec![0; 4_096]);
    let ours = || {
        for t in &targets {
            port.seek(SeekFrom::Start(*t)).expect("in range");
            port.read_exact(&mut buffer).expect("the disk has it");
        }
        black_box(&buffer);
    };
    let others = || {
        for t in &targets {
            rust.seek(SeekFrom::Start(*t)).accepted().expect("in range");
            let count = rust.read_from(&mut theirs.0, &mut theirs.1).accepted();
            assert_eq!(count, Some(4_096));
        }
        black_box(&theirs.1);
    };
    line("seek and read 4,096 bytes", targets.len(), ours, others);
}

/// A record of so many bytes with its sectors' ends in place. Both sides repair a fresh copy each time.
fn record(length: usize) -> Vec<u8> {
    let mut bytes = vec![0u8; length];
    let sectors = length / 512;
    bytes[4..8].copy_from_slice(&[48, 0, sectors as u8 + 1, 0]);
    bytes[48..50].copy_from_slice(&[7, 7]);
    (0..sectors).for_each(|k| bytes[512 * k + 510..512 * k + 512].copy_from_slice(&[7, 7]));
    bytes
}

fn repairing(length: usize) {
    let (bytes, count) = (record(length), 10_000);
    let port = || {
        for _ in 0..count {
            let mut copy = bytes.to_vec();
            archthimble::repair(&mut copy).expect("it is sound");
            black_box(copy);
        }
    };
    let rust = || (0..count).for_each(|_| used(api::fixup(&bytes)));
    line(&format!("copy and repair a record of {length} bytes"), count, port, rust);
}

/// The port alone: what the Rust's parser would take can't be said, since a stand-in parses for it here.
fn booting() {
    let mut sector = vec![0u8; 512];
    sector[11..14].copy_from_slice(&[0, 2, 8]);
    sector[48] = 4;
    sector[64] = 0xf6;
    sector[510..].copy_from_slice(&[0x55, 0xaa]);
    let count = 10_000;
    let mut port = || (0..count).for_each(|_| used(Geometry::read(black_box(&sector)).expect("it is sound")));
    let best = (0..ROUNDS).map(|_| nanoseconds(count, &mut port)).fold(f64::MAX, f64::min);
    println!("| read a boot sector | {best:.1} | | |");
}

fn main() {
    let (list, size) = list();
    let volume = Volume::new(CLUSTER as u32);
    println!("| what | port, ns | Rust, ns | port / Rust |\n|---|---|---|---|");
    decoding(&list, &volume);
    seeking(&list, size, &volume);
    reading(&list, size, &volume);
    repairing(1_024);
    repairing(4_096);
    booting();
}
