//! The adapter: the right bytes, none lost and none twice, on disks that fail in every way.
mod model;

use archthimble::{Refusal, Stream};
use model::{find, Found, Random, B};
use std::io::{self, Cursor, ErrorKind, Read, Seek, SeekFrom};

/// A disk whose bytes tell their places apart.
fn disk(length: usize) -> Vec<u8> {
    (0..length).map(|i| (i * 7 + i / 251 + 1) as u8).collect()
}

/// The byte of a stream at an offset, by the lookup rule.
fn byte(disk: &[u8], list: &[u8], offset: u64) -> u8 {
    match find(list, 512, offset) {
        Found::Run(_, Some(at)) => disk[at as usize],
        Found::Run(_, None) => 0,
        other => panic!("nothing at {offset}: {other:?}"),
    }
}

#[test]
fn all_of_it() {
    let disk = disk(8192);
    let mut stream = Stream::open(Cursor::new(disk.clone()), &B, 512, 4000).unwrap();
    let mut bytes = Vec::new();
    assert_eq!(stream.read_to_end(&mut bytes).unwrap(), 4000);
    let expected: Vec<u8> = (0..4000).map(|i| byte(&disk, &B, i)).collect();
    assert!(bytes == expected);
    assert_eq!(stream.read(&mut [0; 10]).unwrap(), 0, "the end stays the end");
    assert_eq!(stream.seek(SeekFrom::End(1000)).unwrap(), 5000);
    assert_eq!(stream.read(&mut [0; 10]).unwrap(), 0);
    assert_eq!(stream.rewind().and_then(|()| stream.read(&mut [])).unwrap(), 0);
    assert_eq!(stream.into_inner().into_inner(), disk);
}

#[test]
fn more_runs_than_a_read_has_room_for() {
    let list: Vec<u8> = (0..100).flat_map(|i| [0x11, 1, if i % 2 == 0 { 3 } else { 0xfe }]).collect();
    let disk = disk(60_000);
    let mut bytes = vec![1; 51_200];
    Stream::open(Cursor::new(&disk), &list, 512, 51_200).unwrap().read_exact(&mut bytes).unwrap();
    assert!(bytes.iter().enumerate().all(|(i, b)| *b == byte(&disk, &list, i as u64)));
}

#[test]
fn runs_over_before_the_data() {
    let mut stream = Stream::open(Cursor::new(disk(8192)), &B, 512, 10_000).unwrap();
    assert_eq!(stream.read_to_end(&mut Vec::new()).unwrap(), 4096);
    assert_eq!((stream.reader().place(), stream.reader().size()), (4096, 10_000));
}

#[test]
fn refusals_come_through() {
    let list = [0x11, 1, 10, 9];
    assert_eq!(Stream::open(Cursor::new(vec![]), &list[3..], 512, 600).unwrap_err().number(), 13);
    let mut stream = Stream::open(Cursor::new(disk(8192)), &list, 512, 600).unwrap();
    let number = |error: io::Error| error.get_ref().and_then(|e| e.downcast_ref::<Refusal>()).unwrap().number();
    assert_eq!(number(stream.seek(SeekFrom::Current(-1)).unwrap_err()), 20);
    assert_eq!(stream.read(&mut [0; 600]).unwrap(), 512, "first the good bytes");
    assert_eq!(number(stream.read(&mut [0; 600]).unwrap_err()), 13);
    assert_eq!(stream.stream_position().unwrap(), 512);
}

#[test]
fn a_disk_that_is_cut_off() {
    let whole = disk(8192);
    // inside the last run, whose first byte is at 3,072 of the stream and 6,656 of the disk
    for cut in [6656, 6657, 7000, 7583] {
        let mut stream = Stream::open(Cursor::new(&whole[..cut]), &B, 512, 4000).unwrap();
        let mut bytes = Vec::new();
        assert_eq!(stream.read_to_end(&mut bytes).unwrap_err().kind(), ErrorKind::UnexpectedEof);
        assert_eq!(bytes.len(), 3072 + cut - 6656);
        assert_eq!(stream.stream_position().unwrap(), bytes.len() as u64);
        assert!(bytes.iter().enumerate().all(|(i, b)| *b == byte(&whole, &B, i as u64)));
    }
}

/// A disk that gives what it likes: short reads, errors in reads and seeks, ends that aren't, counts that can't be.
struct Flaky {
    disk: Cursor<Vec<u8>>,
    random: Random,
}

impl Read for Flaky {
    fn read(&mut self, buf: &mut [u8]) -> io::Result<usize> {
        match self.random.below(12) {
            0 => Err(io::Error::from(ErrorKind::Interrupted)),
            1 => Err(io::Error::other("scratched")),
            2 => Ok(0),
            3 => Ok(buf.len() + 1),
            4..=8 => {
                let part = 1 + self.random.below(buf.len() as u64) as usize;
                self.disk.read(&mut buf[..part])
            }
            _ => self.disk.read(buf),
        }
    }
}

impl Seek for Flaky {
    fn seek(&mut self, to: SeekFrom) -> io::Result<u64> {
        match self.random.below(12) {
            0 => Err(io::Error::other("stuck")),
            _ => self.disk.seek(to),
        }
    }
}

/// A sound list that stays inside the test's disk, and its bytes.
fn sound(random: &mut Random) -> (Vec<u8>, u64) {
    let (mut list, mut clusters) = (Vec::new(), 0);
    for _ in 0..1 + random.below(6) {
        let count = 1 + random.below(3);
        clusters += count;
        match random.below(3) {
            0 => list.extend([0x01, count as u8]),
            _ => list.extend([0x11, count as u8, 1 + random.below(5) as u8]),
        }
    }
    (list, 512 * clusters)
}

#[test]
fn no_byte_is_lost_on_a_flaky_disk() {
    let mut random = Random(5);
    let whole = disk(20_480);
    let (mut failed, mut short) = (0, 0);
    for seed in 1..=1000 {
        let (list, covered) = sound(&mut random);
        let size = 1 + random.below(covered);
        let flaky = Flaky { disk: Cursor::new(whole.clone()), random: Random(seed) };
        let mut stream = Stream::open(flaky, &list, 512, size).unwrap();
        let mut place = random.below(size);
        stream.seek(SeekFrom::Start(place)).unwrap();
        while place < size {
            let mut buf = vec![0xbb; 1 + random.below(3000) as usize];
            match stream.read(&mut buf) {
                Ok(n) => {
                    assert!(n > 0, "an end before the data's end");
                    short += u64::from(n < buf.len() && place + (n as u64) < size);
                    assert!((0..n).all(|i| buf[i] == byte(&whole, &list, place + i as u64)));
                    place += n as u64;
                }
                Err(_) => failed += 1,
            }
            assert_eq!(stream.reader().place(), place);
        }
    }
    assert!(failed > 500 && short > 500, "{failed} failures, {short} short reads");
}
