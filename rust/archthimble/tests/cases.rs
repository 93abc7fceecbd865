//! C1 to C16 of the scope of work.
mod model;

use archthimble::{lookup, By, DataRuns, From, Place, Reader, Refusal, Run, Span, Where};
use model::B;
use std::io::SeekFrom;

const SIZE: u64 = 4000;

fn runs(list: &[u8], cluster: u64) -> Result<Vec<Run>, Refusal> {
    DataRuns::new(list, cluster).collect()
}

fn disk(size: u64, place: u64) -> Run {
    Run { size, place: Place::Disk(place) }
}

fn hole(size: u64) -> Run {
    Run { size, place: Place::Hole }
}

fn reader_at(list: &[u8], place: u64) -> Reader {
    let mut reader = Reader::open(list, 512, SIZE).unwrap();
    assert_eq!(reader.seek(list, SeekFrom::Start(place)), Ok(place));
    reader
}

#[test]
fn c1_to_c3_runs() {
    assert_eq!(runs(&[0x21, 0x18, 0x34, 0x56, 0], 4096), Ok(vec![disk(98_304, 90_390_528)]));
    assert_eq!(runs(&[0x11, 1, 0], 512), Ok(vec![hole(512)]));
    // the LCN in front of the hole is kept: 5 more than 10, not than 0
    assert_eq!(runs(&[0x11, 1, 10, 0x11, 1, 0, 0x11, 1, 5], 512), Ok(vec![disk(512, 5120), hole(512), disk(512, 7680)]));
    assert_eq!(runs(&B, 512), Ok(vec![disk(1024, 5120), disk(512, 4096), hole(1536), disk(1024, 6656)]));
}

#[test]
fn c4_a_read_over_three_runs() {
    let mut reader = reader_at(&B, 900);
    let mut store = [77; 9];
    assert_eq!(reader.read(&B, 1000, &mut store).unwrap().bytes(), 1000);
    assert_eq!(store, [6020, 124, 1, 4096, 512, 1, 0, 364, 0]);
    assert_eq!(reader.place(), 1900);
    assert_eq!(reader.current_run(), Some(hole(1536)));
}

#[test]
fn c5_a_read_ends_at_the_data() {
    let mut reader = reader_at(&B, 3900);
    let mut store = [77; 30];
    let spans = reader.read(&B, 500, &mut store).unwrap();
    assert_eq!((spans.len(), spans.bytes()), (1, 100));
    assert_eq!(spans.collect::<Vec<_>>(), [Span { place: Place::Disk(7484), length: 100 }]);
    assert!(store[3..].iter().all(|word| *word == 77), "words past the spans keep their values");
}

#[test]
fn c6_data_position() {
    let mut reader = Reader::open(&B, 512, SIZE).unwrap();
    assert_eq!(reader.read(&B, 1024, &mut [0; 9]).unwrap().bytes(), 1024);
    assert_eq!(reader.data_position(), Ok(Some(6144)));
    assert_eq!(reader_at(&B, 1024).data_position(), Ok(Some(4096)));
    assert_eq!(reader_at(&B, 1536).data_position(), Ok(None));
    assert_eq!(reader_at(&B, 4096).data_position(), Ok(None));
}

#[test]
fn c7_to_c14_refused_runs() {
    let cases: [(&[u8], u64, &[i128]); 8] = [
        (&[0x11, 1, 0x80], 17, &[0, 0]),
        (&[0x21, 0x18, 0x34], 14, &[0]),
        (&[0x09], 13, &[0]),
        (&[0x90], 15, &[0]),
        (&[0x91, 1], 13, &[0]),
        (&[0x71, 1, 0xff, 0xff, 0xff, 0xff, 0xff, 0xff, 0x7f], 19, &[0]),
        (&[0x81, 1, 0, 0, 0, 0, 0, 0, 0x80, 0], 18, &[0]),
        (&[0x18, 0xff, 0xff, 0xff, 0xff, 0xff, 0xff, 0xff, 0xff], 16, &[0]),
    ];
    for (list, number, values) in cases {
        let refusal = runs(list, 512).unwrap_err();
        assert_eq!((refusal.number(), refusal.values()), (number, values), "{list:02x?}");
        assert_eq!(Reader::open(list, 512, SIZE), Err(refusal), "opening decodes the first run");
        assert_eq!(lookup(list, 512, 0), Err(refusal));
        let mut once = DataRuns::new(list, 512);
        assert_eq!((once.next(), once.next(), once.next()), (Some(Err(refusal)), None, None), "over after a refusal");
    }
}

#[test]
fn c15_a_refused_run_behind_a_good_one() {
    let list = [0x11, 1, 10, 9];
    let mut reader = Reader::open(&list, 512, SIZE).unwrap();
    assert_eq!(reader.read(&list, 600, &mut [0; 9]).unwrap().bytes(), 512);
    let before = reader;
    let mut store = [77; 9];
    let refusal = reader.read(&list, 600, &mut store).unwrap_err();
    assert_eq!((refusal.number(), refusal.values()), (13, &[3][..]));
    assert_eq!((reader, store), (before, [77; 9]), "a refused read changes nothing");
    let mut reader = Reader::open(&list, 512, SIZE).unwrap();
    assert_eq!(reader.seek(&list, SeekFrom::Start(512)), Err(refusal));
    assert_eq!(reader.place(), 0);
    assert_eq!(lookup(&list, 512, 511), Ok(Where::Disk(5631)));
}

#[test]
fn c16_seek_targets() {
    let mut reader = reader_at(&B, 900);
    let before = reader;
    assert_eq!(reader.seek(&B, SeekFrom::End(i64::MIN)).unwrap_err().number(), 20);
    assert_eq!(reader.seek(&B, SeekFrom::Current(-901)).unwrap_err().number(), 20);
    assert_eq!(reader.seek_by(&B, From::Place, By::Unsigned(u64::MAX - 899)).unwrap_err().number(), 20);
    assert_eq!(reader, before);
    assert_eq!(reader.seek_by(&B, From::Place, By::Unsigned(u64::MAX - 900)), Ok(u64::MAX));
    assert_eq!(reader.seek(&B, SeekFrom::End(-3999)), Ok(1));
    assert_eq!(reader.seek_by(&B, From::End, By::Unsigned(96)), Ok(4096));
    assert_eq!(reader.seek_by(&B, From::Start, By::Signed(-1)).unwrap_err().number(), 20);
    assert_eq!(reader.seek_by(&B, From::Start, By::Signed(7)), Ok(7));
}
