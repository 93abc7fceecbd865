//! What nobody should do: nothing, too much, and the wrong thing.
mod model;

use archthimble::{lcn_plus, lcn_position, lookup, repair, DataRuns, Geometry, Place, Reader, Span, Where};
use model::{Random, B};
use std::io::SeekFrom;

#[test]
fn nothing_at_all() {
    assert_eq!(Geometry::read(&[]).unwrap_err().number(), 1);
    assert_eq!(repair(&mut []).unwrap_err().values(), [0]);
    assert_eq!(DataRuns::new(&[], 512).next(), None);
    assert_eq!(lookup(&[], 512, 0), Ok(Where::NotCovered));
    let mut reader = Reader::open(&[], 512, u64::MAX).unwrap();
    assert_eq!((reader.current_run(), reader.data_position()), (None, Ok(None)));
    assert_eq!(reader.read(&[], u64::MAX, &mut [0; 30]).unwrap().count(), 0);
    assert_eq!(reader.seek(&[], SeekFrom::End(0)), Ok(u64::MAX));
    assert_eq!(reader.seek(&[], SeekFrom::Start(0)), Ok(0));
}

#[test]
fn no_room_no_width_no_data() {
    let mut reader = Reader::open(&B, 512, 4000).unwrap();
    let before = reader;
    for words in 0..3 {
        assert_eq!(reader.read(&B, 100, &mut vec![0; words]).unwrap().bytes(), 0);
    }
    assert_eq!(reader.read(&B, 0, &mut [0; 9]).unwrap().len(), 0);
    assert_eq!(reader, before);
    let mut empty = Reader::open(&B, 512, 0).unwrap();
    assert_eq!(empty.read(&B, 100, &mut [0; 9]).unwrap().bytes(), 0);
    assert_eq!(reader.read(&B, 100, &mut [0; 5]).unwrap().collect::<Vec<_>>(), [Span { place: Place::Disk(5120), length: 100 }]);
}

#[test]
fn sizes_at_the_end_of_the_numbers() {
    // a hole of 2^64 - 512 bytes, and then 512 more
    let list = [0x07, 0xff, 0xff, 0xff, 0xff, 0xff, 0xff, 0x7f, 0x11, 1, 1, 0];
    let mut reader = Reader::open(&list, 512, u64::MAX).unwrap();
    let mut store = [0; 9];
    let spans = reader.read(&list, u64::MAX, &mut store).unwrap();
    assert_eq!(spans.bytes(), u64::MAX);
    let spans: Vec<Span> = spans.collect();
    assert_eq!(spans, [Span { place: Place::Hole, length: u64::MAX - 511 }, Span { place: Place::Disk(512), length: 511 }]);
    assert_eq!((reader.place(), reader.data_position()), (u64::MAX, Ok(Some(1023))));
    assert_eq!(reader.seek(&list, SeekFrom::Current(1)).unwrap_err().number(), 20);
    assert_eq!(lookup(&list, 512, u64::MAX), Ok(Where::Disk(1023)));
}

#[test]
fn lcns() {
    assert_eq!(lcn_plus(0, i64::MIN), None);
    assert_eq!(lcn_plus(1 << 63, i64::MIN), Some(0));
    assert_eq!(lcn_plus(u64::MAX, 0), Some(u64::MAX));
    assert_eq!(lcn_plus(u64::MAX, 1), None);
    assert_eq!(lcn_plus(u64::MAX, -1), Some(u64::MAX - 1));
    assert_eq!(lcn_position(u64::MAX, 1), Some(u64::MAX));
    assert_eq!(lcn_position(u64::MAX, 0), Some(0));
    assert_eq!(lcn_position(1 << 55, 512), None);
}

/// Another list at each call: any answer will do, but it must come, and an accepted read must stay inside its store.
#[test]
fn a_different_list_each_time() {
    let mut random = Random(99);
    let mut reader = Reader::open(&B, 512, u64::MAX).unwrap();
    let mut unsound = 0;
    for _ in 0..20_000 {
        let list = random.list();
        let mut store = vec![0; random.below(12) as usize];
        let before = reader;
        let refused = match random.below(3) {
            0 => reader.seek(&list, SeekFrom::Start(random.word() >> random.below(64))).err(),
            _ => reader.read(&list, random.word() >> random.below(64), &mut store).map(|s| assert!(s.len() <= 4)).err(),
        };
        if let Some(refusal) = refused {
            unsound += u32::from(refusal.number() == 21);
            assert_eq!(reader, before);
        }
        assert!(reader.data_position().is_ok());
        if random.below(8) == 0 {
            reader = Reader::open(&B, 512, random.word()).unwrap();
        }
    }
    assert!(unsound > 100, "too few lists didn't fit: {unsound}");
}

#[test]
fn debug_shows_what_a_reader_is() {
    let reader = Reader::open(&B, 512, 4000).unwrap();
    let run = "Some(Run { size: 1024, place: Disk(5120) })";
    assert_eq!(format!("{reader:?}"), format!("Reader {{ place: 0, size: 4000, cluster_size: 512, current_run: {run}, .. }}"));
}
