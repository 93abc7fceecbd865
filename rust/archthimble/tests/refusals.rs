//! Every refusal that bytes and numbers can bring about: number, name, values, sentence.
use archthimble::{lookup, repair, DataRuns, Geometry, Reader, Refusal};
use std::io::SeekFrom;

fn is(refusal: Refusal, number: u64, name: &str, values: &[i128]) {
    assert_eq!((refusal.number(), refusal.name(), refusal.values()), (number, name, values));
    let sentence = refusal.to_string();
    assert!(sentence.starts_with(&format!("refused ({number}, {name}): ")), "{sentence}");
    let error: Box<dyn std::error::Error> = Box::new(refusal);
    assert_eq!(error.downcast_ref::<Refusal>(), Some(&refusal));
}

/// A sound boot sector: sectors of 512, clusters of 4,096, records of 1,024 bytes.
fn sector() -> [u8; 512] {
    let mut sector = [0; 512];
    sector[11..14].copy_from_slice(&[0x00, 0x02, 8]);
    sector[40..48].copy_from_slice(&1_000_000u64.to_le_bytes());
    sector[48..56].copy_from_slice(&786_432u64.to_le_bytes());
    sector[56..64].copy_from_slice(&u64::MAX.to_le_bytes());
    (sector[64], sector[68]) = (-10i8 as u8, -128i8 as u8);
    sector[72..80].copy_from_slice(&0xfedc_ba98_7654_3210u64.to_le_bytes());
    sector[510..].copy_from_slice(&[0x55, 0xaa]);
    sector
}

fn boot(change: impl FnOnce(&mut [u8])) -> Result<Geometry, Refusal> {
    let mut sector = sector();
    change(&mut sector);
    Geometry::read(&sector)
}

#[test]
fn geometry_is_read() {
    let expected = Geometry {
        sector_size: 512,
        cluster_size: 4096,
        total_sectors: 1_000_000,
        mft_lcn: 786_432,
        mirror_lcn: u64::MAX,
        record_size: 1024,
        index_info: -128,
        serial: 0xfedc_ba98_7654_3210,
    };
    assert_eq!(Geometry::read(&sector()), Ok(expected));
    assert_eq!(Geometry::read(&[&sector()[..], &[1; 100]].concat()), Ok(expected), "bytes past 512 are ignored");
    assert_eq!(boot(|s| s[64] = 2).unwrap().record_size, 8192);
    assert_eq!(boot(|s| s[13] = 244).unwrap().cluster_size, 2_097_152);
}

#[test]
fn boot_sectors_1_to_7() {
    is(Geometry::read(&sector()[..511]).unwrap_err(), 1, "short boot sector", &[]);
    is(boot(|s| s[510] = 0x54).unwrap_err(), 2, "boot mark", &[0x54, 0xaa]);
    is(boot(|s| s[13] = 243).unwrap_err(), 3, "sectors per cluster", &[243]);
    is(boot(|s| s[12] = 3).unwrap_err(), 4, "sector size", &[768]);
    is(boot(|s| (s[12], s[13]) = (4, 244)).unwrap_err(), 5, "cluster size", &[4_194_304]);
    is(boot(|s| s[48..56].fill(0)).unwrap_err(), 6, "MFT LCN", &[]);
    is(boot(|s| s[64] = 0).unwrap_err(), 7, "file record size", &[0, 4096]);
    is(boot(|s| s[64] = -9i8 as u8).unwrap_err(), 7, "file record size", &[-9, 4096]);
    is(boot(|s| s[64] = -128i8 as u8).unwrap_err(), 7, "file record size", &[-128, 4096]);
}

/// A sound record of two sectors.
fn record() -> [u8; 1024] {
    let mut record = [0xee; 1024];
    record[4..8].copy_from_slice(&[0x30, 0, 3, 0]);
    record[0x30..0x36].copy_from_slice(&[7, 8, 1, 2, 3, 4]);
    record[510..512].copy_from_slice(&[7, 8]);
    record[1022..].copy_from_slice(&[7, 8]);
    record
}

/// Repairs a changed record: the refusal, and the record as it was and as it was left.
fn torn(change: impl FnOnce(&mut [u8])) -> (Refusal, [u8; 1024], [u8; 1024]) {
    let mut before = record();
    change(&mut before);
    let mut after = before;
    (repair(&mut after).unwrap_err(), before, after)
}

#[test]
fn records_8_to_12() {
    let mut sound = record();
    assert_eq!(repair(&mut sound), Ok(()));
    assert_eq!((&sound[510..512], &sound[1022..]), (&[1, 2][..], &[3, 4][..]));

    is(repair(&mut [0; 7]).unwrap_err(), 8, "record length", &[7]);
    is(repair(&mut [0; 4097]).unwrap_err(), 8, "record length", &[4097]);
    let early: [(&[u8], u64, &str, &[i128]); 3] = [
        (&[0xff, 0x03, 3, 0], 9, "sequence number", &[1023]),
        (&[0x30, 0, 0, 0], 10, "sequence count", &[]),
        (&[0x30, 0, 4, 0], 11, "sequence array", &[4]),
    ];
    for (bytes, number, name, values) in early {
        let (refusal, before, after) = torn(|r| r[4..8].copy_from_slice(bytes));
        is(refusal, number, name, values);
        assert_eq!(before, after);
    }
    let (refusal, mut before, after) = torn(|r| r[1023] = 9);
    is(refusal, 12, "torn record", &[1, 7, 9]);
    before[510..512].copy_from_slice(&[1, 2]);
    assert_eq!(before, after, "sectors before the torn one are repaired");
}

#[test]
fn runs_13_to_19() {
    let far = [0x81, 1, 0xff, 0xff, 0xff, 0xff, 0xff, 0xff, 0x3f, 0, 0x81, 1, 0, 0, 0, 0, 0, 0, 0, 0x80];
    let cases: [(&[u8], u64, &str, &[i128]); 7] = [
        (&[0x11, 1, 1, 0x0f], 13, "run header", &[3]),
        (&[0x11, 1, 1, 0x11, 1], 14, "cut run", &[3]),
        (&[0x11, 1, 1, 0x11, 0, 1], 15, "empty run", &[3]),
        (&[0x18, 0, 0, 0, 0, 0, 0, 0x80, 0, 1], 16, "run size", &[0]),
        (&far, 17, "run LCN", &[10, 0x3f_ffff_ffff_ffff]),
        (&[0x71, 1, 0, 0, 0, 0, 0, 0, 0x7f, 0x81, 1, 0, 0, 0, 0, 0, 0, 1, 0], 18, "run place", &[9]),
        (&[0x71, 1, 0xff, 0xff, 0xff, 0xff, 0xff, 0xff, 0x7f], 19, "run end", &[0]),
    ];
    for (list, number, name, values) in cases {
        let refusal = DataRuns::new(list, 512).find_map(Result::err).unwrap();
        is(refusal, number, name, values);
    }
}

#[test]
fn readers_20_to_22() {
    let list = [0x11, 1, 1, 0];
    let mut reader = Reader::open(&list, 512, 100).unwrap();
    is(reader.seek(&list, SeekFrom::Current(-1)).unwrap_err(), 20, "seek target", &[]);
    is(reader.read(&list[..2], 1, &mut [0; 3]).unwrap_err(), 21, "unsound", &[]);
    for cluster in [0, 1, 256, 513, 4_194_304, u64::MAX] {
        is(Reader::open(&list, cluster, 100).unwrap_err(), 21, "unsound", &[]);
        is(lookup(&[0; 4097], cluster, 0).unwrap_err(), 21, "unsound", &[]);
        is(DataRuns::new(&list, cluster).next().unwrap().unwrap_err(), 21, "unsound", &[]);
    }
    is(lookup(&[0; 4097], 512, 0).unwrap_err(), 22, "list length", &[]);
    assert!(lookup(&[0; 4096], 512, 0).is_ok());
}
