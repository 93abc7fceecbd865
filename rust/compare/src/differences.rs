//! The smallest input of each entry of docs/DIFFERENCES.md, run, with what both sides answer. Each must fall under its own entry.
use crate::answer::hex;
use crate::boot;
use crate::domain::Verdict;
use crate::lists;
use crate::pair::{Judged, Pair};
use crate::port::By;
use crate::records;
use crate::report::{Outcome, Report};
use oracle::api::Volume;
use std::fmt::Debug;

fn show(report: &mut Report, entry: &str, input: &str, verdict: Verdict, port: impl Debug, rust: impl Debug) -> Outcome {
    println!("{entry}: {input}\n  port: {port:?}\n  Rust: {rust:?}");
    let name = entry.split(',').next().unwrap_or(entry);
    match verdict {
        Verdict::Apart(found) if found == name => Ok(()),
        Verdict::Same if entry.ends_with(", the same") => Ok(()),
        other => Err(report.fail(input, &format!("judged as {other:?}"))),
    }
}

fn record(report: &mut Report, entry: &str, record: &[u8]) -> Outcome {
    let (verdict, rust) = records::compare(report, record)?;
    let input = format!("record of {} bytes, {} at 4", record.len(), hex(&record[record.len().min(4)..record.len().min(8)]));
    show(report, entry, &input, verdict, format!("refused 8, {} bytes", record.len()), rust.answer)
}

/// Decodes run after run, the last one `tries` times.
fn run(report: &mut Report, entry: &str, list: &[u8], cluster: u32, tries: usize) -> Outcome {
    let volume = Volume::new(cluster);
    let mut runs = volume.runs(list);
    let (mut at, mut lcn) = (0, 0);
    loop {
        let step = lists::step(report, list, cluster, &mut runs, at, lcn)?;
        let more: Vec<_> = (1..tries).map(|_| runs.step()).collect();
        let last = step.port.number().is_some() || step.rust.left.0 == list.len() as u64;
        if !last {
            (at, lcn) = step.rust.left;
            runs = again(&volume, list, at);
            continue;
        }
        let input = format!("list {}, cluster size {cluster}, the run at {at}", hex(list));
        return show(report, entry, &input, step.verdict, step.port, (step.rust, more));
    }
}

/// A decoder that stands at the run at `at`.
fn again<'a>(volume: &'a Volume, list: &'a [u8], at: u64) -> oracle::api::Runs<'a> {
    let mut runs = volume.runs(list);
    while runs.cursor() < at {
        runs.step();
    }
    runs
}

enum Do {
    Seek(By),
    Read(u64),
}

/// Opens and makes the calls; shown is the last.
fn stream(report: &mut Report, entry: &str, list: &[u8], size: u64, calls: &[Do]) -> Outcome {
    let volume = Volume::new(512);
    let (_, pair) = Pair::open(report, &volume, list, 512, size)?;
    let mut pair = pair.ok_or_else(|| report.fail(entry, "refused to open"))?;
    let mut last: Option<Judged> = None;
    for call in calls {
        last = Some(match call {
            Do::Seek(by) => pair.seek(report, 0, *by)?,
            Do::Read(w) => pair.read(report, *w, 30)?,
        });
    }
    let Some(judged) = last else { return Ok(()) };
    let input = format!("list {}, data size {size}: {}", hex(list), pair.calls.join("; "));
    show(report, entry, &input, judged.verdict, judged.port, judged.rust)
}

/// What the Rust reads after a seek that it refused: its reader is used on, which the comparison never does.
fn misled(report: &mut Report, list: &[u8]) -> Outcome {
    let volume = Volume::new(512);
    let Some(mut rust) = volume.open(list, 4000).accepted() else { return Err(report.fail("open", "refused")) };
    let sought = rust.seek(std::io::SeekFrom::Start(1024));
    let place = rust.place();
    let read = rust.read(512);
    println!("D6, used on: list {}: the Rust's seek to 1024 is {sought:?}, its place {place}; its next read of 512 is {read:?}", hex(list));
    Ok(())
}

/// What the Rust does where the disk hands out nothing; the port has no such input.
fn dry(report: &mut Report, list: &[u8]) -> Outcome {
    let volume = Volume::new(512);
    let Some(mut rust) = volume.open(list, 4000).accepted() else { return Err(report.fail("open", "refused")) };
    let read = rust.read_dry(100);
    println!("D8: list {}, a dry disk: the Rust's read of 100 is {read:?}, after it {:?}", hex(list), rust.stand());
    Ok(())
}

fn numbers(report: &mut Report) -> Outcome {
    let position = lists::position(report, 0, 512)?;
    show(report, "D10", "LCN 0, cluster size 512", position.0, position.1, oracle::api::lcn_position(0, 512))?;
    let sector = &boot::good()[..511];
    let (verdict, answer) = boot::compare(report, sector)?;
    show(report, "D12", "a boot sector of 511 bytes", verdict, "refused 1", answer)
}

pub fn all(report: &mut Report) -> Outcome {
    for length in 0..8 {
        record(report, "D1", &vec![0; length])?;
    }
    record(report, "D1", &[0, 0, 0, 0, 5, 0])?;
    let mut long = vec![0; 65_536];
    long[4..6].copy_from_slice(&[0xfe, 0xff]);
    record(report, "D3, the count is 0", &long)?;
    long[6] = 1;
    record(report, "D2", &long)?;
    record(report, "D3", &vec![0; 4097])?;
    run(report, "D3", &[0x71, 1, 255, 255, 255, 255, 255, 255, 0x7f], 512, 1)?;
    stream(report, "D4", &[0x11, 1, 10, 9], 4000, &[Do::Read(600)])?;
    stream(report, "D4", &[1, 1, 9], 513, &[Do::Read(513)])?;
    run(report, "D5", &[0x11, 1, 2, 0x81, 1, 255, 255, 255, 255, 255, 255, 255, 0x7f], 512, 2)?;
    run(report, "D5", &[0x81, 1, 255, 255, 255, 255, 255, 255, 255, 0x7f], 512, 3)?;
    stream(report, "D6", &[1, 1, 1, 1, 9], 4000, &[Do::Seek(By::Unsigned(1024))])?;
    stream(report, "D6", &[1, 1, 9], 4000, &[Do::Read(1), Do::Seek(By::Unsigned((1 << 63) + 1))])?;
    misled(report, &[0x11, 1, 10, 0x11, 1, 1, 9])?;
    stream(report, "D7", &[0x11, 1, 10, 0x11, 1, 1], 512, &[Do::Read(512), Do::Read(1)])?;
    stream(report, "D7", &[0x11, 1, 10, 1, 1], 0, &[Do::Read(1)])?;
    stream(report, "D7", &[1, 1, 1, 1], 0, &[Do::Read(1)])?;
    dry(report, &[0x11, 1, 10, 1, 1])?;
    run(report, "D9, the same", &[0x11, 1, 0], 512, 1)?;
    run(report, "D9, the same", &[0x11, 1, 1, 0x11, 1, 255], 512, 1)?;
    stream(report, "D11", &[1, 1, 9], 512, &[Do::Read(513)])?;
    stream(report, "D11", &[1, 1, 9], 0, &[Do::Read(1)])?;
    stream(report, "D13", &[1, 1], 512, &[Do::Seek(By::Signed(-1))])?;
    numbers(report)
}
