//! Feeds the port and the published Rust the same bytes and calls, and says where they differ.
mod answer;
mod boot;
mod cases;
mod check;
mod differences;
mod domain;
mod functions;
mod generate;
mod histories;
mod hostile;
mod lend;
mod lists;
mod pair;
mod port;
mod random;
#[path = "../../archthimble/src/raw.rs"]
mod raw;
mod records;
mod replay;
mod report;
mod slip;

use histories::Until;
use report::{Outcome, Report};
use std::process::ExitCode;

const USAGE: &str =
    "usage: compare [--only cases|differences|boot|records|lists|histories|hostile] [--seed S] [--histories N | --seconds N]
               [--length N] [--lists N] [--hostile N] [--slip NAME] [--write-replay FILE] [--replay FILE]
--length: the longest of the lists that are all tried (3); --lists: how many random ones (300000)
--hostile: how many hostile calls (1000000)";

const KINDS: [&str; 7] = ["cases", "differences", "hostile", "boot", "records", "histories", "lists"];

struct Options {
    only: Option<String>,
    seed: u64,
    until: Until,
    length: usize,
    lists: u64,
    hostile: u64,
    replay: Option<String>,
    check: Option<String>,
}

fn options() -> Result<Options, String> {
    let until = Until::Count(100_000);
    let mut o = Options { only: None, seed: 1, until, length: 3, lists: 300_000, hostile: 1_000_000, replay: None, check: None };
    let mut given = std::env::args().skip(1);
    while let Some(flag) = given.next() {
        let value = given.next().ok_or(format!("{flag} needs a value"))?;
        let number = || value.parse::<u64>().map_err(|_| format!("{flag}: {value} is no number"));
        match flag.as_str() {
            "--only" if KINDS.contains(&value.as_str()) => o.only = Some(value),
            "--seed" => o.seed = number()?,
            "--histories" => o.until = Until::Count(number()?),
            "--seconds" => o.until = Until::Seconds(number()?),
            "--length" => o.length = number()? as usize,
            "--lists" => o.lists = number()?,
            "--hostile" => o.hostile = number()?,
            "--write-replay" => o.replay = Some(value),
            "--replay" => o.check = Some(value),
            "--slip" => {
                let (_, slip) = slip::ALL.iter().find(|(name, _)| *name == value).ok_or(slips())?;
                let _ = port::SLIP.set(*slip);
            }
            _ => return Err(format!("{flag} {value} isn't known")),
        }
    }
    Ok(o)
}

fn slips() -> String {
    let names: Vec<&str> = slip::ALL.iter().map(|(name, _)| *name).collect();
    format!("slips: {}", names.join(", "))
}

fn kind(report: &mut Report, o: &Options) -> Outcome {
    match report.kind {
        "cases" => cases::all(report),
        "differences" => differences::all(report),
        "boot" => boot::all(report),
        "records" => records::all(report),
        "lists" => {
            lists::numbers(report)?;
            lists::random(report, o.lists)?;
            lists::letters(report)?;
            lists::exhaustive(report, o.length)
        }
        "histories" => histories::all(report, o.until),
        _ => hostile::all(report, o.hostile),
    }
}

fn main() -> ExitCode {
    let o = match options() {
        Ok(o) => o,
        Err(message) => {
            eprintln!("{message}\n{USAGE}\n{}", slips());
            return ExitCode::from(2);
        }
    };
    println!("seed {}", o.seed);
    if let Some(file) = &o.replay {
        return replay::write(file, o.seed);
    }
    if let Some(file) = &o.check {
        return check::replay(file);
    }
    let mut failed = false;
    let mut lines = Vec::new();
    for name in KINDS.into_iter().filter(|k| o.only.as_deref().is_none_or(|only| only == *k)) {
        let mut report = Report::new(name, o.seed);
        failed |= kind(&mut report, &o).is_err();
        lines.push(report.line());
        // a planted mistake is found once
        if failed && port::SLIP.get().is_some() {
            break;
        }
    }
    lines.iter().for_each(|line| println!("{line}"));
    if failed {
        ExitCode::FAILURE
    } else {
        ExitCode::SUCCESS
    }
}
