//! What the generated scripts reach: how often each answer, refusal and noted difference comes up.

use std::collections::BTreeMap;

use crate::{
    beside::seed_of,
    driver::play,
    gen,
    script::{Call, Reader},
};

fn name(call: &Call) -> &'static str {
    match call {
        Call::Counts(_) => "counts",
        Call::Score(_) => "score",
        Call::Reload(_) => "reload",
        Call::Ack(_) => "ack",
        Call::Send(_) => "send",
        Call::Tick => "tick",
        Call::Wake(_) => "wake",
        Call::Lookup(_) => "lookup",
        Call::LookupReplaced(..) => "replaced",
        Call::Tally(_) => "tally",
        Call::Candidate(..) => "candidate",
        Call::PrintTree => "tree",
        Call::Load(_) => "load",
        Call::Equal(_) => "equal",
        Call::UndoSplit => "undo",
        Call::Apply(..) => "apply",
        Call::EvenRow(_) => "row",
        Call::NextList(..) => "list",
        Call::ChangeSettings(..) => "change",
        Call::Seed(_) => "seed",
        Call::OwnAck(..) => "own ack",
        Call::Step => "step",
        Call::StepBack => "back",
        Call::Tested(_) => "tested",
        Call::Leaves(..) => "leaves",
        Call::Burst(..) => "burst",
    }
}

/// The first words of a call's own line that tell answers apart.
fn answer(line: &str) -> String {
    let mut words = line.split(' ');
    let first = words.next().unwrap_or("");
    match (first, words.next()) {
        ("refused" | "equal", Some(second)) => format!("{first} {second}"),
        ("burst", _) => format!("{first} stopped by {}", words.next().unwrap_or("")),
        ("wake" | "candidates", _) if line.ends_with('-') => format!("{first} -"),
        _ => first.to_owned(),
    }
}

pub fn take(scripts: u64, seed: u64) {
    let mut all = BTreeMap::<String, u64>::new();
    for (kind, _) in gen::KINDS {
        let mut calls = 0;
        let mut bytes = 0;
        let mut ends = BTreeMap::<String, u64>::new();
        let mut most_splits = 0;
        let (mut followed, mut alone) = (0, 0);
        for i in 0..scripts {
            let script = gen::script(kind, seed_of(seed, i)).expect("a kind");
            bytes += script.len();
            let played = play(&script);
            followed += played.followed;
            alone += played.alone;
            for difference in played.met {
                *all.entry(format!("difference {difference}")).or_default() += 1;
            }
            let output = String::from_utf8(played.output).expect("plain lines");
            let last = output.lines().last().unwrap_or("");
            *ends.entry(answer(last)).or_default() += 1;
            if let Some(record) = last.strip_prefix("record ") {
                let splits = u16::from_str_radix(&record[284..288], 16).unwrap();
                most_splits = most_splits.max(splits);
            }
            if output.lines().any(|line| line.starts_with("done")) {
                *ends.entry("done".to_owned()).or_default() += 1;
            }
            calls += count_calls(&script, &output, &mut all);
        }
        println!("{kind}: {calls} calls, {bytes} bytes, up to {most_splits} splits, {ends:?}");
        println!(
            "  answers taken: {followed} held against the original train, {alone} after a foreign record"
        );
    }
    for (what, times) in all {
        println!("{what}: {times}");
    }
}

/// Pairs each call with its own line.
fn count_calls(script: &[u8], output: &str, all: &mut BTreeMap<String, u64>) -> u64 {
    let own = |line: &&str| {
        let first = line.split(' ').next().unwrap_or("");
        !matches!(first, "ask" | "done" | "sender" | "record" | "bad")
            && !first.bytes().all(|b| b.is_ascii_digit())
    };
    let mut lines = output.lines().filter(own);
    let mut reader = Reader::new(script);
    if output.starts_with("refused") || reader.header().is_err() {
        return 0;
    }
    let mut calls = 0;
    while let (Ok(Some(call)), Some(line)) = (reader.call(), lines.next()) {
        calls += 1;
        *all.entry(format!("{} {}", name(&call), answer(line))).or_default() += 1;
    }
    calls
}
