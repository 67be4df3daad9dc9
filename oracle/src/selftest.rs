//! The oracle's own checks, row by row: a name, what came out, what is right. The rows are document 01's lens
//! checks and the places where a careless reading of 01 goes wrong.

use std::fmt::Display;

use flowforge::{
    quantities::{milliseconds, seconds},
    trainers::remy::RemyTrainer,
    util::meters::EWMA,
};

use crate::{
    differences::{self, ack, default_settings, header, shown_line},
    driver::play,
    gen,
    plain::{
        admitted, bits, next_list, split_lists, Ack, Action, Answer, Cube, Generator, Phase, Point, Repeat,
        Sender, Settings, Trainer, Tree, USUAL_ENDS,
    },
    rust::{as_given, grow, improvements, leaf, shown, to_action, Shown},
    script::{Call, Header, Writer},
    trace::{self, Event},
};

#[derive(Default)]
struct Table {
    rows: usize,
    failed: usize,
}

impl Table {
    fn row(&mut self, name: &str, got: impl Display, want: impl Display) {
        let (got, want) = (got.to_string(), want.to_string());
        self.rows += 1;
        if got != want {
            self.failed += 1;
            println!("FAILED {name}\n  got  {got}\n  want {want}");
        }
    }
}

pub fn run() -> i32 {
    let mut table = Table::default();
    for group in [
        quantities,
        actions,
        cubes,
        trees,
        tallies,
        settings,
        candidates,
        training,
        phases,
        scores,
        sizes,
        undone,
        small_trees,
        even_rows,
        tested,
        leaves,
        versions,
        ends,
        changed,
        accepted,
        refused_records,
        sending,
        repeating,
        drawing,
        bursts,
        traces,
        headers,
        bad_scripts,
        noted,
        generators,
    ] {
        group(&mut table);
    }
    println!("{} passed, {} failed", table.rows - table.failed, table.failed);
    i32::from(table.failed > 0)
}

// Shorthands

const UP: u64 = 0x41f0_0000_0000_0001;

fn action(multiplier: f64, increment: i32, delay: f64) -> Action {
    Action { multiplier, increment, delay }
}

fn lines_of(header: &Header, calls: &[Call]) -> Vec<String> {
    let mut writer = Writer::new(header);
    for call in calls {
        writer.call(call);
    }
    let output = String::from_utf8(play(&writer.bytes).output).expect("plain lines");
    output.lines().map(str::to_owned).collect()
}

fn lines(settings: &Settings, calls: &[Call]) -> Vec<String> {
    lines_of(&header(settings.clone()), calls)
}

/// The calls' own lines.
fn answers(settings: &Settings, calls: &[Call]) -> String {
    own(&lines(settings, calls))
}

fn own(lines: &[String]) -> String {
    let shown =
        |line: &&String| !["ask ", "done ", "sender ", "record "].iter().any(|head| line.starts_with(head));
    lines.iter().filter(shown).cloned().collect::<Vec<_>>().join("; ")
}

fn questions(settings: &Settings, calls: &[Call]) -> String {
    let asks = |line: &&String| line.starts_with("ask ") || line.starts_with("done ");
    lines(settings, calls).iter().filter(asks).cloned().collect::<Vec<_>>().join("; ")
}

fn last_sender(lines: &[String]) -> String {
    lines.iter().rfind(|line| line.starts_with("sender ")).cloned().unwrap_or_default()
}

fn record_hex(lines: &[String]) -> &str {
    lines.last().and_then(|line| line.strip_prefix("record ")).unwrap_or("")
}

/// The record's tail: phase, stage, round, leaf, best, k, kept, its score.
fn tail(lines: &[String]) -> String {
    let hex = record_hex(lines);
    let tail = &hex[hex.len() - 62..];
    let cuts = [0, 2, 10, 18, 22, 38, 42, 46, 62];
    let parts: Vec<&str> = cuts.windows(2).map(|cut| &tail[cut[0]..cut[1]]).collect();
    parts.join(" ")
}

fn counts(of: &[u64]) -> Call {
    Call::Counts(of.to_vec())
}

fn zeros(nodes: usize) -> Call {
    Call::Counts(vec![0; nodes])
}

fn few(rule_splits: u32, rounds: u32, drill: bool) -> Settings {
    Settings { rule_splits, rounds, drill, ..default_settings() }
}

/// Two candidates for the default action: its increment plus and minus 1.
fn two_candidates() -> Settings {
    Settings {
        rule_splits: 0,
        rounds: 1,
        multiplier: 2,
        drill: false,
        min: action(0.0, -9, 0.0),
        max: action(1.0, 9, 1.0),
        initial_change: action(1.0, 1, 1.0),
        max_change: action(1.0, 1, 1.0),
        default: action(1.0, 0, 1.0),
        ends: USUAL_ENDS,
    }
}

fn grown(splits: &[usize]) -> Trainer {
    let mut trainer = Trainer::start(few(3, 1, false)).expect("settings that hold");
    for node in splits {
        trainer.tree.split(*node).expect("a leaf");
    }
    trainer
}

// The rows

fn quantities(t: &mut Table) {
    t.row("2.95 ms", format!("{:x}", milliseconds(2.95).seconds().to_bits()), "3f682a9930be0dee");
    for (moment, want) in [
        (0.0, "window 0"),
        (-0.0, "window 0"),
        (4_294_967_296.0, "window 0"),
        (f64::from_bits(UP), "refused 1"),
        (f64::NAN, "refused 1"),
        (-5e-324, "refused 1"),
        (f64::INFINITY, "refused 1"),
    ] {
        let calls = [Call::Send(moment)];
        t.row(&format!("send {moment:e}"), answers(&default_settings(), &calls), want);
        let refused = want == "refused 1";
        let wake = [Call::Wake(moment)];
        let want = if refused { "refused 1" } else { "wake -" };
        t.row(&format!("wake {moment:e}"), answers(&default_settings(), &wake), want);
        for (name, call) in [("sent", ack(moment, 1.0)), ("received", ack(1.5, moment))] {
            let taken = answers(&default_settings(), &[call]) != "refused 1";
            t.row(&format!("ack {name} {moment:e}"), taken, !refused);
        }
    }
    let after = lines(&default_settings(), &[Call::Send(-0.0)]);
    t.row("-0 is held as +0", last_sender(&after).ends_with(" 0000000000000000"), true);
    t.row("-0 admitted", bits(admitted(-0.0).unwrap()), 0);
}

fn actions(t: &mut Table) {
    // Window, multiplier, increment, result; whether the original's sum stays in 32 bits.
    for (window, multiplier, increment, want, fits) in [
        (10, 0.5, 1, 6, true),
        (3, 0.5, -5, 0, true),
        (u32::MAX, 1.0, 0, 1_000_000, true),
        (5, f64::NAN, 7, 7, true),
        (u32::MAX, 1.0, i32::MAX, 1_000_000, false),
        (1, f64::NEG_INFINITY, i32::MAX, 0, true),
        (0, f64::INFINITY, 7, 7, true),
        (1, -0.9, 0, 0, true),
        (1, 3e9, 1, 1_000_000, false),
        (1, -3e9, -1, 0, false),
        (1_000_000, 0.999_999_9, 0, 999_999, true),
    ] {
        let rule = action(multiplier, increment, 0.0);
        let name = format!("window {window}, {multiplier}, {increment}");
        t.row(&name, rule.apply_to(window), want);
        let sum = rule.window_sum(window);
        t.row(&format!("{name}: 32 bits"), i32::try_from(sum).is_ok(), fits);
        if fits {
            t.row(&format!("{name}: original"), to_action(&rule).apply_to(window), want);
        }
    }
    for (window, multiplier, increment, clipped) in [
        (999_999, 1.0, 1, false),
        (1_000_000, 1.0, 1, true),
        (5, 1.0, -5, false),
        (5, 1.0, -6, true),
        (1, -0.9, 0, false),
        (5, f64::NAN, 7, true),
        (0, f64::INFINITY, 7, true),
        (1, 2_147_483_647.5, -2_147_000_000, false),
        (1, 2_147_483_648.0, -2_147_000_000, true),
        (1, -2_147_483_648.5, i32::MAX, true),
        (1, -2_147_483_647.5, i32::MAX, false),
    ] {
        let rule = action(multiplier, increment, 0.0);
        t.row(&format!("window {window}, {multiplier}, {increment}: clipped"), rule.clips(window), clipped);
    }
    for (rule, valid) in [
        (action(-0.0, 1_000_000, -0.0), true),
        (action(5e-324, -1_000_000, -1.0), true),
        (action(1.0, 1_000_001, 0.0), false),
        (action(1.0, -1_000_001, 0.0), false),
        (action(f64::NAN, 0, 0.0), false),
        (action(0.0, 0, f64::NEG_INFINITY), false),
    ] {
        t.row(&format!("valid {rule:?}"), rule.valid(), valid);
    }
    let mut average = EWMA::new(1. / 8.);
    average.update(seconds(8.0));
    t.row("gaps 8, 16", average.update(seconds(16.0)).seconds(), 9);
}

fn cubes(t: &mut Table) {
    let split = [few(1, 0, false)].map(|s| lines(&s, &[zeros(1), Call::PrintTree]));
    t.row("root split", split[0].iter().filter(|line| line.contains(" leaf ")).count(), 8);
    for (point, want) in [
        ([300.0, 0.0, 0.0], "counted 5 1"),
        ([0.0, 0.0, 500.0], "counted 2 1"),
        ([0.0, 300.0, 0.0], "counted 3 1"),
        ([0.0, 0.0, 0.0], "counted 1 1"),
        ([300.0, 300.0, 500.0], "counted 8 1"),
        ([0.0, 0.0, 1000.0], "none"),
        ([600.0, 0.0, 0.0], "none"),
        ([0.0, 0.0, f64::NAN], "none"),
        ([f64::NAN, 0.0, 0.0], "none"),
        ([0.0, -f64::NAN, 0.0], "none"),
        ([0.0, 0.0, -0.0], "counted 1 1"),
        ([-0.0, -0.0, -0.0], "counted 1 1"),
        ([300.0f64.next_down(), 0.0, 0.0], "counted 1 1"),
    ] {
        let got = answers(&few(1, 0, false), &[zeros(1), Call::Tally(point)]);
        t.row(&format!("reached by {point:?}"), got, format!("ok; {want}"));
    }
    // Always child 7: the ratio's middle is an end from the 53rd split on.
    let mut trainer = Trainer::start(few(1, 0, true)).unwrap();
    for k in 0..64 {
        trainer.tree.split(8 * k).unwrap();
    }
    let original = grow(&trainer.settings, &trainer.tree);
    let nodes: Vec<_> = shown(&original).collect();
    let empty = |split: usize| {
        nodes[8 * split - 7..=8 * split].iter().any(|n| (0..3).any(|axis| n.ends[axis] == n.ends[axis + 3]))
    };
    t.row("first split with an empty half", (1..=64).find(|k| empty(*k)).unwrap(), 53);
    let halves = Cube::root(USUAL_ENDS).split();
    t.row("middles are shared", halves[7].min == halves[0].max, true);
}

fn trees(t: &mut Table) {
    let s = few(3, 1, false);
    let mut marked = grown(&[]);
    marked.tree.mark(0);
    marked.stage = 1;
    marked.phase = Phase::Split;
    let calls = [Call::Load(marked.record()), zeros(1), Call::PrintTree];
    let printed = lines(&s, &calls);
    t.row("children of a marked leaf", printed.iter().filter(|l| l.contains(" leaf 0 ")).count(), 8);

    let mut straight = grown(&[0, 1, 2]);
    let crossed = grown(&[0, 2, 1]);
    let equal = |one: &Trainer, other: &Trainer| {
        answers(&s, &[Call::Load(one.record()), Call::Equal(other.record())])
    };
    t.row("equal in another order", equal(&straight, &crossed), "loaded; equal 1");
    t.row("their records differ", straight.record() == crossed.record(), false);
    straight.tree.mark(9);
    t.row("marks don't count", equal(&straight, &crossed), "loaded; equal 1");
    straight.tree.set_action(9, action(1.0, 1, 0.004));
    t.row("actions do", equal(&straight, &crossed), "loaded; equal 0");
    let (mut zero, mut minus) = (grown(&[0]), grown(&[0]));
    zero.tree.set_action(1, action(0.0, 0, 0.0));
    minus.tree.set_action(1, action(-0.0, 0, -0.0));
    t.row("-0 equals +0", equal(&zero, &minus), "loaded; equal 1");
    t.row("a leaf is no parent", equal(&grown(&[0]), &grown(&[0, 4])), "loaded; equal 0");

    let good = action(1.0, 0, 0.0);
    let bad = action(f64::NAN, 0, 0.0);
    for (name, leaf, replacing, point, want) in [
        ("a parent's number", 0, good, [0.0; 3], "refused 3"),
        ("a parent's number, bad action", 0, bad, [0.0; 3], "refused 3"),
        ("past the nodes, point outside", 9, good, [f64::NAN; 3], "refused 3"),
        ("bad action, point outside", 1, bad, [f64::NAN; 3], "refused 1"),
        ("bad action, another leaf", 2, bad, [0.0; 3], "refused 1"),
        ("its own leaf", 1, good, [0.0; 3], "action 3ff0000000000000 0 0000000000000000"),
        ("another leaf", 2, good, [0.0; 3], "action 3ff0000000000000 1 3f689374bc6a7efa"),
        ("outside", 1, good, [-1.0; 3], "none"),
    ] {
        let calls = [Call::Load(grown(&[0]).record()), Call::LookupReplaced(leaf, replacing, point)];
        t.row(&format!("replaced: {name}"), answers(&s, &calls), format!("loaded; {want}"));
    }
    let split = grown(&[0]);
    let mut tree = grow(&split.settings, &split.tree);
    leaf(&mut tree, 3).mark_optimized();
    leaf(&mut tree, 3).mark_optimized();
    *leaf(&mut tree, 3).action() = to_action(&good);
    let marks: Vec<usize> = (0..9)
        .filter(|n| matches!(shown(&tree).nth(*n).unwrap().kind, Shown::Leaf { mark: true, .. }))
        .collect();
    t.row("the original's set action keeps the mark", format!("{marks:?}"), "[3]");
    tree.mark_all_unoptimized();
    t.row(
        "the original's clear",
        shown(&tree).any(|n| matches!(n.kind, Shown::Leaf { mark: true, .. })),
        false,
    );

    let mut full = grown(&(0..64).map(|k| 8 * k).collect::<Vec<_>>());
    t.row("a parent's split at 64", format!("{:?}", full.tree.split(0)), "Err(3)");
    t.row("a leaf's split at 64", format!("{:?}", full.tree.split(512)), "Err(20)");
}

fn tallies(t: &mut Table) {
    let tree = Tree::new(USUAL_ENDS, default_settings().default);
    let full = 1u64 << 53;
    for (name, list, point, want) in [
        ("outside at 2^53", vec![full], [-1.0; 3], "Ok(None)"),
        ("inside at 2^53", vec![full], [0.0; 3], "Err(23)"),
        ("inside at 2^53 - 1", vec![full - 1], [0.0; 3], "Ok(Some(0))"),
        ("over 2^53", vec![full + 1], [-1.0; 3], "Err(4)"),
        ("one too long", vec![0, 0], [0.0; 3], "Err(4)"),
    ] {
        let mut list = list;
        t.row(&format!("tally {name}"), format!("{:?}", tree.tally(&mut list, &point)), want);
    }
    // The same number of nodes but another parent under the count.
    let calls = [
        Call::Load(grown(&[0, 1]).record()),
        Call::Tally([0.0, 0.0, 500.0]),
        Call::Load(grown(&[0, 2]).record()),
        Call::Tally([0.0; 3]),
        Call::Load(grown(&[0]).record()),
        Call::Tally([0.0; 3]),
    ];
    let want = "loaded; counted 2 1; loaded; refused 4; loaded; counted 1 1";
    t.row("counts stay with the number of nodes", answers(&few(3, 1, false), &calls), want);
}

fn settings(t: &mut Table) {
    let base = two_candidates();
    let checked = |s: &Settings| format!("{:?}", s.check().map_err(|n| n.to_string()));
    let with = |change: fn(&mut Settings)| {
        let mut s = two_candidates();
        change(&mut s);
        s
    };
    let ok = "Ok(())";
    let no = "Err(\"2\")";
    let rows: [(&str, Settings, &str); 22] = [
        ("as they are", base, ok),
        ("64 splits", with(|s| s.rule_splits = 64), ok),
        ("65 splits", with(|s| s.rule_splits = 65), no),
        ("1000 rounds", with(|s| s.rounds = 1000), ok),
        ("1001 rounds", with(|s| s.rounds = 1001), no),
        ("multiplier 1", with(|s| s.multiplier = 1), no),
        ("multiplier 16", with(|s| s.multiplier = 16), ok),
        ("multiplier 17", with(|s| s.multiplier = 17), no),
        ("min above max", with(|s| s.min.multiplier = 5.0), ok),
        ("default outside", with(|s| s.default.multiplier = 1e9), ok),
        ("no change at all", with(|s| s.max_change = action(-1.0, -1, 0.0)), ok),
        ("8 increments", with(|s| s.max_change.increment = 128), ok),
        ("still 8 increments", with(|s| s.max_change.increment = 255), ok),
        ("9 increments", with(|s| s.max_change.increment = 256), no),
        (
            "increment 65,536",
            with(|s| (s.initial_change.increment, s.max_change.increment) = (65_536, 65_536)),
            ok,
        ),
        (
            "increment 65,537",
            with(|s| (s.initial_change.increment, s.max_change.increment) = (65_537, 0)),
            no,
        ),
        (
            "greatest 65,537",
            with(|s| (s.initial_change.increment, s.max_change.increment) = (65_536, 65_537)),
            no,
        ),
        ("initial +0", with(|s| s.initial_change.multiplier = 0.0), no),
        ("initial -0", with(|s| s.initial_change.delay = -0.0), no),
        ("initial increment 0", with(|s| s.initial_change.increment = 0), no),
        ("to infinity", with(|s| (s.initial_change.delay, s.max_change.delay) = (1e308, f64::MAX)), ok),
        ("NaN in max", with(|s| s.max.delay = f64::NAN), no),
    ];
    for (name, settings, want) in rows {
        t.row(&format!("settings: {name}"), checked(&settings), want);
        let played = lines(&settings, &[]);
        let line = if want == ok { "ask counts" } else { "refused 2" };
        t.row(&format!("script: {name}"), played[0].starts_with(line), true);
    }
    let mut thirds = two_candidates();
    thirds.multiplier = 3;
    thirds.initial_change.multiplier = 0.1;
    thirds.max_change.multiplier = 0.9;
    thirds.min.multiplier = -9.0;
    thirds.max.multiplier = 9.0;
    thirds.default.multiplier = 0.0;
    let list = improvements(&as_given(&thirds), &thirds.default);
    let mut values: Vec<f64> = list.iter().map(|a| a.multiplier).filter(|m| *m > 0.0).collect();
    values.dedup();
    t.row("0.1 times 3 up to 0.9", format!("{values:?}"), "[0.1, 0.30000000000000004]");
}

fn candidates(t: &mut Table) {
    let default = default_settings().default;
    let ask = |s: &Settings, a: Action, k| answers(s, &[Call::Candidate(a, k)]);
    let d = default_settings();
    t.row("default candidate 0", ask(&d, default, 0), "candidates 36 3fefae147ae147ae 2 3f682a9930be0ded");
    t.row("default candidate 36", ask(&d, default, 36), "candidates 36 -");
    t.row("default candidate last", ask(&d, default, u32::MAX), "candidates 36 -");
    let list = improvements(&RemyTrainer::default(), &default);
    t.row("the original's length", list.len(), 36);
    t.row("0.99", list[0].multiplier, 0.99);
    t.row("an action not valid", ask(&d, action(0.0, 1_000_001, 0.0), 0), "refused 1");
    let s = two_candidates();
    t.row("+v before -v", ask(&s, s.default, 0), "candidates 2 0000000000000000 1 0000000000000000");
    t.row("then -v", ask(&s, s.default, 1), "candidates 2 0000000000000000 -1 0000000000000000");
    let mut bad = s.clone();
    bad.rule_splits = 65;
    t.row(
        "bad settings and bad action",
        format!("{:?}", bad.candidate(&action(f64::NAN, 0, 0.0), 0).is_err_and(|n| n == 2)),
        true,
    );
    let mut wide = Settings {
        multiplier: 2,
        min: action(-1e9, -1_000_000, -1e9),
        max: action(1e9, 1_000_000, 1e9),
        initial_change: action(1.0, 1, 1.0),
        max_change: action(128.0, 128, 128.0),
        ..two_candidates()
    };
    t.row("the longest list", ask(&wide, wide.default, 4095).split(' ').nth(1).unwrap().to_owned(), 4096);
    wide.max = wide.min;
    t.row("an empty list", ask(&wide, wide.default, 0), "candidates 0 -");
}

fn training(t: &mut Table) {
    t.row(
        "nothing to do",
        questions(&few(0, 0, false), &[zeros(1)]),
        "ask counts 3ff0000000000000; done 3ff0000000000000",
    );
    let calls = [zeros(1), zeros(9), zeros(17), zeros(25), zeros(25)];
    let played = lines(&few(3, 0, false), &calls);
    t.row("progress of three splits", questions(&few(3, 0, false), &calls), "ask counts 3fd0000000000000; ask counts 3fe0000000000000; ask counts 3fe8000000000000; ask counts 3ff0000000000000; done 3ff0000000000000; done 3ff0000000000000");
    t.row("all zero splits 0, 8, 16", &record_hex(&played)[284..300], "0003000000080010");
    t.row("and ends", own(&played), "ok; ok; ok; ok; refused 21");
    let calls = [zeros(1), zeros(7), Call::Score(1.0)];
    t.row("done, malformed counts", answers(&few(0, 0, false), &calls), "ok; refused 21; refused 21");
    let tie = [zeros(1), counts(&[0, 5, 0, 5, 0, 0, 0, 0, 0])];
    t.row("5 and 5: node 3", &record_hex(&lines(&few(2, 0, false), &tie))[284..296], "000200000003");
}

fn phases(t: &mut Table) {
    let drilled = few(1, 0, true);
    let one = counts(&[0, 0, 0, 0, 9, 0, 0, 0, 0]);
    let two = counts(&[0, 0, 0, 0, 9, 0, 0, 0, 1]);
    t.row(
        "drill goes on",
        tail(&lines(&drilled, &[counts(&[1]), one.clone()])),
        "02 00000001 00000000 0000 0000000000000000 0000 ffff 0000000000000000",
    );
    t.row(
        "drill ends",
        tail(&lines(&drilled, &[counts(&[1]), two.clone()])),
        "06 00000002 00000000 0000 0000000000000000 0000 ffff 0000000000000000",
    );
    t.row(
        "zero used drills too",
        tail(&lines(&drilled, &[zeros(1)])),
        "02 00000001 00000000 0000 0000000000000000 0000 ffff 0000000000000000",
    );
    let stage_two = few(2, 0, true);
    t.row(
        "two used, no drill",
        tail(&lines(
            &stage_two,
            &[
                counts(&[1]),
                two.clone(),
                counts(&{
                    let mut c = [0; 9];
                    c[4] = 9;
                    c[8] = 1;
                    c
                }),
            ],
        )),
        "06 00000003 00000000 0000 0000000000000000 0000 ffff 0000000000000000",
    );

    // Full trees, by record.
    let full = |phase: Phase| {
        let mut trainer = Trainer::start(few(1, 1, true)).unwrap();
        for k in 0..64 {
            trainer.tree.split(8 * k).unwrap();
        }
        trainer.stage = 1;
        trainer.phase = phase;
        Call::Load(trainer.record())
    };
    let mut used = vec![0; 513];
    (used[512], used[511]) = (1, 1);
    let answers = |calls: &[Call]| answers(&drilled, calls);
    t.row("phase 2, full, one used", answers(&[full(Phase::Drill), zeros(513)]), "loaded; refused 20");
    t.row("phase 2, full, two used", answers(&[full(Phase::Drill), counts(&used)]), "loaded; ok");
    t.row(
        "phase 1, full",
        answers(&[full(Phase::Split), counts(&used), counts(&used)]),
        "loaded; refused 20; refused 20",
    );
    t.row("phase 1, full, malformed", answers(&[full(Phase::Split), zeros(512)]), "loaded; refused 4");
    let chosen = lines(&drilled, &[full(Phase::Choose), zeros(513)]);
    t.row("an empty leaf is chosen", chosen[chosen.len() - 2].starts_with("ask score 512 "), true);
    t.row(
        "two entries of 2^63",
        answers(&[Call::Load(grown(&[0]).record()), counts(&[0, 1 << 63, 1 << 63, 0, 0, 0, 0, 0, 0])]),
        "loaded; refused 4",
    );
    t.row(
        "2^53 in all",
        answers(&[Call::Load(grown(&[0]).record()), counts(&[0, (1 << 53) - 1, 1, 0, 0, 0, 0, 0, 0])]),
        "loaded; ok",
    );
    t.row(
        "2^53 and one",
        answers(&[Call::Load(grown(&[0]).record()), counts(&[0, 1 << 53, 1, 0, 0, 0, 0, 0, 0])]),
        "loaded; refused 4",
    );
    t.row("phase 1, a score", answers(&[full(Phase::Split), Call::Score(0.0)]), "loaded; refused 21");

    let s = few(0, 1, false);
    t.row("total 0 is taken", questions(&s, &[zeros(1)]).contains("ask score 0"), true);
    t.row("phase 4, counts", self::answers(&s, &[zeros(1), zeros(2)]), "ok; refused 21");
    let nine = |first: &[u64]| {
        let mut trainer = grown(&[0]);
        for (leaf, mark) in (1..=8).zip(first) {
            if *mark == 1 {
                trainer.tree.mark(leaf);
            }
        }
        Call::Load(trainer.record())
    };
    let marked_used = counts(&[0, 3, 0, 0, 0, 0, 0, 0, 0]);
    let s = few(3, 1, false);
    let next = |calls: &[Call]| lines(&s, calls).iter().rfind(|l| l.starts_with("ask")).unwrap().clone();
    t.row("count 0, total above 0", next(&[nine(&[1]), marked_used.clone()]), "ask counts 3fd0000000000000");
    t.row("all marked, total 0", next(&[nine(&[1; 8]), zeros(9)]), "ask counts 3fd0000000000000");
    t.row(
        "highest unmarked",
        next(&[nine(&[0, 0, 0, 0, 0, 0, 1, 1]), zeros(9)]).starts_with("ask score 6 "),
        true,
    );
    let printed = lines(&s, &[nine(&[1; 8]), zeros(9), Call::PrintTree]);
    t.row("marks are cleared", printed.iter().filter(|l| l.contains(" leaf 0 ")).count(), 8);
}

fn scores(t: &mut Table) {
    let s = two_candidates();
    let after = |scores: &[f64]| {
        let mut calls = vec![zeros(1)];
        calls.extend(scores.iter().map(|x| Call::Score(*x)));
        lines(&s, &calls)
    };
    let choose = "03 00000000 00000000 0000 0000000000000000 0000 ffff 0000000000000000";
    let own_action = "04 00000000 00000000 0000 0000000000000000 0000 ffff 0000000000000000";
    t.row("phase 4's fields", tail(&after(&[])), own_action);
    t.row(
        "best is held",
        tail(&after(&[2.0])),
        "05 00000000 00000000 0000 4000000000000000 0000 ffff 0000000000000000",
    );
    t.row(
        "one kept",
        tail(&after(&[2.0, 3.0])),
        "05 00000000 00000000 0000 4000000000000000 0001 0000 4008000000000000",
    );
    t.row(
        "equal to best",
        tail(&after(&[2.0, 2.0])),
        "05 00000000 00000000 0000 4000000000000000 0001 ffff 0000000000000000",
    );
    t.row(
        "NaN best",
        tail(&after(&[-f64::NAN])),
        "05 00000000 00000000 0000 7ff8000000000000 0000 ffff 0000000000000000",
    );
    t.row(
        "NaN best keeps none",
        tail(&after(&[f64::NAN, f64::INFINITY])),
        "05 00000000 00000000 0000 7ff8000000000000 0001 ffff 0000000000000000",
    );
    t.row("then marks", tail(&after(&[f64::NAN, 1.0, 2.0])), choose);
    t.row(
        "a NaN is not kept",
        tail(&after(&[0.0, f64::NAN])),
        "05 00000000 00000000 0000 0000000000000000 0001 ffff 0000000000000000",
    );
    t.row(
        "-0 best",
        tail(&after(&[-0.0])),
        "05 00000000 00000000 0000 8000000000000000 0000 ffff 0000000000000000",
    );
    let adopted = after(&[2.0, 3.0, 3.0]);
    t.row(
        "the last tie is adopted, best and list anew",
        tail(&adopted),
        "05 00000000 00000000 0000 4008000000000000 0000 ffff 0000000000000000",
    );
    t.row(
        "its increment",
        adopted.iter().rfind(|l| l.starts_with("ask")).unwrap().split(' ').nth(4).unwrap().to_owned(),
        0,
    );
    // Four candidates: scores 2, 3, 3, 0 keep number 2 of 0 .. 3.
    let mut four = two_candidates();
    four.max.multiplier = 2.0;
    let calls = [zeros(1), Call::Score(1.0), Call::Score(2.0), Call::Score(3.0), Call::Score(3.0)];
    t.row(
        "2, 3, 3",
        tail(&lines(&four, &calls)),
        "05 00000000 00000000 0000 3ff0000000000000 0003 0002 4008000000000000",
    );
    let calls = [zeros(1), Call::Score(-1.0), Call::Score(0.0), Call::Score(-0.0)];
    t.row(
        "0 gives way to -0",
        tail(&lines(&four, &calls)),
        "05 00000000 00000000 0000 bff0000000000000 0002 0001 8000000000000000",
    );
    let mut none = two_candidates();
    none.max_change.increment = 0;
    t.row("no candidates", tail(&lines(&none, &[zeros(1), Call::Score(1.0)])), choose);
    t.row(
        "all marked: the round ends",
        tail(&lines(&none, &[zeros(1), Call::Score(1.0), zeros(1)])),
        "06 00000001 00000000 0000 0000000000000000 0000 ffff 0000000000000000",
    );
}

fn sizes(t: &mut Table) {
    let fresh = Trainer::start(default_settings()).unwrap().record();
    t.row("a fresh record", fresh.len(), 196);
    t.row("its length field", u32::from_be_bytes(fresh[..4].try_into().unwrap()), 192);
    let mut full = Trainer::start(default_settings()).unwrap();
    for k in 0..64 {
        full.tree.split(8 * k).unwrap();
    }
    t.row("64 splits", full.record().len(), 11_076);
    t.row("64 splits in version 2", full.record_in(2).len(), 11_052);
    t.row("64 splits in version 1", full.record_in(1).len(), 9708);
    let s = default_settings();
    let hex: String = fresh.iter().map(|b| format!("{b:02x}")).collect();
    t.row("a buffer that fits", answers(&s, &[Call::Reload(196)]), format!("saved {hex}"));
    t.row("a longer one", answers(&s, &[Call::Reload(u16::MAX)]), format!("saved {hex}"));
    t.row("a short one", answers(&s, &[Call::Reload(195), Call::Reload(0)]), "refused 9; refused 9");
    t.row("the script's record", record_hex(&lines(&s, &[])), hex);
}

/// The lines of a tree's nodes, without their cubes.
fn nodes_of(lines: &[String]) -> String {
    let short = |line: &String| {
        let words: Vec<&str> = line.split(' ').collect();
        words[..words.len() - 6].join(" ")
    };
    let nodes = lines.iter().filter(|l| l.contains(" leaf ") || l.contains(" parent "));
    nodes.map(short).collect::<Vec<_>>().join("; ")
}

fn undone(t: &mut Table) {
    let s = few(3, 1, false);
    t.row("no split to take back", answers(&s, &[Call::UndoSplit]), "refused 24");
    let mut before = grown(&[]);
    before.tree.hold(0, (action(0.5, 7, 0.25), true));
    let mut after = before.clone();
    after.tree.split(0).unwrap();
    after.tree.clear_marks();
    let calls = [Call::Load(after.record()), Call::UndoSplit];
    let kept = "0 leaf 1 3fe0000000000000 7 3fd0000000000000";
    t.row("split, marks cleared, taken back", nodes_of(&lines(&s, &calls)), kept);
    let printed = nodes_of(&lines(&s, &[Call::Load(after.record()), Call::PrintTree]));
    t.row(
        "what the parent keeps",
        printed.split("; ").next().unwrap(),
        "0 parent 1 1 3fe0000000000000 7 3fd0000000000000",
    );
    let calls = [Call::Load(after.record_in(1)), Call::UndoSplit];
    t.row("of version 1", nodes_of(&lines(&s, &calls)), "0 leaf 0 3ff0000000000000 1 3f689374bc6a7efa");
    let twice = grown(&[0, 3]);
    let calls = [Call::Load(twice.record()), Call::UndoSplit];
    t.row("the newest of two", nodes_of(&lines(&s, &calls)).matches(" leaf ").count(), 8);
    t.row("as before it", twice.tree.undo_split().unwrap().equal(&grown(&[0]).tree), true);
    let calls = [Call::Load(twice.record()), Call::UndoSplit, Call::PrintTree];
    t.row("the trainer stays", nodes_of(&lines(&s, &calls)).matches(" parent ").count(), 3);
}

fn small_trees(t: &mut Table) {
    let s = few(3, 1, false);
    for (n, many) in [(0, 1), (1, 2), (2, 10), (3, 130)] {
        let mut calls = vec![Call::NextList(n, Vec::new())];
        let mut list = Vec::new();
        while let Ok(Some(next)) = next_list(n, &list) {
            calls.push(Call::NextList(n, next.clone()));
            list = next;
        }
        let lines = answers(&s, &calls);
        t.row(&format!("lists of at most {n}"), lines.split("; ").count(), many);
        t.row(&format!("the last of at most {n}"), lines.split("; ").last().unwrap(), "last");
    }
    let loads = |list: &&Vec<u16>| {
        let nodes: Vec<usize> = list.iter().map(|node| usize::from(*node)).collect();
        Trainer::load(&grown(&nodes).record()).is_ok()
    };
    t.row("small trees that load", split_lists(3).iter().filter(loads).count(), 130);
    for (n, list, want) in [
        (3, &[][..], "next 0"),
        (3, &[0], "next 0 1"),
        (3, &[0, 8], "next 0 1 2"),
        (3, &[0, 4, 3], "next 0 4 5"),
        (3, &[0, 4, 16], "next 0 5 1"),
        (3, &[0, 8, 16], "last"),
        (2, &[0, 8], "last"),
        (4, &[], "refused 30"),
        (2, &[0, 1, 2], "refused 30"),
        (3, &[1], "refused 30"),
        (3, &[0, 0], "refused 30"),
        (3, &[0, 9], "refused 30"),
        (3, &[0, 4, 4], "refused 30"),
        (3, &[0, 4, 17], "refused 30"),
        (3, &[0, 1, 2, 3], "refused 30"),
    ] {
        t.row(&format!("{n} {list:?}"), answers(&s, &[Call::NextList(n, list.to_vec())]), want);
    }
}

fn even_rows(t: &mut Table) {
    let row = |point| answers(&few(3, 1, false), &[Call::EvenRow(point)]);
    for (point, want) in [
        ([0.0, 0.0, 0.0], "row 0"),
        ([-0.0, -0.0, -0.0], "row 0"),
        ([0.0, 0.0, 250.0], "row 1"),
        ([0.0, 150.0, 0.0], "row 2"),
        ([150.0, 0.0, 0.0], "row 4"),
        ([150.0f64.next_down(), 0.0, 0.0], "row 0"),
        ([0.0, 0.0, 500.0], "row 8"),
        ([0.0, 300.0, 0.0], "row 16"),
        ([300.0, 0.0, 0.0], "row 32"),
        ([600.0f64.next_down(), 600.0f64.next_down(), 1000.0f64.next_down()], "row 63"),
        ([600.0, 0.0, 0.0], "none"),
        ([0.0, 600.0, 0.0], "none"),
        ([0.0, 0.0, 1000.0], "none"),
        ([0.0, 0.0, -5e-324], "none"),
        ([0.0, f64::NAN, 0.0], "none"),
    ] {
        t.row(&format!("the row of {point:?}"), row(point), want);
    }
}

fn changed(t: &mut Table) {
    let change = |s: Settings| {
        let drill = u8::from(s.drill);
        Call::ChangeSettings(s, drill)
    };
    let s = few(2, 1, false);
    let counts = || Call::Counts(vec![5]);
    let other = Settings { default: action(0.5, 3, 0.25), ..s.clone() };
    let calls = [counts(), Call::Score(1.0), change(other.clone()), Call::PrintTree];
    let own = |calls: &[Call]| answers(&s, calls);
    t.row(
        "the default action changes no leaf",
        nodes_of(&lines(&s, &calls)),
        "0 leaf 0 3ff0000000000000 1 3f689374bc6a7efa",
    );
    let asked = questions(&s, &[counts(), Call::Score(1.0), change(other.clone())]);
    let asked: Vec<&str> = asked.split("; ").collect();
    t.row("the leaf's own action is asked for again", asked[3], asked[1]);
    let ends = Settings { ends: [601.0, 600.0, 1000.0], ..s.clone() };
    t.row("another end", own(&[change(ends.clone())]), "refused 27");
    t.row("2 before 27", own(&[change(Settings { multiplier: 1, ..ends })]), "refused 2");
    t.row("a drill byte of 2", own(&[Call::ChangeSettings(s.clone(), 2)]), "refused 2");
    let none = Settings { rounds: 0, ..s.clone() };
    t.row("phase 3 with no round left", own(&[change(none.clone())]), "refused 27");
    t.row("phase 4 with no round left", own(&[counts(), change(none.clone())]), "ok; refused 27");
    let splitting = few(2, 0, false);
    let at_split = |calls: &[Call]| answers(&splitting, calls);
    t.row("phase 1 at the last stage", at_split(&[change(few(1, 0, false))]), "ok");
    t.row("a stage above", at_split(&[change(few(0, 0, false))]), "refused 27");
    t.row("phase 6", answers(&few(0, 0, false), &[change(few(3, 1, false))]), "refused 27");
    t.row("phase 7", answers(&few(0, 0, false), &[counts(), change(few(3, 1, false))]), "ok; refused 27");
    let drilled = few(2, 0, true);
    let calls = [counts(), change(few(2, 0, false)), Call::Counts(vec![5, 0, 0, 0, 0, 0, 0, 0, 0])];
    t.row("phase 2 stays where drilling is off", answers(&drilled, &calls), "ok; ok; refused 4");
}

fn tested(t: &mut Table) {
    let s = few(3, 1, false);
    let ask = |splits: &[usize], point: Point| {
        answers(&s, &[Call::Load(grown(splits).record()), Call::Tested(point)])
    };
    for (name, splits, point, want) in [
        ("the root alone", &[][..], [0.0; 3], 1),
        ("outside", &[0], [600.0, 0.0, 0.0], 1),
        ("NaN", &[0], [0.0, f64::NAN, 0.0], 1),
        ("the first child", &[0], [0.0; 3], 2),
        ("-0", &[0], [-0.0; 3], 2),
        ("the last child", &[0], [300.0, 300.0, 500.0], 9),
        ("the first of the last", &[0, 8], [300.0, 300.0, 500.0], 10),
        ("the last of the last", &[0, 8], [599.0, 599.0, 999.0], 17),
    ] {
        t.row(&format!("cubes tested: {name}"), ask(splits, point), format!("loaded; tested {want}"));
    }
}

fn leaves(t: &mut Table) {
    let s = few(3, 1, false);
    let once = grown(&[0]);
    let all = [f64::NEG_INFINITY, f64::INFINITY];
    let within = |ranges: [[f64; 2]; 3], places: u16| {
        let calls = [Call::Load(once.record()), Call::Leaves(ranges, places)];
        answers(&s, &calls).trim_start_matches("loaded; ").to_owned()
    };
    t.row("all of it", within([all; 3], 8), "leaves 8 1 2 3 4 5 6 7 8");
    t.row("seven places", within([all; 3], 7), "refused 29");
    let zero = [0.0; 2];
    t.row("acks up to the middle", within([[0.0, 300.0], zero, zero], 8), "leaves 2 1 5");
    t.row("acks from the middle", within([[300.0, 600.0], zero, zero], 8), "leaves 1 5");
    t.row("acks from the upper end", within([[600.0, 700.0], zero, zero], 8), "leaves 0");
    t.row("-0", within([[-0.0; 2]; 3], 1), "leaves 1 1");
    t.row("NaN, no places", within([zero, [0.0, f64::NAN], zero], 0), "refused 28");
    t.row("1 to 0", within([zero, zero, [1.0, 0.0]], 0), "refused 28");
}

fn versions(t: &mut Table) {
    let s = few(3, 1, false);
    let mut split = grown(&[0]);
    split.tree.hold(0, (action(0.5, 7, 0.25), true));
    let hex = |record: &[u8]| record.iter().map(|b| format!("{b:02x}")).collect::<String>();
    for version in 1..=3 {
        let record = split.record_in(version);
        let trainer = Trainer::load(&record).unwrap();
        let played = lines(&s, &[Call::Load(record)]);
        t.row(
            &format!("version {version} is written again as version 3"),
            record_hex(&played),
            hex(&trainer.record()),
        );
    }
    let again = |version| hex(&Trainer::load(&split.record_in(version)).unwrap().record());
    t.row("what version 1 gives a parent", again(1), hex(&grown(&[0]).record()));
    t.row("version 2 keeps parents", again(2), hex(&split.record()));
    t.row("version 3 as it was", again(3), hex(&split.record()));
    let bytes = split.record();
    t.row("the ends' bytes", hex(&bytes[118..142]), "4082c000000000004082c00000000000408f400000000000");
    t.row("without them", hex(&[&bytes[5..118], &bytes[142..]].concat()), hex(&split.record_in(2)[5..]));
}

fn ends(t: &mut Table) {
    let with = |ends: Point| Settings { ends, ..few(1, 0, false) };
    for (name, end, holds) in [
        ("1", 1.0, true),
        ("1,000,000", 1_000_000.0, true),
        ("just below 1", 1.0f64.next_down(), false),
        ("just above 1,000,000", 1_000_000.0f64.next_up(), false),
        ("NaN", f64::NAN, false),
        ("infinite", f64::INFINITY, false),
        ("-600", -600.0, false),
    ] {
        for axis in 0..3 {
            let mut ends = USUAL_ENDS;
            ends[axis] = end;
            let line = if holds { "ask counts" } else { "refused 2" };
            t.row(&format!("end {axis} {name}"), lines(&with(ends), &[])[0].starts_with(line), true);
            let mut record = grown(&[0]).record();
            record[118 + 8 * axis..126 + 8 * axis].copy_from_slice(&end.to_bits().to_be_bytes());
            let want = if holds { "loaded" } else { "refused 8" };
            t.row(&format!("loaded end {axis} {name}"), loaded(&record), want);
        }
    }
    // Middles at 1.65, 1 and 0.5.
    let s = with([3.3, 2.0, 1.0]);
    for (point, want) in [
        ([1.65, 0.0, 0.0], "counted 5 1"),
        ([1.65f64.next_down(), 1.0, 0.5], "counted 4 1"),
        ([3.3f64.next_down(), 2.0f64.next_down(), 1.0f64.next_down()], "counted 8 1"),
        ([3.3, 0.0, 0.0], "none"),
        ([0.0, 2.0, 0.0], "none"),
        ([0.0, 0.0, 1.0], "none"),
    ] {
        let got = answers(&s, &[zeros(1), Call::Tally(point)]);
        t.row(&format!("reached by {point:?} with ends of 3.3, 2 and 1"), got, format!("ok; {want}"));
    }
    t.row("a ratio's end of 1 takes no first ack", answers(&s, &[ack(0.0, 1.0)]), "refused 22");
    let fast = with([1.0, 1.0, 1000.0]);
    t.row("a gap of 1 s", answers(&fast, &[ack(0.0, 1.0), ack(0.5, 2.0)]), "window 2; refused 22");
    let one = Trainer::start(with([1.0, 2.0, 3.0])).unwrap();
    let other = Trainer::start(with([1.0, 2.0, 3.0f64.next_up()])).unwrap();
    let equal = |x: &Trainer| answers(&one.settings, &[Call::Equal(x.record())]);
    t.row("the same ends", equal(&one), "equal 1");
    t.row("another end", equal(&other), "equal 0");
}

fn loaded(record: &[u8]) -> String {
    let calls = [Call::Load(record.to_vec())];
    let line = answers(&default_settings(), &calls);
    let compared = answers(&default_settings(), &[Call::Equal(record.to_vec())]);
    let both = if line == "loaded" { compared.starts_with("equal") } else { compared == line };
    assert!(both, "load and equal refuse alike");
    line
}

fn accepted(t: &mut Table) {
    let start = || Trainer::start(few(5, 2, false)).unwrap();
    let mut rows = Vec::new();
    let mut add = |name, change: fn(&mut Trainer), want| {
        let mut trainer = start();
        change(&mut trainer);
        rows.push((name, trainer.record(), want));
    };
    add("phase 2, drill off", |x| (x.phase, x.stage) = (Phase::Drill, 1), "loaded");
    add("stage 5, no split", |x| x.stage = 5, "loaded");
    add("stage 6", |x| x.stage = 6, "refused 8");
    add(
        "marks in phase 1",
        |x| {
            x.tree.mark(0);
            (x.phase, x.stage) = (Phase::Split, 1)
        },
        "loaded",
    );
    add(
        "marks in phase 6",
        |x| {
            x.tree.mark(0);
            (x.phase, x.stage) = (Phase::Last, 6)
        },
        "loaded",
    );
    add("phase 3, all marked", |x| x.tree.mark(0), "loaded");
    add(
        "phase 4, marked",
        |x| {
            x.tree.mark(0);
            x.phase = Phase::Own { leaf: 0 }
        },
        "refused 8",
    );
    add("phase 4, no leaf", |x| x.phase = Phase::Own { leaf: 1 }, "refused 8");
    add("phase 1, stage 0", |x| x.phase = Phase::Split, "refused 8");
    add("phase 1, round 1", |x| (x.phase, x.stage, x.round) = (Phase::Split, 1, 1), "refused 8");
    add("phase 3, round 1", |x| x.round = 1, "loaded");
    add("phase 3, round 2", |x| x.round = 2, "refused 8");
    add("phase 6, stage 5", |x| (x.phase, x.stage) = (Phase::Last, 5), "refused 8");
    add("phase 7, round 1", |x| (x.phase, x.stage, x.round) = (Phase::Done, 6, 1), "refused 8");
    add("an action not valid", |x| x.tree.set_action(0, action(1.0, 1_000_001, 0.0)), "refused 8");
    for (name, record, want) in rows {
        t.row(name, loaded(&record), want);
    }
    let searching = |best: u64, k: usize, kept: Option<(usize, f64)>| {
        let mut trainer = start();
        let list = trainer.settings.candidates(&trainer.settings.default);
        trainer.phase = Phase::Candidates { leaf: 0, best: 0.0, k, kept, list };
        let mut record = trainer.record();
        let end = record.len();
        record[end - 20..end - 12].copy_from_slice(&best.to_be_bytes());
        record
    };
    let one = 1.0f64.to_bits();
    for (name, record, want) in [
        ("k below the length", searching(one, 35, None), "loaded"),
        ("k the length", searching(one, 36, None), "refused 8"),
        ("kept below k", searching(one, 2, Some((1, 2.0))), "loaded"),
        ("kept at k", searching(one, 2, Some((2, 2.0))), "refused 8"),
        ("k 0, one kept", searching(one, 0, Some((0, 2.0))), "refused 8"),
        ("kept not above best", searching(one, 2, Some((1, 1.0))), "refused 8"),
        ("best NaN", searching(0x7ff8_0000_0000_0000, 2, None), "loaded"),
        ("another NaN", searching(0x7ff8_0000_0000_0001, 2, None), "refused 8"),
        ("a negative NaN", searching(0xfff8_0000_0000_0000, 2, None), "refused 8"),
        ("best NaN, one kept", searching(0x7ff8_0000_0000_0000, 2, Some((1, 2.0))), "refused 8"),
        ("best infinite", searching(0x7ff0_0000_0000_0000, 2, None), "loaded"),
        ("best -infinite", searching(0xfff0_0000_0000_0000, 2, Some((0, f64::MIN))), "loaded"),
        ("kept -0 above -1", searching((-1.0f64).to_bits(), 2, Some((0, -0.0))), "loaded"),
        ("kept a NaN", searching(one, 2, Some((1, f64::from_bits(0x7ff8_0000_0000_0000)))), "refused 8"),
        (
            "none kept, score -0",
            {
                let mut record = searching(one, 2, None);
                let end = record.len();
                record[end - 8] = 0x80;
                record
            },
            "refused 8",
        ),
    ] {
        t.row(&format!("phase 5, {name}"), loaded(&record), want);
    }
}

fn refused_records(t: &mut Table) {
    let fresh = Trainer::start(default_settings()).unwrap().record();
    let with = |change: &dyn Fn(&mut Vec<u8>)| {
        let mut record = fresh.clone();
        change(&mut record);
        record
    };
    let length = |bytes: &mut Vec<u8>| {
        let n = (bytes.len() - 4) as u32;
        bytes[..4].copy_from_slice(&n.to_be_bytes());
    };
    let end = fresh.len();
    let padded = |size: usize| {
        with(&|r| {
            r.resize(4 + size, 0);
            length(r);
        })
    };
    for (name, record, want) in [
        ("no bytes", vec![], "refused 6"),
        ("three bytes", vec![0, 0, 0], "refused 6"),
        ("u32 0", vec![0; 4], "refused 7"),
        ("u32 1, version 1", vec![0, 0, 0, 1, 1], "refused 8"),
        ("u32 1, version 2", vec![0, 0, 0, 1, 2], "refused 8"),
        ("u32 1, version 3", vec![0, 0, 0, 1, 3], "refused 8"),
        ("u32 1, version 4", vec![0, 0, 0, 1, 4], "refused 7"),
        ("a byte more", with(&|r| r.push(0)), "refused 6"),
        ("a byte less", with(&|r| r.truncate(end - 1)), "refused 6"),
        (
            "a byte more, counted",
            with(&|r| {
                r.push(0);
                length(r)
            }),
            "refused 8",
        ),
        (
            "a byte less, counted",
            with(&|r| {
                r.pop();
                length(r)
            }),
            "refused 8",
        ),
        ("16,384", padded(16_384), "refused 8"),
        ("16,385", padded(16_385), "refused 6"),
        ("version 0", with(&|r| r[4] = 0), "refused 7"),
        ("version 4, bad body", with(&|r| (r[4], r[17]) = (4, 9)), "refused 7"),
        ("version 2, ends in it", with(&|r| r[4] = 2), "refused 8"),
        ("drill 2", with(&|r| r[17] = 2), "refused 8"),
        ("65 splits", with(&|r| r[8] = 65), "refused 8"),
        ("mark 2", with(&|r| r[end - 32] = 2), "refused 8"),
        ("phase 0", with(&|r| r[end - 31] = 0), "refused 8"),
        ("phase 8", with(&|r| r[end - 31] = 8), "refused 8"),
        ("leaf 1 in phase 3", with(&|r| r[end - 21] = 1), "refused 8"),
        ("best -0 in phase 3", with(&|r| r[end - 20] = 0x80), "refused 8"),
        ("kept 0 in phase 3", with(&|r| (r[end - 10], r[end - 9]) = (0, 0)), "refused 8"),
        ("as it is", fresh.clone(), "loaded"),
    ] {
        t.row(&format!("load: {name}"), loaded(&record), want);
    }
    // A split names a leaf then: node 9 exists only after the second split.
    let twice = grown(&[0, 8]).record();
    let mut wrong = twice.clone();
    (wrong[144 + 2], wrong[144 + 3]) = (0, 9);
    t.row("split of a later node", loaded(&wrong), "refused 8");
    (wrong[144 + 2], wrong[144 + 3]) = (0, 0);
    t.row("split of a parent", loaded(&wrong), "refused 8");
    t.row("split of a leaf", loaded(&twice), "loaded");
}

fn sending(t: &mut Table) {
    let s = default_settings();
    let state = |calls: &[Call]| last_sender(&lines(&s, calls));
    t.row("before anything", state(&[Call::Tick]), "sender - - - - - - - 1 0000000000000000 -");
    t.row("sent = received first", answers(&s, &[ack(1.0, 1.0)]), "refused 22");
    t.row("and nothing changed", state(&[ack(1.0, 1.0)]), "sender - - - - - - - 1 0000000000000000 -");
    t.row(
        "sent above received, then +1",
        answers(&s, &[ack(3.0, 1.0), ack(3.0, 4.0)]),
        "window 2; refused 22",
    );
    t.row("ratio -0", answers(&s, &[ack(3.0, 1.0), ack(3.0, 3.0)]), "window 2; window 3");
    t.row("a refused ack leaves the gap", state(&[ack(0.5, 1.0), ack(4999.0, 5000.0), ack(1.5, 2.0)]), "sender 4000000000000000 3ff8000000000000 3ff0000000000000 3ff0000000000000 3fe0000000000000 3fe0000000000000 - 3 3f689374bc6a7efa -");
    let gaps = [ack(0.0, 1.0), ack(8.0, 9.0), ack(24.0, 25.0)];
    t.row("gaps 8, 16 average 9", state(&gaps).split(' ').nth(3).unwrap().to_owned(), "4022000000000000");
    t.row(
        "a first gap of 600",
        answers(&s, &[ack(0.0, 1.0), ack(0.0, 601.0), ack(700.0, 701.0)]),
        "window 2; refused 22; refused 22",
    );
    t.row(
        "a send, an ack, a tick",
        answers(&s, &[Call::Send(1.0), ack(0.0, 1.0), Call::Tick]),
        "window 0; window 0; window 2",
    );
    t.row(
        "wakes",
        answers(&s, &[Call::Wake(1.0), Call::Send(5.0), Call::Wake(1.0), Call::Wake(9.0)]),
        "wake -; window 0; wake 4014000000000000; wake 4022000000000000",
    );
    let due = format!("window 2; window 0; wake {:016x}", (5.0f64 + 0.003).to_bits());
    t.row("a wake with a wait", answers(&s, &[ack(0.0, 1.0), Call::Send(5.0), Call::Wake(5.0)]), due);
    t.row("a wake, no send, bad now", answers(&s, &[Call::Wake(f64::NAN)]), "refused 1");
    t.row(
        "a send moves no point",
        state(&[ack(0.0, 1.0), Call::Send(500.0), ack(1.0, 2.0)]).split(' ').nth(4).unwrap().to_owned(),
        "3ff0000000000000",
    );
}

fn repeating(t: &mut Table) {
    let mode = |mode, lo, hi| Header { mode, lo, hi, ..header(default_settings()) };
    let drawn = |sent, received, draw| Call::Ack(Ack { sent, received, draw });
    let pending = |lines: &[String]| last_sender(lines).split(' ').nth(7).unwrap().to_owned();
    // Draw 0 serves one more ack: 1 and 3 look up. The second is outside, so only a repeat takes it.
    let zero = mode(2, 0, 0);
    let three = [drawn(0.0, 1.0, Some(0)), drawn(0.0, 5000.0, None), drawn(0.0, 5001.0, Some(0))];
    t.row("draw 0: acks 1 and 3 look up", own(&lines_of(&zero, &three)), "window 2; window 3; refused 22");
    t.row(
        "a repeat moves the averages",
        last_sender(&lines_of(&zero, &three[..2])).split(' ').nth(3).unwrap().to_owned(),
        format!("{:016x}", 4999.0f64.to_bits()),
    );
    t.row(
        "a draw not due",
        own(&lines_of(&zero, &[drawn(0.0, 1.0, Some(0)), drawn(0.0, 1.0, Some(77))])),
        "window 2; window 3",
    );
    t.row("a due draw absent", own(&lines_of(&zero, &[drawn(0.0, 1.0, None)])), "refused 5");
    t.row(
        "a due draw outside",
        own(&lines_of(
            &mode(2, 3, 5),
            &[drawn(0.0, 1.0, Some(2)), drawn(0.0, 1.0, Some(6)), drawn(0.0, 1.0, Some(5))],
        )),
        "refused 5; refused 5; window 2",
    );
    t.row(
        "a 5 leaves the sender",
        last_sender(&lines_of(&zero, &[drawn(0.0, 1.0, None)])),
        "sender - - - - - - - 1 0000000000000000 -",
    );
    t.row("outside and a bad draw", own(&lines_of(&zero, &[drawn(1.0, 1.0, None)])), "refused 22");
    t.row(
        "NaN with a repeat pending",
        own(&lines_of(&zero, &[drawn(0.0, 1.0, Some(0)), drawn(0.0, f64::NAN, None)])),
        "window 2; refused 1",
    );
    t.row("always 2^32 - 1", pending(&lines_of(&mode(1, u32::MAX, 0), &[ack(0.0, 1.0)])), u32::MAX);
    t.row(
        "counted down",
        pending(&lines_of(&mode(1, u32::MAX, 0), &[ack(0.0, 1.0), ack(0.0, 1.0)])),
        u32::MAX - 1,
    );
    t.row(
        "always 1: acks 1 and 4",
        own(&lines_of(&mode(1, 1, 0), &[ack(0.0, 1.0), ack(0.0, 1.0), ack(0.0, 5000.0), ack(0.0, 5000.0)])),
        "window 2; window 3; window 4; refused 22",
    );
    t.row(
        "a tick keeps a repeat",
        pending(&lines_of(&mode(1, 1, 0), &[ack(0.0, 1.0), Call::Send(2.0), Call::Tick])),
        1,
    );
    t.row(
        "sent = received under a repeat, then",
        own(&lines_of(&mode(1, 0, 0), &[ack(0.0, 1.0), ack(1.0, 1.0), ack(1.0, 2.0), ack(3.0, 2.0)])),
        "window 2; window 3; refused 22; window 4",
    );
    // A sender that 01 hands in: no script does, so 01's side alone.
    let tree = Tree::new(USUAL_ENDS, default_settings().default);
    let mut nan = Sender::new(Repeat::Off).unwrap();
    nan.round_trips = Some((f64::NAN, 1.0));
    let refused = nan.ack(&tree, &Ack { sent: 0.0, received: 1.0, draw: None });
    t.row("a held NaN stays", format!("{refused:?}"), "Err(22)");
}

/// Draws of the generator's own.
fn drawing(t: &mut Table) {
    let mode = |mode, lo, hi| Header { mode, lo, hi, ..header(default_settings()) };
    let own_lines = |header: &Header, calls: &[Call]| own(&lines_of(header, calls));
    let off = mode(0, 0, 0);
    let seed = Call::Seed([1, 2, 3, 4]);
    let first = "state 1 2 3 4";
    let second = "state 7 0 262146 211106232532992";
    let taken = Call::OwnAck(0.0, 1.0);
    t.row(
        "the first outputs",
        own_lines(&off, &[seed.clone(), Call::Step, Call::Step, Call::Step])
            .split("; ")
            .filter_map(|line| line.strip_prefix("output "))
            .collect::<Vec<_>>()
            .join(" "),
        "41943041 58720359 3588806011781223",
    );
    t.row(
        "a step and the step back",
        own_lines(&off, &[seed.clone(), Call::Step, Call::StepBack]),
        format!("{first}; output 41943041; {second}; {first}"),
    );
    t.row("none yet", own_lines(&off, &[Call::Step, Call::StepBack]), "refused 26; refused 26");
    t.row("an ack with none", own_lines(&off, &[Call::OwnAck(f64::NAN, 1.0)]), "refused 26; state -");
    t.row(
        "four zeros leave the state",
        own_lines(&off, &[seed.clone(), Call::Seed([0; 4]), Call::Step]),
        format!("{first}; refused 26; output 41943041; {second}"),
    );
    for (name, header) in [("off", mode(0, 0, 0)), ("always", mode(1, 1, 0))] {
        t.row(
            &format!("{name}: no step"),
            own_lines(&header, &[seed.clone(), taken.clone()]),
            format!("{first}; window 2; {first}"),
        );
    }
    let one = mode(2, 0, 0);
    t.row(
        "a step at a due draw, none at the repeat",
        own_lines(&one, &[seed.clone(), taken.clone(), taken.clone()]),
        format!("{first}; window 2; {second}; window 3; {second}"),
    );
    t.row(
        "no step at a refused ack",
        own_lines(&one, &[seed.clone(), Call::OwnAck(-1.0, 1.0), Call::OwnAck(1.0, 1.0)]),
        format!("{first}; refused 1; {first}; refused 22; {first}"),
    );
    // 41943041 modulo 5 is 1.
    let drawn = lines_of(&mode(2, 3, 7), &[seed, taken]);
    t.row("lo plus the output modulo hi - lo + 1", last_sender(&drawn).split(' ').nth(7).unwrap(), 4);
    let state = Generator::new([1, 2, 3, 4]).unwrap();
    t.row("lo above hi", format!("{:?}", state.draw(Repeat::Within(3, 2))), "None");
    t.row("all 32 bits", format!("{:?}", state.draw(Repeat::Within(0, u32::MAX))), "Some(41943041)");
    let mut there = Generator::new([u64::MAX, 0, 1 << 63, 12345]).unwrap();
    let start = there;
    (0..3000).for_each(|_| there.step());
    (0..3000).for_each(|_| there.step_back());
    t.row("3000 steps there and back", there == start, true);
}

/// Acks one by one up to the first that is refused.
fn bursts(t: &mut Table) {
    let s = default_settings();
    let one = Ack { sent: 0.0, received: 1.0, draw: None };
    let bad = Ack { sent: -1.0, ..one };
    let outside = Ack { sent: 1.0, ..one };
    let burst = |acks: &[Ack], places| Call::Burst(acks.to_vec(), places);
    let state = |calls: &[Call]| last_sender(&lines(&s, calls));
    t.row("no acks", answers(&s, &[burst(&[], 0)]), "burst 0 0");
    t.row("two acks", answers(&s, &[burst(&[one, one], 2)]), "burst 2 0 2 3");
    t.row("stopped by 1", answers(&s, &[burst(&[one, bad, one], 3)]), "burst 1 1 2");
    t.row("stopped by 22", answers(&s, &[burst(&[outside, one], 2)]), "burst 0 22");
    t.row(
        "as the acks before the one that is refused",
        state(&[burst(&[one, bad, one], 3)]),
        state(&[Call::Ack(one)]),
    );
    t.row("a place too few", answers(&s, &[burst(&[one, one], 1)]), "refused 9");
    t.row("9 ahead of the first ack", answers(&s, &[burst(&[bad, one], 1)]), "refused 9");
    t.row(
        "and nothing changed",
        state(&[burst(&[one, one], 1)]),
        "sender - - - - - - - 1 0000000000000000 -",
    );
    t.row("256 acks", answers(&s, &[burst(&[one; 256], 256)]).split(' ').last().unwrap(), 257);
    t.row("257 acks", answers(&s, &[burst(&[one; 257], 600)]), "refused 9");
    t.row(
        "while a send stands",
        answers(&s, &[Call::Send(1.0), burst(&[one, one], 2)]),
        "window 0; burst 2 0 0 0",
    );
    let between = Header { mode: 2, lo: 0, hi: 0, ..header(default_settings()) };
    let drawn = Ack { draw: Some(0), ..one };
    t.row("a draw each", own(&lines_of(&between, &[burst(&[drawn, one, one], 3)])), "burst 2 5 2 3");
}

/// The program trace.
fn traces(t: &mut Table) {
    let record = Trainer::start(default_settings()).unwrap().record();
    let printed = |trace: &[u8]| {
        String::from_utf8(trace::lines(&[&record, trace].concat())).unwrap().replace('\n', ";")
    };
    let of = |events: &[Event]| {
        let mut bytes = Vec::new();
        events.iter().for_each(|event| trace::put(&mut bytes, event));
        trace::framed(&bytes)
    };
    let taken = Event::Ack(0.0, 1.0);
    t.row("five bytes", printed(&of(&[])), "");
    t.row(
        "events",
        printed(&of(&[Event::Tick, taken.clone(), Event::Send(1.0), taken.clone(), Event::Tick])),
        "1;2;0;0;3;",
    );
    t.row(
        "goes on",
        printed(&of(&[Event::Ack(1.0, 1.0), Event::Send(-1.0), taken.clone()])),
        "refused 22;refused 1;2;",
    );
    t.row("no trace", printed(&[]), "refused 25;");
    t.row("version 2", printed(&[0, 0, 0, 1, 2]), "refused 25;");
    t.row("one byte more", printed(&[0, 0, 0, 1, 1, 0]), "refused 25;");
    t.row("a tick of two bytes", printed(&[0, 0, 0, 4, 1, 2, 3, 0]), "refused 25;");
    t.row("kind 4", printed(&[0, 0, 0, 3, 1, 1, 4]), "refused 25;");
    t.row("an event of no bytes", printed(&[0, 0, 0, 2, 1, 0]), "refused 25;");
    t.row("a cut event", printed(&[0, 0, 0, 3, 1, 9, 2]), "refused 25;");
    t.row("32,767 bytes", printed(&of(&vec![Event::Tick; 16_381])).len(), 2 * 16_381);
    t.row("32,769 bytes", printed(&of(&vec![Event::Tick; 16_382])), "refused 25;");
    t.row("6 ahead of 25", String::from_utf8(trace::lines(&record[..9])).unwrap(), "refused 6\n");
    let mut clipping = default_settings();
    clipping.default = action(0.0, -1, 0.0);
    clipping.min.increment = -1;
    let record = Trainer::start(clipping).map(|trainer| trainer.record()).unwrap_or_default();
    let lines = trace::lines(&[record, of(&[taken, Event::Tick])].concat());
    t.row("clipped at 0", String::from_utf8(lines).unwrap(), "0 c\n0\n");
}

fn headers(t: &mut Table) {
    let with = |change: fn(&mut Header)| {
        let mut h = header(default_settings());
        change(&mut h);
        lines_of(&h, &[])[0].clone()
    };
    let asks = "ask counts 0000000000000000";
    for (name, got, want) in [
        ("drill 2", with(|h| h.drill = 2), "refused 2"),
        ("mode 3", with(|h| h.mode = 3), "refused 2"),
        ("lo above hi", with(|h| (h.mode, h.lo, h.hi) = (2, 3, 2)), "refused 2"),
        ("lo above hi, unused", with(|h| (h.mode, h.lo, h.hi) = (1, 3, 2)), asks),
        ("hi 4294967294", with(|h| (h.mode, h.lo, h.hi) = (2, 0, u32::MAX - 1)), asks),
        ("hi 4294967295", with(|h| (h.mode, h.lo, h.hi) = (2, 0, u32::MAX)), "refused 2"),
        ("hi 4294967295, unused", with(|h| (h.mode, h.hi) = (0, u32::MAX)), asks),
    ] {
        t.row(&format!("header: {name}"), got, want);
    }
}

fn bad_scripts(t: &mut Table) {
    let whole = Writer::new(&header(default_settings())).bytes;
    t.row("a header's size", whole.len(), 146);
    let mut refused = header(default_settings());
    refused.drill = 9;
    let refused = Writer::new(&refused).bytes;
    let played = |bytes: &[u8]| {
        String::from_utf8(play(bytes).output).unwrap().lines().map(str::to_owned).collect::<Vec<_>>()
    };
    let last = |extra: &[u8]| {
        let mut bytes = whole.clone();
        bytes.extend(extra);
        let lines = played(&bytes);
        format!("{} {}", lines.len(), lines.last().unwrap())
    };
    t.row("empty", played(&[]).join(";"), "bad script");
    t.row("a cut header", played(&whole[..145]).join(";"), "bad script");
    t.row("a cut header that would be refused", played(&refused[..145]).join(";"), "bad script");
    t.row("a refused header, then anything", played(&[&refused[..], &[0]].concat()).join(";"), "refused 2");
    t.row("code 0", last(&[0]), "2 bad script");
    t.row("code 15", last(&[15]), "2 bad script");
    t.row("601 acks", last(&[&[16, 2, 89][..], &[0; 601 * 21 + 2]].concat()), "2 bad script");
    t.row("600 acks", last(&[&[16, 2, 88][..], &[0; 600 * 21 + 2]].concat()).starts_with("4 record"), true);
    t.row("601 counts", last(&[&[1, 2, 89][..], &[0; 601 * 8]].concat()), "2 bad script");
    t.row("600 counts", last(&[&[1, 2, 88][..], &[0; 600 * 8]].concat()).starts_with("4 record"), true);
    t.row("16,501 bytes", last(&[&[13, 0, 0, 0x40, 0x75][..], &[0; 16_501]].concat()), "2 bad script");
    t.row(
        "16,500 bytes",
        last(&[&[13, 0, 0, 0x40, 0x74][..], &[0; 16_500]].concat()).starts_with("4 record"),
        true,
    );
    t.row("a cut call", last(&[6, 2, 0, 0]), "4 bad script");
}

fn noted(t: &mut Table) {
    let page = include_str!("../DIFFERENCES-NOTES.md");
    t.row("DIFFERENCES-NOTES.md is what `oracle differences` writes", page == differences::page(), true);
    for d in differences::all() {
        t.row(&format!("difference {}: the original", d.name), (d.original)(), d.gives);
        if let Some(script) = &d.script {
            t.row(&format!("difference {}: the script", d.name), shown_line(&d, script), d.line);
        }
    }
}

fn generators(t: &mut Table) {
    for (kind, _) in gen::KINDS {
        let (one, again) = (gen::script(kind, 7), gen::script(kind, 7));
        t.row(&format!("{kind} is fixed by its seed"), one == again, true);
        t.row(&format!("{kind} differs by its seed"), one == gen::script(kind, 8), false);
    }
    let answer = Answer::Score(0.0);
    let mut trainer = Trainer::start(default_settings()).unwrap();
    t.row(
        "a refused answer changes nothing",
        trainer.answer(&answer).is_err()
            && trainer.record() == Trainer::start(default_settings()).unwrap().record(),
        true,
    );
}
