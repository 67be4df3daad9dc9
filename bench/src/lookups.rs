//! Lookups of many points in one call, of one point in a call, rows of the even tree, and the load of a record.

use std::hint::black_box;

use flowforge::{
    ccas::remy::{action::Action as RustAction, point::Point as RustPoint, rule_tree::RuleTree, RemyPolicy},
    quantities::seconds,
    trainers::remy::RemyTrainer,
};

use crate::{
    clock::{alternate, Times},
    plain::{even_tree, Action, Point},
    raw,
    rust::{grow, of_settings},
    size,
    table::{thousands, Table},
    trees::Grown,
};

const POINTS: usize = 20_000;
const ALONE: usize = 2_000;

struct Asked {
    bytes: Vec<u8>,
    points: Vec<RustPoint>,
}

fn asked(points: &[Point]) -> Asked {
    let bytes = points.iter().flatten().flat_map(|x| x.to_bits().to_be_bytes()).collect();
    let point = |p: &Point| RustPoint { ack_ewma: seconds(p[0]), send_ewma: seconds(p[1]), rtt_ratio: p[2] };
    Asked { bytes, points: points.iter().map(point).collect() }
}

fn theirs(tree: &RuleTree, points: &[RustPoint], out: &mut [Option<RustAction>]) {
    for (slot, point) in out.iter_mut().zip(black_box(points)) {
        *slot = tree.action(point);
    }
    black_box(out);
}

/// Both sides found the same, and all points found an action. The delays found.
fn same(found: &[u8], actions: &[Option<RustAction>]) -> Vec<f64> {
    assert_eq!(found.len(), 21 * actions.len());
    let delays = found.chunks(21).zip(actions).map(|(bytes, action)| {
        let action = action.as_ref().expect("a point inside the root box");
        assert_eq!(bytes[0], 1);
        assert_eq!(bytes[1..9], action.window_multiplier.to_bits().to_be_bytes());
        assert_eq!(bytes[9..13], action.window_increment.to_be_bytes());
        assert_eq!(bytes[13..21], action.intersend_delay.seconds().to_bits().to_be_bytes());
        action.intersend_delay.seconds()
    });
    delays.collect()
}

pub fn many(table: &mut Table, tree: &Grown) {
    let asked = asked(&tree.points(POINTS));
    let mut found = vec![0; 21 * POINTS];
    let mut actions = vec![None; POINTS];
    assert_eq!(size(raw::lookup(&tree.record, &asked.bytes, &mut found)), found.len());
    theirs(&tree.original, &asked.points, &mut actions);
    let (levels, leaves) = tree.levels(&same(&found, &actions));
    let times = alternate(
        table.repeats,
        POINTS,
        || raw::lookup(&tree.record, &asked.bytes, &mut found),
        || theirs(&tree.original, &asked.points, &mut actions),
    );
    same(&found, &actions);
    let name = format!("lookup, {}, {} points a call", tree.name, thousands(POINTS));
    let note =
        format!("a point goes down {levels:.1} levels in the mean, and {leaves} of 449 leaves are reached");
    table.timed(&name, "a point", &times, &note);
}

/// A call for each point, which loads the record each time.
pub fn alone(table: &mut Table, tree: &Grown) {
    let asked = asked(&tree.points(ALONE));
    let mut found = vec![0; 21 * ALONE];
    let mut actions = vec![None; ALONE];
    let ours = |found: &mut [u8]| {
        for (point, slot) in asked.bytes.chunks(24).zip(found.chunks_mut(21)) {
            size(raw::lookup(&tree.record, point, slot));
        }
    };
    ours(&mut found);
    theirs(&tree.original, &asked.points, &mut actions);
    same(&found, &actions);
    let times = alternate(
        table.repeats,
        ALONE,
        || ours(&mut found),
        || theirs(&tree.original, &asked.points, &mut actions),
    );
    let name = format!("lookup, {}, one point a call", tree.name);
    let note = "our call loads and tests the record; the Rust has its tree at hand";
    table.timed(&name, "a point", &times, note);
}

/// The row of the even tree that holds a point, without a tree, beside the originals' lookup in theirs.
pub fn even(table: &mut Table) {
    let settings = of_settings(&RemyTrainer::default());
    let mut tree = even_tree();
    for row in 0..64 {
        let increment = row as i32;
        tree.set_action(9 + row, Action { multiplier: 1.0, increment, delay: 0.001 });
    }
    let original = grow(&settings, &tree);
    let part = |i: usize, step: f64| (i as f64 * step).fract();
    let points: Vec<Point> = (0..POINTS)
        .map(|i| [600.0 * part(i, 0.618), 600.0 * part(i, 0.414), 1000.0 * part(i, 0.732)])
        .collect();
    let asked = asked(&points);
    let mut rows = vec![0; POINTS];
    let mut actions = vec![None; POINTS];
    let ours = |rows: &mut [u64]| {
        for (point, row) in asked.bytes.chunks(24).zip(rows) {
            *row = raw::even_row(black_box(point));
        }
    };
    ours(&mut rows);
    theirs(&original, &asked.points, &mut actions);
    let found = |action: &Option<RustAction>| action.as_ref().map_or(64, |a| a.window_increment as u64);
    assert!(rows.iter().copied().eq(actions.iter().map(found)));
    let times = alternate(
        table.repeats,
        POINTS,
        || ours(&mut rows),
        || theirs(&original, &asked.points, &mut actions),
    );
    table.timed(
        "row of the even tree, one point a call",
        "a point",
        &times,
        "the Rust has its grown tree at hand",
    );
}

/// Loading is a lookup of no point, the test for 10 what a question costs beyond it, and a save what a list of no
/// answer costs beyond it.
pub fn load(table: &mut Table, tree: &Grown) {
    let mut question = [0; 31];
    let mut next = vec![0; tree.record.len()];
    size(raw::question(&tree.record, &mut question));
    assert_eq!(question[0], 3, "the trainer is done");
    assert_eq!(question[23..], tree.trainer.progress().to_bits().to_be_bytes());
    assert_eq!(size(raw::lookup(&tree.record, &[], &mut [])), 0);
    assert_eq!(size(raw::answers(&tree.record, &[], &mut next)), next.len());
    assert_eq!(next, tree.record, "the same bytes");
    let many = |call: &mut dyn FnMut() -> u64| {
        (0..ALONE).for_each(|_| {
            size(call());
        })
    };
    let load = || many(&mut || raw::lookup(&tree.record, &[], &mut []));
    let asks =
        alternate(table.repeats, ALONE, || many(&mut || raw::question(&tree.record, &mut question)), load);
    let saves =
        alternate(table.repeats, ALONE, || many(&mut || raw::answers(&tree.record, &[], &mut next)), load);
    let beyond = |times: &Times| {
        times.ours.iter().zip(&times.theirs).map(|(more, load)| (more - load).max(0.0)).collect()
    };
    let bytes = thousands(tree.record.len());
    let (test, save) = (beyond(&asks), beyond(&saves));
    table.ours_alone(
        &format!("load of {bytes} bytes"),
        "a call",
        asks.theirs,
        "by knellstone_lookup with no point; the originals have no record",
    );
    table.ours_alone(
        &format!("load and save of {bytes} bytes"),
        "a call",
        saves.ours,
        "by knellstone_answers with no answer",
    );
    table.ours_alone(&format!("save of {bytes} bytes"), "a call", save, "the row above less the load");
    table.ours_alone(
        "the test for 10 of a trainer with 64 splits",
        "a test",
        test,
        "knellstone_question less the load: it tests what was loaded once more and writes 31 bytes",
    );
}
