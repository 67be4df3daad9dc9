//! The candidate list at 36 and at 4,096, and equality of two trees.

use std::hint::black_box;

use flowforge::{
    ccas::remy::action::Action as RustAction, ccas::remy::rule_tree::RuleTree, trainers::remy::RemyTrainer,
};

use crate::{
    clock::alternate,
    plain::{Action, Settings, Trainer},
    raw,
    rust::{as_given, grow, of_settings, to_action},
    size,
    table::{thousands, Table},
    trees::Grown,
};

fn same(list: &[u8], actions: &[RustAction]) {
    assert_eq!(list.len(), 20 * actions.len());
    for (bytes, action) in list.chunks(20).zip(actions) {
        assert_eq!(bytes[..8], action.window_multiplier.to_bits().to_be_bytes());
        assert_eq!(bytes[8..12], action.window_increment.to_be_bytes());
        assert_eq!(bytes[12..], action.intersend_delay.seconds().to_bits().to_be_bytes());
    }
}

fn candidates_of(table: &mut Table, settings: &Settings, count: usize, calls: usize) {
    let bytes = &Trainer::start(settings.clone()).unwrap().record()[5..142];
    let action = &bytes[93..113];
    let originals = as_given(settings);
    let default = to_action(&settings.default);
    let mut out = vec![0; 20 * 4096];
    let length = size(raw::candidates(bytes, action, &mut out));
    let actions = originals.possible_improvements(default.clone());
    assert_eq!(actions.len(), count);
    same(&out[..length], &actions);
    let times = alternate(
        table.repeats,
        calls,
        || {
            (0..calls).for_each(|_| {
                black_box(raw::candidates(bytes, black_box(action), &mut out));
            })
        },
        || {
            (0..calls).for_each(|_| {
                black_box(originals.possible_improvements(black_box(default.clone())));
            })
        },
    );
    let note = "ours tests the settings and the action and writes 20 bytes a candidate; the Rust makes a list of values";
    table.timed(&format!("candidate list of {}", thousands(count)), "a list", &times, note);
}

pub fn candidates(table: &mut Table) {
    let usual = of_settings(&RemyTrainer::default());
    candidates_of(table, &usual, 36, 4_000);
    let action = |multiplier, increment, delay| Action { multiplier, increment, delay };
    let wide = Settings {
        multiplier: 2,
        min: action(-1e9, -1_000_000, -1e9),
        max: action(1e9, 1_000_000, 1e9),
        initial_change: action(1.0, 1, 1.0),
        max_change: action(128.0, 128, 128.0),
        ..usual
    };
    candidates_of(table, &wide, 4096, 100);
}

const EQUALS: usize = 500;

/// Two trees of 64 splits that are equal, so that every node is compared.
pub fn equality(table: &mut Table, tree: &Grown) {
    let other: RuleTree = grow(&tree.trainer.settings, &tree.trainer.tree);
    assert!(tree.original == other);
    assert_eq!(size(raw::equal(&tree.record, &tree.record)), 1);
    let times = alternate(
        table.repeats,
        EQUALS,
        || (0..EQUALS).for_each(|_| assert_eq!(raw::equal(black_box(&tree.record), &tree.record), 1)),
        || (0..EQUALS).for_each(|_| assert!(black_box(&tree.original) == black_box(&other))),
    );
    let note = "our call loads both records first; the Rust has its trees at hand";
    table.timed(&format!("equality, {}", tree.name), "a pair", &times, note);
}
