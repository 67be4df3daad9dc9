//! Acks of one sender, many in one call and in bursts of 256, no repeats: every ack looks an action up.

use std::hint::black_box;

use flowforge::{
    ccas::remy::{rule_tree::RuleTree, RemyCca},
    harness::{moment, SenderState},
    quantities::Time,
    util::{logging::NothingLogger, rand::Rng},
    AckReceived, Cca,
};

use crate::{
    clock::alternate,
    plain::{Ack, Repeat, Sender},
    raw,
    rust::same_sender,
    size,
    table::{thousands, Table},
    trees::Grown,
};

/// The acks of a burst.
const BURST: usize = 256;
const BURSTS: usize = 8;

fn ours(record: &[u8], fresh: &[u8; 108], events: &[u8], replies: &mut [u8]) -> [u8; 108] {
    let mut sender = *fresh;
    size(raw::events(record, &mut sender, events, replies));
    sender
}

/// A call for each burst, which loads the record once.
fn in_bursts(
    record: &[u8],
    fresh: &[u8; 108],
    acks: &[u8],
    windows: &mut [u8],
    clipped: &mut [u8],
) -> [u8; 108] {
    let mut sender = *fresh;
    let lent = windows.chunks_mut(4 * BURST).zip(clipped.chunks_mut(BURST));
    for (acks, (windows, clipped)) in acks.chunks(21 * BURST).zip(lent) {
        assert_eq!(size(raw::burst(record, &mut sender, acks, windows, clipped)), BURST, "all are taken");
    }
    sender
}

/// A call for each ack, which loads the record each time.
fn alone(record: &[u8], fresh: &[u8; 108], events: &[u8], replies: &mut [u8]) -> [u8; 108] {
    let mut sender = *fresh;
    for (event, reply) in events.chunks(22).zip(replies.chunks_mut(6)) {
        size(raw::events(record, &mut sender, event, reply));
    }
    sender
}

fn theirs<'a>(tree: &'a RuleTree, acks: &[(Time, Time)], windows: &mut [u32]) -> RemyCca<&'a RuleTree> {
    let mut sender = RemyCca::new(tree, None);
    let mut rng = Rng::from_seed(0);
    for (window, &(sent_time, received_time)) in windows.iter_mut().zip(black_box(acks)) {
        let ack = AckReceived { sent_time, received_time };
        *window = sender.ack_received(ack, &mut rng, &mut NothingLogger);
    }
    black_box(windows);
    sender
}

/// Each window, and the sender that is left.
fn same(replies: &[u8], sender: &[u8; 108], windows: &[u32], held: &SenderState) {
    assert_eq!(replies.len(), 6 * windows.len());
    for (reply, window) in replies.chunks(6).zip(windows) {
        assert_eq!((reply[0], &reply[1..5]), (0, &window.to_be_bytes()[..]));
    }
    let (shortest, current) = held.round_trips.unwrap();
    let floats = [
        (1, held.last_ack.unwrap()),
        (10, held.last_sent.unwrap()),
        (19, held.ack_average.unwrap()),
        (28, held.send_average.unwrap()),
        (37, shortest),
        (45, current),
        (100, held.wait),
    ];
    for (at, x) in floats {
        assert_eq!(sender[at..at + 8], x.to_bits().to_be_bytes(), "the sender at byte {at}");
    }
    assert_eq!(sender[96..100], held.window.to_be_bytes());
}

/// The waits after each ack by the plain model, whose sender has to end as the original does.
fn waits(tree: &Grown, held: &SenderState) -> Vec<f64> {
    let mut sender = Sender::new(Repeat::Off).unwrap();
    let acks = tree.acks.iter().map(|&(sent, received)| {
        sender.ack(&tree.trainer.tree, &Ack { sent, received, draw: None }).unwrap();
        sender.wait
    });
    let waits = acks.collect();
    same_sender(held, &sender);
    waits
}

fn events_of(acks: &[(f64, f64)]) -> Vec<u8> {
    let mut events = Vec::new();
    for (sent, received) in acks {
        events.push(0);
        events.extend(sent.to_bits().to_be_bytes());
        events.extend(received.to_bits().to_be_bytes());
        events.extend([0; 5]);
    }
    events
}

fn moments_of(acks: &[(f64, f64)]) -> Vec<(Time, Time)> {
    acks.iter().map(|&(sent, at)| (moment(sent), moment(at))).collect()
}

fn fresh() -> [u8; 108] {
    let mut fresh = [0; 108];
    size(raw::sender(&[0; 9], &mut fresh));
    fresh
}

pub fn many(table: &mut Table, tree: &Grown) {
    let count = tree.acks.len();
    let (events, moments) = (events_of(&tree.acks), moments_of(&tree.acks));
    let fresh = fresh();
    let mut replies = vec![0; 6 * count];
    let mut windows = vec![0; count];

    let sender = ours(&tree.record, &fresh, &events, &mut replies);
    let held = theirs(&tree.original, &moments, &mut windows).held();
    same(&replies, &sender, &windows, &held);
    let (levels, leaves) = tree.levels(&waits(tree, &held));

    let times = alternate(
        table.repeats,
        count,
        || ours(&tree.record, &fresh, &events, &mut replies),
        || theirs(&tree.original, &moments, &mut windows),
    );
    let name = format!("ack, {}, {} acks a call", tree.name, thousands(count));
    let note =
        format!("an ack goes down {levels:.1} levels in the mean, and {leaves} of 449 leaves are reached");
    table.timed(&name, "an ack", &times, &note);
}

/// Bursts beside the originals' acks, and beside a call of ours for each ack.
pub fn bursts(table: &mut Table, tree: &Grown) {
    let count = BURSTS * BURST;
    let (events, moments) = (events_of(&tree.acks[..count]), moments_of(&tree.acks[..count]));
    // An ack of a burst is an event without its code.
    let acks: Vec<u8> = events.chunks(22).flat_map(|event| &event[1..]).copied().collect();
    let fresh = fresh();
    let mut replies = vec![0; 6 * count];
    let mut windows = vec![0; count];
    let (mut shown, mut clipped) = (vec![0; 4 * count], vec![0; count]);

    let sender = in_bursts(&tree.record, &fresh, &acks, &mut shown, &mut clipped);
    assert_eq!(sender, alone(&tree.record, &fresh, &events, &mut replies));
    let held = theirs(&tree.original, &moments, &mut windows).held();
    same(&replies, &sender, &windows, &held);
    for (reply, (window, flag)) in replies.chunks(6).zip(shown.chunks(4).zip(&clipped)) {
        assert_eq!((&reply[1..5], reply[5]), (window, *flag));
    }

    let beside_theirs = alternate(
        table.repeats,
        count,
        || in_bursts(&tree.record, &fresh, &acks, &mut shown, &mut clipped),
        || theirs(&tree.original, &moments, &mut windows),
    );
    let beside_ours = alternate(
        table.repeats,
        count,
        || in_bursts(&tree.record, &fresh, &acks, &mut shown, &mut clipped),
        || alone(&tree.record, &fresh, &events, &mut replies),
    );
    let name = format!("burst of {BURST} acks a call, {}", tree.name);
    table.timed(
        &name,
        "an ack",
        &beside_theirs,
        "a call loads and tests the record; the Rust has its tree at hand",
    );
    let note =
        "both sides are ours: the second is knellstone_events with one ack, which loads the record each time";
    table.timed(&format!("{name}, beside {BURST} calls"), "an ack", &beside_ours, note);
}
