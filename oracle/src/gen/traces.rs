//! Inputs of the program `trace`: a record and a trace, both mostly good.

use super::{
    author::Author,
    values::{calm_header, small_settings},
    Dice,
};
use crate::trace::{framed, put, Event};

pub fn trace(mut dice: Dice) -> Vec<u8> {
    let settings = small_settings(&mut dice, 1);
    let mut header = calm_header(settings, &mut dice);
    header.mode = 0;
    let mut author = Author::new(dice, &header);
    if !author.dice.one_in(4) {
        let splits = author.some_splits();
        author.load_crafted(splits);
    }
    let trainer = author.trainer.clone();
    let mut input = author.written(&trainer);
    let number = author.dice.pick(&[0, 1, 5, 30, 30, 120, 400, 1500]);
    let edges = author.dice.pick(&[3, 10, 1000]);
    let mut bytes = Vec::new();
    for _ in 0..number {
        put(&mut bytes, &next(&mut author, edges));
    }
    let dice = &mut author.dice;
    let mut trace = framed(&bytes);
    if dice.one_in(3) {
        bend(&mut trace, dice);
    }
    input.extend(trace);
    if dice.one_in(12) {
        let place = dice.below(input.len().min(200));
        input[place] ^= 1 << dice.below(8);
    }
    if dice.one_in(30) {
        input.truncate(dice.below(input.len() + 1));
    }
    input
}

/// An event that mostly fits the sender, which it is played on.
fn next(author: &mut Author, edges: usize) -> Event {
    let mut ack = author.ack();
    if author.dice.one_in(edges) {
        ack.sent = author.edge_moment();
    }
    if author.dice.one_in(edges) {
        ack.received = author.edge_moment();
    }
    let moment = if author.dice.one_in(edges) { author.edge_moment() } else { author.moment() };
    match author.dice.below(8) {
        0 => {
            let _ = author.sender.send(moment);
            Event::Send(moment)
        }
        1 => {
            author.sender.tick();
            Event::Tick
        }
        _ => {
            let _ = author.sender.ack(&author.trainer.tree, &ack);
            Event::Ack(ack.sent, ack.received)
        }
    }
}

/// One fault, or a length at the limit.
fn bend(trace: &mut Vec<u8>, dice: &mut Dice) {
    match dice.below(10) {
        0 => trace.truncate(dice.below(6)),
        1 => trace[4] = dice.pick(&[0, 2, 255]),
        2 => trace[3] = trace[3].wrapping_add(dice.pick(&[1, 255])),
        3 => refit(trace, |trace| trace.extend([1])),
        4 => refit(trace, |trace| {
            trace.extend(dice.pick::<&[u8]>(&[
                &[0],
                &[1, 0],
                &[1, 4],
                &[9, 3, 0, 0, 0, 0, 0, 0, 0, 0],
                &[2, 3, 0],
            ]))
        }),
        5 => refit(trace, |trace| {
            let longer = dice.pick(&[32_767, 32_769]).max(trace.len());
            while trace.len() + 1 < longer {
                trace.extend([1, 3]);
            }
        }),
        6 => refit(trace, |trace| trace.extend([1, 3].repeat(dice.pick(&[1000, 16_381, 16_382])))),
        7 => refit(trace, |trace| trace.truncate(trace.len() - 1)),
        8 => trace.extend([0]),
        _ => {
            let place = dice.below(trace.len());
            trace[place] ^= 1 << dice.below(8);
        }
    }
}

/// The u32 is again that of the bytes that follow it, where there are five at least.
fn refit(trace: &mut Vec<u8>, change: impl FnOnce(&mut Vec<u8>)) {
    change(trace);
    if trace.len() >= 5 {
        let length = (trace.len() as u32 - 4).to_be_bytes();
        trace[..4].copy_from_slice(&length);
    }
}
