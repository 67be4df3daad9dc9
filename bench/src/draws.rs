//! The generator, a step a call, beside xoshiro256++ written plainly here.

use std::hint::black_box;

use crate::{
    clock::alternate,
    raw, size,
    table::{thousands, Table},
};

const STEPS: usize = 100_000;
const START: [u64; 4] = [1, 2, 3, 4];

fn step(s: &mut [u64; 4]) -> u64 {
    let output = s[0].wrapping_add(s[3]).rotate_left(23).wrapping_add(s[0]);
    let shifted = s[1] << 17;
    s[2] ^= s[0];
    s[3] ^= s[1];
    s[1] ^= s[2];
    s[0] ^= s[3];
    s[2] ^= shifted;
    s[3] = s[3].rotate_left(45);
    output
}

fn ours(outputs: &mut [u8]) {
    let mut generator: Vec<u8> = START.iter().flat_map(|word| word.to_be_bytes()).collect();
    for output in outputs.chunks_mut(8) {
        size(raw::step(&mut generator, output));
    }
}

fn plainly(outputs: &mut [u64]) {
    let mut state = black_box(START);
    for output in outputs.iter_mut() {
        *output = step(&mut state);
    }
    black_box(outputs);
}

pub fn steps(table: &mut Table) {
    let mut bytes = vec![0; 8 * STEPS];
    let mut numbers = vec![0; STEPS];
    ours(&mut bytes);
    plainly(&mut numbers);
    let written: Vec<u8> = numbers.iter().flat_map(|n| n.to_be_bytes()).collect();
    assert_eq!(bytes, written, "the same outputs");
    let times = alternate(table.repeats, STEPS, || ours(&mut bytes), || plainly(&mut numbers));
    table.timed(
        &format!("xoshiro256++, {} steps, a step a call", thousands(STEPS)),
        "a step",
        &times,
        "our call reads and writes the four words as 32 bytes; the other keeps them in registers",
    );
}
