//! Floats, actions, upper ends and settings, with a liking for edges.

use super::Dice;
use crate::{
    plain::{Action, Point, Settings, USUAL_ENDS},
    script::Header,
};

pub const EDGE_FLOATS: &[u64] = &[
    0x0000_0000_0000_0000,
    0x8000_0000_0000_0000,
    0x0000_0000_0000_0001,
    0x8000_0000_0000_0001,
    0x0010_0000_0000_0000,
    0x3ff0_0000_0000_0000,
    0xbff0_0000_0000_0000,
    0x7fef_ffff_ffff_ffff,
    0xffef_ffff_ffff_ffff,
    0x7ff0_0000_0000_0000,
    0xfff0_0000_0000_0000,
    0x7ff8_0000_0000_0000,
    0xfff8_0000_0000_0000,
    0x7ff0_0000_0000_0001,
    0xffff_ffff_ffff_ffff,
];

pub fn edge_float(dice: &mut Dice) -> f64 {
    f64::from_bits(dice.pick(EDGE_FLOATS))
}

pub fn any_float(dice: &mut Dice) -> f64 {
    match dice.below(4) {
        0 => edge_float(dice),
        1 => f64::from_bits(dice.next()),
        2 => dice.unit() * 1000.0,
        _ => dice.within(0, 20) as f64 - 10.0,
    }
}

pub fn step(x: f64, dice: &mut Dice) -> f64 {
    match dice.below(5) {
        0 => x.next_up(),
        1 => x.next_down(),
        _ => x,
    }
}

pub fn action(multiplier: f64, increment: i32, delay: f64) -> Action {
    Action { multiplier, increment, delay }
}

pub fn valid_action(dice: &mut Dice) -> Action {
    let multiplier = match dice.below(8) {
        0 => dice.pick(&[0.0, -0.0, 1.0, 0.5, -1.0, 5e-324, -5e-324]),
        1 => dice.pick(&[
            1e9,
            -1e9,
            2_147_483_647.0,
            2_147_483_648.0,
            -2_147_483_649.0,
            1e300,
            f64::MAX,
            f64::MIN,
        ]),
        2 => dice.unit() * 4000.0 - 2000.0,
        _ => dice.unit() * 2.0,
    };
    let increment = match dice.below(8) {
        0 => dice.pick(&[1_000_000, -1_000_000, 999_999, -999_999, 0]),
        1 => dice.within(0, 2_000_000) as i32 - 1_000_000,
        _ => dice.within(0, 40) as i32 - 8,
    };
    let delay = match dice.below(8) {
        0 => dice.pick(&[0.0, -0.0, 5e-324, 1e300, -1.0, 600.0, f64::MAX, f64::MIN]),
        _ => dice.unit() * 0.01,
    };
    action(multiplier, increment, delay)
}

/// One whose candidates are mostly inside min..max.
pub fn near_action(settings: &Settings, dice: &mut Dice) -> Action {
    let between = |lo: f64, hi: f64, change: f64, dice: &mut Dice| match dice.below(6) {
        0 => lo,
        1 => hi,
        2 => lo + change,
        3 => hi - change,
        _ => lo / 2.0 + hi / 2.0 + (hi / 2.0 - lo / 2.0) * (dice.unit() * 2.0 - 1.0),
    };
    let (min, max, change) = (&settings.min, &settings.max, &settings.initial_change);
    let multiplier = between(min.multiplier, max.multiplier, change.multiplier, dice);
    let delay = between(min.delay, max.delay, change.delay, dice);
    let increment =
        between(f64::from(min.increment), f64::from(max.increment), f64::from(change.increment), dice);
    action(multiplier, (increment as i32).clamp(-1_000_000, 1_000_000), delay)
}

pub fn bad_action(dice: &mut Dice) -> Action {
    let mut bad = valid_action(dice);
    match dice.below(3) {
        0 => bad.multiplier = dice.pick(&[f64::NAN, -f64::NAN, f64::INFINITY, f64::NEG_INFINITY]),
        1 => bad.increment = dice.pick(&[1_000_001, -1_000_001, i32::MAX, i32::MIN]),
        _ => bad.delay = dice.pick(&[f64::NAN, -f64::NAN, f64::INFINITY, f64::NEG_INFINITY]),
    }
    bad
}

/// An upper end that holds: the least, the greatest and what stands next to them, dyadic ones, and ones whose
/// middles round.
pub fn end(dice: &mut Dice) -> f64 {
    match dice.below(8) {
        0 => 1.0,
        1 => 1_000_000.0,
        2 => {
            dice.pick(&[1.0f64.next_up(), 1_000_000.0f64.next_down(), 2.0f64.next_down(), 600.0f64.next_up()])
        }
        3 => dice.pick(&[1.5, 2.0, 3.25, 64.0, 1024.0, 524_288.0]),
        4 => dice.pick(&[3.3, 1.1, 1.0 + (0.1 + 0.2), (0.1 + 0.7) * 10.0, 599.9, 1000.0 / 3.0]),
        5 => 1.0 + dice.unit(),
        6 => dice.pick(&[600.0, 1000.0]),
        _ => 1.0 + dice.unit() * 999_999.0,
    }
}

pub fn bad_end(dice: &mut Dice) -> f64 {
    dice.pick(&[
        1.0f64.next_down(),
        1_000_000.0f64.next_up(),
        0.0,
        -0.0,
        0.1,
        -1.0,
        -600.0,
        5e-324,
        f64::MAX,
        f64::NAN,
        -f64::NAN,
        f64::INFINITY,
        f64::NEG_INFINITY,
    ])
}

pub fn ends(dice: &mut Dice) -> Point {
    std::array::from_fn(|_| end(dice))
}

/// Mostly with one end that is refused.
pub fn edge_ends(dice: &mut Dice) -> Point {
    let mut edge = ends(dice);
    if !dice.one_in(4) {
        edge[dice.below(3)] = bad_end(dice);
    }
    edge
}

/// Mostly the usual ones. The dice are of their own: what else is thrown stays.
fn some_ends(mut dice: Dice) -> Point {
    if dice.one_in(4) {
        ends(&mut dice)
    } else {
        USUAL_ENDS
    }
}

/// The greatest change that gives an axis about `values` values.
pub fn reach(initial: f64, multiplier: u32, values: usize, dice: &mut Dice) -> f64 {
    if values == 0 {
        return dice.pick(&[initial.next_down(), 0.0, -0.0, -1.0]);
    }
    let mut greatest = initial;
    for _ in 1..values {
        greatest *= f64::from(multiplier);
    }
    match dice.below(4) {
        0 => greatest * 1.5,
        _ => greatest,
    }
}

pub fn reach_whole(initial: i32, multiplier: u32, values: usize, dice: &mut Dice) -> i32 {
    if values == 0 {
        return dice.pick(&[initial - 1, 0, -1, -1_000_000]);
    }
    let mut greatest = i64::from(initial);
    for _ in 1..values {
        greatest *= i64::from(multiplier);
    }
    greatest.min(65_536) as i32
}

/// Settings that hold, with at most `values` values on each axis.
pub fn small_settings(dice: &mut Dice, values: usize) -> Settings {
    let ends = some_ends(dice.beside());
    let multiplier = dice.pick(&[2, 2, 3, 4, 7, 13, 16]);
    let (odd, odder) = (dice.unit() + 0.001, dice.unit() * 0.01 + 1e-6);
    let initial_change = action(
        dice.pick(&[0.1, 0.25, 0.01, 1.0, odd, odder]),
        dice.pick(&[1, 1, 2, 5]),
        dice.pick(&[0.00005, 0.001, 0.25, 1.0, odd, odder]),
    );
    let length = |dice: &mut Dice| match dice.below(12) {
        0 => 0,
        _ => dice.within(1, values),
    };
    let (m, i, d) = (length(dice), length(dice), length(dice));
    let max_change = action(
        reach(initial_change.multiplier, multiplier, m, dice),
        reach_whole(initial_change.increment, multiplier, i, dice),
        reach(initial_change.delay, multiplier, d, dice),
    );
    let default = match dice.below(5) {
        0 => valid_action(dice),
        _ => action(dice.pick(&[1.0, 0.5, 0.0]), dice.pick(&[0, 1, 7]), dice.pick(&[0.003, 1.0, 0.0])),
    };
    let mut min = action(-2.0, -16, -2.0);
    let mut max = action(2.0, 256, 3.0);
    match dice.below(8) {
        0 => min = action(default.multiplier, default.increment, default.delay),
        1 => max = action(default.multiplier, default.increment, default.delay),
        2 => std::mem::swap(&mut min, &mut max),
        3 => max.delay = -0.0,
        4 => min.delay = 0.0,
        _ => {}
    }
    Settings {
        rule_splits: dice.within(0, 3) as u32,
        rounds: dice.pick(&[0, 1, 1, 1, 2, 2]),
        multiplier,
        drill: dice.one_in(2),
        min,
        max,
        initial_change,
        max_change,
        default,
        ends,
    }
}

/// Settings that hold at the ends of what is allowed.
pub fn edge_settings(dice: &mut Dice) -> Settings {
    let mut s = small_settings(dice, 3);
    s.rule_splits = dice.pick(&[0, 1, 63, 64]);
    s.rounds = dice.pick(&[0, 1, 999, 1000]);
    s.multiplier = dice.pick(&[2, 3, 16]);
    let eighth = |initial: f64| initial * f64::from(s.multiplier).powi(7);
    let m = dice.pick(&[0.1, 1.0, 5e-324, 1e-300, 1e300, f64::MAX, 3.0]);
    let d = dice.pick(&[0.1, 1.0, 5e-324, 1e-300, 1e300, f64::MAX, 0.3]);
    let i = dice.pick(&[1, 2, 512, 65_536]);
    let cap = |x: f64| if x.is_finite() { x } else { f64::MAX };
    let far = |initial: f64, dice: &mut Dice| match dice.below(3) {
        0 => initial,
        1 => cap(eighth(initial)),
        _ => cap(initial * f64::from(s.multiplier)),
    };
    s.max_change = action(far(m, dice), dice.pick(&[0, 1, 128, 65_536, -1_000_000]), far(d, dice));
    s.initial_change = action(m, i, d);
    let wide = dice.pick(&[1.0, 1e9, f64::MAX]);
    s.min = action(-wide, dice.pick(&[-1_000_000, 0]), -wide);
    s.max = action(wide, dice.pick(&[1_000_000, 0]), wide);
    s.default = match dice.below(3) {
        0 => valid_action(dice),
        1 => action(wide, 1_000_000, -wide),
        _ => action(0.0, 0, 0.0),
    };
    if s.check().is_err() {
        s.max_change = s.initial_change;
    }
    s
}

/// One setting at or just past a limit.
pub fn vary_settings(s: &mut Settings, dice: &mut Dice) {
    match dice.below(14) {
        0 => s.rule_splits = dice.pick(&[64, 65, u32::MAX]),
        1 => s.rounds = dice.pick(&[1000, 1001, u32::MAX]),
        2 => s.multiplier = dice.pick(&[0, 1, 2, 16, 17, u32::MAX]),
        3 => s.min = bad_action(dice),
        4 => s.max = bad_action(dice),
        5 => s.default = bad_action(dice),
        6 => s.initial_change.multiplier = dice.pick(&[0.0, -0.0, -1.0, 5e-324, f64::NAN]),
        7 => s.initial_change.increment = dice.pick(&[0, -1, 1, 65_536, 65_537]),
        8 => s.initial_change.delay = dice.pick(&[0.0, -0.0, -1.0, 5e-324, f64::INFINITY]),
        9 => s.max_change.increment = dice.pick(&[128, 256, 65_536, 65_537, -1_000_000, -1_000_001]),
        10 => {
            s.max_change.multiplier =
                reach(s.initial_change.multiplier, s.multiplier, dice.within(7, 9), dice)
        }
        11 => s.max_change.delay = reach(s.initial_change.delay, s.multiplier, dice.within(7, 9), dice),
        12 => {
            let values = dice.within(7, 9);
            s.initial_change.increment = 1;
            s.max_change.increment = reach_whole(1, s.multiplier.clamp(2, 16), values, dice);
        }
        _ => s.ends = edge_ends(dice),
    }
    // With an axis that is empty anyway, a zero initial change is all that is wrong.
    if dice.one_in(3) && s.initial_change.multiplier == 0.0 {
        s.max_change.multiplier = -1.0;
    }
    if dice.one_in(3) && s.initial_change.delay == 0.0 {
        s.max_change.delay = -1.0;
    }
}

pub fn calm_header(settings: Settings, dice: &mut Dice) -> Header {
    let mode = dice.pick(&[0, 0, 0, 1, 2]);
    let lo = dice.within(0, 3) as u32;
    Header { drill: u8::from(settings.drill), settings, mode, lo, hi: lo + dice.within(0, 3) as u32 }
}
