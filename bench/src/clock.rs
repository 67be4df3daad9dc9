//! Repeats that alternate between the two sides.

use std::{fs, hint::black_box, time::Instant};

/// Nanoseconds an item, one entry a repeat.
pub struct Times {
    pub ours: Vec<f64>,
    pub theirs: Vec<f64>,
}

/// Lowest, median and highest.
pub struct Spread {
    pub low: f64,
    pub median: f64,
    pub high: f64,
}

fn nanoseconds<T>(items: usize, run: &mut impl FnMut() -> T) -> f64 {
    let start = Instant::now();
    black_box(run());
    start.elapsed().as_nanos() as f64 / items as f64
}

/// Each side twice untimed, then in turn; which one is first alternates too.
pub fn alternate<T, U>(
    repeats: usize,
    items: usize,
    mut ours: impl FnMut() -> T,
    mut theirs: impl FnMut() -> U,
) -> Times {
    let mut times = Times { ours: Vec::new(), theirs: Vec::new() };
    for _ in 0..2 {
        black_box(ours());
        black_box(theirs());
    }
    for i in 0..repeats {
        if i % 2 == 0 {
            times.ours.push(nanoseconds(items, &mut ours));
            times.theirs.push(nanoseconds(items, &mut theirs));
        } else {
            times.theirs.push(nanoseconds(items, &mut theirs));
            times.ours.push(nanoseconds(items, &mut ours));
        }
    }
    times
}

impl Times {
    /// Of the ratios ours / theirs, one a repeat.
    pub fn ratios(&self) -> Spread {
        spread(self.ours.iter().zip(&self.theirs).map(|(o, t)| o / t).collect())
    }
}

pub fn spread(mut values: Vec<f64>) -> Spread {
    values.sort_by(f64::total_cmp);
    let last = values.len() - 1;
    Spread { low: values[0], median: (values[last / 2] + values[last.div_ceil(2)]) / 2.0, high: values[last] }
}

/// The processor, and how busy it was before the first row.
pub fn machine() -> String {
    let read = |file| fs::read_to_string(file).unwrap_or_default();
    let info = read("/proc/cpuinfo");
    let model = info.lines().find_map(|line| line.strip_prefix("model name")?.split_once(": ")).map(|x| x.1);
    let cores = std::thread::available_parallelism().map_or(1, usize::from);
    let load = read("/proc/loadavg");
    let load = load.split(' ').next().filter(|x| !x.is_empty()).unwrap_or("unknown");
    format!("{}, {cores} cores, load {load} at the start", model.unwrap_or("an unknown processor"))
}
