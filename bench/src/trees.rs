//! Two trees of 64 splits and 449 leaves, each leaf with an action of its own.

use flowforge::{ccas::remy::rule_tree::RuleTree, trainers::remy::RemyTrainer};

use crate::{
    plain::{Action, Kind, Phase, Point, Settings, Trainer, Tree},
    raw,
    rust::{grow, of_settings, same_tree},
    size,
};

/// Gaps of 3 ms, and a queue that adds a quarter to the round trip.
pub const USUAL: Point = [0.003, 0.003, 1.25];

pub struct Grown {
    pub name: &'static str,
    /// A trainer that is done.
    pub trainer: Trainer,
    pub record: Vec<u8>,
    pub original: RuleTree,
    /// The splits above each node.
    pub depths: Vec<usize>,
    /// Sent and received moments.
    pub acks: Vec<(f64, f64)>,
}

/// What drilling makes: the leaf that holds one point is split, 64 times.
pub fn chain() -> Grown {
    let splits = |tree: &mut Tree| {
        let leaf = tree.reached(&USUAL).unwrap();
        tree.split(leaf).unwrap();
    };
    grown("chain of 64 splits", splits, steady())
}

/// The root, its 8 children and 55 grandchildren: breadth first, so that split n is of node n.
pub fn bushy() -> Grown {
    grown("bushy tree of 64 splits", |tree| tree.split(tree.splits.len()).unwrap(), wide())
}

fn grown(name: &'static str, split: impl Fn(&mut Tree), acks: Vec<(f64, f64)>) -> Grown {
    let settings = Settings { rule_splits: 64, ..of_settings(&RemyTrainer::default()) };
    let mut tree = Tree::new(settings.ends, settings.default);
    for _ in 0..64 {
        split(&mut tree);
    }
    for node in 0..tree.nodes.len() {
        let part = node as f64 / 1024.0;
        let action = Action {
            multiplier: 0.5 + 0.5 * part,
            increment: node as i32 % 32,
            delay: 0.001 * (0.25 + part),
        };
        tree.set_action(node, action);
    }
    let mut depths = vec![0; tree.nodes.len()];
    for (node, parent) in tree.nodes.iter().enumerate() {
        if let Kind::Parent { child, .. } = parent.kind {
            let depth = depths[node] + 1;
            depths[child..child + 8].fill(depth);
        }
    }
    let stage = settings.rule_splits + 1;
    let trainer = Trainer { settings, tree, stage, round: 0, phase: Phase::Done };
    let record = trainer.record();
    let original = grow(&trainer.settings, &trainer.tree);
    same_tree("the grown tree", &original, &trainer.tree);
    assert_eq!(record.len(), 11_076);
    size(raw::question(&record, &mut [0; 31]));
    Grown { name, trainer, record, original, depths, acks }
}

impl Grown {
    /// Each in a leaf that is drawn evenly from all, at an even draw from its box.
    pub fn points(&self, count: usize) -> Vec<Point> {
        let leaves: Vec<usize> = self.trainer.tree.leaves().map(|leaf| leaf.0).collect();
        let mut draws = Draws(1);
        (0..count)
            .map(|_| {
                let cube = self.trainer.tree.nodes[leaves[draws.below(leaves.len())]].cube;
                std::array::from_fn(|axis| cube.min[axis] + draws.part() * (cube.max[axis] - cube.min[axis]))
            })
            .collect()
    }

    /// The mean of the levels that lookups went down, by the delays of the actions that they found, and the
    /// number of leaves that they reached.
    pub fn levels(&self, delays: &[f64]) -> (f64, usize) {
        let mut reached = vec![false; self.depths.len()];
        let mut total = 0;
        for delay in delays {
            let node = ((delay / 0.001 - 0.25) * 1024.0).round() as usize;
            assert_eq!(self.trainer.tree.leaf(node).unwrap().0.delay, *delay);
            total += self.depths[node];
            reached[node] = true;
        }
        (total as f64 / delays.len() as f64, reached.iter().filter(|x| **x).count())
    }
}

const ACKS: usize = 20_000;

/// Acks every 3 ms at the usual ratio, with a jitter that is drawn anew every 200 acks, from all of the gap
/// down to a millionth of a millionth of it.
fn steady() -> Vec<(f64, f64)> {
    let mut draws = Draws(2);
    let (mut received, mut last, mut jitter) = (1.0, 0.0, 0.0);
    (0..ACKS)
        .map(|i| {
            if i % 200 == 0 {
                jitter = 10f64.powf(-12.0 * draws.part());
            }
            received += USUAL[0] * (1.0 + jitter * (2.0 * draws.part() - 1.0));
            let ratio = if i == 0 { 1.0 } else { USUAL[2] * (1.0 + 0.05 * jitter * draws.part()) };
            last = f64::max(last, received - 0.05 * ratio);
            (last, received)
        })
        .collect()
}

/// Gaps up to 600 s, drawn anew every 16 acks, and ratios up to 900, so that the averages go about the root box.
fn wide() -> Vec<(f64, f64)> {
    let (shortest, longest) = (50.0, 45_000.0);
    let mut draws = Draws(3);
    let (mut sent, mut received) = (0.0, shortest);
    let mut gaps = (0.0, 0.0);
    (0..ACKS)
        .map(|i| {
            if i % 16 == 0 {
                gaps = (600.0 * draws.part(), 600.0 * draws.part());
                let after = received - sent + 16.0 * (gaps.1 - gaps.0);
                if !(shortest..longest).contains(&after) {
                    gaps = (gaps.1, gaps.0);
                }
            }
            sent += gaps.0;
            received += gaps.1;
            (sent, received)
        })
        .collect()
}

/// Numbers that look random and are the same at every run (splitmix64).
struct Draws(u64);

impl Draws {
    fn next(&mut self) -> u64 {
        self.0 = self.0.wrapping_add(0x9e37_79b9_7f4a_7c15);
        let x = (self.0 ^ (self.0 >> 30)).wrapping_mul(0xbf58_476d_1ce4_e5b9);
        let x = (x ^ (x >> 27)).wrapping_mul(0x94d0_49bb_1331_11eb);
        x ^ (x >> 31)
    }

    /// From 0 up to 1, which is left out.
    fn part(&mut self) -> f64 {
        (self.next() >> 11) as f64 / (1u64 << 53) as f64
    }

    fn below(&mut self, n: usize) -> usize {
        (self.next() % n as u64) as usize
    }
}
