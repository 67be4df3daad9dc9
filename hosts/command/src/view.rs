//! What a record says, read from its bytes: settings, the tree's boxes and actions, and how far training is.

use knellstone::{Action, Settings, Trainer};

pub const NONE_KEPT: u16 = 65535;

#[derive(Clone, Debug, PartialEq)]
pub struct Node {
    pub low: [f64; 3],
    pub high: [f64; 3],
    pub depth: u32,
    pub parent: Option<u16>,
    /// The first of its eight children, or 0 for a leaf.
    pub children: u16,
    pub action: Action,
    pub marked: bool,
}

impl Node {
    pub fn is_leaf(&self) -> bool {
        self.children == 0
    }
}

#[derive(Clone, Debug, PartialEq)]
pub struct View {
    pub settings: Settings,
    pub splits: Vec<u16>,
    pub nodes: Vec<Node>,
    pub phase: u8,
    pub stage: u32,
    pub round: u32,
    pub leaf: u16,
    pub best: f64,
    pub k: u16,
    pub kept: u16,
    pub kept_score: f64,
}

/// Bytes that are read from the front on.
struct Bytes<'a>(&'a [u8]);

impl Bytes<'_> {
    fn take<const N: usize>(&mut self) -> [u8; N] {
        let (first, rest) = self.0.split_first_chunk().expect("a trainer's record has its length");
        self.0 = rest;
        *first
    }

    fn byte(&mut self) -> u8 {
        self.take::<1>()[0]
    }

    fn short(&mut self) -> u16 {
        u16::from_be_bytes(self.take())
    }

    fn whole(&mut self) -> u32 {
        u32::from_be_bytes(self.take())
    }

    fn float(&mut self) -> f64 {
        f64::from_bits(u64::from_be_bytes(self.take()))
    }

    fn action(&mut self) -> Action {
        Action::from_bytes(&self.take())
    }
}

impl View {
    /// A trainer's record is of version 3.
    pub fn of(trainer: &Trainer) -> View {
        let mut b = Bytes(&trainer.record()[5..]);
        let (rule_splits, optimization_rounds_per_split, action_change_multiplier) = (b.whole(), b.whole(), b.whole());
        let drill_down = b.byte() == 1;
        let [min_action, max_action, initial_action_change, max_action_change, default_action] =
            [(); 5].map(|()| b.action());
        let ends = [(); 3].map(|()| b.float());
        let splits: Vec<u16> = (0..b.short()).map(|_| b.short()).collect();
        let mut nodes = grown(&splits, ends, default_action);
        for node in &mut nodes {
            node.action = b.action();
            node.marked = b.byte() == 1;
        }
        View {
            settings: Settings {
                rule_splits,
                optimization_rounds_per_split,
                action_change_multiplier,
                drill_down,
                min_action,
                max_action,
                initial_action_change,
                max_action_change,
                default_action,
                ends,
            },
            splits,
            nodes,
            phase: b.byte(),
            stage: b.whole(),
            round: b.whole(),
            leaf: b.short(),
            best: b.float(),
            k: b.short(),
            kept: b.short(),
            kept_score: b.float(),
        }
    }

    pub fn leaves(&self) -> impl Iterator<Item = (u16, &Node)> {
        (0..).zip(&self.nodes).filter(|(_, node)| node.is_leaf())
    }

    /// How far training is, from 0 to 1: finer than the trainer's own progress, by rounds and by the leaves tuned in them.
    pub fn progress(&self) -> f64 {
        let leaves = self.nodes.len() - self.splits.len();
        let marked = self.leaves().filter(|(_, node)| node.marked).count();
        let rounds = self.settings.optimization_rounds_per_split;
        let within =
            if rounds == 0 { 0.0 } else { (f64::from(self.round) + marked as f64 / leaves as f64) / f64::from(rounds) };
        ((f64::from(self.stage) + within) / f64::from(self.settings.rule_splits + 1)).min(1.0)
    }

    pub fn phase_words(&self) -> &'static str {
        match self.phase {
            1 => "counts for a split",
            2 => "counts after a split of the one used leaf",
            3 => "counts that choose the next leaf to tune",
            4 => "the score of a leaf's own action",
            5 => "the scores of its candidates",
            6 => "counts at the end",
            _ => "done",
        }
    }
}

/// The boxes that the splits grow: child c is upper in ack with 4, in send with 2, in ratio with 1.
fn grown(splits: &[u16], ends: [f64; 3], action: Action) -> Vec<Node> {
    let mut nodes =
        vec![Node { low: [0.0; 3], high: ends, depth: 0, parent: None, children: 0, action, marked: false }];
    for &split in splits {
        let children = nodes.len() as u16;
        let parent = nodes[usize::from(split)].clone();
        nodes[usize::from(split)].children = children;
        for c in 0..8 {
            let mut child = Node { depth: parent.depth + 1, parent: Some(split), children: 0, ..parent.clone() };
            for axis in 0..3 {
                let middle = (parent.high[axis] + parent.low[axis]) / 2.0;
                let upper = c & (4 >> axis) != 0;
                *(if upper { &mut child.low[axis] } else { &mut child.high[axis] }) = middle;
            }
            nodes.push(child);
        }
    }
    nodes
}

#[cfg(test)]
pub mod tests {
    use super::*;
    use knellstone::Ranges;

    /// A tree of some splits, each of the leaf where all counts are.
    pub fn split_at(leaves: &[u16]) -> Trainer {
        let settings =
            Settings { rule_splits: 64, optimization_rounds_per_split: 0, drill_down: false, ..Settings::default() };
        let mut trainer = Trainer::start(&settings).unwrap();
        for &leaf in leaves {
            let mut counts = vec![0; trainer.nodes()];
            counts[usize::from(leaf)] = 1;
            trainer.answer_counts(&counts).unwrap();
        }
        trainer
    }

    /// The library finds each leaf at its box's lower corner and middle, and another or none at its upper ends; the whole box
    /// reaches that leaf, and with one end past it a neighbour.
    #[test]
    fn boxes_are_the_librarys() {
        let trainer = split_at(&[0, 5, 8, 1, 9, 40, 3]);
        let view = View::of(&trainer);
        assert_eq!(view.splits, [0, 5, 8, 1, 9, 40, 3]);
        assert_eq!(view.nodes.len(), 57);
        let within = |low: [f64; 3], high: [f64; 3]| {
            let axis = |i: usize| [low[i], high[i]];
            trainer.leaves_within(Ranges { ack_ewma: axis(0), send_ewma: axis(1), rtt_ratio: axis(2) }).unwrap()
        };
        for (leaf, node) in view.leaves() {
            let middle = std::array::from_fn(|axis| (node.low[axis] + node.high[axis]) / 2.0);
            assert_eq!(within(node.low, node.low), [leaf]);
            assert_eq!(within(node.low, middle), [leaf]);
            assert!(!within(node.high, node.high).contains(&leaf));
            assert_eq!(within(node.low, node.high.map(f64::next_down)), [leaf]);
            assert_eq!(within(node.low, node.high).len() > 1, node.high != view.nodes[0].high, "{leaf}");
        }
    }

    #[test]
    fn reads_what_was_set() {
        let mut trainer = Trainer::start(&Settings { ends: [1.0, 2.0, 3.5], ..Settings::default() }).unwrap();
        trainer.answer_counts(&[5]).unwrap();
        trainer.answer_scores(&[-3.0, -4.0, -1.5]).unwrap();
        let view = View::of(&trainer);
        assert_eq!(view.settings, Settings { ends: [1.0, 2.0, 3.5], ..Settings::default() });
        assert_eq!((view.phase, view.stage, view.round, view.leaf, view.k, view.kept), (5, 0, 0, 0, 2, 1));
        assert_eq!((view.best, view.kept_score), (-3.0, -1.5));
        assert_eq!(view.nodes[0].high, [1.0, 2.0, 3.5]);
    }
}
