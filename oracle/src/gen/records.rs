//! Records that the rules accept, that they nearly accept, and trees that are nearly equal.

use super::{
    author::Author,
    values::{bad_end, edge_float, end, small_settings, valid_action},
};
use crate::{
    plain::{bits, Kind, Phase, Point, Settings, Trainer, Tree, NAN},
    script::Call,
};

/// Bytes of a record from its phase on.
const TAIL: usize = 31;

/// Where the upper ends stand, and in the versions without them the number of splits.
const ENDS: usize = 118;

/// The place of the number of splits.
fn splits_place(record: &[u8]) -> usize {
    if record[4] == 3 {
        ENDS + 24
    } else {
        ENDS
    }
}

/// A trainer of any settings, before its first answer or after its last.
pub fn unchecked(settings: Settings) -> Trainer {
    Trainer {
        tree: Tree::new(settings.ends, settings.default),
        stage: settings.rule_splits.wrapping_add(1),
        round: 0,
        phase: Phase::Last,
        settings,
    }
}

impl Author {
    pub fn split_somewhere(&mut self, tree: &mut Tree, style: usize) {
        let leaves: Vec<usize> = tree.leaves().map(|l| l.0).collect();
        let newest = tree.nodes.len() - 1;
        let node = match style {
            0 => newest,
            1 => newest.saturating_sub(7),
            2 => leaves[0],
            3 => newest.saturating_sub(self.dice.below(8)),
            _ => self.dice.pick(&leaves),
        };
        tree.split(node).expect("a leaf, and room");
    }

    /// A trainer that the record's rules accept, with this many splits.
    pub fn crafted(&mut self, splits: usize) -> Trainer {
        let mut settings = self.trainer.settings.clone();
        if self.dice.one_in(3) {
            settings = small_settings(&mut self.dice, 2);
        }
        settings.rule_splits = settings.rule_splits.max(self.dice.below(4) as u32);
        let mut tree = Tree::new(settings.ends, settings.default);
        let style = self.dice.below(6);
        for _ in 0..splits {
            self.split_somewhere(&mut tree, style);
        }
        let marks = self.dice.below(3);
        for node in 0..tree.nodes.len() {
            if tree.leaf(node).is_ok() {
                if !self.dice.one_in(3) {
                    let new = valid_action(&mut self.dice);
                    tree.set_action(node, new);
                }
                if marks > 0 && self.dice.one_in(marks) {
                    tree.mark(node);
                }
            }
        }
        for node in tree.splits.clone() {
            let (action, mark) = tree.held(node);
            let dice = &mut self.versions;
            let action = if dice.one_in(2) { valid_action(dice) } else { action };
            tree.hold(node, (action, mark || dice.one_in(2)));
        }
        let mut trainer = Trainer {
            stage: settings.rule_splits + 1,
            round: 0,
            phase: if self.dice.one_in(2) { Phase::Last } else { Phase::Done },
            settings,
            tree,
        };
        self.place(&mut trainer);
        assert!(Trainer::load(&trainer.record()).is_ok(), "a crafted trainer is accepted");
        trainer
    }

    /// Moves a crafted trainer out of phases 6 and 7 where its settings have room for another.
    pub fn place(&mut self, trainer: &mut Trainer) {
        let splits = trainer.settings.rule_splits;
        let rounds = trainer.settings.rounds;
        match self.dice.below(6) {
            0 | 1 if splits > 0 => {
                trainer.phase = if self.dice.one_in(2) { Phase::Split } else { Phase::Drill };
                trainer.stage = self.dice.within(1, splits as usize) as u32;
            }
            2..=4 if rounds > 0 => {
                trainer.stage = self.dice.within(0, splits as usize) as u32;
                trainer.round = self.dice.below(rounds as usize) as u32;
                trainer.phase = self.searching(trainer).unwrap_or(Phase::Choose);
            }
            _ => {}
        }
    }

    pub fn searching(&mut self, trainer: &Trainer) -> Option<Phase> {
        let unmarked: Vec<usize> = trainer.tree.leaves().filter(|l| !l.2).map(|l| l.0).collect();
        if unmarked.is_empty() || self.dice.one_in(4) {
            return None;
        }
        let leaf = self.dice.pick(&unmarked);
        let list = trainer.settings.candidates(&trainer.tree.leaf(leaf).unwrap().0);
        if list.is_empty() || self.dice.one_in(3) {
            return Some(Phase::Own { leaf });
        }
        let k = match self.dice.below(4) {
            0 => 0,
            1 => list.len() - 1,
            _ => self.dice.below(list.len()),
        };
        let best = match self.dice.below(4) {
            0 => f64::from_bits(bits(edge_float(&mut self.dice))),
            _ => self.dice.within(0, 5) as f64 - 2.0,
        };
        let score = self.dice.pick(&[0.0, -0.0, 3.0, f64::INFINITY, best.next_up()]);
        let kept = (k > 0 && score > best).then(|| (self.dice.below(k), score));
        Some(Phase::Candidates { leaf, best, k, kept, list })
    }

    /// The trainer's record, in any version.
    pub fn written(&mut self, trainer: &Trainer) -> Vec<u8> {
        trainer.record_in(self.versions.pick(&[1, 2, 3, 3]))
    }

    pub fn load_crafted(&mut self, splits: usize) {
        let trainer = self.crafted(splits);
        let record = self.written(&trainer);
        self.call(Call::Load(record));
    }

    /// A trainer whose tree is the present one with its newest split taken back.
    pub fn load_undone(&mut self) {
        if let Ok(tree) = self.trainer.tree.undo_split() {
            let settings = self.trainer.settings.clone();
            let mut trainer =
                Trainer { stage: settings.rule_splits + 1, round: 0, phase: Phase::Last, settings, tree };
            self.place(&mut trainer);
            let record = self.written(&trainer);
            self.call(Call::Load(record));
        }
    }

    pub fn some_splits(&mut self) -> usize {
        match self.dice.below(40) {
            0 => 64,
            1 => self.dice.within(50, 64),
            2..=6 => self.dice.within(4, 16),
            _ => self.dice.below(4),
        }
    }

    /// Mostly in the head or the tail, where single bytes decide.
    pub fn damaged_place(&mut self, record: &[u8]) -> usize {
        let length = record.len();
        match self.dice.below(4) {
            0 => self.dice.below(18),
            1 => length - 1 - self.dice.below(TAIL + 1),
            2 => ENDS + self.dice.below(length - ENDS),
            _ => self.dice.below(length),
        }
    }

    /// A record of another length, or with one field at an edge.
    pub fn bent(&mut self, record: &[u8]) -> Vec<u8> {
        let mut bent = record.to_vec();
        let set_length = |bytes: &mut Vec<u8>| {
            let length = (bytes.len() as u32).saturating_sub(4);
            bytes[..4].copy_from_slice(&length.to_be_bytes());
        };
        match self.dice.below(12) {
            0 => bent.push(0),
            1 => drop(bent.pop()),
            2 => {
                bent.push(0);
                set_length(&mut bent);
            }
            3 => {
                bent.pop();
                set_length(&mut bent);
            }
            4 => bent.truncate(self.dice.below(6)),
            5 => {
                bent.truncate(4 + self.dice.below(3));
                set_length(&mut bent);
            }
            6 => {
                bent.resize(4 + self.dice.pick(&[16_384, 16_385, 16_383]), 0);
                set_length(&mut bent);
            }
            7 => {
                let length = bent.len();
                bent.truncate(self.dice.within(5, length));
                set_length(&mut bent);
            }
            8 => {
                let splits = self.dice.pick(&[0u16, 1, 64, 65, 65_535]);
                let at = splits_place(&bent);
                bent[at..at + 2].copy_from_slice(&splits.to_be_bytes());
            }
            9 => {
                let tail = bent.len() - TAIL;
                bent[tail] = self.dice.within(0, 8) as u8;
            }
            10 => {
                let tail = bent.len();
                let field = self.dice.pick(&[20, 8]);
                let value = edge_float(&mut self.dice).to_bits().to_be_bytes();
                bent[tail - field..tail - field + 8].copy_from_slice(&value);
            }
            _ => {
                let tail = bent.len();
                let field = self.dice.pick(&[30, 26]);
                let value = self.dice.pick(&[0u32, 1, 2, 3, 64, 65, 1000]);
                bent[tail - field..tail - field + 4].copy_from_slice(&value.to_be_bytes());
            }
        }
        bent
    }

    /// The trainer's record with an upper end that may not hold, two of them changed about, or another version byte.
    pub fn other_ends(&mut self, trainer: &Trainer) -> Vec<u8> {
        let mut record = self.written(trainer);
        let dice = &mut self.dice;
        let at = ENDS + 8 * dice.below(3);
        match dice.below(6) {
            0 => record[4] = dice.pick(&[0, 1, 2, 3, 4]),
            1 => record[at + dice.below(8)] ^= 1 << dice.below(8),
            2 => record[ENDS..ENDS + 16].rotate_left(8),
            3 => record[at..at + 8].copy_from_slice(&end(dice).to_bits().to_be_bytes()),
            _ => record[at..at + 8].copy_from_slice(&bad_end(dice).to_bits().to_be_bytes()),
        }
        record
    }

    /// The trainer with its tree grown again from a root with these upper ends.
    pub fn regrown(trainer: &Trainer, ends: Point) -> Trainer {
        let mut settings = trainer.settings.clone();
        settings.ends = ends;
        let mut tree = Tree::new(ends, settings.default);
        for node in &trainer.tree.splits {
            tree.split(*node).expect("a leaf, and room");
        }
        for node in 0..tree.nodes.len() {
            tree.hold(node, trainer.tree.held(node));
        }
        Trainer { settings, tree, ..trainer.clone() }
    }

    /// The trainer's record with the fields from the phase on at their edges.
    pub fn edged(&mut self, trainer: &Trainer) -> Vec<u8> {
        let settings = &trainer.settings;
        let dice = &mut self.dice;
        let unmarked = trainer.tree.leaves().filter(|l| !l.2).map(|l| l.0);
        let mut leaf = unmarked.last().unwrap_or(0);
        let mut phase = dice.pick(&[1, 2, 3, 4, 5, 5, 5, 5, 5, 6, 7]);
        let splits = settings.rule_splits;
        let (mut stage, mut round) = match phase {
            1 | 2 => (splits.min(1), 0),
            6 | 7 => (splits + 1, 0),
            _ => (splits, settings.rounds - 1),
        };
        let list = trainer.tree.leaf(leaf).map_or(0, |l| settings.candidates(&l.0).len()) as u16;
        let (mut best, mut k, mut kept, mut score) = (0.0, 0, u16::MAX, 0.0);
        if phase == 5 {
            k = dice.pick(&[0, 1, 2, list.saturating_sub(1), list, list.saturating_add(1)]);
            kept = dice.pick(&[u16::MAX, u16::MAX, 0, k.wrapping_sub(1), k, k.saturating_add(1)]);
            best =
                dice.pick(&[0.0, -0.0, 1.0, 1.0, 1.0, f64::INFINITY, f64::NEG_INFINITY, f64::from_bits(NAN)]);
            if dice.one_in(5) {
                best = edge_float(dice);
            }
            if kept != u16::MAX {
                score = dice.pick(&[best, best.next_up(), 2.0, 2.0, -0.0, f64::INFINITY]);
            }
        } else if phase != 4 {
            leaf = 0;
        }
        match dice.below(12) {
            0 => stage = dice.pick(&[0, stage.wrapping_sub(1), stage + 1]),
            1 => round = dice.pick(&[0, 1, round.wrapping_sub(1), round + 1]),
            2 => leaf = dice.pick(&[0, 1, leaf + 1, trainer.tree.nodes.len() - 1, trainer.tree.nodes.len()]),
            3 | 8 => best = dice.pick(&[-0.0, f64::from_bits(NAN), f64::from_bits(NAN + 1), -f64::NAN]),
            4 => score = dice.pick(&[-0.0, 0.0, 1.0, f64::NAN]),
            5 => kept = dice.pick(&[0, u16::MAX - 1, u16::MAX]),
            6 => k = dice.pick(&[0, 1]),
            7 => phase = dice.pick(&[0, 3, 4, 8]),
            _ => {}
        }
        let mut record = self.written(trainer);
        record.truncate(record.len() - TAIL);
        record.push(phase);
        record.extend(stage.to_be_bytes());
        record.extend(round.to_be_bytes());
        record.extend((leaf as u16).to_be_bytes());
        record.extend(best.to_bits().to_be_bytes());
        record.extend(k.to_be_bytes());
        record.extend(kept.to_be_bytes());
        record.extend(score.to_bits().to_be_bytes());
        record
    }

    /// The same tree grown in another order, so with other node numbers.
    pub fn another_order(&mut self, trainer: &Trainer) -> Trainer {
        let mut tree = Tree::new(trainer.settings.ends, trainer.settings.default);
        // Pairs of a node there and its twin here.
        let mut open = vec![(0, 0)];
        while !open.is_empty() {
            let at = self.dice.below(open.len());
            let (there, here) = open.swap_remove(at);
            match trainer.tree.nodes[there].kind {
                Kind::Leaf { action, mark } => {
                    tree.set_action(here, action);
                    if mark {
                        tree.mark(here);
                    }
                }
                Kind::Parent { child, .. } => {
                    let new = tree.nodes.len();
                    tree.split(here).expect("a leaf, and room");
                    open.extend((0..8).map(|c| (child + c, new + c)));
                }
            }
        }
        Trainer {
            tree,
            stage: trainer.settings.rule_splits + 1,
            round: 0,
            phase: Phase::Last,
            settings: trainer.settings.clone(),
        }
    }

    pub fn vary(&mut self, trainer: &mut Trainer) {
        let leaves: Vec<usize> = trainer.tree.leaves().map(|l| l.0).collect();
        let leaf = self.dice.pick(&leaves);
        let mut action = trainer.tree.leaf(leaf).unwrap().0;
        match self.dice.below(9) {
            0 => trainer.tree.mark(leaf),
            1 => trainer.tree.clear_marks(),
            2 => action.increment = (action.increment + 1).min(1_000_000),
            3 => action.delay = action.delay.next_up(),
            4 => action.multiplier = -action.multiplier,
            5 => {
                for leaf in leaves {
                    let mut zeroed = trainer.tree.leaf(leaf).unwrap().0;
                    if zeroed.delay == 0.0 {
                        zeroed.delay = -zeroed.delay;
                    }
                    trainer.tree.set_action(leaf, zeroed);
                }
                return;
            }
            6 if trainer.tree.splits.len() < 64 => {
                trainer.tree.split(leaf).expect("a leaf, and room");
                return;
            }
            _ => {}
        }
        if action.valid() {
            trainer.tree.set_action(leaf, action);
        }
    }
}
