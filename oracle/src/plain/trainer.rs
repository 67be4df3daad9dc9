use super::{bits, Action, Refused, Settings, Tree, NAN};

/// What each phase holds beside settings, tree, stage and round.
#[derive(Clone, Debug)]
pub enum Phase {
    Split,
    Drill,
    Choose,
    Own {
        leaf: usize,
    },
    Candidates {
        leaf: usize,
        best: f64,
        k: usize,
        kept: Option<(usize, f64)>,
        /// The candidates of the leaf's action; made from it, not part of the state.
        list: Vec<Action>,
    },
    Last,
    Done,
}

#[derive(Clone, Debug)]
pub struct Trainer {
    pub settings: Settings,
    pub tree: Tree,
    pub stage: u32,
    pub round: u32,
    pub phase: Phase,
}

#[derive(Clone, Debug)]
pub enum Answer {
    Counts(Vec<u64>),
    Score(f64),
}

/// What an answer did to the tree.
#[derive(Clone, Copy, Debug)]
pub enum Change {
    Split(usize),
    Chose(usize),
    ClearMarks,
    Adopt(usize, Action),
    Mark(usize),
}

impl Phase {
    pub fn number(&self) -> u8 {
        match self {
            Phase::Split => 1,
            Phase::Drill => 2,
            Phase::Choose => 3,
            Phase::Own { .. } => 4,
            Phase::Candidates { .. } => 5,
            Phase::Last => 6,
            Phase::Done => 7,
        }
    }
}

impl Trainer {
    pub fn start(settings: Settings) -> Result<Trainer, Refused> {
        settings.check()?;
        let tree = Tree::new(settings.ends, settings.default);
        let mut trainer = Trainer { settings, tree, stage: 0, round: 0, phase: Phase::Done };
        trainer.begin_stage(0);
        Ok(trainer)
    }

    fn begin_stage(&mut self, stage: u32) {
        self.stage = stage;
        self.round = 0;
        if stage > self.settings.rule_splits {
            self.phase = Phase::Last;
        } else if stage == 0 {
            self.begin_round();
        } else {
            self.phase = Phase::Split;
        }
    }

    fn begin_round(&mut self) {
        if self.round < self.settings.rounds {
            self.phase = Phase::Choose;
        } else {
            self.begin_stage(self.stage + 1);
        }
    }

    pub fn progress(&self) -> f64 {
        f64::from(self.stage) / f64::from(self.settings.rule_splits + 1)
    }

    /// Leaf and action of the question, in phases 4 and 5.
    pub fn scored(&self) -> Option<(usize, Action)> {
        match &self.phase {
            Phase::Own { leaf } => Some((*leaf, self.tree.leaf(*leaf).unwrap().0)),
            Phase::Candidates { leaf, k, list, .. } => Some((*leaf, list[*k])),
            _ => None,
        }
    }

    /// New settings: 2, then 27. Tree, stage and round stay; in phases 4 and 5 the candidates are dropped.
    pub fn change(&self, settings: &Settings, drill: u8) -> Result<Trainer, Refused> {
        if drill > 1 {
            return Err(2);
        }
        settings.check()?;
        let phase = self.phase.number();
        let unfit = settings.ends != self.settings.ends
            || self.stage > settings.rule_splits
            || phase == 6
            || phase == 7
            || ((3..=5).contains(&phase) && self.round >= settings.rounds);
        if unfit {
            return Err(27);
        }
        let phase = match &self.phase {
            Phase::Own { leaf } | Phase::Candidates { leaf, .. } => Phase::Own { leaf: *leaf },
            other => other.clone(),
        };
        Ok(Trainer { settings: settings.clone(), phase, ..self.clone() })
    }

    /// 21, then 4, then 20. A refusal changes nothing.
    pub fn answer(&mut self, answer: &Answer) -> Result<Vec<Change>, Refused> {
        match (&self.phase, answer) {
            (Phase::Split | Phase::Drill | Phase::Choose | Phase::Last, Answer::Counts(counts)) => {
                let total = self.tree.check_counts(counts)?;
                self.take_counts(counts, total)
            }
            (Phase::Own { .. } | Phase::Candidates { .. }, Answer::Score(score)) => {
                Ok(self.take_score(*score))
            }
            _ => Err(21),
        }
    }

    fn take_counts(&mut self, counts: &[u64], total: u64) -> Result<Vec<Change>, Refused> {
        let used = Tree::num_used_rules(counts);
        match self.phase {
            Phase::Split => {
                let leaf = self.tree.most_used(counts);
                self.tree.split(leaf)?;
                if self.settings.drill && used <= 1 {
                    self.phase = Phase::Drill;
                } else {
                    self.begin_round();
                }
                Ok(vec![Change::Split(leaf)])
            }
            Phase::Drill if used > 1 => {
                self.begin_round();
                Ok(vec![])
            }
            Phase::Drill => {
                let leaf = self.tree.most_used(counts);
                self.tree.split(leaf)?;
                Ok(vec![Change::Split(leaf)])
            }
            Phase::Choose => match self.tree.most_used_unmarked(counts) {
                Some(leaf) if counts[leaf] > 0 || total == 0 => {
                    self.phase = Phase::Own { leaf };
                    Ok(vec![Change::Chose(leaf)])
                }
                _ => {
                    self.tree.clear_marks();
                    self.round += 1;
                    self.begin_round();
                    Ok(vec![Change::ClearMarks])
                }
            },
            _ => {
                self.phase = Phase::Done;
                Ok(vec![])
            }
        }
    }

    fn take_score(&mut self, score: f64) -> Vec<Change> {
        let score = f64::from_bits(bits(score));
        match &mut self.phase {
            Phase::Own { leaf } => {
                let leaf = *leaf;
                self.search(leaf, score).into_iter().collect()
            }
            Phase::Candidates { leaf, best, k, kept, list } => {
                if score > *best && kept.is_none_or(|(_, held)| score >= held) {
                    *kept = Some((*k, score));
                }
                *k += 1;
                if *k < list.len() {
                    return vec![];
                }
                let leaf = *leaf;
                match *kept {
                    Some((index, score)) => {
                        let action = list[index];
                        self.tree.set_action(leaf, action);
                        let mut changes = vec![Change::Adopt(leaf, action)];
                        changes.extend(self.search(leaf, score));
                        changes
                    }
                    None => vec![self.finish(leaf)],
                }
            }
            _ => unreachable!("a score is wanted"),
        }
    }

    /// Phase 5 from k = 0 on the leaf's present action.
    fn search(&mut self, leaf: usize, best: f64) -> Option<Change> {
        let list = self.settings.candidates(&self.tree.leaf(leaf).unwrap().0);
        if list.is_empty() {
            return Some(self.finish(leaf));
        }
        self.phase = Phase::Candidates { leaf, best, k: 0, kept: None, list };
        None
    }

    fn finish(&mut self, leaf: usize) -> Change {
        self.tree.mark(leaf);
        self.phase = Phase::Choose;
        Change::Mark(leaf)
    }

    /// Save into a buffer of this length: the record, or 9.
    pub fn save(&self, buffer: usize) -> Result<Vec<u8>, Refused> {
        let record = self.record();
        if buffer < record.len() {
            Err(9)
        } else {
            Ok(record)
        }
    }

    /// A held NaN is the one NaN, so that records compare by bits.
    pub fn held_bits(x: f64) -> u64 {
        debug_assert!(!x.is_nan() || x.to_bits() == NAN);
        x.to_bits()
    }
}
