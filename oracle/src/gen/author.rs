//! Writes calls and plays them on 01's plain trainer and sender, so that the next call fits.

use super::{
    values::{
        any_float, calm_header, edge_float, near_action, small_settings, step, valid_action, vary_settings,
    },
    Dice,
};
use crate::{
    plain::{Ack, Answer, Generator, Phase, Point, Ranges, Repeat, Sender, Trainer},
    script::{repeat, Call, Header, Writer},
};

pub struct Author {
    pub dice: Dice,
    /// Which version a record is written in, and what its parents hold.
    pub versions: Dice,
    pub writer: Writer,
    pub trainer: Trainer,
    pub sender: Sender,
    pub generator: Option<Generator>,
    pub clock: f64,
    pub saved: Vec<Vec<u8>>,
    pub scores: usize,
}

impl Author {
    pub fn new(mut dice: Dice, header: &Header) -> Author {
        let scores = dice.below(6);
        Author {
            writer: Writer::new(header),
            trainer: Trainer::start(header.settings.clone()).expect("settings that hold"),
            sender: Sender::new(repeat(header).unwrap()).expect("a repeat that holds"),
            generator: None,
            clock: dice.unit() * 100.0,
            saved: Vec::new(),
            scores,
            versions: dice.beside(),
            dice,
        }
    }

    pub fn small(mut dice: Dice) -> Author {
        let values = dice.pick(&[1, 2, 2, 2, 2, 8]);
        let settings = small_settings(&mut dice, values);
        let header = calm_header(settings, &mut dice);
        Author::new(dice, &header)
    }

    pub fn call(&mut self, call: Call) {
        self.writer.call(&call);
        match &call {
            Call::Ack(ack) => self.no_draw(ack, 0),
            Call::Burst(acks, _) => {
                for (i, ack) in acks.iter().rev().enumerate() {
                    self.no_draw(ack, 2 + 21 * i);
                }
            }
            _ => {}
        }
        match call {
            Call::Counts(counts) => drop(self.trainer.answer(&Answer::Counts(counts))),
            Call::Score(score) => drop(self.trainer.answer(&Answer::Score(score))),
            Call::Reload(length) => {
                if let Ok(record) = self.trainer.save(length as usize) {
                    self.saved.push(record);
                }
            }
            Call::Load(record) => {
                if let Ok(trainer) = Trainer::load(&record) {
                    self.trainer = trainer;
                }
            }
            Call::ChangeSettings(settings, drill) => {
                if let Ok(trainer) = self.trainer.change(&settings, drill) {
                    self.trainer = trainer;
                }
            }
            Call::Ack(ack) => drop(self.sender.ack(&self.trainer.tree, &ack)),
            Call::Burst(acks, places) => {
                if acks.len() <= 256 && acks.len() <= places as usize {
                    let _ =
                        acks.iter().try_for_each(|ack| self.sender.ack(&self.trainer.tree, ack).map(drop));
                }
            }
            Call::Send(moment) => drop(self.sender.send(moment)),
            Call::Tick => drop(self.sender.tick()),
            Call::Seed(words) => self.generator = Generator::new(words).ok().or(self.generator),
            Call::OwnAck(sent, received) => self.own_ack(sent, received),
            Call::Step => self.generator.iter_mut().for_each(Generator::step),
            Call::StepBack => self.generator.iter_mut().for_each(Generator::step_back),
            _ => {}
        }
    }

    fn own_ack(&mut self, sent: f64, received: f64) {
        if let Some(generator) = &mut self.generator {
            let due = Generator::due(&self.sender);
            let ack = Ack { sent, received, draw: generator.draw(self.sender.repeat) };
            if self.sender.ack(&self.trainer.tree, &ack).is_ok() && due {
                generator.step();
            }
        }
    }

    /// No draw is handed in by any byte but 1, whatever follows it; `behind` bytes follow the ack.
    fn no_draw(&mut self, ack: &Ack, behind: usize) {
        if ack.draw.is_none() && self.dice.one_in(2) {
            let draw = self.writer.bytes.len() - behind - 4;
            let number = match self.sender.repeat {
                Repeat::Within(lo, hi) => self.dice.pick(&[lo, hi]),
                _ => self.dice.pick(&[0, 1, u32::MAX]),
            };
            self.writer.bytes[draw - 1] = self.dice.pick(&[0, 2, 255]);
            self.writer.bytes[draw..draw + 4].copy_from_slice(&number.to_be_bytes());
        }
    }

    pub fn done(self) -> Vec<u8> {
        self.writer.bytes
    }

    pub fn leaf(&mut self) -> usize {
        let leaves: Vec<usize> = self.trainer.tree.leaves().map(|l| l.0).collect();
        self.dice.pick(&leaves)
    }

    // Answers

    /// Counts above 0 at no more than `used` leaves.
    pub fn counts(&mut self, used: usize) -> Vec<u64> {
        let mut counts = vec![0; self.trainer.tree.nodes.len()];
        let style = self.dice.below(6);
        for _ in 0..used {
            let leaf = self.leaf();
            counts[leaf] = match style {
                0 => 1,
                1 => 7,
                2 => (1 << 53) / (used as u64 + 1),
                _ => self.dice.within(0, 9) as u64,
            };
        }
        if used == 1 && style == 2 {
            for count in &mut counts {
                *count *= 2;
            }
        }
        counts
    }

    pub fn some_counts(&mut self) -> Vec<u64> {
        let leaves = self.trainer.tree.leaves().count();
        let used = match self.dice.below(6) {
            0 => 0,
            1 => 1,
            2 => 2,
            3 => leaves,
            _ => self.dice.within(1, leaves.min(4)),
        };
        self.counts(used)
    }

    pub fn score(&mut self) -> f64 {
        let dice = &mut self.dice;
        match self.scores {
            0 => 1.0,
            1 => dice.pick(&[0.0, -0.0, 1.0, -1.0]),
            2 => edge_float(dice),
            3 => any_float(dice),
            4 => dice.within(0, 100) as f64,
            _ => dice.within(0, 4) as f64,
        }
    }

    pub fn wants_score(&self) -> bool {
        matches!(self.trainer.phase, Phase::Own { .. } | Phase::Candidates { .. })
    }

    /// An answer that is taken; where training is done, mostly a new start.
    pub fn good_answer(&mut self) {
        if matches!(self.trainer.phase, Phase::Done) && !self.dice.one_in(5) {
            let start = Trainer::start(self.trainer.settings.clone()).expect("settings that hold");
            let record = self.written(&start);
            self.call(Call::Load(record));
        }
        let call = if self.wants_score() {
            Call::Score(self.score())
        } else {
            let drilling = matches!(self.trainer.phase, Phase::Drill);
            let counts = if drilling && !self.dice.one_in(3) { self.counts(3) } else { self.some_counts() };
            Call::Counts(counts)
        };
        self.call(call);
    }

    pub fn bad_answer(&mut self) {
        let nodes = self.trainer.tree.nodes.len();
        let mut counts = self.some_counts();
        match self.dice.below(8) {
            0 => drop(counts.pop()),
            1 => counts.push(0),
            2 => counts.clear(),
            3 => {
                let parent = self.dice.below(nodes);
                if self.trainer.tree.leaf(parent).is_err() {
                    counts[parent] = 1;
                } else {
                    counts.resize(self.dice.pick(&[0, nodes - 1, nodes + 1, 513, 599, 600]), 0);
                }
            }
            4 => {
                let leaf = self.leaf();
                counts[leaf] = self.dice.pick(&[(1 << 53) + 1, u64::MAX, 1 << 63]);
            }
            5 => {
                let (one, other) = (self.leaf(), self.leaf());
                counts[one] = 1 << 63;
                counts[other] = counts[other].saturating_add(1 << 63);
            }
            6 => {
                let (one, other) = (self.leaf(), self.leaf());
                counts[one] = 1 << 53;
                counts[other] = counts[other].max(1);
            }
            _ => {
                let score = self.score();
                self.call(Call::Score(score));
                return;
            }
        }
        self.call(Call::Counts(counts));
    }

    /// New settings: mostly ones that fit, else with one cause of 27, or a limit or a drill byte that is bad.
    pub fn change_settings(&mut self) {
        let (stage, round) = (self.trainer.stage, self.trainer.round);
        let old = self.trainer.settings.clone();
        let dice = &mut self.dice;
        let mut settings = if dice.one_in(2) { old.clone() } else { small_settings(dice, 2) };
        settings.ends = old.ends;
        settings.rule_splits = settings.rule_splits.max(stage).min(64);
        settings.rounds = settings.rounds.max(round + 1);
        if dice.one_in(2) {
            settings.default = valid_action(dice);
        }
        let mut drill = u8::from(settings.drill);
        match dice.below(12) {
            0 => {
                let axis = dice.below(3);
                settings.ends[axis] = step(settings.ends[axis], dice);
            }
            1 => settings.rule_splits = dice.pick(&[stage.saturating_sub(1), stage, stage + 1]),
            2 => settings.rounds = dice.pick(&[round.saturating_sub(1), round, round + 1]),
            3 => settings.rounds = 0,
            4 => vary_settings(&mut settings, dice),
            5 => drill = dice.pick(&[2, 255]),
            6 => {
                settings.ends = settings.ends.map(|end| step(end, dice));
                settings.multiplier = dice.pick(&[1, 17]);
            }
            _ => {}
        }
        self.call(Call::ChangeSettings(settings, drill));
    }

    pub fn finish(&mut self, answers: usize, asides: usize) {
        for _ in 0..answers {
            if matches!(self.trainer.phase, Phase::Done) {
                break;
            }
            if asides > 0 && self.dice.one_in(asides) {
                self.aside();
            }
            self.good_answer();
        }
    }

    // Calls beside the training

    pub fn point(&mut self) -> Point {
        let node = self.dice.below(self.trainer.tree.nodes.len());
        let cube = self.trainer.tree.nodes[node].cube;
        let ends = self.trainer.settings.ends;
        let style = self.dice.below(8);
        std::array::from_fn(|axis| {
            let (min, max) = (cube.min[axis], cube.max[axis]);
            let dice = &mut self.dice;
            match style {
                0 => edge_float(dice),
                1 => dice.unit() * ends[axis],
                2 => min,
                3 => dice.pick(&[min, max, (min + max) / 2.0]),
                4 => {
                    let x = dice.pick(&[min, max, (min + max) / 2.0]);
                    step(x, dice)
                }
                5 => min + (max - min) * dice.unit(),
                6 if dice.one_in(3) => any_float(dice),
                _ => dice.pick(&[min, (min + max) / 2.0, -0.0, 0.0]),
            }
        })
    }

    /// Ranges between two points, without an end or with equal ones, now and then no ranges, and a list that is
    /// long enough or nearly so.
    pub fn leaves(&mut self) -> Call {
        let (one, other) = (self.point(), self.point());
        let style = self.dice.below(5);
        let dice = &mut self.dice;
        let mut ranges: Ranges = std::array::from_fn(|axis| {
            let (low, high) = (one[axis].min(other[axis]), one[axis].max(other[axis]));
            match if style == 0 { 0 } else { dice.below(7) } {
                0 => [low, low],
                1 => [f64::NEG_INFINITY, high],
                2 => [low, f64::INFINITY],
                3 => [f64::NEG_INFINITY, f64::INFINITY],
                _ => [low, high],
            }
        });
        if dice.one_in(10) {
            let axis = dice.below(3);
            match dice.below(3) {
                0 => ranges[axis].reverse(),
                1 => ranges[axis][0] = f64::NAN,
                _ => ranges[axis][1] = f64::NAN,
            }
        }
        let found = self.trainer.tree.leaves_within(&ranges, usize::MAX).map_or(0, |found| found.len());
        let lengths = [found, found, found + 1, found.saturating_sub(1), 0, 513, 514, 65_535];
        Call::Leaves(ranges, self.dice.pick(&lengths) as u16)
    }

    pub fn moment(&mut self) -> f64 {
        self.clock = match self.dice.below(12) {
            0 => self.clock,
            1 => self.clock - self.dice.unit(),
            2 => self.clock + self.dice.unit() * 700.0,
            _ => self.clock + self.dice.unit() * 0.2,
        };
        self.clock = self.clock.clamp(0.0, 4e9);
        self.clock
    }

    pub fn edge_moment(&mut self) -> f64 {
        let dice = &mut self.dice;
        match dice.below(5) {
            0 => dice.pick(&[0.0, -0.0, 5e-324]),
            1 => dice.pick(&[4_294_967_296.0, 4_294_967_296.0f64.next_down(), 4_294_967_296.0f64.next_up()]),
            2 => dice.pick(&[-5e-324, -1.0, f64::NEG_INFINITY, f64::INFINITY]),
            3 => dice.pick(&[f64::NAN, -f64::NAN]),
            _ => any_float(dice),
        }
    }

    /// Acks that follow on each other, and lent lists that are long enough or nearly so.
    pub fn burst(&mut self, n: usize) -> Call {
        let before = self.sender.clone();
        let mut acks = Vec::new();
        for _ in 0..n {
            let ack = if n > 100 { self.calm_ack() } else { self.ack() };
            let _ = self.sender.ack(&self.trainer.tree, &ack);
            acks.push(ack);
        }
        self.sender = before;
        let n = n as u16;
        let lengths = [n, n, n, n + 1, n.saturating_sub(1), 0, 256, u16::MAX];
        Call::Burst(acks, self.dice.pick(&lengths))
    }

    /// Soon after the last, with a round trip near the shortest.
    fn calm_ack(&mut self) -> Ack {
        let sent = self.sender.last_sent.unwrap_or(self.clock) + self.dice.unit() * 0.1;
        let shortest = self.sender.round_trips.map_or(0.05, |(shortest, _)| shortest);
        let received = sent + shortest * (1.0 + self.dice.unit() * 0.01);
        Ack { sent, received, draw: self.any_ack().draw.or(Some(0)) }
    }

    /// Mostly one that is taken: after a gap of an upper end, say, a sender is refused for ever.
    pub fn ack(&mut self) -> Ack {
        let mut ack = self.any_ack();
        for _ in 0..4 {
            let refused = self.sender.clone().ack(&self.trainer.tree, &ack).is_err();
            if !refused || self.dice.one_in(5) {
                break;
            }
            ack = self.any_ack();
        }
        ack
    }

    pub fn any_ack(&mut self) -> Ack {
        let last = self.sender.last_sent.unwrap_or(self.clock);
        let sent = match self.dice.below(16) {
            0 => last,
            1 => last - self.dice.unit(),
            2 => last + self.dice.unit() * 700.0,
            3 => self.moment(),
            _ => last + self.dice.unit() * 0.2,
        };
        let shortest = self.sender.round_trips.map_or(0.05, |(shortest, _)| shortest);
        let received = match self.dice.below(24) {
            0 => sent,
            1 => sent - 0.01,
            2 => sent + 600.0,
            3 => sent + shortest * 1000.0,
            4..=9 => sent + shortest * (1.0 + self.dice.unit() * 4.0),
            10 => sent + shortest * 0.9,
            _ => sent + 0.01 + self.dice.unit() * 0.2,
        };
        let draw = match (self.dice.below(10), self.sender.repeat) {
            (0, _) => None,
            (1, _) => Some(self.dice.next() as u32),
            (2, _) => Some(self.dice.within(0, 6) as u32),
            (_, Repeat::Within(lo, hi)) => {
                Some(lo + (self.dice.next() % (u64::from(hi - lo).min(4) + 1)) as u32)
            }
            _ => None,
        };
        Ack { sent, received, draw }
    }

    pub fn aside(&mut self) {
        let call = match self.dice.below(16) {
            0..=4 => Call::Ack(self.ack()),
            5 => Call::Send(self.moment()),
            6 => Call::Tick,
            7 => Call::Wake(self.moment()),
            8..=10 => Call::Lookup(self.point()),
            11 => {
                let leaf = self.leaf() as u16;
                Call::LookupReplaced(leaf, valid_action(&mut self.dice), self.point())
            }
            12 | 13 => Call::Tally(self.point()),
            14 => {
                let settings = self.trainer.settings.clone();
                let k = self.dice.below(12) as u32;
                Call::Candidate(near_action(&settings, &mut self.dice), k)
            }
            _ if self.dice.one_in(4) => Call::PrintTree,
            _ => Call::Reload(u16::MAX),
        };
        self.call(call);
    }
}
