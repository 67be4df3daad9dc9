//! Reads a script, makes its calls on both sides at once and prints the answers. The originals' `train`
//! runs all the while: each of its calls of `evaluate` is held against the question of 01's plain trainer and
//! answered by the script's next good answer.

use std::{cell::RefCell, collections::HashMap, fmt::Write, rc::Rc, sync::atomic::Ordering};

use flowforge::{
    ccas::remy::rule_tree::RuleTree,
    harness::{self, Asked, Ends, Host},
    trainers::remy::RemyTrainer,
};

use crate::{
    plain::{
        bits, even_row, next_list, tree_of, Ack, Action, Answer, Generator, Phase, Ranges, Refused, Sender,
        Trainer, Tree,
    },
    rust::{self, disagree, grow, of_action, same_sender, same_tree, shown, to_action, Originals, Shown},
    script::{repeat, Call, Reader},
};

const MOST_ACKS: usize = 256;

/// What a script gives, and which noted differences it met on the way.
#[derive(Default)]
pub struct Played {
    pub output: Vec<u8>,
    pub met: Vec<&'static str>,
    /// Answers that were taken while `train` ran beside, and those where it could not.
    pub followed: usize,
    pub alone: usize,
}

/// Why the calls stopped being made.
enum Left {
    End,
    /// A record was loaded, or settings were changed; whether answers are known that lead `train` to its state.
    Loaded {
        known: bool,
    },
}

enum Went {
    On,
    Answered(Answer),
    Left(Left),
}

struct Player {
    calls: std::vec::IntoIter<Call>,
    ends_bad: bool,
    out: String,
    trainer: Trainer,
    sender: Sender,
    generator: Option<Generator>,
    originals: Originals,
    tally: Vec<u64>,

    /// The good answers since the start, and how many `train` has been given.
    answers: Vec<Rc<Answer>>,
    given: usize,
    /// Whether the trainer is where these answers lead, and not one from a foreign record.
    followed: bool,
    /// Records that were saved on the way, with the answers before each.
    saved: HashMap<Vec<u8>, Vec<Rc<Answer>>>,
    progress: Vec<f64>,
    left: Option<Left>,
    taken_followed: usize,
    taken_alone: usize,
}

pub fn play(script: &[u8]) -> Played {
    let mut reader = Reader::new(script);
    let ended = |line: &str| Played { output: format!("{line}\n").into_bytes(), ..Played::default() };
    let Ok(header) = reader.header() else {
        return ended("bad script");
    };
    if header.drill > 1 {
        return ended("refused 2");
    }
    let trainer = match Trainer::start(header.settings.clone()) {
        Ok(trainer) => trainer,
        Err(number) => return ended(&format!("refused {number}")),
    };
    let sender = repeat(&header).ok_or(2).and_then(Sender::new);
    let sender = match sender {
        Ok(sender) => sender,
        Err(number) => return ended(&format!("refused {number}")),
    };
    let mut calls = Vec::new();
    let ends_bad = loop {
        match reader.call() {
            Ok(Some(call)) => calls.push(call),
            Ok(None) => break false,
            Err(_) => break true,
        }
    };
    let originals = Originals::new(&trainer, sender.repeat);
    let player = Rc::new(RefCell::new(Player {
        calls: calls.into_iter(),
        ends_bad,
        out: String::new(),
        saved: HashMap::new(),
        trainer,
        sender,
        generator: None,
        originals,
        tally: vec![0],
        answers: Vec::new(),
        given: 0,
        followed: true,
        progress: Vec::new(),
        left: None,
        taken_followed: 0,
        taken_alone: 0,
    }));
    follow(&player);
    let mut player = player.borrow_mut();
    player.end();
    Played {
        output: std::mem::take(&mut player.out).into_bytes(),
        met: std::mem::take(&mut player.originals.met),
        followed: player.taken_followed,
        alone: player.taken_alone,
    }
}

/// Plays to the end of the script.
fn follow(player: &Rc<RefCell<Player>>) {
    let mut known = true;
    loop {
        let mut finished = None;
        if known {
            let (settings, ends) = player.borrow_mut().rewind();
            finished = harness::train(&settings, ends, Box::new(Live(player.clone())));
        }
        let mut player = player.borrow_mut();
        if let Some(dna) = &finished {
            if player.trainer.phase.number() != 7 {
                disagree("the end of training", "trained", &player.trainer.phase);
            }
            same_tree("the trained tree", &dna.0, &player.trainer.tree);
        }
        if !known || finished.is_some() {
            player.unaccompanied();
        }
        match player.left.take().expect("a reason to have left") {
            Left::End => return,
            Left::Loaded { known: led } => known = led,
        }
    }
}

struct Live(Rc<RefCell<Player>>);

impl Host for Live {
    fn answer(&mut self, asked: Asked<'_>) -> f64 {
        self.0.borrow_mut().asked(&asked)
    }

    fn progress(&mut self, fraction: f64) {
        self.0.borrow_mut().progress.push(fraction);
    }
}

fn give(asked: &Asked<'_>, answer: &Answer) -> f64 {
    match (asked, answer) {
        (Asked::Counts { counts, .. }, Answer::Counts(given)) => {
            for (cell, count) in counts.iter().zip(given) {
                cell.store(*count, Ordering::Relaxed);
            }
            0.0
        }
        (Asked::Score { .. }, Answer::Score(score)) => *score,
        _ => disagree("the kind of answer", "another", answer),
    }
}

impl Player {
    /// The settings and the upper ends to train with from the start.
    fn rewind(&mut self) -> (RemyTrainer, Ends) {
        self.given = 0;
        self.progress.clear();
        (self.originals.settings.clone(), self.trainer.settings.ends)
    }

    /// `train` asks: the calls are made up to the next good answer.
    fn asked(&mut self, asked: &Asked<'_>) -> f64 {
        if self.given < self.answers.len() {
            self.given += 1;
            return give(asked, &self.answers[self.given - 1]);
        }
        self.same_question(asked);
        let scored = match asked {
            Asked::Counts { .. } => None,
            Asked::Score { leaf, action, .. } => Some((*leaf, of_action(action))),
        };
        self.print_question(scored);
        loop {
            match self.next(scored) {
                Went::On => {}
                Went::Answered(answer) => {
                    let score = give(asked, &answer);
                    self.answers.push(Rc::new(answer));
                    self.given += 1;
                    self.taken_followed += 1;
                    return score;
                }
                Went::Left(left) => {
                    self.left = Some(left);
                    harness::stop();
                }
            }
        }
    }

    /// The same calls where `train` is over, or cannot be: a loaded state that it has not been in.
    fn unaccompanied(&mut self) {
        self.print_question(self.trainer.scored());
        loop {
            match self.next(self.trainer.scored()) {
                Went::On => {}
                Went::Answered(_) => {
                    self.taken_alone += 1;
                    self.print_question(self.trainer.scored());
                }
                Went::Left(left) => {
                    self.left = Some(left);
                    return;
                }
            }
        }
    }

    fn same_question(&self, asked: &Asked<'_>) {
        let wanted = self.trainer.scored();
        let tree = match (asked, &wanted) {
            (Asked::Counts { tree, .. }, None) if self.trainer.phase.number() != 7 => tree,
            (Asked::Score { tree, leaf, action }, Some((l, a))) if leaf == l && of_action(action).same(a) => {
                tree
            }
            (Asked::Counts { .. }, _) => disagree("the question", "counts", &self.trainer.phase),
            (Asked::Score { leaf, action, .. }, _) => {
                disagree("the question", (leaf, of_action(action)), &self.trainer.phase)
            }
        };
        same_tree("the trainer's tree", tree, &self.trainer.tree);
        let stages = self.trainer.stage.min(self.trainer.settings.rule_splits) + 1;
        let splits = f64::from(self.trainer.settings.rule_splits + 1);
        let expected = (0..stages).map(|i| f64::from(i) / splits);
        if !self.progress.iter().copied().eq(expected) {
            disagree("progress", &self.progress, self.trainer.stage);
        }
    }

    fn line(&mut self, line: &str) {
        self.out.push_str(line);
        self.out.push('\n');
    }

    fn print_question(&mut self, scored: Option<(usize, Action)>) {
        let progress = hex(self.trainer.progress());
        let line = match (&self.trainer.phase, scored) {
            (Phase::Done, _) => format!("done {progress}"),
            (_, Some((leaf, action))) => format!("ask score {leaf} {} {progress}", words(&action)),
            (_, None) => format!("ask counts {progress}"),
        };
        self.line(&line);
    }

    fn next(&mut self, scored: Option<(usize, Action)>) -> Went {
        let Some(call) = self.calls.next() else {
            return Went::Left(Left::End);
        };
        let asks_again = matches!(
            call,
            Call::Counts(_) | Call::Score(_) | Call::Reload(_) | Call::Load(_) | Call::ChangeSettings(..)
        );
        let shows_state = matches!(call, Call::OwnAck(..));
        let shows_sender =
            shows_state || matches!(call, Call::Ack(_) | Call::Send(_) | Call::Tick | Call::Burst(..));
        let went = self.make(call);
        if self.tally.len() != self.trainer.tree.nodes.len() {
            self.tally = vec![0; self.trainer.tree.nodes.len()];
        }
        if shows_sender {
            self.print_sender();
        }
        if shows_state {
            let line = self.state_line();
            self.line(&line);
        }
        if asks_again && matches!(went, Ok(Went::On) | Err(_)) {
            if let Err(number) = went {
                self.line(&format!("refused {number}"));
            }
            self.print_question(scored);
            return Went::On;
        }
        went.unwrap_or_else(|number| {
            unreachable!("refusal {number} is printed with its call");
        })
    }

    /// Makes one call and prints its line; of calls that ask again a refusal is left to `next`.
    fn make(&mut self, call: Call) -> Result<Went, Refused> {
        match call {
            Call::Counts(counts) => return self.answer(Answer::Counts(counts)),
            Call::Score(score) => return self.answer(Answer::Score(score)),
            Call::Reload(length) => self.reload(length)?,
            Call::Load(record) => return self.load(&record),
            Call::ChangeSettings(settings, drill) => {
                let trainer = self.trainer.change(&settings, drill)?;
                self.line("ok");
                return Ok(self.moved(trainer));
            }
            other => {
                let line = self.read_or_send(other).unwrap_or_else(|number| format!("refused {number}"));
                self.line(&line);
            }
        }
        Ok(Went::On)
    }

    fn answer(&mut self, answer: Answer) -> Result<Went, Refused> {
        let phase = self.trainer.phase.number();
        let changes = self.trainer.answer(&answer)?;
        self.originals.answer(phase, &answer, &changes, &self.trainer);
        self.line("ok");
        Ok(Went::Answered(answer))
    }

    fn reload(&mut self, length: u16) -> Result<(), Refused> {
        let record = self.trainer.save(length as usize)?;
        let loaded = Trainer::load(&record).map(|t| t.record());
        assert!(loaded.as_ref() == Ok(&record), "a saved record loads as itself");
        let mut line = String::from("saved ");
        push_hex(&mut line, &record);
        self.line(&line);
        if self.followed {
            self.saved.insert(record, self.answers.clone());
        }
        Ok(())
    }

    fn load(&mut self, record: &[u8]) -> Result<Went, Refused> {
        let trainer = Trainer::load(record)?;
        self.line("loaded");
        Ok(self.moved(trainer))
    }

    /// The trainer is another than the answers led to: that of a record, or one with new settings.
    fn moved(&mut self, trainer: Trainer) -> Went {
        let again = trainer.record();
        if self.followed && again == self.trainer.record() {
            return Went::On;
        }
        self.originals.load(&trainer);
        same_tree("a loaded tree", &self.originals.tree.borrow(), &trainer.tree);
        if let Phase::Candidates { leaf, list, .. } = &trainer.phase {
            self.originals.same_candidates(&trainer.tree.leaf(*leaf).unwrap().0, list);
        }
        let fresh = Trainer::start(trainer.settings.clone()).map(|t| t.record());
        let answers = match self.saved.get(&again) {
            Some(answers) => Some(answers.clone()),
            None if fresh == Ok(again) => Some(Vec::new()),
            None => None,
        };
        self.trainer = trainer;
        self.followed = answers.is_some();
        self.answers = answers.unwrap_or_default();
        Went::Left(Left::Loaded { known: self.followed })
    }

    fn state_line(&self) -> String {
        let Some(Generator([s0, s1, s2, s3])) = self.generator else {
            return "state -".to_owned();
        };
        format!("state {s0} {s1} {s2} {s3}")
    }

    /// The generator's calls; the originals draw from one of another kind, so they have no part in it.
    fn generate(&mut self, call: Call) -> Result<String, Refused> {
        let mut line = String::new();
        match call {
            Call::Seed(words) => self.generator = Some(Generator::new(words)?),
            Call::Step => {
                let generator = self.generator.as_mut().ok_or(26u32)?;
                line = format!("output {}\n", generator.output());
                generator.step();
            }
            Call::StepBack => self.generator.as_mut().ok_or(26u32)?.step_back(),
            _ => unreachable!(),
        }
        Ok(line + &self.state_line())
    }

    /// An ack that is handed the generator's draw: 26, then the ack's own.
    fn own_ack(&mut self, sent: f64, received: f64) -> Result<u32, Refused> {
        let mut generator = self.generator.ok_or(26u32)?;
        let due = Generator::due(&self.sender);
        let ack = Ack { sent, received, draw: generator.draw(self.sender.repeat) };
        let original = self.originals.ack(&ack);
        let plain = self.sender.ack(&self.trainer.tree, &ack).map(|(window, _)| window);
        let window = agreed("an ack with its own draw", original, plain)?;
        if due {
            generator.step();
            self.generator = Some(generator);
        }
        Ok(window)
    }

    /// Acks one by one up to the first that is refused: 9, else how many were taken, what ended it, and their windows.
    fn burst(&mut self, acks: &[Ack], places: usize) -> Result<String, Refused> {
        if acks.len() > MOST_ACKS || places < acks.len() {
            return Err(9);
        }
        let mut windows = String::new();
        for (taken, ack) in acks.iter().enumerate() {
            let original = self.originals.ack(ack);
            let plain = self.sender.ack(&self.trainer.tree, ack).map(|(window, _)| window);
            match agreed("an ack of a burst", original, plain) {
                Ok(window) => write!(windows, " {window}").unwrap(),
                Err(number) => return Ok(format!("burst {taken} {number}{windows}")),
            }
        }
        Ok(format!("burst {} 0{windows}", acks.len()))
    }

    /// The calls that leave the trainer as it is.
    fn read_or_send(&mut self, call: Call) -> Result<String, Refused> {
        match call {
            Call::OwnAck(sent, received) => return Ok(format!("window {}", self.own_ack(sent, received)?)),
            Call::Seed(_) | Call::Step | Call::StepBack => return self.generate(call),
            Call::Burst(acks, places) => return self.burst(&acks, places as usize),
            _ => {}
        }
        let tree = &self.trainer.tree;
        Ok(match call {
            Call::Ack(ack) => {
                let original = self.originals.ack(&ack);
                let plain = self.sender.ack(tree, &ack).map(|(window, _)| window);
                format!("window {}", agreed("an ack", original, plain)?)
            }
            Call::Send(moment) => {
                let (original, plain) = (self.originals.send(moment), self.sender.send(moment));
                format!("window {}", agreed("a send", original, plain)?)
            }
            Call::Tick => {
                let (original, plain) = (self.originals.tick(), self.sender.tick());
                format!("window {}", agreed("a tick", Ok(original), Ok(plain))?)
            }
            Call::Wake(now) => {
                let original = self.originals.wake(now).map(|wake| wake.map(bits));
                let plain = self.sender.wake(now).map(|wake| wake.map(bits));
                match agreed("a wake", original, plain)? {
                    Some(wake) => format!("wake {wake:016x}"),
                    None => "wake -".to_owned(),
                }
            }
            Call::Lookup(point) => found(self.originals.lookup(&point), tree.lookup(&point)),
            Call::Tested(point) => {
                let (original, plain) = (self.originals.tested(&point), tree.tested(&point));
                format!("tested {}", agreed("cubes tested", Ok(original), Ok(plain))?)
            }
            Call::LookupReplaced(leaf, action, point) => {
                let plain = tree.lookup_replaced(leaf as usize, action, &point)?;
                let original = self.originals.lookup_replaced(leaf as usize, &action, &point);
                found(original, plain)
            }
            Call::Tally(point) => {
                let mut counts = self.tally.clone();
                let node = tree.tally(&mut counts, &point)?;
                self.originals.tally(&mut self.tally, &point);
                if self.tally != counts {
                    disagree("a tally", &self.tally, &counts);
                }
                match node {
                    Some(node) => format!("counted {node} {}", self.tally[node]),
                    None => "none".to_owned(),
                }
            }
            Call::Candidate(action, k) => {
                self.trainer.settings.candidate(&action, k)?;
                let list = self.trainer.settings.candidates(&action);
                let list = self.originals.same_candidates(&action, &list);
                let kth = list.get(k as usize).map_or("-".to_owned(), words);
                format!("candidates {} {kth}", list.len())
            }
            Call::PrintTree => {
                same_tree("the tree", &self.originals.tree.borrow(), tree);
                tree_lines(&self.originals.tree.borrow(), tree)
            }
            Call::UndoSplit => {
                let tree = tree.undo_split()?;
                let original = grow(&self.trainer.settings, &tree);
                same_tree("the tree with its newest split taken back", &original, &tree);
                tree_lines(&original, &tree)
            }
            Call::Apply(action, window) => {
                let plain = action.apply_to(window);
                // An original's sum is an i32, which a wider one overflows.
                let original = match i32::try_from(action.window_sum(window)) {
                    Ok(_) => to_action(&action).apply_to(window),
                    Err(_) => plain,
                };
                let applied = agreed("the window rule", Ok(original), Ok(plain))?;
                format!("applied {applied} {}", u8::from(action.clips(window)))
            }
            Call::EvenRow(point) => {
                let row = agreed("a row", Ok(self.originals.even_row(&point)), Ok(even_row(&point)))?;
                row.map_or("none".to_owned(), |row| format!("row {row}"))
            }
            Call::NextList(n, list) => {
                let next = agreed("the next list", rust::next_list(n, &list), next_list(n, &list))?;
                next.map_or("last".to_owned(), |next| {
                    let settings = &self.trainer.settings;
                    let tree =
                        tree_of(settings.ends, settings.default, &next).expect("a list that grows a tree");
                    same_tree("a small tree", &grow(settings, &tree), &tree);
                    next.iter().fold("next".to_owned(), |line, node| format!("{line} {node}"))
                })
            }
            Call::Leaves(ranges, length) => {
                let places = length as usize;
                let original = leaves_within(&self.originals.tree.borrow(), &ranges, places);
                let found =
                    agreed("the leaves within ranges", original, tree.leaves_within(&ranges, places))?;
                let nodes: String = found.iter().map(|node| format!(" {node}")).collect();
                format!("leaves {}{nodes}", found.len())
            }
            Call::Equal(record) => {
                let other = Trainer::load(&record)?;
                let original = self.originals.equal(&other);
                let equal = agreed("equality", Ok(original), Ok(tree.equal(&other.tree)))?;
                format!("equal {}", u8::from(equal))
            }
            _ => unreachable!(),
        })
    }

    fn print_sender(&mut self) {
        let held = self.originals.sender();
        same_sender(&held, &self.sender);
        let float = |x: Option<f64>| x.map_or("-".to_owned(), hex);
        let (shortest, current) = held.round_trips.unzip();
        let pending = held
            .pending
            .as_ref()
            .map_or("-".to_owned(), |(left, action)| format!("{left} {}", words(&of_action(action))));
        let line = format!(
            "sender {} {} {} {} {} {} {pending} {} {} {}",
            float(held.last_ack),
            float(held.last_sent),
            float(held.ack_average),
            float(held.send_average),
            float(shortest),
            float(current),
            held.window,
            hex(held.wait),
            float(held.send),
        );
        self.line(&line);
    }

    fn end(&mut self) {
        if self.ends_bad {
            self.line("bad script");
            return;
        }
        let mut line = String::from("record ");
        push_hex(&mut line, &self.trainer.record());
        self.line(&line);
    }
}

/// Leaves and cubes as the originals have them; what a parent keeps is the model's alone.
fn tree_lines(original: &RuleTree, plain: &Tree) -> String {
    let mut text = format!("tree {}", original.field_nodes().len());
    for (number, node) in shown(original).enumerate() {
        let (name, (action, mark)) = match node.kind {
            Shown::Leaf { action, mark } => ("leaf".to_owned(), (action, mark)),
            Shown::Parent { child } => (format!("parent {child}"), plain.held(number)),
        };
        write!(text, "\n{number} {name} {} {}", u8::from(mark), words(&action)).unwrap();
        for end in node.ends {
            text.push(' ');
            text.push_str(&hex(end));
        }
    }
    text
}

/// The leaves whose cubes the ranges meet, by the ends that the originals have of them.
fn leaves_within(original: &RuleTree, ranges: &Ranges, places: usize) -> Result<Vec<usize>, Refused> {
    if !ranges.iter().all(|[lowest, highest]| lowest <= highest) {
        return Err(28);
    }
    let mut found = Vec::new();
    for (number, node) in shown(original).enumerate() {
        let meets = (0..3).all(|axis| {
            let ([lowest, highest], min, max) = (ranges[axis], node.ends[axis], node.ends[axis + 3]);
            lowest < max && min <= highest && min < max
        });
        if meets && matches!(node.kind, Shown::Leaf { .. }) {
            found.push(number);
        }
    }
    if found.len() > places {
        return Err(29);
    }
    Ok(found)
}

/// Both sides' answer, which is one.
fn agreed<T: PartialEq + std::fmt::Debug>(
    what: &str,
    original: Result<T, Refused>,
    plain: Result<T, Refused>,
) -> Result<T, Refused> {
    if original != plain {
        disagree(what, original, plain);
    }
    original
}

fn found(original: Option<Action>, plain: Option<Action>) -> String {
    match (original, plain) {
        (None, None) => "none".to_owned(),
        (Some(o), Some(p)) if o.same(&p) => format!("action {}", words(&o)),
        (original, plain) => disagree("a lookup", original, plain),
    }
}

fn hex(x: f64) -> String {
    format!("{:016x}", bits(x))
}

fn words(action: &Action) -> String {
    format!("{} {} {}", hex(action.multiplier), action.increment, hex(action.delay))
}

fn push_hex(text: &mut String, bytes: &[u8]) {
    const DIGITS: &[u8; 16] = b"0123456789abcdef";
    for byte in bytes {
        text.push(DIGITS[usize::from(byte >> 4)] as char);
        text.push(DIGITS[usize::from(byte & 15)] as char);
    }
}
