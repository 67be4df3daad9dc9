//! A Remy trainer and sender whose every promise is proved, for hosts in Rust.
//!
//! A [`Trainer`] asks ([`Trainer::question`]) and the host answers, with counts or with a score, until the
//! question is [`Question::Done`]. It is kept as the bytes of its record, so saving it is writing
//! [`Trainer::record`], and loading is [`Trainer::load`]. A [`Sender`] paces itself over a trainer's tree.
//! What is excluded is refused by its number, a [`Refusal`], and then nothing has changed.
//!
//! ```
//! use knellstone::{Question, Settings, Trainer};
//! let trainer = Trainer::start(&Settings::default()).unwrap();
//! assert!(matches!(trainer.question(), Question::Counts { .. }));
//! assert_eq!(trainer.record().len(), 196);
//! assert_eq!(trainer.panel(&[5]).unwrap(), "leaves 1 splits 0\n0 1000\n");
//! ```

mod raw;

use std::fmt;

/// Why a call was refused: the number that the promises give it.
#[derive(Clone, Copy, Debug, PartialEq, Eq)]
pub struct Refusal(pub u32);

impl fmt::Display for Refusal {
    fn fmt(&self, f: &mut fmt::Formatter<'_>) -> fmt::Result {
        let words = match self.0 {
            1 => "a moment that is not admitted, or an action that is not valid",
            2 => "settings or a repeat mode out of range",
            3 => "no such leaf",
            4 => "counts that are not one per node, above 0 at a parent, or over 2^53 in all",
            5 => "a draw that is due and absent, or out of range",
            6 => "bytes of another length than they should have",
            7 => "a record of an unknown version",
            8 => "a record with a field that no trainer holds",
            9 => "a buffer that is too short",
            10 => "a tree or trainer that was not grown",
            20 => "a 65th split",
            21 => "another kind of answer than was asked for, or training is done",
            22 => "no rule for this ack",
            23 => "a total that is full",
            24 => "no split to take back",
            25 => "a trace that is not whole events, or of another length or version",
            26 => "a generator of four zeros",
            27 => "settings that a running training cannot take",
            28 => "ranges with a NaN end or a lowest above its highest",
            29 => "a list shorter than the leaves found",
            30 => "no list of so many splits that grows a tree",
            _ => "an unknown refusal",
        };
        write!(f, "refused {}: {}", self.0, words)
    }
}

impl std::error::Error for Refusal {}

/// What a sender does in a leaf: multiply its window, add to it, and wait between sends.
#[derive(Clone, Copy, Debug, PartialEq)]
pub struct Action {
    pub window_multiplier: f64,
    pub window_increment: i32,
    pub intersend_delay: f64,
}

impl Action {
    pub fn new(window_multiplier: f64, window_increment: i32, intersend_delay: f64) -> Self {
        Action { window_multiplier, window_increment, intersend_delay }
    }

    pub fn to_bytes(self) -> [u8; 20] {
        let mut b = [0; 20];
        b[..8].copy_from_slice(&self.window_multiplier.to_bits().to_be_bytes());
        b[8..12].copy_from_slice(&self.window_increment.to_be_bytes());
        b[12..].copy_from_slice(&self.intersend_delay.to_bits().to_be_bytes());
        b
    }

    pub fn from_bytes(b: &[u8; 20]) -> Self {
        Action {
            window_multiplier: float(&b[..8]),
            window_increment: i32::from_be_bytes(b[8..12].try_into().unwrap()),
            intersend_delay: float(&b[12..]),
        }
    }
}

/// A point of a sender's memory: two running averages of gaps, in seconds, and a ratio of round trips.
#[derive(Clone, Copy, Debug, PartialEq)]
pub struct Point {
    pub ack_ewma: f64,
    pub send_ewma: f64,
    pub rtt_ratio: f64,
}

impl Point {
    pub fn to_bytes(self) -> [u8; 24] {
        let mut b = [0; 24];
        for (i, x) in [self.ack_ewma, self.send_ewma, self.rtt_ratio].into_iter().enumerate() {
            b[8 * i..8 * i + 8].copy_from_slice(&x.to_bits().to_be_bytes());
        }
        b
    }
}

/// Memory known only within ranges: of each average and of the ratio the lowest and the highest value, both counted.
#[derive(Clone, Copy, Debug, PartialEq)]
pub struct Ranges {
    pub ack_ewma: [f64; 2],
    pub send_ewma: [f64; 2],
    pub rtt_ratio: [f64; 2],
}

impl Ranges {
    /// A point that is known, as ranges whose ends are equal.
    pub fn at(p: Point) -> Self {
        Ranges { ack_ewma: [p.ack_ewma; 2], send_ewma: [p.send_ewma; 2], rtt_ratio: [p.rtt_ratio; 2] }
    }

    pub fn to_bytes(self) -> [u8; 48] {
        let mut b = [0; 48];
        for (i, x) in [self.ack_ewma, self.send_ewma, self.rtt_ratio].concat().into_iter().enumerate() {
            b[8 * i..8 * i + 8].copy_from_slice(&x.to_bits().to_be_bytes());
        }
        b
    }
}

/// What a lookup finds, none outside the root box, and the number of cubes that it tested.
#[derive(Clone, Copy, Debug, PartialEq)]
pub struct Lookup {
    pub found: Option<Action>,
    pub tested: u16,
}

/// How a trainer searches, and in which box.
#[derive(Clone, Copy, Debug, PartialEq)]
pub struct Settings {
    pub rule_splits: u32,
    pub optimization_rounds_per_split: u32,
    pub action_change_multiplier: u32,
    pub drill_down: bool,
    pub min_action: Action,
    pub max_action: Action,
    pub initial_action_change: Action,
    pub max_action_change: Action,
    pub default_action: Action,
    /// The upper ends of the root box, ack, send and ratio, each from 1 to 1,000,000; its lower ends are 0.
    pub ends: [f64; 3],
}

impl Default for Settings {
    /// Those of FlowForge's `RemyTrainer::default`, in the box that its trees have.
    fn default() -> Self {
        let action = |multiplier, increment, milliseconds: f64| Action::new(multiplier, increment, milliseconds / 1000.0);
        Settings {
            rule_splits: 12,
            optimization_rounds_per_split: 2,
            action_change_multiplier: 4,
            drill_down: true,
            min_action: action(0.0, 0, 0.25),
            max_action: action(1.0, 256, 3.0),
            initial_action_change: action(0.01, 1, 0.05),
            max_action_change: action(0.5, 32, 1.0),
            default_action: action(1.0, 1, 3.0),
            ends: [600.0, 600.0, 1000.0],
        }
    }
}

impl Settings {
    pub fn to_bytes(&self) -> [u8; 137] {
        let mut b = [0; 137];
        b[..4].copy_from_slice(&self.rule_splits.to_be_bytes());
        b[4..8].copy_from_slice(&self.optimization_rounds_per_split.to_be_bytes());
        b[8..12].copy_from_slice(&self.action_change_multiplier.to_be_bytes());
        b[12] = self.drill_down.into();
        let (least, most) = (self.min_action, self.max_action);
        let actions = [least, most, self.initial_action_change, self.max_action_change, self.default_action];
        for (i, a) in actions.into_iter().enumerate() {
            b[13 + 20 * i..33 + 20 * i].copy_from_slice(&a.to_bytes());
        }
        for (i, x) in self.ends.into_iter().enumerate() {
            b[113 + 8 * i..121 + 8 * i].copy_from_slice(&x.to_bits().to_be_bytes());
        }
        b
    }
}

impl Settings {
    /// The candidates that an action may give way to, in the order in which they are asked for.
    pub fn candidates(&self, action: Action) -> Result<Vec<Action>, Refusal> {
        candidates(&self.to_bytes(), action)
    }
}

/// What a trainer asks for. Progress goes from 0 to 1.
#[derive(Clone, Copy, Debug, PartialEq)]
pub enum Question {
    /// How often each node was reached, 0 for parents.
    Counts { progress: f64 },
    /// The score of the tree with this leaf's action replaced by this one.
    Score { leaf: u16, action: Action, progress: f64 },
    Done { progress: f64 },
}

/// What a trainer is answered with: counts, or scores of what it asked for in a row.
#[derive(Clone, Debug, PartialEq)]
pub enum Answer {
    Counts(Vec<u64>),
    Scores(Vec<f64>),
}

/// A trainer, kept as the bytes of its record.
#[derive(Clone, Debug, PartialEq, Eq)]
pub struct Trainer {
    record: Vec<u8>,
}

const RECORD_MOST: usize = 11_076;
const CANDIDATES_MOST: usize = 4096;
const GROUP_MOST: usize = 65535;
const LIST_MOST: usize = 7;
const NODES_MOST: usize = 513;
const EVEN_ROWS: usize = 64;
const LINES_MOST: usize = 180_191;

impl Trainer {
    pub fn start(settings: &Settings) -> Result<Self, Refusal> {
        Self::start_from(&settings.to_bytes())
    }

    /// From the bytes of settings, as a record has them.
    pub fn start_from(settings: &[u8]) -> Result<Self, Refusal> {
        written(RECORD_MOST, |out| raw::start(settings, out)).map(|record| Trainer { record })
    }

    /// The trainer whose record these bytes are; one of version 1 or 2 is kept as version 3, with the usual upper ends.
    pub fn load(record: &[u8]) -> Result<Self, Refusal> {
        written(RECORD_MOST, |out| raw::answers(record, &[], out)).map(|record| Trainer { record })
    }

    pub fn record(&self) -> &[u8] {
        &self.record
    }

    pub fn question(&self) -> Question {
        let b = written(31, |out| raw::question(&self.record, out)).expect("a trainer's record is accepted");
        let progress = float(&b[23..31]);
        match b[0] {
            1 => Question::Counts { progress },
            2 => Question::Score {
                leaf: u16::from_be_bytes([b[1], b[2]]),
                action: Action::from_bytes(b[3..23].try_into().unwrap()),
                progress,
            },
            _ => Question::Done { progress },
        }
    }

    /// After a refusal the trainer is as it was.
    pub fn answer_counts(&mut self, counts: &[u64]) -> Result<(), Refusal> {
        let counts = counts_bytes(counts);
        self.record = written(RECORD_MOST, |out| raw::answer_counts(&self.record, &counts, out))?;
        Ok(())
    }

    pub fn answer_score(&mut self, score: f64) -> Result<(), Refusal> {
        self.record = written(RECORD_MOST, |out| raw::answer_score(&self.record, score.to_bits(), out))?;
        Ok(())
    }

    /// The actions whose scores it asks for in a row, whatever those scores are: of a leaf its own action and its
    /// candidates, or what is left of them. None where it asks for counts, or is done.
    pub fn asked(&self) -> Vec<Action> {
        let out = written(20 * (1 + CANDIDATES_MOST), |out| raw::asked(&self.record, out));
        actions(&out.expect("a trainer's record is accepted"))
    }

    /// Answers in turn, in one call. After a refusal the trainer is as it was before the first of them.
    pub fn answer(&mut self, answers: &[Answer]) -> Result<(), Refusal> {
        let mut list = Vec::new();
        for answer in answers {
            match answer {
                // No tree takes as many counts as a group holds, so a longer list is refused as its first ones are.
                Answer::Counts(counts) => group(&mut list, 1, counts.iter().copied().take(GROUP_MOST)),
                Answer::Scores(scores) => scores.chunks(GROUP_MOST).for_each(|part| scores_group(&mut list, part)),
            }
        }
        self.answer_list(&list)
    }

    /// The scores of what it asked for in a row, or of the first of these.
    pub fn answer_scores(&mut self, scores: &[f64]) -> Result<(), Refusal> {
        let mut list = Vec::new();
        scores.chunks(GROUP_MOST).for_each(|part| scores_group(&mut list, part));
        self.answer_list(&list)
    }

    /// Answers in the bytes that docs/HOSTS.md lays out.
    pub fn answer_list(&mut self, list: &[u8]) -> Result<(), Refusal> {
        self.record = written(RECORD_MOST, |out| raw::answers(&self.record, list, out))?;
        Ok(())
    }

    /// Takes the newest split of its tree back: the split's parent is a leaf again, with the action and mark that it had.
    /// Refused where no split was made, and where the leaf whose score is asked for is one of those that go.
    pub fn undo_split(&mut self) -> Result<(), Refusal> {
        self.record = written(RECORD_MOST, |out| raw::undo_split(&self.record, out))?;
        Ok(())
    }

    /// New settings with the same upper ends: its tree, stage and round stay, and where it asks for a score it asks for
    /// that of the leaf's own action again. The new default action changes no rule of the tree.
    pub fn change_settings(&mut self, settings: &Settings) -> Result<(), Refusal> {
        self.change_settings_from(&settings.to_bytes())
    }

    /// The same from the bytes of settings, as a record has them.
    pub fn change_settings_from(&mut self, settings: &[u8]) -> Result<(), Refusal> {
        self.record = written(RECORD_MOST, |out| raw::change_settings(&self.record, settings, out))?;
        Ok(())
    }

    /// The candidates of an action by its own settings.
    pub fn candidates(&self, action: Action) -> Result<Vec<Action>, Refusal> {
        candidates(&self.record[5..142], action)
    }

    /// Whether the two trees are equal: the same boxes, with the same actions in their leaves.
    pub fn same_tree(&self, other: &Trainer) -> bool {
        size(raw::equal(&self.record, &other.record)).expect("a trainer's record is accepted") == 1
    }

    /// The action of the leaf that holds each point, or none outside the root box.
    pub fn lookup(&self, points: &[Point]) -> Vec<Option<Action>> {
        let points = points_bytes(points);
        let out = written(points.len() / 24 * 21, |out| raw::lookup(&self.record, &points, out));
        found(&out.expect("a trainer's record is accepted"))
    }

    /// The same with one leaf's action replaced.
    pub fn lookup_replaced(&self, leaf: u16, action: Action, points: &[Point]) -> Result<Vec<Option<Action>>, Refusal> {
        let points = points_bytes(points);
        let out = written(points.len() / 24 * 21, |out| {
            raw::lookup_replaced(&self.record, leaf, &action.to_bytes(), &points, out)
        })?;
        Ok(found(&out))
    }

    /// The same with the number of cubes that each lookup tested: the root, then at each split the children in order up
    /// to the one that holds the point. A point outside the root box counts 1.
    pub fn lookup_tested(&self, points: &[Point]) -> Vec<Lookup> {
        let points = points_bytes(points);
        let out = written(points.len() / 24 * 23, |out| raw::lookup_tested(&self.record, &points, out));
        let out = out.expect("a trainer's record is accepted");
        out.chunks(23).map(|b| Lookup { found: found(&b[..21])[0], tested: u16::from_be_bytes([b[21], b[22]]) }).collect()
    }

    /// The leaves that some point within the ranges could reach, by rising node.
    pub fn leaves_within(&self, ranges: Ranges) -> Result<Vec<u16>, Refusal> {
        self.leaves_within_from(&ranges.to_bytes(), NODES_MOST)
    }

    /// The same from the bytes of ranges, into a list with so many places.
    pub fn leaves_within_from(&self, ranges: &[u8], places: usize) -> Result<Vec<u16>, Refusal> {
        Ok(nodes(&written(2 * places, |out| raw::ranges(&self.record, ranges, out))?))
    }

    /// How many nodes its tree has.
    pub fn nodes(&self) -> usize {
        1 + 8 * usize::from(u16::from_be_bytes([self.record[142], self.record[143]]))
    }

    /// How many of the points each node's leaf holds, 0 for parents: what a question for counts wants.
    /// A point is in the leaf whose replaced action it finds.
    pub fn tally(&self, points: &[Point]) -> Vec<u64> {
        let finds = |leaf, marker| self.lookup_replaced(leaf, marker, points).unwrap_or_default();
        (0..self.nodes() as u16)
            .map(|leaf| {
                let one = finds(leaf, Action::new(0.0, 0, 0.0));
                let other = finds(leaf, Action::new(0.0, 1, 0.0));
                one.iter().zip(&other).filter(|(a, b)| a != b).count() as u64
            })
            .collect()
    }

    /// The panel's lines: the share of each leaf, in thousandths that add up to 1000 (or all 0 where no count is above 0).
    pub fn panel(&self, counts: &[u64]) -> Result<String, Refusal> {
        let mut input = self.record.clone();
        input.extend(counts_bytes(counts));
        panel_of(&input)
    }

    /// The lines of a trace's events on a fresh sender with repeat off: the window, ending in ` c` where an ack's window was
    /// clipped, or `refused N`. The bytes of a trace are what [`trace_bytes`] makes of events.
    pub fn trace(&self, trace: &[u8]) -> Result<String, Refusal> {
        trace_of(&[&self.record, trace].concat())
    }
}

/// The panel's lines of a record's bytes and then its counts', 8 bytes each, as the program `panel` reads them.
pub fn panel_of(input: &[u8]) -> Result<String, Refusal> {
    let out = written(8192, |out| raw::panel(input, out))?;
    Ok(String::from_utf8(out).expect("the panel's lines are plain text"))
}

/// The lines of a record's bytes and then a trace's, as the program `trace` reads them.
pub fn trace_of(input: &[u8]) -> Result<String, Refusal> {
    let out = written(LINES_MOST, |out| raw::trace(input, out))?;
    Ok(String::from_utf8(out).expect("a trace's lines are plain text"))
}

/// How often an action that was looked up serves again.
#[derive(Clone, Copy, Debug, PartialEq, Eq)]
pub enum RepeatMode {
    Off,
    Always(u32),
    /// A draw from lo to hi is handed in with each ack that looks up.
    Between(u32, u32),
}

impl RepeatMode {
    pub fn to_bytes(self) -> [u8; 9] {
        let (mode, lo, hi) = match self {
            RepeatMode::Off => (0, 0, 0),
            RepeatMode::Always(n) => (1, n, 0),
            RepeatMode::Between(lo, hi) => (2, lo, hi),
        };
        let mut b = [0; 9];
        b[0] = mode;
        b[1..5].copy_from_slice(&u32::to_be_bytes(lo));
        b[5..].copy_from_slice(&u32::to_be_bytes(hi));
        b
    }
}

/// What happens to a sender, at moments in seconds.
#[derive(Clone, Copy, Debug, PartialEq)]
pub enum Event {
    Ack { sent: f64, received: f64, draw: Option<u32> },
    Send { at: f64 },
    Tick,
}

impl Event {
    pub fn to_bytes(self) -> [u8; 22] {
        let mut b = [0; 22];
        match self {
            Event::Ack { sent, received, draw } => {
                b[1..9].copy_from_slice(&sent.to_bits().to_be_bytes());
                b[9..17].copy_from_slice(&received.to_bits().to_be_bytes());
                b[17] = draw.is_some().into();
                b[18..].copy_from_slice(&draw.unwrap_or(0).to_be_bytes());
            }
            Event::Send { at } => {
                b[0] = 1;
                b[1..9].copy_from_slice(&at.to_bits().to_be_bytes());
            }
            Event::Tick => b[0] = 2,
        }
        b
    }
}

/// Events as the bytes of a trace; draws have no place there.
pub fn trace_bytes(events: &[Event]) -> Vec<u8> {
    let mut body = vec![1];
    for event in events {
        let (kind, moments) = match *event {
            Event::Ack { sent, received, .. } => (1, vec![sent, received]),
            Event::Send { at } => (2, vec![at]),
            Event::Tick => (3, vec![]),
        };
        body.extend([1 + 8 * moments.len() as u8, kind]);
        moments.iter().for_each(|m| body.extend(m.to_bits().to_be_bytes()));
    }
    [&(body.len() as u32).to_be_bytes(), &body[..]].concat()
}

/// What a taken event hands back: the window, 0 while a send stands, and whether an ack's window was clipped.
#[derive(Clone, Copy, Debug, PartialEq, Eq)]
pub struct Reply {
    pub window: u32,
    pub clipped: bool,
}

/// An ack of a burst, at moments in seconds.
#[derive(Clone, Copy, Debug, PartialEq)]
pub struct Ack {
    pub sent: f64,
    pub received: f64,
    pub draw: Option<u32>,
}

impl Ack {
    pub fn to_bytes(self) -> [u8; 21] {
        let mut b = [0; 21];
        b[..8].copy_from_slice(&self.sent.to_bits().to_be_bytes());
        b[8..16].copy_from_slice(&self.received.to_bits().to_be_bytes());
        b[16] = self.draw.is_some().into();
        b[17..].copy_from_slice(&self.draw.unwrap_or(0).to_be_bytes());
        b
    }
}

/// What a burst did: a window and whether it was clipped for each ack that was taken, and the refusal that stopped it.
#[derive(Clone, Debug, PartialEq, Eq)]
pub struct Burst {
    pub windows: Vec<u32>,
    pub clipped: Vec<bool>,
    pub stopped: Option<Refusal>,
}

/// A sender, in the 108 bytes that docs/HOSTS.md lays out.
#[derive(Clone, Debug, PartialEq, Eq)]
pub struct Sender {
    bytes: [u8; 108],
}

impl Sender {
    pub fn new(mode: RepeatMode) -> Result<Self, Refusal> {
        Self::new_from(&mode.to_bytes())
    }

    pub fn new_from(mode: &[u8]) -> Result<Self, Refusal> {
        let mut bytes = [0; 108];
        size(raw::sender(mode, &mut bytes))?;
        Ok(Sender { bytes })
    }

    pub fn from_bytes(bytes: [u8; 108]) -> Self {
        Sender { bytes }
    }

    pub fn bytes(&self) -> &[u8; 108] {
        &self.bytes
    }

    /// The window that it holds.
    pub fn window(&self) -> u32 {
        u32::from_be_bytes(self.bytes[96..100].try_into().unwrap())
    }

    /// How long it waits between sends.
    pub fn wait(&self) -> f64 {
        float(&self.bytes[100..])
    }

    /// Each event in turn over the trainer's tree: its reply, or the refusal, after which the sender is as it
    /// was before that event.
    pub fn run(&mut self, trainer: &Trainer, events: &[Event]) -> Vec<Result<Reply, Refusal>> {
        let list: Vec<u8> = events.iter().flat_map(|e| e.to_bytes()).collect();
        let sender = &mut self.bytes;
        let out = written(6 * events.len(), |out| raw::events(&trainer.record, sender, &list, out));
        replies(&out.expect("a trainer's record is accepted"))
    }

    /// The same with the generator's draws, whatever draws the events hold: it steps once at each ack that is taken and
    /// has a draw due. Refused where the generator is four zeros, and then neither has changed.
    pub fn run_own(
        &mut self,
        trainer: &Trainer,
        generator: &mut Generator,
        events: &[Event],
    ) -> Result<Vec<Result<Reply, Refusal>>, Refusal> {
        let list: Vec<u8> = events.iter().flat_map(|e| e.to_bytes()).collect();
        let sender = &mut self.bytes;
        let words = &mut generator.bytes;
        let out = written(6 * events.len(), |out| raw::own_events(&trainer.record, sender, words, &list, out))?;
        Ok(replies(&out))
    }

    pub fn ack(&mut self, trainer: &Trainer, sent: f64, received: f64, draw: Option<u32>) -> Result<Reply, Refusal> {
        self.run(trainer, &[Event::Ack { sent, received, draw }])[0]
    }

    /// Acks in a row over the trainer's tree, at most 256 of them, up to the first that is refused: that one stops the
    /// burst and changes nothing, and the sender is the one after those that were taken.
    pub fn burst(&mut self, trainer: &Trainer, acks: &[Ack]) -> Result<Burst, Refusal> {
        let list: Vec<u8> = acks.iter().flat_map(|a| a.to_bytes()).collect();
        let (mut windows, mut clipped) = (vec![0; 4 * acks.len()], vec![0; acks.len()]);
        let answer = size(raw::burst(&trainer.record, &mut self.bytes, &list, &mut windows, &mut clipped))?;
        let (taken, stopped) = (answer & 0xffff_ffff, (answer >> 32) as u32);
        Ok(Burst {
            windows: windows.chunks(4).take(taken).map(|b| u32::from_be_bytes(b.try_into().unwrap())).collect(),
            clipped: clipped[..taken].iter().map(|b| *b == 1).collect(),
            stopped: (stopped != 0).then_some(Refusal(stopped)),
        })
    }
}

/// A box's own generator, xoshiro256++ of Blackman and Vigna, in the 32 bytes of its four words.
#[derive(Clone, Debug, PartialEq, Eq)]
pub struct Generator {
    bytes: [u8; 32],
}

impl Generator {
    /// Four zeros make a generator that every call refuses.
    pub fn new(words: [u64; 4]) -> Self {
        let mut bytes = [0; 32];
        for (i, word) in words.into_iter().enumerate() {
            bytes[8 * i..8 * i + 8].copy_from_slice(&word.to_be_bytes());
        }
        Generator { bytes }
    }

    pub fn words(&self) -> [u64; 4] {
        std::array::from_fn(|i| u64::from_be_bytes(self.bytes[8 * i..8 * i + 8].try_into().unwrap()))
    }

    /// Its output, of the state that it had; it then has the next one.
    pub fn step(&mut self) -> Result<u64, Refusal> {
        let words = &mut self.bytes;
        let out = written(8, |out| raw::step(words, out))?;
        Ok(u64::from_be_bytes(out.try_into().unwrap()))
    }

    /// To the state before the step.
    pub fn step_back(&mut self) -> Result<(), Refusal> {
        size(raw::step_back(&mut self.bytes)).map(|_| ())
    }
}

fn replies(bytes: &[u8]) -> Vec<Result<Reply, Refusal>> {
    let reply = |r: &[u8]| match r[0] {
        0 => Ok(Reply { window: u32::from_be_bytes(r[1..5].try_into().unwrap()), clipped: r[5] == 1 }),
        n => Err(Refusal(n.into())),
    };
    bytes.chunks(6).map(reply).collect()
}

fn float(bytes: &[u8]) -> f64 {
    f64::from_bits(u64::from_be_bytes(bytes.try_into().unwrap()))
}

/// The list of splits after another, among all that grow a tree by at most n splits, n at most 3: shorter ones first, then
/// by their nodes. The first is the empty list; after the last there is none.
pub fn next_list(n: u32, list: &[u16]) -> Result<Option<Vec<u16>>, Refusal> {
    let length = u8::try_from(list.len()).map_err(|_| Refusal(30))?;
    let bytes: Vec<u8> = [length].into_iter().chain(list.iter().flat_map(|node| node.to_be_bytes())).collect();
    let out = written(LIST_MOST, |out| raw::next_list(n, &bytes, out))?;
    Ok(out.split_first().map(|(_, b)| nodes(b)))
}

/// The row of the even tree that holds a point: the root split, then nodes 1 to 8 in order, 64 rows from node 9 on. A host
/// that keeps 64 actions, one a row, has a tree's lookup without a tree.
pub fn even_row(point: Point) -> Option<usize> {
    let row = size(raw::even_row(&point.to_bytes())).expect("a whole point");
    (row < EVEN_ROWS).then_some(row)
}

fn nodes(bytes: &[u8]) -> Vec<u16> {
    bytes.chunks(2).map(|b| u16::from_be_bytes(b.try_into().unwrap())).collect()
}

fn counts_bytes(counts: &[u64]) -> Vec<u8> {
    counts.iter().flat_map(|n| n.to_be_bytes()).collect()
}

/// Answers of one kind: how many in 2 bytes, then 8 bytes each.
fn group(list: &mut Vec<u8>, kind: u8, numbers: impl ExactSizeIterator<Item = u64>) {
    list.push(kind);
    list.extend((numbers.len() as u16).to_be_bytes());
    numbers.for_each(|n| list.extend(n.to_be_bytes()));
}

fn scores_group(list: &mut Vec<u8>, scores: &[f64]) {
    group(list, 2, scores.iter().map(|x| x.to_bits()));
}

fn candidates(settings: &[u8], action: Action) -> Result<Vec<Action>, Refusal> {
    let out = written(20 * CANDIDATES_MOST, |out| raw::candidates(settings, &action.to_bytes(), out))?;
    Ok(actions(&out))
}

fn actions(bytes: &[u8]) -> Vec<Action> {
    bytes.chunks(20).map(|b| Action::from_bytes(b.try_into().unwrap())).collect()
}

fn points_bytes(points: &[Point]) -> Vec<u8> {
    points.iter().flat_map(|p| p.to_bytes()).collect()
}

fn found(bytes: &[u8]) -> Vec<Option<Action>> {
    bytes.chunks(21).map(|b| (b[0] == 1).then(|| Action::from_bytes(b[1..].try_into().unwrap()))).collect()
}

fn size(answer: u64) -> Result<usize, Refusal> {
    const REFUSED: u64 = 1 << 63;
    if answer < REFUSED {
        Ok(answer as usize)
    } else {
        Err(Refusal((answer - REFUSED) as u32))
    }
}

/// The bytes that a call writes into a buffer with this room.
fn written(room: usize, call: impl FnOnce(&mut [u8]) -> u64) -> Result<Vec<u8>, Refusal> {
    let mut out = vec![0; room];
    let n = size(call(&mut out))?;
    out.truncate(n);
    Ok(out)
}
