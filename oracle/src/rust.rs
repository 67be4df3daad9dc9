//! The originals' side: a `RuleTree` that is grown, read and counted by the originals' own functions, a
//! `RemyCca` over it, and `possible_improvements`.
//!
//! What document 01 refuses is refused before an original is called, and where the two part (see
//! differences.rs) the original is asked in the words that 01 gives the question.

use std::{
    cell::{Cell, RefCell},
    fmt,
    rc::Rc,
    sync::{atomic::Ordering, OnceLock},
};

use flowforge::{
    ccas::remy::{
        action::Action as RustAction,
        point::Point as RustPoint,
        rule_tree::{CountingRuleTree, LeafHandle, RuleTree, RuleTreeNode},
        RemyCca, RemyPolicy,
    },
    eval::EvaluationConfig,
    harness::{moment, new_tree, seconds_of, SenderState},
    quantities::seconds,
    trainers::remy::RemyTrainer,
    util::{
        logging::NothingLogger,
        rand::{DiscreteDistribution, Rng},
    },
    AckReceived, Cca, PacketSent,
};

use crate::plain::{
    admitted, Ack, Action, Answer, Change, Kind, Phase, Point, Refused, Repeat, Sender, Settings, Trainer,
    Tree, USUAL_ENDS,
};

/// Stops everything: an original and document 01 do not agree where no difference is noted.
#[track_caller]
pub fn disagree(what: &str, original: impl fmt::Debug, plain: impl fmt::Debug) -> ! {
    panic!("DISAGREE on {what}: the original has {original:?}, document 01 gives {plain:?}")
}

pub fn to_action(action: &Action) -> RustAction {
    RustAction {
        window_multiplier: action.multiplier,
        window_increment: action.increment,
        intersend_delay: seconds(action.delay),
    }
}

pub fn of_action(action: &RustAction) -> Action {
    Action {
        multiplier: action.window_multiplier,
        increment: action.window_increment,
        delay: action.intersend_delay.seconds(),
    }
}

fn positive_zero(x: f64) -> f64 {
    if x == 0.0 {
        0.0
    } else {
        x
    }
}

/// A span of -0 is asked as +0 (difference `zero-lookup`).
fn to_point(point: &Point) -> RustPoint {
    RustPoint {
        ack_ewma: seconds(positive_zero(point[0])),
        send_ewma: seconds(positive_zero(point[1])),
        rtt_ratio: point[2],
    }
}

/// A greatest delay of -0 is given as +0, a least one of +0 as -0 (difference `zero-candidate`).
pub fn to_settings(settings: &Settings) -> RemyTrainer {
    let mut min = to_action(&settings.min);
    let mut max = to_action(&settings.max);
    if settings.min.delay == 0.0 {
        min.intersend_delay = seconds(-0.0);
    }
    max.intersend_delay = seconds(positive_zero(settings.max.delay));
    RemyTrainer { min_action: min, max_action: max, ..as_given(settings) }
}

/// The settings with no zero changed.
pub fn as_given(settings: &Settings) -> RemyTrainer {
    RemyTrainer {
        rule_splits: settings.rule_splits,
        optimization_rounds_per_split: settings.rounds,
        min_action: to_action(&settings.min),
        max_action: to_action(&settings.max),
        initial_action_change: to_action(&settings.initial_change),
        max_action_change: to_action(&settings.max_change),
        action_change_multiplier: settings.multiplier as i32,
        default_action: to_action(&settings.default),
        change_eval_config: EvaluationConfig::default(),
        count_rule_usage_config: EvaluationConfig::default(),
        drill_down: settings.drill,
    }
}

/// With the upper ends of the originals' own root.
pub fn of_settings(trainer: &RemyTrainer) -> Settings {
    let RustPoint { ack_ewma, send_ewma, rtt_ratio }: RustPoint = RustPoint::MAX;
    Settings {
        rule_splits: trainer.rule_splits,
        rounds: trainer.optimization_rounds_per_split,
        multiplier: trainer.action_change_multiplier as u32,
        drill: trainer.drill_down,
        min: of_action(&trainer.min_action),
        max: of_action(&trainer.max_action),
        initial_change: of_action(&trainer.initial_action_change),
        max_change: of_action(&trainer.max_action_change),
        default: of_action(&trainer.default_action),
        ends: [ack_ewma.seconds(), send_ewma.seconds(), rtt_ratio],
    }
}

pub fn counting<'a>(tree: &'a mut RuleTree, counts: &[u64]) -> CountingRuleTree<'a> {
    let counting = CountingRuleTree::new(tree);
    for (cell, count) in counting.field_counts().iter().zip(counts) {
        cell.store(*count, Ordering::Relaxed);
    }
    counting
}

/// The handle of one leaf, by counts that are above 0 there alone.
pub fn leaf(tree: &mut RuleTree, node: usize) -> LeafHandle<'_> {
    let counting = CountingRuleTree::new(tree);
    counting.field_counts()[node].store(1, Ordering::Relaxed);
    let (_, handle) = counting.most_used_rule();
    assert_eq!(number(&handle), node, "the handle of a leaf");
    handle
}

fn number(handle: &LeafHandle<'_>) -> usize {
    let any = RustAction { window_multiplier: 0., window_increment: 0, intersend_delay: seconds(0.) };
    handle.augmented_tree(any).field_rule_override().0
}

/// A tree grown by the originals to one of 01.
pub fn grow(settings: &Settings, plain: &Tree) -> RuleTree {
    let mut tree = new_tree(settings.ends, to_action(&settings.default));
    for node in &plain.splits {
        leaf(&mut tree, *node).split();
    }
    for (node, action, mark) in plain.leaves() {
        let mut handle = leaf(&mut tree, node);
        *handle.action() = to_action(&action);
        if mark {
            handle.mark_optimized();
        }
    }
    tree
}

/// A tree with the usual upper ends that the originals grow by a list of splits; none where one of them names no leaf.
fn grown_by(list: &[u16]) -> Option<RuleTree> {
    let mut tree = new_tree(USUAL_ENDS, RemyTrainer::default().default_action);
    for node in list {
        let node = usize::from(*node);
        if !matches!(tree.field_nodes().get(node), Some(RuleTreeNode::Leaf { .. })) {
            return None;
        }
        leaf(&mut tree, node).split();
    }
    Some(tree)
}

/// The split lists by a second way: of all lists of at most three numbers below 17, in order, those by which the
/// originals grow a tree.
fn counted_lists() -> &'static [Vec<u16>] {
    static LISTS: OnceLock<Vec<Vec<u16>>> = OnceLock::new();
    LISTS.get_or_init(|| {
        let of = |length: u32| {
            let digit = move |i: u32, place: u32| (i / 17u32.pow(length - 1 - place) % 17) as u16;
            (0..17u32.pow(length)).map(move |i| (0..length).map(|place| digit(i, place)).collect())
        };
        (0..=3).flat_map(of).filter(|list: &Vec<u16>| grown_by(list).is_some()).collect()
    })
}

/// The list after one of at most n splits; none after the last.
pub fn next_list(n: u8, list: &[u16]) -> Result<Option<Vec<u16>>, Refused> {
    let short = |list: &&Vec<u16>| list.len() <= usize::from(n);
    let mut lists = counted_lists().iter().filter(short).skip_while(|one| *one != list);
    if n > 3 || lists.next().is_none() {
        return Err(30);
    }
    Ok(lists.next().cloned())
}

/// What the originals have of a parent is its children alone.
#[derive(Clone, Copy, Debug)]
pub enum Shown {
    Leaf { action: Action, mark: bool },
    Parent { child: usize },
}

#[derive(Clone, Copy, Debug)]
pub struct ShownNode {
    pub kind: Shown,
    pub ends: [f64; 6],
}

pub fn shown(tree: &RuleTree) -> impl Iterator<Item = ShownNode> + '_ {
    tree.field_nodes().iter().map(|node| {
        let (domain, kind) = match node {
            RuleTreeNode::Leaf { domain, action, optimized } => {
                let (action, mark) = (of_action(action), *optimized);
                (domain, Shown::Leaf { action, mark })
            }
            RuleTreeNode::Node { domain, children } => {
                let child = children[0];
                if !children.iter().copied().eq(child..child + 8) {
                    disagree("children", children, "eight in a row");
                }
                (domain, Shown::Parent { child })
            }
        };
        let ends = [
            domain.min.ack_ewma.seconds(),
            domain.min.send_ewma.seconds(),
            domain.min.rtt_ratio,
            domain.max.ack_ewma.seconds(),
            domain.max.send_ewma.seconds(),
            domain.max.rtt_ratio,
        ];
        ShownNode { kind, ends }
    })
}

/// Node by node and bit for bit, the leaves' marks included.
pub fn same_tree(what: &str, original: &RuleTree, plain: &Tree) {
    if original.field_nodes().len() != plain.nodes.len() {
        disagree(what, original.field_nodes().len(), plain.nodes.len());
    }
    for (number, (o, p)) in shown(original).zip(&plain.nodes).enumerate() {
        let kinds = match (o.kind, p.kind) {
            (Shown::Leaf { action, mark }, Kind::Leaf { action: a, mark: m }) => action.same(&a) && mark == m,
            (Shown::Parent { child }, Kind::Parent { child: c, .. }) => child == c,
            _ => false,
        };
        let ends = p.cube.min.iter().chain(&p.cube.max);
        let cubes = o.ends.iter().zip(ends).all(|(a, b)| a.to_bits() == b.to_bits());
        if !kinds || !cubes {
            disagree(what, (number, o), p);
        }
    }
}

/// The policy of the sender: the tree as it stands at each ack.
pub struct TreeInUse {
    tree: Rc<RefCell<RuleTree>>,
    /// The rule that the last lookup found; none where it found none.
    found: Rc<Cell<Option<Action>>>,
}

impl fmt::Debug for TreeInUse {
    fn fmt(&self, f: &mut fmt::Formatter<'_>) -> fmt::Result {
        f.write_str("TreeInUse")
    }
}

impl RemyPolicy for TreeInUse {
    /// Where there is no rule the original panics on `None`; any action serves, as the ack is taken back.
    fn action(&self, point: &RustPoint) -> Option<RustAction> {
        let found = self.tree.borrow().action(point);
        self.found.set(found.as_ref().map(of_action));
        found.or_else(|| {
            Some(RustAction { window_multiplier: 1., window_increment: 0, intersend_delay: seconds(0.) })
        })
    }
}

pub struct Originals {
    pub tree: Rc<RefCell<RuleTree>>,
    pub settings: RemyTrainer,
    /// As given, where the settings above may hold another zero.
    greatest_delay: f64,
    sender: RemyCca<TreeInUse>,
    found: Rc<Cell<Option<Action>>>,
    repeat: Repeat,
    /// The noted differences that were met, by name.
    pub met: Vec<&'static str>,
}

impl Originals {
    pub fn new(trainer: &Trainer, repeat: Repeat) -> Originals {
        let tree = Rc::new(RefCell::new(grow(&trainer.settings, &trainer.tree)));
        let found = Rc::new(Cell::new(None));
        let policy = TreeInUse { tree: tree.clone(), found: found.clone() };
        let actions = match repeat {
            Repeat::Off => None,
            Repeat::Always(value) => Some(DiscreteDistribution::Always { value }),
            Repeat::Within(min, max) => Some(DiscreteDistribution::Uniform { min, max }),
        };
        Originals {
            tree,
            settings: to_settings(&trainer.settings),
            greatest_delay: trainer.settings.max.delay,
            sender: RemyCca::new(policy, actions),
            found,
            repeat,
            met: Vec::new(),
        }
    }

    /// A loaded trainer takes the trainer's place.
    pub fn load(&mut self, trainer: &Trainer) {
        *self.tree.borrow_mut() = grow(&trainer.settings, &trainer.tree);
        self.settings = to_settings(&trainer.settings);
        self.greatest_delay = trainer.settings.max.delay;
    }

    /// The same answer by the originals' pieces, held against what it did by 01. `after` is 01's trainer
    /// after it, `phase` the phase before.
    pub fn answer(&mut self, phase: u8, answer: &Answer, changes: &[Change], after: &Trainer) {
        let tree = self.tree.clone();
        let mut tree = tree.borrow_mut();
        match answer {
            Answer::Counts(counts) => match phase {
                1 | 2 => split_most_used(&mut tree, phase, counts, changes),
                3 => choose(&mut tree, counts, changes),
                _ => {}
            },
            Answer::Score(_) => {
                for change in changes {
                    match *change {
                        Change::Adopt(node, action) => {
                            *leaf(&mut tree, node).action() = to_action(&action);
                        }
                        Change::Mark(node) => leaf(&mut tree, node).mark_optimized(),
                        other => unreachable!("{other:?} by a score"),
                    }
                }
                if let Phase::Candidates { leaf, k: 0, list, .. } = &after.phase {
                    let action = after.tree.leaf(*leaf).unwrap().0;
                    self.same_candidates(&action, list);
                }
            }
        }
        if tree.num_parents() != after.tree.splits.len() {
            disagree("num_parents", tree.num_parents(), after.tree.splits.len());
        }
        if !changes.is_empty() {
            same_tree("the tree after an answer", &tree, &after.tree);
        }
    }

    /// The original's list, which 01's has to equal in every bit.
    pub fn same_candidates(&mut self, action: &Action, list: &[Action]) -> Vec<Action> {
        let original = improvements(&self.settings, action);
        if self.greatest_delay.to_bits() == (-0.0f64).to_bits() {
            let mut given = self.settings.clone();
            given.max_action.intersend_delay = seconds(-0.0);
            if improvements(&given, action).len() != original.len() {
                self.met.push("zero-candidate");
            }
        }
        if original.len() != list.len() || !original.iter().zip(list).all(|(a, b)| a.same(b)) {
            disagree("candidates", &original, list);
        }
        original
    }

    pub fn lookup(&mut self, point: &Point) -> Option<Action> {
        self.note_zero(point);
        self.tree.borrow().action(&to_point(point)).as_ref().map(of_action)
    }

    /// How many cubes `_action` tests, over the originals' own nodes and children.
    pub fn tested(&mut self, point: &Point) -> usize {
        self.note_zero(point);
        let (point, tested) = (to_point(point), Cell::new(0));
        let tree = self.tree.borrow();
        let nodes = tree.field_nodes();
        let holds = |node: usize| {
            tested.set(tested.get() + 1);
            let (RuleTreeNode::Leaf { domain, .. } | RuleTreeNode::Node { domain, .. }) = &nodes[node];
            domain.contains(&point)
        };
        let mut reached = Some(0).filter(|root| holds(*root));
        while let Some(RuleTreeNode::Node { children, .. }) = reached.map(|node| &nodes[node]) {
            reached = children.iter().copied().find(|child| holds(*child));
        }
        tested.get()
    }

    pub fn lookup_replaced(&mut self, node: usize, action: &Action, point: &Point) -> Option<Action> {
        self.note_zero(point);
        let mut tree = self.tree.borrow_mut();
        let handle = leaf(&mut tree, node);
        let found = handle.augmented_tree(to_action(action)).action(&to_point(point));
        found.as_ref().map(of_action)
    }

    /// The row of the even tree that holds a point: each leaf's action tells its row.
    pub fn even_row(&mut self, point: &Point) -> Option<usize> {
        self.note_zero(point);
        let splits: Vec<u16> = (0..9).collect();
        let mut tree = grown_by(&splits).expect("a leaf at each split");
        for row in 0..64 {
            leaf(&mut tree, 9 + row).action().window_increment = row as i32;
        }
        tree.action(&to_point(point)).map(|action| action.window_increment as usize)
    }

    /// One lookup through the counting tree, whose counts are those lent.
    pub fn tally(&mut self, counts: &mut [u64], point: &Point) {
        self.note_zero(point);
        let mut tree = self.tree.borrow_mut();
        let counting = counting(&mut tree, counts);
        counting.action(&to_point(point));
        for (count, cell) in counts.iter_mut().zip(counting.field_counts()) {
            *count = cell.load(Ordering::Relaxed);
        }
    }

    fn note_zero(&mut self, point: &Point) {
        let negative_zero = |x: &f64| x.to_bits() == (-0.0f64).to_bits();
        if point[..2].iter().any(negative_zero) {
            self.met.push("zero-lookup");
        }
    }

    pub fn equal(&self, other: &Trainer) -> bool {
        *self.tree.borrow() == grow(&other.settings, &other.tree)
    }

    pub fn sender(&self) -> SenderState {
        self.sender.held()
    }

    /// The original takes any ack and draws for itself: 1 and 5 are told before, 22 by the lookup that the
    /// original made, and what a refused ack has changed is taken back.
    pub fn ack(&mut self, ack: &Ack) -> Result<u32, Refused> {
        let (sent, received) = (admitted(ack.sent)?, admitted(ack.received)?);
        let before = self.sender.held();
        let (seed, bad_draw) = match (self.repeat, &before.pending) {
            (Repeat::Within(lo, hi), None) => match ack.draw {
                Some(n) if lo <= n && n <= hi => (n, false),
                _ => (lo, true),
            },
            _ => (0, false),
        };
        self.found.set(None);
        let acked = AckReceived { sent_time: moment(sent), received_time: moment(received) };
        let mut rng = Rng::from_seed(u64::from(seed));
        let window = self.sender.ack_received(acked, &mut rng, &mut NothingLogger);
        let action = match &before.pending {
            Some((_, action)) => of_action(action),
            None => match self.found.get() {
                Some(action) => action,
                None => {
                    self.sender.hold(&before);
                    self.met.push("ack-without-rule");
                    return Err(22);
                }
            },
        };
        if bad_draw {
            self.sender.hold(&before);
            return Err(5);
        }
        if i32::try_from(action.window_sum(before.window)).is_err() {
            self.met.push("window-sum");
            let mut after = self.sender.held();
            after.window = action.apply_to(before.window);
            self.sender.hold(&after);
            return Ok(self.sender.initial_cwnd(moment(0.0)));
        }
        Ok(window)
    }

    pub fn send(&mut self, at: f64) -> Result<u32, Refused> {
        let packet = PacketSent { sent_time: moment(admitted(at)?) };
        Ok(self.sender.packet_sent(packet, &mut Rng::from_seed(0), &mut NothingLogger))
    }

    pub fn tick(&mut self) -> u32 {
        self.sender.tick(&mut Rng::from_seed(0), &mut NothingLogger)
    }

    pub fn wake(&self, now: f64) -> Result<Option<f64>, Refused> {
        let now = moment(admitted(now)?);
        Ok(self.sender.next_tick(now).map(seconds_of))
    }
}

pub fn improvements(settings: &RemyTrainer, action: &Action) -> Vec<Action> {
    let list = settings.possible_improvements(to_action(action));
    list.iter().map(of_action).collect()
}

fn split_most_used(tree: &mut RuleTree, phase: u8, counts: &[u64], changes: &[Change]) {
    let mut counting = counting(tree, counts);
    let used = counting.num_used_rules();
    if used != Tree::num_used_rules(counts) {
        disagree("num_used_rules", used, Tree::num_used_rules(counts));
    }
    if phase == 2 && used > 1 {
        if !changes.is_empty() {
            disagree("the end of drilling", used, changes);
        }
        return;
    }
    let (_, handle) = counting.most_used_rule();
    match changes {
        [Change::Split(node)] if *node == number(&handle) => handle.split(),
        _ => disagree("the most used rule", number(&handle), changes),
    }
}

fn choose(tree: &mut RuleTree, counts: &[u64], changes: &[Change]) {
    let chosen = match counting(tree, counts).most_used_unoptimized_rule() {
        Some((fraction, handle)) if fraction != 0. => Some(number(&handle)),
        _ => None,
    };
    match (chosen, changes) {
        (Some(node), [Change::Chose(leaf)]) if node == *leaf => {}
        (None, [Change::ClearMarks]) => tree.mark_all_unoptimized(),
        _ => disagree("the most used unoptimized rule", chosen, changes),
    }
}

pub fn same_sender(original: &SenderState, plain: &Sender) {
    let float = |a: Option<f64>, b: Option<f64>| a.map(f64::to_bits) == b.map(f64::to_bits);
    let pending = match (&original.pending, &plain.pending) {
        (None, None) => true,
        (Some((left, action)), Some(p)) => *left == p.left && of_action(action).same(&p.action),
        _ => false,
    };
    let (shortest, current) = original.round_trips.unzip();
    let (plain_shortest, plain_current) = plain.round_trips.unzip();
    let same = float(original.last_ack, plain.last_ack)
        && float(original.last_sent, plain.last_sent)
        && float(original.ack_average, plain.ack_average)
        && float(original.send_average, plain.send_average)
        && float(shortest, plain_shortest)
        && float(current, plain_current)
        && pending
        && original.window == plain.window
        && float(Some(original.wait), Some(plain.wait))
        && float(original.send, plain.send);
    if !same {
        disagree("the sender", original, plain);
    }
}
