//! A whole training run. Counts and scores are cheap functions of the question, the same on both sides.

use std::{cell::RefCell, rc::Rc, sync::atomic::Ordering};

use flowforge::{
    ccas::remy::dna::RemyDna,
    harness::{self, Asked, Host},
    trainers::remy::RemyTrainer,
};

use crate::{
    clock::alternate,
    plain::Trainer,
    raw,
    rust::{of_settings, same_tree},
    size,
    table::{thousands, Table},
};

const RULE_SPLITS: u32 = 4;
const ROUNDS: u32 = 1;

/// The nodes that are used, with their counts: the eight newest, or the root.
fn used(nodes: usize) -> impl Iterator<Item = (usize, u64)> {
    (nodes.saturating_sub(8)..nodes).map(move |node| (node, (5 * node + nodes) as u64 % 8 + 1))
}

/// Highest at the action that suits the leaf.
fn score(leaf: usize, multiplier: f64, increment: i32, delay: f64) -> f64 {
    let place = (leaf % 8) as f64 / 8.0;
    let window = 20.0 * multiplier + f64::from(increment);
    -(window - 12.0 - 10.0 * place).abs() - 2000.0 * (delay - 0.002 - 0.0005 * place).abs()
}

/// A question: none for counts, or the leaf and the action's bits.
type Told = Option<(usize, u64, i32, u64)>;

/// A list of answers: groups of counts and of scores.
fn group(list: &mut Vec<u8>, kind: u8, numbers: impl ExactSizeIterator<Item = u64>) {
    list.push(kind);
    list.extend((numbers.len() as u16).to_be_bytes());
    numbers.for_each(|n| list.extend(n.to_be_bytes()));
}

/// By the calls of the library, one list of counts or one row of scores a call. What each question was goes to
/// `tell`, and the answers to `journal`.
fn ours(settings: &[u8; 137], mut tell: impl FnMut(Told), mut journal: impl FnMut(&[u8])) -> Vec<u8> {
    let (mut record, mut next) = (vec![0; 11_076], vec![0; 11_076]);
    let mut length = size(raw::start(settings, &mut record));
    let mut question = [0; 31];
    let mut row = vec![0; 20 * 4097];
    let mut list = Vec::new();
    loop {
        let held = &record[..length];
        size(raw::question(held, &mut question));
        list.clear();
        match question[0] {
            1 => {
                tell(None);
                let nodes = 1 + 8 * usize::from(u16::from_be_bytes([held[142], held[143]]));
                let mut counts = [0; 513];
                used(nodes).for_each(|(node, count)| counts[node] = count);
                group(&mut list, 1, counts[..nodes].iter().copied());
            }
            2 => {
                let leaf = usize::from(u16::from_be_bytes([question[1], question[2]]));
                let asked = size(raw::asked(held, &mut row));
                let scores = row[..asked].chunks_exact(20).map(|action| {
                    let bits = |at: usize| u64::from_be_bytes(action[at..at + 8].try_into().unwrap());
                    let (multiplier, delay) = (bits(0), bits(12));
                    let increment = i32::from_be_bytes(action[8..12].try_into().unwrap());
                    tell(Some((leaf, multiplier, increment, delay)));
                    score(leaf, f64::from_bits(multiplier), increment, f64::from_bits(delay)).to_bits()
                });
                group(&mut list, 2, scores);
            }
            _ => break,
        }
        journal(&list);
        length = size(raw::answers(held, &list, &mut next));
        std::mem::swap(&mut record, &mut next);
    }
    record.truncate(length);
    record
}

/// The same answers in one call.
fn ours_at_once(settings: &[u8; 137], list: &[u8], record: &mut [u8; 11_076]) -> usize {
    let mut fresh = [0; 11_076];
    let length = size(raw::start(settings, &mut fresh));
    size(raw::answers(&fresh[..length], list, record))
}

struct Handed<F>(F);

impl<F: FnMut(Told)> Host for Handed<F> {
    fn answer(&mut self, asked: Asked<'_>) -> f64 {
        match asked {
            Asked::Counts { counts, .. } => {
                (self.0)(None);
                for (node, count) in used(counts.len()) {
                    counts[node].store(count, Ordering::Relaxed);
                }
                0.0
            }
            Asked::Score { leaf, action, .. } => {
                let (multiplier, increment) = (action.window_multiplier, action.window_increment);
                let delay = action.intersend_delay.seconds();
                (self.0)(Some((leaf, multiplier.to_bits(), increment, delay.to_bits())));
                score(leaf, multiplier, increment, delay)
            }
        }
    }

    fn progress(&mut self, _: f64) {}
}

/// Hands over the scores of a list in turn; counts are as above.
struct Listed(std::vec::IntoIter<f64>);

impl Host for Listed {
    fn answer(&mut self, asked: Asked<'_>) -> f64 {
        match asked {
            Asked::Counts { counts, .. } => {
                for (node, count) in used(counts.len()) {
                    counts[node].store(count, Ordering::Relaxed);
                }
                0.0
            }
            Asked::Score { .. } => self.0.next().expect("as many scores as are asked for"),
        }
    }

    fn progress(&mut self, _: f64) {}
}

fn theirs(settings: &RemyTrainer, host: impl Host + 'static) -> RemyDna {
    harness::train(settings, of_settings(settings).ends, Box::new(host)).expect("nobody stops it")
}

pub fn whole(table: &mut Table) {
    let originals = RemyTrainer {
        rule_splits: RULE_SPLITS,
        optimization_rounds_per_split: ROUNDS,
        ..RemyTrainer::default()
    };
    let settings = knellstone::Settings {
        rule_splits: RULE_SPLITS,
        optimization_rounds_per_split: ROUNDS,
        ..knellstone::Settings::default()
    };
    let settings = settings.to_bytes();
    let fresh = Trainer::start(of_settings(&originals)).unwrap().record();
    assert_eq!(fresh[5..142], settings, "both sides have the same settings");

    let (mut asked, mut list, mut rows) = (Vec::new(), Vec::new(), 0);
    let record = ours(
        &settings,
        |told| asked.push(told),
        |answers| {
            list.extend(answers);
            rows += 1;
        },
    );
    let others = Rc::new(RefCell::new(Vec::new()));
    let dna = theirs(&originals, {
        let others = others.clone();
        Handed(move |told| others.borrow_mut().push(told))
    });
    assert!(asked == *others.borrow(), "both sides ask the same");
    same_tree("the trained tree", &dna.0, &Trainer::load(&record).unwrap().tree);

    let of =
        |told: &(usize, u64, i32, u64)| score(told.0, f64::from_bits(told.1), told.2, f64::from_bits(told.3));
    let scores: Vec<f64> = asked.iter().flatten().map(of).collect();
    let mut last = [0; 11_076];
    assert_eq!(ours_at_once(&settings, &list, &mut last), record.len());
    assert_eq!(last[..record.len()], record, "the same record");
    same_tree(
        "the listed run's tree",
        &theirs(&originals, Listed(scores.clone().into_iter())).0,
        &Trainer::load(&record).unwrap().tree,
    );

    let times = alternate(
        table.repeats,
        1,
        || ours_at_once(&settings, &list, &mut last),
        || theirs(&originals, Listed(scores.clone().into_iter())),
    );
    let note = format!(
        "{} lists of counts and {} scores, handed over in one call of {} bytes, which writes a record of {} bytes; \
         the Rust gets the same answers from a list in memory",
        asked.len() - scores.len(),
        thousands(scores.len()),
        thousands(list.len()),
        thousands(record.len()),
    );
    table.timed(
        &format!("training, {RULE_SPLITS} splits, {ROUNDS} round, the answers in one list"),
        "a run",
        &times,
        &note,
    );

    let times = alternate(
        table.repeats,
        1,
        || ours(&settings, |_| (), |_| ()),
        || theirs(&originals, Handed(|_| ())),
    );
    let note = format!(
        "as a host trains: the question, the actions that are asked for in a row, and their scores in one call, {} \
         times in all; each call reads the record, and the answers write the next. The Rust keeps its trainer in memory",
        thousands(rows),
    );
    table.timed(
        &format!("training, {RULE_SPLITS} splits, {ROUNDS} round, a call a row"),
        "a run",
        &times,
        &note,
    );
}
