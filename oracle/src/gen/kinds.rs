//! The kinds of scripts.

use flowforge::trainers::remy::RemyTrainer;

use super::{
    author::Author,
    records::unchecked,
    values::{
        self, any_float, bad_action, calm_header, edge_ends, edge_float, edge_settings, near_action,
        small_settings, step, valid_action, vary_settings,
    },
    Dice, KINDS,
};
use crate::{
    plain::{even_tree, next_list, split_lists, Ack, Phase, Point, Sender, Trainer},
    rust::of_settings,
    script::{repeat, Call, Writer},
};

/// Training to the end, and a little past it.
pub fn train(mut dice: Dice) -> Vec<u8> {
    let large = dice.one_in(25);
    let mut settings = small_settings(&mut dice, if large { 3 } else { 1 });
    if large {
        settings.rule_splits = dice.within(1, 8) as u32;
    }
    let header = calm_header(settings, &mut dice);
    let mut author = Author::new(dice, &header);
    author.finish(if large { 6000 } else { 600 }, 12);
    for _ in 0..author.dice.below(3) {
        author.bad_answer();
    }
    author.done()
}

/// The settings of `RemyTrainer::default`, few splits.
pub fn usual(mut dice: Dice) -> Vec<u8> {
    let mut settings = of_settings(&RemyTrainer::default());
    if !dice.one_in(4) {
        settings.rule_splits = dice.within(0, 2) as u32;
        settings.rounds = dice.within(1, 2) as u32;
    }
    let header = calm_header(settings, &mut dice);
    let mut author = Author::new(dice, &header);
    let answers = if author.dice.one_in(400) { 60_000 } else { author.dice.pick(&[40, 80, 160, 2500]) };
    author.finish(answers, 20);
    author.done()
}

/// Down to the 64th split and past it.
pub fn drill(mut dice: Dice) -> Vec<u8> {
    let mut settings = small_settings(&mut dice, 1);
    settings.rule_splits = dice.pick(&[1, 2, 40, 63, 64]);
    settings.rounds = dice.pick(&[0, 0, 1]);
    settings.drill = !dice.one_in(4);
    let header = calm_header(settings, &mut dice);
    let mut author = Author::new(dice, &header);
    let style = author.dice.below(5);
    let splits = if author.dice.one_in(3) { 70 } else { author.dice.within(1, 30) };
    let mut answers = 0;
    while author.trainer.tree.splits.len() < splits && answers < 150 {
        answers += 1;
        if author.wants_score() || matches!(author.trainer.phase, Phase::Choose) {
            author.good_answer();
            continue;
        }
        let mut counts = vec![0; author.trainer.tree.nodes.len()];
        let newest = counts.len() - 1;
        let node = match style {
            0 => newest,
            1 => newest.saturating_sub(7),
            2 => author.leaf(),
            3 => newest.saturating_sub(author.dice.below(8)),
            _ => newest,
        };
        if style < 4 && author.trainer.tree.leaf(node).is_ok() {
            counts[node] = 1;
        }
        author.call(Call::Counts(counts));
        if author.dice.one_in(6) {
            author.aside();
        }
        if author.trainer.tree.splits.len() == 64 {
            splits_are_full(&mut author);
            break;
        }
    }
    author.finish(20, 4);
    author.done()
}

pub fn splits_are_full(author: &mut Author) {
    for _ in 0..author.dice.within(1, 4) {
        match author.dice.below(4) {
            0 => author.bad_answer(),
            1 => {
                let score = author.score();
                author.call(Call::Score(score));
            }
            2 => author.call(Call::Reload(author.dice.clone().pick(&[11_075, 11_076, 11_077]))),
            _ => {
                let used = author.dice.below(2);
                let counts = author.counts(used);
                author.call(Call::Counts(counts));
            }
        }
    }
    if author.dice.one_in(4) {
        author.call(Call::PrintTree);
    }
    let point = author.point();
    author.call(Call::Lookup(point));
}

/// Every refusal of an answer, between good ones.
pub fn refuse(dice: Dice) -> Vec<u8> {
    let mut author = Author::small(dice);
    if author.dice.one_in(3) {
        let splits = author.dice.pick(&[1, 2, 3, 64]);
        author.load_crafted(splits);
    }
    let answers = author.dice.within(5, 40);
    for _ in 0..answers {
        for _ in 0..author.dice.below(4) {
            author.bad_answer();
        }
        if author.dice.one_in(6) {
            let size = author.trainer.record().len() as u16;
            let length = author.dice.pick(&[0, 1, size - 1, size, size + 1]);
            author.call(Call::Reload(length));
        }
        if author.wants_score() && author.dice.one_in(3) {
            let counts = author.some_counts();
            author.call(Call::Counts(counts));
        }
        author.good_answer();
    }
    author.done()
}

/// Saves with every length of buffer, and loads of what was saved.
pub fn reload(dice: Dice) -> Vec<u8> {
    let mut author = Author::small(dice);
    let answers = author.dice.within(3, 50);
    for _ in 0..answers {
        if author.dice.one_in(2) {
            let size = author.trainer.record().len() as u16;
            let length = author.dice.pick(&[size, size, size, u16::MAX, size - 1, size + 1, 0]);
            author.call(Call::Reload(length));
        }
        if !author.saved.is_empty() && author.dice.one_in(6) {
            let at = author.dice.below(author.saved.len());
            let record = author.saved[at].clone();
            author.call(Call::Load(record));
        }
        if author.dice.one_in(30) {
            let splits = author.some_splits();
            author.load_crafted(splits);
        }
        if author.dice.one_in(8) {
            author.aside();
        }
        author.good_answer();
    }
    author.done()
}

/// Acks, sends, ticks and wakes in every mode of repeat.
pub fn sender(mut dice: Dice) -> Vec<u8> {
    let settings = small_settings(&mut dice, 1);
    let mut header = calm_header(settings, &mut dice);
    header.mode = dice.pick(&[0, 1, 2, 2]);
    (header.lo, header.hi) = match dice.below(6) {
        0 => (0, 0),
        1 => (u32::MAX - 1, u32::MAX - 1),
        2 => (0, u32::MAX - 1),
        3 if header.mode == 1 => (u32::MAX, 0),
        4 if header.mode != 2 => (9, 3),
        _ => (dice.below(3) as u32, dice.within(2, 5) as u32),
    };
    let mut author = Author::new(dice, &header);
    if !author.dice.one_in(3) {
        let splits = author.some_splits();
        author.load_crafted(splits);
    }
    let events = author.dice.pick(&[5, 30, 30, 120]);
    let edges = author.dice.pick(&[3, 10, 1000]);
    for _ in 0..events {
        let mut ack = author.ack();
        if author.dice.one_in(edges) {
            ack.sent = author.edge_moment();
        }
        if author.dice.one_in(edges) {
            ack.received = author.edge_moment();
        }
        if author.dice.one_in(edges) {
            ack.received = ack.sent;
        }
        if author.dice.one_in(3) {
            ack.draw = author.dice.pick(&[
                Some(header.lo),
                Some(header.hi),
                None,
                Some(header.hi.wrapping_add(1)),
                Some(header.lo.wrapping_sub(1)),
            ]);
        }
        let moment = if author.dice.one_in(edges) { author.edge_moment() } else { author.moment() };
        let call = match author.dice.below(10) {
            0 => Call::Send(moment),
            1 => Call::Tick,
            2 => Call::Wake(moment),
            _ => Call::Ack(ack),
        };
        author.call(call);
        if author.dice.one_in(25) {
            author.good_answer();
        }
    }
    author.done()
}

/// Bursts in every mode of repeat, of every size up to the greatest and past it.
pub fn burst(mut dice: Dice) -> Vec<u8> {
    let settings = small_settings(&mut dice, 1);
    let mut header = calm_header(settings, &mut dice);
    header.mode = dice.pick(&[0, 0, 1, 2]);
    let hi = dice.within(0, 4) as u32;
    (header.lo, header.hi) = (dice.within(0, hi as usize) as u32, hi);
    let mut author = Author::new(dice, &header);
    if !author.dice.one_in(3) {
        let splits = author.some_splits();
        author.load_crafted(splits);
    }
    if author.dice.one_in(3) {
        let n = author.dice.pick(&[254, 255, 256, 256, 256, 257, 257, 258, 599, 600]);
        let call = author.burst(n);
        author.call(call);
    }
    for _ in 0..author.dice.within(2, 12) {
        let n = author.dice.pick(&[0, 1, 2, 3, 7, 7, 20, 20, 60]);
        let mut call = author.burst(n);
        if let Call::Burst(acks, _) = &mut call {
            if n > 0 && author.dice.one_in(3) {
                acks[author.dice.below(n)].sent = author.edge_moment();
            }
        }
        author.call(call);
        let moment = author.moment();
        match author.dice.below(6) {
            0 => author.call(Call::Send(moment)),
            1 => author.call(Call::Tick),
            2 => author.good_answer(),
            _ => {}
        }
    }
    let mut script = author.writer.bytes;
    if author.dice.one_in(8) {
        script.extend(author.dice.pick::<&[u8]>(&[
            &[16, 2, 89],
            &[16, 0, 1, 0],
            &[16, 0, 0],
            &[16, 0, 0, 0],
        ]));
    }
    script
}

/// Lookups on edges and middles, with one action replaced, and tallies.
pub fn lookup(dice: Dice) -> Vec<u8> {
    let mut author = Author::small(dice);
    let calls = author.dice.within(5, 60);
    let splits = author.some_splits();
    author.load_crafted(splits);
    for _ in 0..calls {
        let point = author.point();
        let call = match author.dice.below(5) {
            0 | 1 => Call::Lookup(point),
            2 => {
                let nodes = author.trainer.tree.nodes.len();
                let mut leaf = author.dice.pick(&[0, nodes - 1, nodes, 65_535]) as u16;
                if author.dice.one_in(2) {
                    leaf = author.trainer.tree.reached(&point).unwrap_or(0) as u16;
                } else if author.dice.one_in(2) {
                    leaf = author.dice.below(nodes) as u16;
                }
                let dice = &mut author.dice;
                let action = if dice.one_in(5) { bad_action(dice) } else { valid_action(dice) };
                Call::LookupReplaced(leaf, action, point)
            }
            _ => Call::Tally(point),
        };
        author.call(call);
        if author.dice.one_in(30) {
            let splits = if author.dice.one_in(2) {
                author.trainer.tree.splits.len()
            } else {
                author.some_splits().min(8)
            };
            author.load_crafted(splits);
        }
    }
    if author.dice.one_in(4) {
        author.call(Call::PrintTree);
    }
    author.done()
}

/// Candidates at the limits of the settings.
pub fn candidate(mut dice: Dice) -> Vec<u8> {
    let settings = if dice.one_in(2) { edge_settings(&mut dice) } else { small_settings(&mut dice, 8) };
    let header = calm_header(settings, &mut dice);
    let mut author = Author::new(dice, &header);
    for _ in 0..author.dice.within(3, 25) {
        let settings = author.trainer.settings.clone();
        let dice = &mut author.dice;
        let mut action = match dice.below(10) {
            0 => bad_action(dice),
            1 => valid_action(dice),
            2 => settings.default,
            _ => near_action(&settings, dice),
        };
        if dice.one_in(4) {
            action.multiplier = step(action.multiplier, dice);
            action.delay = step(action.delay, dice);
        }
        let length = if action.valid() { settings.candidates(&action).len() as u32 } else { 0 };
        let k = match dice.below(6) {
            0 => 0,
            1 => length,
            2 => length.saturating_sub(1),
            3 => u32::MAX,
            _ => dice.below(length as usize + 2) as u32,
        };
        author.call(Call::Candidate(action, k));
        if author.dice.one_in(8) {
            let settings = edge_settings(&mut author.dice);
            let trainer = Trainer::start(settings).expect("settings that hold");
            let record = author.written(&trainer);
            author.call(Call::Load(record));
        }
    }
    if author.dice.one_in(3) {
        author.load_crafted(0);
    }
    author.finish(10, 0);
    author.done()
}

/// Damaged records.
pub fn damage(dice: Dice) -> Vec<u8> {
    let mut author = Author::small(dice);
    let splits = author.some_splits();
    let trainer = author.crafted(splits);
    let record = author.written(&trainer);
    let whole = record.len() < 400 && author.dice.one_in(3);
    let at: Vec<usize> = if whole {
        (0..record.len()).collect()
    } else {
        (0..author.dice.within(3, 12)).map(|_| author.damaged_place(&record)).collect()
    };
    for place in at {
        let mut damaged = record.clone();
        damaged[place] = match author.dice.below(6) {
            0 => 0,
            1 => 0xff,
            2 => 0x7f,
            3 => damaged[place].wrapping_add(1),
            4 => damaged[place] ^ (1 << author.dice.below(8)),
            _ => author.dice.next() as u8,
        };
        let call = if author.dice.one_in(4) { Call::Equal(damaged) } else { Call::Load(damaged) };
        author.call(call);
    }
    for _ in 0..author.dice.within(1, 4) {
        let bent = author.bent(&record);
        author.call(Call::Load(bent));
    }
    let mut trainer = author.crafted(splits.min(3));
    trainer.settings.rounds = trainer.settings.rounds.max(1);
    for _ in 0..author.dice.within(4, 24) {
        let edged = author.edged(&trainer);
        author.call(Call::Load(edged));
    }
    if author.dice.one_in(2) {
        author.call(Call::Load(record));
        author.finish(4, 0);
    }
    author.done()
}

/// Trees that are equal, nearly equal and not.
pub fn equal(dice: Dice) -> Vec<u8> {
    let mut author = Author::small(dice);
    for _ in 0..author.dice.within(1, 3) {
        let splits = author.some_splits();
        let one = author.crafted(splits);
        let record = author.written(&one);
        author.call(Call::Load(record));
        for _ in 0..author.dice.within(1, 6) {
            let mut other = author.another_order(&author.trainer.clone());
            author.vary(&mut other);
            let record = author.written(&other);
            author.call(Call::Equal(record));
        }
    }
    author.done()
}
/// Headers, most of them with one thing wrong or at its limit.
pub fn header(mut dice: Dice) -> Vec<u8> {
    let settings = if dice.one_in(2) { edge_settings(&mut dice) } else { small_settings(&mut dice, 8) };
    let mut header = calm_header(settings, &mut dice);
    match dice.below(6) {
        0 => header.drill = dice.pick(&[0, 1, 2, 255]),
        1 => header.mode = dice.pick(&[3, 255, 2]),
        2 => {
            let (lo, hi) =
                dice.pick(&[(0, u32::MAX), (0, u32::MAX - 1), (5, 4), (5, 5), (u32::MAX, u32::MAX)]);
            (header.mode, header.lo, header.hi) = (2, lo, hi);
        }
        _ => vary_settings(&mut header.settings, &mut dice),
    }
    let whole = header.drill <= 1
        && header.settings.check().is_ok()
        && repeat(&header).is_some_and(|r| Sender::new(r).is_ok());
    if !whole {
        let mut script = Writer::new(&header).bytes;
        script.truncate(if dice.one_in(8) { dice.below(script.len()) } else { script.len() });
        return script;
    }
    header.settings.drill = header.drill == 1;
    let mut author = Author::new(dice, &header);
    author.finish(3, 2);
    author.done()
}

/// Records of fresh trainers, each with one setting at or past a limit.
pub fn limits(dice: Dice) -> Vec<u8> {
    let mut author = Author::small(dice);
    for _ in 0..author.dice.within(5, 40) {
        let dice = &mut author.dice;
        let mut settings = if dice.one_in(3) { edge_settings(dice) } else { small_settings(dice, 8) };
        vary_settings(&mut settings, dice);
        let action = near_action(&settings, dice);
        let trainer = unchecked(settings);
        let record = author.written(&trainer);
        let dice = &mut author.dice;
        let call = if dice.one_in(8) { Call::Equal(record) } else { Call::Load(record) };
        let k = dice.below(20) as u32;
        author.call(call);
        author.call(Call::Candidate(action, k));
    }
    author.done()
}

/// A script of another kind that is cut, or goes on with what is no call.
pub fn cut(mut dice: Dice) -> Vec<u8> {
    let others: Vec<_> = KINDS
        .iter()
        .filter(|(name, _)| {
            !["cut", "undo", "ends", "apply", "lists", "even", "change", "draws", "tested", "ranges"]
                .contains(name)
        })
        .collect();
    let (_, author) = others[dice.below(others.len())];
    let mut script = author(Dice(dice.next()));
    if dice.one_in(2) {
        script.truncate(dice.below(script.len() + 1));
        return script;
    }
    match dice.below(5) {
        0 => script.push(dice.pick(&[0, 15, 16, 255])),
        1 => script.extend([1, 2, 89]),
        2 => script.extend([dice.pick(&[13, 14]), 0, 0, 0x40, 0x75]),
        3 => script.extend([13, 0, 0, 0x40, 0x74]),
        _ => script.extend([dice.within(1, 14) as u8]),
    }
    if dice.one_in(2) {
        script.extend(vec![0; dice.below(20_000)]);
    }
    script
}

/// All calls in any order.
pub fn mixed(dice: Dice) -> Vec<u8> {
    let mut author = Author::small(dice);
    for _ in 0..author.dice.within(5, 80) {
        match author.dice.below(20) {
            0..=6 => author.good_answer(),
            7 => author.bad_answer(),
            8 if author.dice.one_in(3) => {
                let splits = author.some_splits();
                author.load_crafted(splits);
            }
            9 if !author.saved.is_empty() => {
                let at = author.dice.below(author.saved.len());
                let record = author.saved[at].clone();
                let call = if author.dice.one_in(2) { Call::Load(record) } else { Call::Equal(record) };
                author.call(call);
            }
            10 => {
                let (one, other) = (author.edge_moment(), author.edge_moment());
                author.call(Call::Send(one));
                author.call(Call::Wake(other));
            }
            _ => author.aside(),
        }
    }
    author.done()
}

/// Splits taken back: of trees that answers grew, of loaded ones in any version, and of those taken back before.
pub fn undo(dice: Dice) -> Vec<u8> {
    let mut author = Author::small(dice);
    for _ in 0..author.dice.within(2, 12) {
        match author.dice.below(8) {
            0 => {
                let splits = author.some_splits();
                author.load_crafted(splits);
            }
            1 | 2 => author.load_undone(),
            3 if !author.saved.is_empty() => {
                let at = author.dice.below(author.saved.len());
                let record = author.saved[at].clone();
                author.call(Call::Load(record));
            }
            4 => author.aside(),
            5 => author.call(Call::Reload(u16::MAX)),
            _ => author.finish(8, 0),
        }
        if author.dice.one_in(2) {
            author.call(Call::PrintTree);
        }
        author.call(Call::UndoSplit);
    }
    let mut script = author.writer.bytes;
    if author.dice.one_in(8) {
        script.extend([17, author.dice.pick(&[15, 16, 18])]);
    }
    script
}

/// Four words, some of them 0 or 1s alone; four zeros too.
fn seed(dice: &mut Dice) -> [u64; 4] {
    let style = dice.below(6);
    std::array::from_fn(|i| match style {
        0 => [1, 2, 3, 4][i],
        1 => 0,
        2 => dice.pick(&[0, 0, 0, 1, 1 << 63, u64::MAX]),
        _ => dice.next(),
    })
}

/// The generator's steps both ways, and acks that draw for themselves, with every repeat mode.
pub fn draws(mut dice: Dice) -> Vec<u8> {
    let settings = small_settings(&mut dice, 2);
    let mut header = calm_header(settings, &mut dice);
    if !dice.one_in(4) {
        let hi = dice.within(0, 4) as u32;
        header.mode = 2;
        (header.lo, header.hi) = dice.pick(&[
            (0, hi),
            (0, hi),
            (0, 0),
            (hi, hi),
            (0, 4_294_967_294),
            (4_294_967_294, 4_294_967_294),
        ]);
    }
    let mut author = Author::new(dice, &header);
    if author.dice.one_in(3) {
        let splits = author.some_splits();
        author.load_crafted(splits);
    }
    if !author.dice.one_in(8) {
        let words = seed(&mut author.dice);
        author.call(Call::Seed(words));
    }
    for _ in 0..author.dice.within(5, 120) {
        let ack = author.ack();
        let moment = author.moment();
        let call = match author.dice.below(20) {
            0 => Call::Seed(seed(&mut author.dice)),
            1 | 2 => Call::Step,
            3 => Call::StepBack,
            4 => Call::Send(moment),
            5 => Call::Tick,
            6 => Call::Ack(ack),
            7 => Call::OwnAck(author.edge_moment(), ack.received),
            8 => Call::OwnAck(ack.sent, author.edge_moment()),
            _ => Call::OwnAck(ack.sent, ack.received),
        };
        author.call(call);
        if author.dice.one_in(40) {
            author.good_answer();
        }
    }
    if author.dice.one_in(4) {
        let back = author.dice.one_in(3);
        for _ in 0..author.dice.within(100, 400) {
            author.call(if back { Call::StepBack } else { Call::Step });
        }
    }
    let mut script = author.writer.bytes;
    if author.dice.one_in(8) {
        script.extend([author.dice.pick(&[19, 20]), 0, 0]);
    }
    script
}

/// Upper ends of every sort: their trees, senders at their edges, and records in every version.
pub fn ends(mut dice: Dice) -> Vec<u8> {
    let mut settings = small_settings(&mut dice, 2);
    settings.ends = if dice.one_in(8) { edge_ends(&mut dice) } else { values::ends(&mut dice) };
    let header = calm_header(settings, &mut dice);
    if header.settings.check().is_err() {
        return Writer::new(&header).bytes;
    }
    let mut author = Author::new(dice, &header);
    for _ in 0..author.dice.within(3, 40) {
        match author.dice.below(16) {
            0 | 1 => {
                let splits = author.some_splits();
                author.load_crafted(splits);
            }
            2 => {
                let trainer = Author::regrown(&author.trainer, values::ends(&mut author.dice));
                let record = author.written(&trainer);
                author.call(Call::Load(record));
            }
            3 => {
                let other = next_ends(&mut author);
                let trainer = Author::regrown(&author.another_order(&author.trainer.clone()), other);
                let record = author.written(&trainer);
                author.call(Call::Equal(record));
            }
            4 | 5 => {
                let record = author.other_ends(&author.trainer.clone());
                let call = if author.dice.one_in(3) { Call::Equal(record) } else { Call::Load(record) };
                author.call(call);
            }
            6 => author.call(Call::Reload(u16::MAX)),
            7 => author.call(if author.dice.clone().one_in(2) { Call::PrintTree } else { Call::UndoSplit }),
            8 | 9 => {
                let ack = ack_at_ends(&mut author);
                author.call(Call::Ack(ack));
            }
            10 => {
                let ends = author.trainer.settings.ends;
                let point = ends.map(|end| author.dice.pick(&[0.0, end / 2.0, end.next_down(), end]));
                author.call(Call::Lookup(point));
            }
            11 => author.aside(),
            _ => author.good_answer(),
        }
    }
    author.done()
}

/// New settings in every phase, taken and refused, with training and reloads after them.
pub fn change(dice: Dice) -> Vec<u8> {
    let mut author = Author::small(dice);
    for _ in 0..author.dice.within(4, 30) {
        match author.dice.below(12) {
            0 => {
                let splits = author.some_splits();
                author.load_crafted(splits);
            }
            1 => author.call(Call::Reload(u16::MAX)),
            2 => author.aside(),
            3 if !author.saved.is_empty() => {
                let at = author.dice.below(author.saved.len());
                let record = author.saved[at].clone();
                author.call(Call::Load(record));
            }
            4..=7 => author.change_settings(),
            8 => author.bad_answer(),
            _ => author.finish(6, 0),
        }
    }
    author.done()
}

/// Cubes tested: of points on edges, in middles and outside, in trees of every depth, with ends of every sort.
pub fn tested(mut dice: Dice) -> Vec<u8> {
    let mut settings = small_settings(&mut dice, 2);
    if dice.one_in(2) {
        settings.ends = values::ends(&mut dice);
    }
    let header = calm_header(settings, &mut dice);
    let mut author = Author::new(dice, &header);
    for _ in 0..author.dice.within(4, 60) {
        match author.dice.below(12) {
            0 => {
                let splits = author.dice.pick(&[1, 2, 8, 40, 64]);
                author.load_crafted(splits);
            }
            1 => author.good_answer(),
            2 => {
                let point = author.trainer.settings.ends.map(f64::next_down);
                author.call(Call::Tested(point));
            }
            3 => author.aside(),
            _ => {
                let point = author.point();
                author.call(Call::Tested(point));
            }
        }
    }
    author.done()
}

/// Leaves within ranges: of trees that answers grew and of loaded ones, deep ones among them.
pub fn ranges(dice: Dice) -> Vec<u8> {
    let mut author = Author::small(dice);
    for _ in 0..author.dice.within(3, 30) {
        match author.dice.below(8) {
            0 => {
                let splits = author.some_splits();
                author.load_crafted(splits);
            }
            1 => author.finish(8, 0),
            2 => author.aside(),
            _ => {}
        }
        let call = author.leaves();
        author.call(call);
    }
    author.done()
}

/// The trainer's upper ends, or others that stand next to them on one axis.
fn next_ends(author: &mut Author) -> Point {
    let mut ends = author.trainer.settings.ends;
    let axis = author.dice.below(3);
    ends[axis] = step(ends[axis], &mut author.dice);
    ends
}

/// An ack whose gaps or whose ratio come near the upper ends.
fn ack_at_ends(author: &mut Author) -> Ack {
    let [acks, sends, ratio] = author.trainer.settings.ends;
    let last_sent = author.sender.last_sent.unwrap_or(0.0);
    let last_ack = author.sender.last_ack.unwrap_or(1.0);
    let shortest = author.sender.round_trips.map_or(0.5, |(shortest, _)| shortest);
    let dice = &mut author.dice;
    let sent = last_sent + dice.pick(&[0.0, 0.25, sends / 2.0, sends.next_down(), sends]);
    let received = match dice.below(3) {
        0 => last_ack + dice.pick(&[0.25, acks / 2.0, acks.next_down(), acks]),
        1 => sent + shortest * dice.pick(&[1.0, ratio / 2.0, ratio.next_down(), ratio]),
        _ => sent + shortest,
    };
    Ack { sent, received, draw: author.any_ack().draw }
}

/// The window rule alone, mostly at the ends of its ranges: sums about 0 and 1,000,000, products about those of i32, and actions that
/// are not valid.
pub fn apply(dice: Dice) -> Vec<u8> {
    let mut author = Author::small(dice);
    for _ in 0..author.dice.within(10, 120) {
        let dice = &mut author.dice;
        let window = match dice.below(6) {
            0 => dice.pick(&[0, 1, 2, 999_999, 1_000_000, 1_000_001, 2_147_483_647, 2_147_483_648, u32::MAX]),
            1 => dice.next() as u32,
            _ => dice.below(1_000_001) as u32,
        };
        let mut action = valid_action(dice);
        match dice.below(8) {
            0 => action.increment = 1_000_001 - dice.below(3) as i32 - window.min(1_000_000) as i32,
            1 => action.increment = 1 - dice.below(3) as i32 - window.min(1_000_000) as i32,
            2 => action.multiplier = dice.pick(&[f64::NAN, f64::INFINITY, f64::NEG_INFINITY]),
            3 => action.multiplier = step(2_147_483_648.0 / f64::from(window.max(1)), dice),
            4 => action.multiplier = step(-2_147_483_649.0 / f64::from(window.max(1)), dice),
            5 => action.increment = dice.next() as i32,
            6 => action.multiplier = -dice.unit() / f64::from(window.max(1)),
            _ => {}
        }
        if dice.one_in(2) && (action.increment.unsigned_abs() > 100 || window < 100) {
            action.multiplier = 1.0;
        }
        author.call(Call::Apply(action, window));
        if author.dice.one_in(10) {
            author.aside();
        }
    }
    author.done()
}

/// Every small tree in turn: from a list on, for some steps or to the last; and lists that are none of them.
pub fn lists(dice: Dice) -> Vec<u8> {
    let mut author = Author::small(dice);
    for _ in 0..author.dice.within(2, 6) {
        match author.dice.below(6) {
            0 | 1 => {
                let n = author.dice.pick(&[0, 1, 2, 3]);
                let steps = author.dice.pick(&[2, 20, 150]);
                walk(&mut author, n, Vec::new(), steps);
            }
            2 => {
                let (n, lists) = (author.dice.pick(&[0, 1, 2, 3]), split_lists(3));
                let list = lists[author.dice.below(lists.len())].clone();
                walk(&mut author, n, list, 12);
            }
            3 | 4 => {
                let n = author.dice.pick(&[0, 1, 2, 3, 3, 3, 3, 4, 255]);
                let list = no_list(&mut author.dice);
                author.call(Call::NextList(n, list));
            }
            _ => author.aside(),
        }
    }
    let mut script = author.writer.bytes;
    if author.dice.one_in(8) {
        script.extend([26, 3, 2, 0, 0, 0]);
    }
    script
}

/// Each list that is given is asked for the next.
fn walk(author: &mut Author, n: u8, mut list: Vec<u16>, steps: usize) {
    for _ in 0..steps {
        author.call(Call::NextList(n, list.clone()));
        match next_list(n, &list) {
            Ok(Some(next)) => list = next,
            _ => break,
        }
    }
}

/// Mostly none of the lists, by little.
fn no_list(dice: &mut Dice) -> Vec<u16> {
    let lists = split_lists(3);
    let mut list = lists[dice.below(lists.len())].clone();
    match dice.below(6) {
        0 => list.push(dice.below(26) as u16),
        1 => list = (0..dice.within(0, 4)).map(|_| dice.below(18) as u16).collect(),
        2 => list.resize(dice.pick(&[4, 5, 127, 255]), 1),
        3 if !list.is_empty() => list[0] = dice.pick(&[0, 1, 9, u16::MAX]),
        4 if list.len() > 1 => list[1] = dice.pick(&[0, 8, 9, 256]),
        _ if list.len() > 2 => list[2] = dice.pick(&[0, list[1], 16, 17, 272]),
        _ => {}
    }
    list
}

/// Rows of the even tree: at the ends and middles of its cubes, beside them, and anywhere.
pub fn even(dice: Dice) -> Vec<u8> {
    let mut author = Author::small(dice);
    let tree = even_tree();
    for _ in 0..author.dice.within(2, 60) {
        let cube = tree.nodes[author.dice.below(tree.nodes.len())].cube;
        let style = author.dice.below(6);
        let dice = &mut author.dice;
        let point = std::array::from_fn(|axis| {
            let (min, max) = (cube.min[axis], cube.max[axis]);
            let end = dice.pick(&[min, max, (min + max) / 2.0]);
            match style {
                0 => min,
                1 => end,
                2 => step(end, dice),
                3 if dice.one_in(3) => any_float(dice),
                4 if dice.one_in(3) => edge_float(dice),
                _ => min + (max - min) * dice.unit(),
            }
        });
        author.call(Call::EvenRow(point));
        if author.dice.one_in(12) {
            author.aside();
        }
    }
    let mut script = author.writer.bytes;
    if author.dice.one_in(8) {
        script.extend(vec![25; author.dice.within(1, 24)]);
    }
    script
}
