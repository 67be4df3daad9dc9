//! The upper ends of the root box are settings, and stand in records of version 3; older records have the usual ones.

use knellstone::{Answer, Point, Question, Refusal, RepeatMode, Sender, Settings, Trainer};
use std::{fs, path::Path};

fn with(ends: [f64; 3]) -> Settings {
    Settings { ends, ..Settings::default() }
}

fn point(ack_ewma: f64, send_ewma: f64, rtt_ratio: f64) -> Point {
    Point { ack_ewma, send_ewma, rtt_ratio }
}

#[test]
fn from_1_to_1_000_000() {
    let below = |x: f64| f64::from_bits(x.to_bits() - 1);
    let above = |x: f64| f64::from_bits(x.to_bits() + 1);
    let usual = Settings::default();
    for axis in 0..3 {
        let end = |x| {
            let mut ends = [2.0, 3.3, 4.0];
            ends[axis] = x;
            with(ends)
        };
        for x in [1.0, above(1.0), 3.3, below(1e6), 1e6] {
            let settings = end(x);
            let trainer = Trainer::start(&settings).unwrap();
            assert_eq!(trainer.record()[5..142], settings.to_bytes());
            assert_eq!(Trainer::load(trainer.record()).as_ref(), Ok(&trainer));
            assert_eq!(trainer.candidates(usual.default_action), usual.candidates(usual.default_action));
        }
        for x in [below(1.0), 0.0, -1.0, above(1e6), f64::INFINITY, f64::NAN] {
            assert_eq!(Trainer::start(&end(x)), Err(Refusal(2)), "{x}");
            assert_eq!(end(x).candidates(usual.default_action), Err(Refusal(2)), "{x}");
        }
    }
}

#[test]
fn a_box_of_a_second() {
    let mut trainer = Trainer::start(&with([1.0, 1.0, 2.0])).unwrap();
    assert_eq!(trainer.record().len(), 196);
    let usual = Some(Settings::default().default_action);
    let last = f64::from_bits(1.0_f64.to_bits() - 1);
    let inside = [point(0.0, 0.0, 0.0), point(last, last, 1.5)];
    let outside = [point(1.0, 0.0, 1.0), point(0.0, 1.0, 1.0), point(0.0, 0.0, 2.0), point(599.0, 599.0, 999.0)];
    assert_eq!(trainer.lookup(&inside), [usual; 2]);
    assert_eq!(trainer.lookup(&outside), [None; 4]);
    assert_eq!(trainer.tally(&[inside, inside].concat()), [4]);
    assert_eq!(trainer.tally(&outside), [0]);
    assert!(!trainer.same_tree(&Trainer::start(&Settings::default()).unwrap()), "their boxes differ");

    // Split, it is halved at half a second.
    let settings =
        Settings { rule_splits: 1, optimization_rounds_per_split: 0, drill_down: false, ..with([1.0, 1.0, 2.0]) };
    let fresh = Trainer::start(&settings).unwrap();
    trainer = fresh.clone();
    trainer.answer(&[Answer::Counts(vec![5])]).unwrap();
    assert_eq!(trainer.record().len(), 366);
    assert_eq!(trainer.lookup(&outside), [None; 4]);
    let counts = trainer.tally(&[point(0.0, 0.0, 0.0), point(0.5, 0.0, 0.0), point(last, last, 1.0)]);
    assert_eq!(counts.iter().filter(|n| **n == 1).count(), 3);
    assert_eq!(Trainer::load(trainer.record()).as_ref(), Ok(&trainer));
    trainer.undo_split().unwrap();
    assert!(trainer.same_tree(&fresh));
}

#[test]
fn a_sender_in_a_box_of_a_second() {
    let trainer = Trainer::start(&with([1.0, 1.0, 1000.0])).unwrap();
    let mut sender = Sender::new(RepeatMode::Off).unwrap();
    assert_eq!(sender.ack(&trainer, 0.0, 0.05, None).map(|r| r.window), Ok(2));
    assert_eq!(sender.ack(&trainer, 2.0, 2.05, None), Err(Refusal(22)), "a gap of two seconds");
    assert_eq!(sender.ack(&trainer, 0.5, 0.55, None).map(|r| r.window), Ok(3));
    // The first ack's ratio is 1, which a box that ends at 1 does not hold.
    let narrow = Trainer::start(&with([1.0; 3])).unwrap();
    assert_eq!(Sender::new(RepeatMode::Off).unwrap().ack(&narrow, 0.0, 0.05, None), Err(Refusal(22)));
}

/// The record of version 2 of a trainer in the usual box: without the upper ends.
fn version_2(record: &[u8]) -> Vec<u8> {
    let length = record.len() as u32 - 28;
    [&length.to_be_bytes(), &[2][..], &record[5..118], &record[142..]].concat()
}

#[test]
fn older_records() {
    let stored = fs::read(Path::new(env!("CARGO_MANIFEST_DIR")).join("../../crates/old_records/stdin")).unwrap();
    let ends = &Settings::default().to_bytes()[113..];
    let (mut rest, mut some) = (&stored[..], 0);
    while let Some(length) = rest.first_chunk() {
        let (old, next) = rest.split_at(4 + u32::from_be_bytes(*length) as usize);
        let trainer = Trainer::load(old).unwrap();
        let (record, splits) = (trainer.record(), trainer.nodes() / 8);
        assert_eq!((old[4] < 3, record[4]), (true, 3));
        assert_eq!((&record[5..118], &record[118..142]), (&old[5..118], ends));
        assert_eq!(record[142..144 + 2 * splits], old[118..120 + 2 * splits], "the same splits");
        assert_eq!(record[record.len() - 31..], old[old.len() - 31..], "the same state");
        assert_eq!(record.len(), 196 + 170 * splits);
        assert_eq!(Trainer::load(record).as_ref(), Ok(&trainer));
        let second = version_2(record);
        assert_eq!(second.len(), 172 + 170 * splits);
        assert_eq!(Trainer::load(&second).as_ref(), Ok(&trainer));
        (rest, some) = (next, some + 1);
    }
    assert!(rest.is_empty() && some >= 15);
}

#[test]
fn the_largest_record() {
    let settings = Settings { rule_splits: 64, optimization_rounds_per_split: 0, drill_down: false, ..with([1.0; 3]) };
    let mut trainer = Trainer::start(&settings).unwrap();
    while let Question::Counts { .. } = trainer.question() {
        let counts: Vec<u64> = (0..trainer.nodes()).map(|i| u64::from(i + 1 == trainer.nodes())).collect();
        trainer.answer_counts(&counts).unwrap();
    }
    assert_eq!((trainer.nodes(), trainer.record().len()), (513, 11_076));
}
