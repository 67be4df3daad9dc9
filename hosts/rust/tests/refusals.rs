//! What is excluded is refused by its number, and then nothing has changed.

use knellstone::{even_row, next_list, Action, Answer, Event, Point, Question, Refusal, RepeatMode, Reply, Sender, Settings, Trainer};

fn fresh() -> Trainer {
    Trainer::start(&Settings::default()).unwrap()
}

#[test]
fn settings() {
    let bytes = Settings::default().to_bytes();
    assert_eq!(Trainer::start_from(&bytes[..113]), Err(Refusal(2)), "the upper ends are left out");
    assert_eq!(Trainer::start_from(&bytes[..136]), Err(Refusal(2)));
    assert_eq!(Trainer::start_from(&[]), Err(Refusal(2)));
    let mut drill = bytes;
    drill[12] = 2;
    assert_eq!(Trainer::start_from(&drill), Err(Refusal(2)));
    assert_eq!(Trainer::start(&Settings { rule_splits: 65, ..Settings::default() }), Err(Refusal(2)));
    assert_eq!(Sender::new(RepeatMode::Between(2, 1)), Err(Refusal(2)));
    assert_eq!(Sender::new_from(&[3, 0, 0, 0, 0, 0, 0, 0, 0]), Err(Refusal(2)));
    assert_eq!(Sender::new_from(&[0; 8]), Err(Refusal(2)));
}

#[test]
fn answers() {
    let mut trainer = fresh();
    let before = trainer.clone();
    assert_eq!(trainer.answer_score(1.0), Err(Refusal(21)));
    assert_eq!(trainer.answer_counts(&[]), Err(Refusal(4)));
    assert_eq!(trainer.answer_counts(&[1, 2]), Err(Refusal(4)));
    assert_eq!(trainer.answer_counts(&[(1 << 53) + 1]), Err(Refusal(4)));
    assert_eq!(trainer.answer_counts(&vec![0; 100_000]), Err(Refusal(4)));
    assert_eq!(trainer, before);
    assert_eq!(trainer.answer_counts(&[1 << 53]), Ok(()));
    assert_ne!(trainer, before);
}

#[test]
fn answers_in_a_row() {
    let mut trainer = fresh();
    let before = trainer.clone();
    assert_eq!(trainer.asked(), []);
    assert_eq!(trainer.answer_scores(&[1.0]), Err(Refusal(21)));
    assert_eq!(trainer.answer(&[Answer::Counts(vec![1, 2])]), Err(Refusal(4)));
    assert_eq!(trainer.answer(&[Answer::Counts(vec![0; 70_000])]), Err(Refusal(4)));
    assert_eq!(trainer.answer(&[Answer::Counts(vec![5]), Answer::Counts(vec![5])]), Err(Refusal(21)));
    assert_eq!(trainer.answer(&[Answer::Scores(vec![1.0]), Answer::Counts(vec![0; 70_000])]), Err(Refusal(21)));
    for cut in [&[1][..], &[1, 0], &[1, 0, 1], &[2, 0, 1, 0, 0, 0, 0, 0, 0, 0], &[3, 0, 0], &[0, 0, 0]] {
        assert_eq!(trainer.answer_list(cut), Err(Refusal(6)), "{cut:?}");
    }
    assert_eq!(trainer, before);
    assert_eq!(trainer.answer(&[]), Ok(()));
    assert_eq!(trainer.answer(&[Answer::Scores(vec![])]), Ok(()));
    assert_eq!(trainer, before);
    assert_eq!(trainer.answer(&[Answer::Counts(vec![5])]), Ok(()));

    let settings = Settings::default();
    let row = trainer.asked();
    assert_eq!(row[0], settings.default_action);
    assert_eq!(row[1..], settings.candidates(settings.default_action).unwrap());
    assert_eq!(row.len(), 37);
    let mut one_by_one = trainer.clone();
    for i in 0..row.len() {
        assert!(matches!(one_by_one.question(), Question::Score { leaf: 0, action, .. } if action == row[i]));
        one_by_one.answer_score((i % 7) as f64).unwrap();
        let mut some = trainer.clone();
        some.answer_scores(&(0..=i).map(|k| (k % 7) as f64).collect::<Vec<_>>()).unwrap();
        assert_eq!(some, one_by_one, "after {} scores", i + 1);
    }
    let held = trainer.clone();
    let mut lowest = vec![1.0];
    lowest.resize(38, 0.0);
    assert_eq!(trainer.answer_scores(&lowest), Err(Refusal(21)), "no score is asked for after the last");
    assert_eq!(trainer, held);
    assert_eq!(trainer.answer_scores(&lowest[..37]), Ok(()));
    assert!(matches!(trainer.question(), Question::Counts { .. }));
}

#[test]
fn candidates() {
    let settings = Settings::default();
    let list = settings.candidates(Action::new(0.5, 20, 0.0015)).unwrap();
    assert_eq!(list.len(), 216);
    assert_eq!(settings.candidates(Action::new(f64::NAN, 0, 0.0)), Err(Refusal(1)));
    let bad = Settings { rule_splits: 65, ..settings };
    assert_eq!(bad.candidates(Action::new(f64::NAN, 0, 0.0)), Err(Refusal(2)));
}

#[test]
fn equality() {
    let trainer = fresh();
    assert!(trainer.same_tree(&trainer));
    let other = Settings { default_action: Action::new(0.5, 7, 0.001), ..Settings::default() };
    assert!(!trainer.same_tree(&Trainer::start(&other).unwrap()));
    let mut counted = trainer.clone();
    counted.answer_counts(&[5]).unwrap();
    assert_ne!(counted, trainer);
    assert!(trainer.same_tree(&counted), "the tree alone is compared");
}

#[test]
fn records() {
    let trainer = fresh();
    assert_eq!(Trainer::load(&[]), Err(Refusal(6)));
    assert_eq!(Trainer::load(&trainer.record()[..195]), Err(Refusal(6)));
    let mut version = trainer.record().to_vec();
    version[4] = 4;
    assert_eq!(Trainer::load(&version), Err(Refusal(7)));
    version[4] = 2;
    assert_eq!(Trainer::load(&version), Err(Refusal(8)), "a version 2 record has no ends");
    let mut phase = trainer.record().to_vec();
    phase[165] = 9;
    assert_eq!(Trainer::load(&phase), Err(Refusal(8)));
    assert_eq!(Trainer::load(trainer.record()), Ok(trainer));
}

#[test]
fn splits_taken_back() {
    let settings =
        Settings { rule_splits: 2, optimization_rounds_per_split: 0, drill_down: false, ..Settings::default() };
    let mut trainer = Trainer::start(&settings).unwrap();
    let fresh = trainer.clone();
    assert_eq!(trainer.undo_split(), Err(Refusal(24)));
    assert_eq!(trainer, fresh);
    trainer.answer_counts(&[5]).unwrap();
    let once = trainer.clone();
    trainer.answer_counts(&[0, 0, 0, 5, 0, 0, 0, 0, 0]).unwrap();
    assert_eq!(trainer.nodes(), 17);
    trainer.undo_split().unwrap();
    assert_eq!(trainer.nodes(), 9);
    assert!(trainer.same_tree(&once));
    trainer.undo_split().unwrap();
    assert!(trainer.same_tree(&fresh));
    assert_eq!(trainer.undo_split(), Err(Refusal(24)));
}

#[test]
fn the_leaf_that_is_asked_for_stays() {
    let none = Action::new(0.0, 0, 0.0);
    let settings = Settings {
        rule_splits: 1,
        optimization_rounds_per_split: 1,
        drill_down: false,
        max_action_change: none,
        ..Settings::default()
    };
    let mut trainer = Trainer::start(&settings).unwrap();
    trainer.answer(&[Answer::Counts(vec![5]), Answer::Scores(vec![1.0])]).unwrap();
    trainer.answer(&[Answer::Counts(vec![5]), Answer::Counts(vec![5])]).unwrap();
    assert_eq!(trainer.nodes(), 9);
    let mut undone = trainer.clone();
    undone.undo_split().unwrap();
    // The root was marked when it was tuned, its marks were cleared, and it kept none when it was split.
    assert_eq!(undone.record()[164], 0);
    trainer.answer_counts(&[0, 0, 0, 5, 0, 0, 0, 0, 0]).unwrap();
    assert!(matches!(trainer.question(), Question::Score { leaf: 3, .. }));
    let asking = trainer.clone();
    assert_eq!(trainer.undo_split(), Err(Refusal(3)));
    assert_eq!(trainer, asking);
}

#[test]
fn lookups() {
    let trainer = fresh();
    let inside = Point { ack_ewma: 1.0, send_ewma: 1.0, rtt_ratio: 1.0 };
    let outside = Point { rtt_ratio: 1000.0, ..inside };
    let usual = Settings::default().default_action;
    assert_eq!(trainer.lookup(&[inside, outside, Point { ack_ewma: f64::NAN, ..inside }]), [Some(usual), None, None]);
    assert_eq!(trainer.lookup(&[]), []);
    let other = Action::new(0.5, 7, 0.25);
    assert_eq!(trainer.lookup_replaced(0, other, &[inside, outside]), Ok(vec![Some(other), None]));
    assert_eq!(trainer.lookup_replaced(1, other, &[inside]), Err(Refusal(3)));
    assert_eq!(trainer.lookup_replaced(0, Action::new(f64::NAN, 0, 0.0), &[inside]), Err(Refusal(1)));
    assert_eq!(trainer.lookup_replaced(1, Action::new(f64::NAN, 0, 0.0), &[inside]), Err(Refusal(3)));
    assert_eq!(trainer.tally(&[inside, outside, inside]), [2]);
}

#[test]
fn events() {
    let trainer = fresh();
    let mut sender = Sender::new(RepeatMode::Off).unwrap();
    assert_eq!((sender.window(), sender.wait()), (1, 0.0));
    let before = sender.clone();
    let refused = [
        Event::Ack { sent: 1.0, received: 1.0, draw: None },
        Event::Ack { sent: f64::NAN, received: 1.0, draw: None },
        Event::Send { at: -1.0 },
    ];
    assert_eq!(sender.run(&trainer, &refused), [Err(Refusal(22)), Err(Refusal(1)), Err(Refusal(1))]);
    assert_eq!(sender, before);
    let window = |window| Ok(Reply { window, clipped: false });
    assert_eq!(sender.ack(&trainer, 0.0, 0.05, None), window(2));
    assert_eq!(sender.run(&trainer, &[Event::Send { at: 0.1 }, Event::Tick]), [window(0), window(2)]);
    assert_eq!(sender.run(&trainer, &[]), []);
    let mut drawn = Sender::new(RepeatMode::Between(1, 2)).unwrap();
    assert_eq!(drawn.ack(&trainer, 0.0, 0.05, None), Err(Refusal(5)));
    assert_eq!(drawn.ack(&trainer, 0.0, 0.05, Some(0)), Err(Refusal(5)));
    assert_eq!(drawn.ack(&trainer, 0.0, 0.05, Some(2)), window(2));
}

#[test]
fn clipped() {
    let trainer = fresh();
    // The default action adds 1: a window of 999,999 comes to 1,000,000, one of 1,000,000 is clipped.
    let holding = |window: u32| {
        let mut bytes = *Sender::new(RepeatMode::Always(1)).unwrap().bytes();
        bytes[96..100].copy_from_slice(&window.to_be_bytes());
        Sender::from_bytes(bytes)
    };
    let ack = |sent: f64| Event::Ack { sent, received: sent + 0.05, draw: None };
    let reply = |window, clipped| Ok(Reply { window, clipped });
    let mut sender = holding(999_999);
    let events = [ack(0.0), ack(0.1), Event::Send { at: 0.2 }, ack(0.2), Event::Tick, ack(f64::NAN)];
    assert_eq!(
        sender.run(&trainer, &events),
        [
            reply(1_000_000, false),
            reply(1_000_000, true),
            reply(0, false),
            reply(0, true),
            reply(1_000_000, false),
            Err(Refusal(1)),
        ]
    );
    assert_eq!(holding(u32::MAX).run(&trainer, &[Event::Tick]), [reply(u32::MAX, false)]);
}

#[test]
fn panel() {
    assert_eq!(fresh().panel(&[5]).unwrap(), "leaves 1 splits 0\n0 1000\n");
    assert_eq!(fresh().panel(&[0]).unwrap(), "leaves 1 splits 0\n0 0\n");
    assert_eq!(fresh().panel(&[]), Err(Refusal(4)));
    assert_eq!(fresh().panel(&[1, 1]), Err(Refusal(4)));
    let mut split = Trainer::start(&Settings { optimization_rounds_per_split: 0, ..Settings::default() }).unwrap();
    split.answer_counts(&[1]).unwrap();
    assert_eq!(
        split.panel(&[0, 1, 0, 1, 0, 1, 0, 0, 0]).unwrap(),
        "leaves 8 splits 1\n1 334\n2 0\n3 333\n4 0\n5 333\n6 0\n7 0\n8 0\n"
    );
    assert_eq!(split.panel(&[1, 1, 0, 1, 0, 1, 0, 0, 0]), Err(Refusal(4)));
}

#[test]
fn every_small_tree_in_turn() {
    for (n, many) in [(0, 1), (1, 2), (2, 10), (3, 130)] {
        let mut lists = vec![Vec::new()];
        while let Some(next) = next_list(n, lists.last().unwrap()).unwrap() {
            lists.push(next);
        }
        assert_eq!(lists.len(), many);
    }
    for (n, list) in [(4, &[][..]), (2, &[0, 1, 2]), (3, &[1]), (3, &[0, 4, 4]), (3, &[0, 4, 17]), (3, &[0; 256])] {
        assert_eq!(next_list(n, list), Err(Refusal(30)), "{n} {list:?}");
    }
}

#[test]
fn rows_of_the_even_tree() {
    let row = |ack_ewma, send_ewma, rtt_ratio| even_row(Point { ack_ewma, send_ewma, rtt_ratio });
    assert_eq!(row(0.0, 0.0, 0.0), Some(0));
    assert_eq!(row(150.0, 300.0, 500.0), Some(28));
    assert_eq!(row(599.0, 599.0, 999.0), Some(63));
    assert_eq!(row(600.0, 0.0, 0.0), None);
    assert_eq!(row(0.0, f64::NAN, 0.0), None);
}

#[test]
fn new_settings() {
    let settings =
        Settings { rule_splits: 2, optimization_rounds_per_split: 1, drill_down: false, ..Settings::default() };
    let mut trainer = Trainer::start(&settings).unwrap();
    trainer.answer_counts(&[5]).unwrap();
    let Question::Score { leaf, action, .. } = trainer.question() else { panic!("a score is asked for") };
    trainer.answer_score(1.0).unwrap();
    let trying = trainer.clone();

    let bad = Settings { action_change_multiplier: 1, ends: [601.0, 600.0, 1000.0], ..settings.clone() };
    assert_eq!(trainer.change_settings(&bad), Err(Refusal(2)), "2 before 27");
    let end = Settings { ends: [600.0, 600.0, 999.0], ..settings.clone() };
    assert_eq!(trainer.change_settings(&end), Err(Refusal(27)));
    let rounds = Settings { optimization_rounds_per_split: 0, ..settings.clone() };
    assert_eq!(trainer.change_settings(&rounds), Err(Refusal(27)));
    assert_eq!(trainer.change_settings_from(&settings.to_bytes()[..113]), Err(Refusal(2)));
    assert_eq!(trainer, trying);

    // The candidates are dropped, and the new default action changes no rule.
    let other = Settings { default_action: Action::new(0.5, 3, 0.001), rule_splits: 0, ..settings };
    trainer.change_settings(&other).unwrap();
    assert!(matches!(trainer.question(), Question::Score { leaf: l, action: a, .. } if l == leaf && a == action));
    assert!(trainer.same_tree(&trying));
    assert_eq!(trainer.record()[5..142], other.to_bytes());
    assert_eq!(Trainer::load(trainer.record()), Ok(trainer));
}
