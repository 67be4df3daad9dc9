//! The lines of a trace, against the events one by one, and every cause of its refusals.

use knellstone::{trace_bytes, Action, Event, RepeatMode, Sender, Settings, Trainer};

fn trainer() -> Trainer {
    let settings = Settings { default_action: Action::new(1.0, 200, 0.003), ..Settings::default() };
    Trainer::start(&settings).unwrap()
}

fn ack(sent: f64, received: f64) -> Event {
    Event::Ack { sent, received, draw: None }
}

#[test]
fn lines_are_those_of_the_events() {
    let mut events = vec![Event::Tick, ack(0.0, 0.1), Event::Send { at: 0.2 }, ack(0.1, 0.3), ack(f64::NAN, 1.0)];
    events.extend((0..1500).map(|i| ack(0.2 + f64::from(i) * 0.01, 0.5 + f64::from(i) * 0.01)));
    events.extend([ack(0.0, 5000.0), Event::Send { at: -1.0 }, Event::Tick]);
    let trainer = trainer();
    let replies = Sender::new(RepeatMode::Off).unwrap().run(&trainer, &events);
    let lines: String = replies
        .iter()
        .map(|reply| match reply {
            Ok(r) => format!("{}{}\n", r.window, if r.clipped { " c" } else { "" }),
            Err(r) => format!("refused {}\n", r.0),
        })
        .collect();
    assert_eq!(trainer.trace(&trace_bytes(&events)).unwrap(), lines);
    assert!(lines.contains("refused 1\n") && lines.contains("refused 22\n"));
}

#[test]
fn clipped_lines_end_in_c() {
    let settings = Settings {
        min_action: Action::new(0.0, -5, 0.0),
        default_action: Action::new(0.0, -1, 0.0),
        ..Settings::default()
    };
    let trainer = Trainer::start(&settings).unwrap();
    assert_eq!(trainer.trace(&trace_bytes(&[ack(0.0, 1.0), Event::Tick])).unwrap(), "0 c\n0\n");
}

#[test]
fn refused_whole() {
    let trainer = trainer();
    let number = |trace: &[u8]| trainer.trace(trace).map_or_else(|r| r.0, |_| 0);
    assert_eq!(trainer.trace(&trace_bytes(&[])).unwrap(), "");
    let cases: [&[u8]; 9] = [
        &[], &[0, 0, 0, 1], &[0, 0, 0, 1, 2], &[0, 0, 0, 2, 1], &[0, 0, 0, 2, 1, 1], &[0, 0, 0, 3, 1, 1, 4],
        &[0, 0, 0, 4, 1, 2, 3, 0], &[0, 0, 0, 3, 1, 9, 2], &[0, 0, 0, 1, 1, 0],
    ];
    for trace in cases {
        assert_eq!(number(trace), 25, "{trace:?}");
    }
    let ticks = |n| trace_bytes(&vec![Event::Tick; n]);
    assert_eq!(trainer.trace(&ticks(16_381)).unwrap().len(), 2 * 16_381);
    assert_eq!(number(&ticks(16_382)), 25);
}
