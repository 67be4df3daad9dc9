//! A burst of acks does what the same acks do one by one, up to the first that is refused.

use knellstone::{Ack, Burst, Refusal, RepeatMode, Sender, Settings, Trainer};

#[allow(dead_code)]
#[path = "../src/raw.rs"]
mod raw;

const REFUSED: u64 = 1 << 63;

fn fresh() -> Trainer {
    Trainer::start(&Settings::default()).unwrap()
}

fn off() -> Sender {
    Sender::new(RepeatMode::Off).unwrap()
}

fn ack(i: usize) -> Ack {
    let sent = 0.01 * i as f64;
    Ack { sent, received: sent + 0.05 + 0.001 * (i % 7) as f64, draw: None }
}

fn acks(n: usize) -> Vec<Ack> {
    (0..n).map(ack).collect()
}

fn bytes(acks: &[Ack]) -> Vec<u8> {
    acks.iter().flat_map(|a| a.to_bytes()).collect()
}

fn one_by_one(sender: &mut Sender, trainer: &Trainer, acks: &[Ack]) -> Burst {
    let mut burst = Burst { windows: vec![], clipped: vec![], stopped: None };
    for a in acks {
        match sender.ack(trainer, a.sent, a.received, a.draw) {
            Ok(reply) => {
                burst.windows.push(reply.window);
                burst.clipped.push(reply.clipped);
            }
            Err(refusal) => {
                burst.stopped = Some(refusal);
                break;
            }
        }
    }
    burst
}

/// The burst, whose answer and whose sender are those of the acks one by one.
fn same(sender: &Sender, trainer: &Trainer, acks: &[Ack]) -> Burst {
    let (mut at_once, mut in_turn) = (sender.clone(), sender.clone());
    let burst = at_once.burst(trainer, acks).unwrap();
    assert_eq!(burst, one_by_one(&mut in_turn, trainer, acks));
    assert_eq!(at_once.bytes(), in_turn.bytes());
    burst
}

#[test]
fn as_many_as_there_are() {
    let trainer = fresh();
    for n in [0, 1, 255, 256] {
        for mode in [RepeatMode::Off, RepeatMode::Always(3)] {
            let burst = same(&Sender::new(mode).unwrap(), &trainer, &acks(n));
            assert_eq!((burst.windows.len(), burst.clipped.len(), burst.stopped), (n, n, None));
        }
        let drawn: Vec<_> = (0..n).map(|i| Ack { draw: Some(1 + i as u32 % 2), ..ack(i) }).collect();
        let burst = same(&Sender::new(RepeatMode::Between(1, 2)).unwrap(), &trainer, &drawn);
        assert_eq!((burst.windows.len(), burst.stopped), (n, None));
    }
    assert_eq!(same(&off(), &trainer, &acks(3)).windows, [2, 3, 4]);
}

#[test]
fn stopped() {
    let trainer = fresh();
    let stop = |sender: &Sender, acks: &[Ack]| {
        let burst = same(sender, &trainer, acks);
        (burst.windows.len(), burst.stopped)
    };
    let mut moments = acks(5);
    moments[2].received = f64::NAN;
    assert_eq!(stop(&off(), &moments), (2, Some(Refusal(1))));
    let outside = Ack { sent: 1.0, received: 1.0, draw: None };
    assert_eq!(stop(&off(), &[outside, ack(0)]), (0, Some(Refusal(22))));
    let drawn = Sender::new(RepeatMode::Between(0, 9)).unwrap();
    let given = |i, draw| Ack { draw, ..ack(i) };
    assert_eq!(stop(&drawn, &[given(0, Some(0)), given(1, None), given(2, None)]), (2, Some(Refusal(5))));
    assert_eq!(stop(&drawn, &[given(0, Some(10))]), (0, Some(Refusal(5))));
    moments[0].sent = -1.0;
    assert_eq!(stop(&off(), &moments), (0, Some(Refusal(1))));
}

#[test]
fn clipped() {
    // The default action adds 1: a window of 999,998 is not clipped before it has come to 1,000,000.
    let mut bytes = *off().bytes();
    bytes[96..100].copy_from_slice(&999_998u32.to_be_bytes());
    let burst = same(&Sender::from_bytes(bytes), &fresh(), &acks(4));
    assert_eq!(burst.windows, [999_999, 1_000_000, 1_000_000, 1_000_000]);
    assert_eq!(burst.clipped, [false, false, true, true]);
}

#[test]
fn places_from_the_stop_on() {
    let mut list = acks(5);
    list[3].sent = f64::INFINITY;
    let mut sender = *off().bytes();
    let (mut windows, mut clipped) = ([7; 24], [7; 6]);
    let answer = raw::burst(fresh().record(), &mut sender, &bytes(&list), &mut windows, &mut clipped);
    assert_eq!(answer, 1 << 32 | 3);
    assert_eq!(windows, [0, 0, 0, 2, 0, 0, 0, 3, 0, 0, 0, 4, 7, 7, 7, 7, 7, 7, 7, 7, 7, 7, 7, 7]);
    assert_eq!(clipped, [0, 0, 0, 7, 7, 7]);
}

#[test]
fn refused() {
    let trainer = fresh();
    let mut sender = off();
    assert_eq!(sender.burst(&trainer, &acks(257)), Err(Refusal(9)));
    assert_eq!(sender, off());

    let other_version = {
        let mut record = trainer.record().to_vec();
        record[4] = 9;
        record
    };
    let record = trainer.record();
    let list = bytes(&acks(3));
    // Each call but the last three is refused for the first of all that is wrong with it.
    let calls = [
        (&record[..record.len() - 1], 107, &list[..62], 1, 0, 6),
        (&other_version, 107, &list[..62], 1, 0, 7),
        (record, 107, &list[..62], 1, 0, 6),
        (record, 108, &list[..62], 1, 0, 6),
        (record, 108, &list, 1, 0, 9),
        (record, 108, &list, 11, 3, 9),
        (record, 108, &list, 12, 2, 9),
        (record, 108, &list, 3, 3, 9),
    ];
    for (record, held, list, room, places, number) in calls {
        let (mut sender, mut windows, mut clipped) = ([7; 108], [7; 12], [7; 3]);
        let answer = raw::burst(record, &mut sender[..held], list, &mut windows[..room], &mut clipped[..places]);
        assert_eq!(answer, REFUSED + number);
        assert_eq!((sender, windows, clipped), ([7; 108], [7; 12], [7; 3]), "a byte has changed");
    }
}
