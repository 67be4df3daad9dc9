//! Draws of the box's own: the generator, its step back, and events whose acks draw from it.

use knellstone::{Event, Generator, Refusal, RepeatMode, Reply, Sender, Settings, Trainer};

extern "C" {
    fn knellstone_step(generator: *mut u8, generator_len: usize, out: *mut u8, out_len: usize) -> u64;
    fn knellstone_step_back(generator: *mut u8, generator_len: usize) -> u64;
    fn knellstone_own_events(
        record: *const u8, record_len: usize, sender: *mut u8, sender_len: usize, generator: *mut u8,
        generator_len: usize, events: *const u8, events_len: usize, out: *mut u8, out_len: usize,
    ) -> u64;
}

/// A size, or a refusal's number below 0.
fn told(answer: u64) -> i64 {
    if answer < 1 << 63 { answer as i64 } else { -((answer - (1 << 63)) as i64) }
}

fn step(generator: &mut [u8], out: &mut [u8]) -> i64 {
    told(unsafe { knellstone_step(generator.as_mut_ptr(), generator.len(), out.as_mut_ptr(), out.len()) })
}

fn step_back(generator: &mut [u8]) -> i64 {
    told(unsafe { knellstone_step_back(generator.as_mut_ptr(), generator.len()) })
}

fn own_events(record: &[u8], sender: &mut [u8], generator: &mut [u8], events: &[u8], out: &mut [u8]) -> i64 {
    told(unsafe {
        knellstone_own_events(
            record.as_ptr(), record.len(), sender.as_mut_ptr(), sender.len(), generator.as_mut_ptr(), generator.len(),
            events.as_ptr(), events.len(), out.as_mut_ptr(), out.len(),
        )
    })
}

fn ack(sent: f64, draw: Option<u32>) -> Event {
    Event::Ack { sent, received: sent + 0.05, draw }
}

fn fresh() -> Trainer {
    Trainer::start(&Settings::default()).unwrap()
}

#[test]
fn the_first_outputs() {
    let mut g = Generator::new([1, 2, 3, 4]);
    let mut seen = vec![g.clone()];
    for output in [41943041, 58720359, 3588806011781223] {
        assert_eq!(g.step(), Ok(output));
        seen.push(g.clone());
    }
    while let Some(before) = seen.pop() {
        assert_eq!(g, before);
        g.step_back().unwrap();
    }
    let mut zeros = Generator::new([0; 4]);
    assert_eq!((zeros.step(), zeros.step_back()), (Err(Refusal(26)), Err(Refusal(26))));
    for words in [[1, 0, 0, 0], [0, 1, 0, 0], [0, 0, 1, 0], [0, 0, 0, 1], [u64::MAX; 4]] {
        let mut g = Generator::new(words);
        assert!(g.step().is_ok() && g.words() != words);
        g.step_back().unwrap();
        assert_eq!(g.words(), words);
    }
}

#[test]
fn steps_refused() {
    for length in [0, 31, 33, 64] {
        let (mut generator, mut out) = (vec![0; length], [0xa5; 8]);
        assert_eq!(step(&mut generator, &mut out[..7]), -6, "6 before 26 and 9");
        assert_eq!(step_back(&mut generator), -6);
        assert!(generator.iter().all(|b| *b == 0) && out == [0xa5; 8]);
    }
    let (mut zeros, mut out) = ([0; 32], [0xa5; 9]);
    assert_eq!(step(&mut zeros, &mut out[..7]), -26, "26 before 9");
    assert_eq!((step(&mut zeros, &mut out), step_back(&mut zeros)), (-26, -26));
    let mut generator = [7; 32];
    assert_eq!(step(&mut generator, &mut out[..7]), -9);
    assert_eq!((generator, out), ([7; 32], [0xa5; 9]));
    assert_eq!(step(&mut generator, &mut out), 8);
    assert!(generator != [7; 32] && out[8] == 0xa5);
    assert_eq!(step_back(&mut generator), 32);
    assert_eq!(generator, [7; 32]);
}

/// The sender with own draws is the one that is handed the same ones.
#[test]
fn as_if_handed_in() {
    let trainer = fresh();
    let (lo, hi) = (1, 3);
    let mut own = Sender::new(RepeatMode::Between(lo, hi)).unwrap();
    let mut handed = own.clone();
    let mut generator = Generator::new([1, 2, 3, 4]);
    let mut kept = generator.clone();
    let mut steps = 0;
    for i in 0..60 {
        let sent = f64::from(i) * 0.1;
        // Every fifth ack is refused, every seventh event is a send or a tick.
        let event = |draw| match i {
            _ if i % 7 == 0 => Event::Send { at: sent },
            _ if i % 7 == 3 => Event::Tick,
            _ if i % 5 == 0 => ack(f64::NAN, draw),
            _ => ack(sent, draw),
        };
        let mut next = kept.clone();
        let output = next.step().unwrap();
        let draw = lo + (output % u64::from(hi - lo + 1)) as u32;
        let before = handed.clone();
        let reply = handed.run(&trainer, &[event(Some(draw))]);
        let pending = before.bytes()[53] == 1;
        let taken = matches!(event(None), Event::Ack { .. }) && reply[0].is_ok();
        if taken && !pending {
            kept = next;
            steps += 1;
        }
        // What the events hold is not looked at.
        let held = [None, Some(0), Some(2), Some(u32::MAX)][i as usize % 4];
        assert_eq!(own.run_own(&trainer, &mut generator, &[event(held)]), Ok(reply), "event {i}");
        assert_eq!((&own, &generator), (&handed, &kept), "event {i}");
    }
    assert!(steps > 5 && steps < 40, "{steps}");
}

#[test]
fn many_at_once() {
    let trainer = fresh();
    let events: Vec<Event> = (0..40)
        .map(|i| if i % 9 == 4 { Event::Tick } else { ack(if i % 11 == 5 { f64::NAN } else { f64::from(i) * 0.2 }, None) })
        .collect();
    for mode in [RepeatMode::Off, RepeatMode::Always(2), RepeatMode::Between(0, 2)] {
        let mut sender = Sender::new(mode).unwrap();
        let mut generator = Generator::new([5, 6, 7, 8]);
        let (mut one, mut other) = (sender.clone(), generator.clone());
        let all = sender.run_own(&trainer, &mut generator, &events).unwrap();
        let each: Vec<_> = events.iter().map(|e| one.run_own(&trainer, &mut other, &[*e]).unwrap()[0]).collect();
        assert_eq!((all, sender, &generator), (each, one, &other));
        assert_eq!(generator.words() == [5, 6, 7, 8], mode != RepeatMode::Between(0, 2), "no draw is due without a range");
    }
    let mut sender = Sender::new(RepeatMode::Off).unwrap();
    let mut generator = Generator::new([5, 6, 7, 8]);
    assert_eq!(sender.run_own(&trainer, &mut generator, &[]), Ok(vec![]));
    assert_eq!(sender.run_own(&trainer, &mut generator, &[ack(0.0, None)]), Ok(vec![Ok(Reply { window: 2, clipped: false })]));
}

#[test]
fn a_range_of_none() {
    // lo above hi, which no host is given but any 108 bytes may hold: a due draw counts as absent, and the generator stays.
    let trainer = fresh();
    let mut bytes = *Sender::new(RepeatMode::Between(1, 2)).unwrap().bytes();
    bytes[79..83].copy_from_slice(&3u32.to_be_bytes());
    let mut sender = Sender::from_bytes(bytes);
    let mut generator = Generator::new([1, 2, 3, 4]);
    assert_eq!(sender.run_own(&trainer, &mut generator, &[ack(0.0, Some(1))]), Ok(vec![Err(Refusal(5))]));
    assert_eq!((sender.bytes(), generator.words()), (&bytes, [1, 2, 3, 4]));
}

#[test]
fn events_refused() {
    let trainer = fresh();
    let record = trainer.record();
    let (mut version, mut phase) = (record.to_vec(), record.to_vec());
    version[4] = 4;
    phase[165] = 9;
    let kept = *Sender::new(RepeatMode::Off).unwrap().bytes();
    let events = [ack(0.0, None).to_bytes(), Event::Tick.to_bytes()].concat();
    let refused = |record: &[u8], sender: usize, generator: &[u8], events: &[u8], room: usize| {
        let (mut s, mut g, mut out) = ([&kept[..], &[0]].concat()[..sender].to_vec(), generator.to_vec(), vec![0xa5; room]);
        let answer = own_events(record, &mut s, &mut g, events, &mut out);
        assert_eq!((&s[..], &g[..]), (&[&kept[..], &[0]].concat()[..sender], generator));
        assert!(answer < 0 && out.iter().all(|b| *b == 0xa5));
        -answer
    };
    let zeros = [0; 33];
    assert_eq!(refused(&record[..190], 107, &zeros[..31], &events[..43], 0), 6);
    assert_eq!(refused(&version, 107, &zeros[..31], &events[..43], 0), 7);
    assert_eq!(refused(&phase, 107, &zeros[..31], &events[..43], 0), 8);
    for sender in [0, 107, 109] {
        assert_eq!(refused(record, sender, &zeros[..32], &events, 0), 6, "6 before 26 and 9");
    }
    for generator in [0, 31, 33] {
        assert_eq!(refused(record, 108, &zeros[..generator], &events, 0), 6);
    }
    for cut in [1, 21, 43] {
        assert_eq!(refused(record, 108, &zeros[..32], &events[..cut], 0), 6);
    }
    assert_eq!(refused(record, 108, &zeros[..32], &events, 0), 26, "26 before 9");
    assert_eq!(refused(record, 108, &zeros[..32], &events, 12), 26);
    assert_eq!(refused(record, 108, &[1; 32], &events, 11), 9);
    for room in [12, 20] {
        let (mut s, mut g, mut out) = (kept, [1; 32], vec![0xa5; room]);
        assert_eq!(own_events(record, &mut s, &mut g, &events, &mut out), 12);
        assert_eq!(out[..12], [0, 0, 0, 0, 2, 0, 0, 0, 0, 0, 2, 0]);
        assert!(out[12..].iter().all(|b| *b == 0xa5) && g == [1; 32] && s != kept);
    }
}
