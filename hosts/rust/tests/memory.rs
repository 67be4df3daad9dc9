//! Memory known only within ranges, and how many cubes a lookup tests.

use knellstone::{Lookup, Point, Question, Ranges, Refusal, Settings, Trainer};

extern "C" {
    fn knellstone_ranges(
        record: *const u8, record_len: usize, ranges: *const u8, ranges_len: usize, out: *mut u8, out_len: usize,
    ) -> u64;
    fn knellstone_lookup_tested(
        record: *const u8, record_len: usize, points: *const u8, points_len: usize, out: *mut u8, out_len: usize,
    ) -> u64;
}

type Call = unsafe extern "C" fn(*const u8, usize, *const u8, usize, *mut u8, usize) -> u64;

/// What a call answers, a refusal as its number below 0.
fn made(call: Call, record: &[u8], input: &[u8], out: &mut [u8]) -> i64 {
    let answer =
        unsafe { call(record.as_ptr(), record.len(), input.as_ptr(), input.len(), out.as_mut_ptr(), out.len()) };
    if answer < 1 << 63 { answer as i64 } else { -((answer - (1 << 63)) as i64) }
}

/// A call that is refused and changes no byte.
fn refused(call: Call, record: &[u8], input: &[u8], room: usize) -> i64 {
    let mut out = vec![0xa5; room];
    let answer = made(call, record, input, &mut out);
    assert!(answer < 0 && out.iter().all(|b| *b == 0xa5), "{answer}");
    -answer
}

/// A trainer whose tree is the root split at the leaves of these numbers, by turns.
fn split_at(leaves: &[usize]) -> Trainer {
    let splits = leaves.len() as u32;
    let settings =
        Settings { rule_splits: splits, optimization_rounds_per_split: 0, drill_down: false, ..Settings::default() };
    let mut trainer = Trainer::start(&settings).unwrap();
    for leaf in leaves {
        let counts: Vec<u64> = (0..trainer.nodes()).map(|i| u64::from(i == *leaf)).collect();
        trainer.answer_counts(&counts).unwrap();
    }
    assert_eq!(trainer.nodes(), 1 + 8 * leaves.len());
    trainer
}

const WHOLE: Ranges = Ranges { ack_ewma: [0.0, 600.0], send_ewma: [0.0, 600.0], rtt_ratio: [0.0, 1000.0] };

fn point(ack_ewma: f64, send_ewma: f64, rtt_ratio: f64) -> Point {
    Point { ack_ewma, send_ewma, rtt_ratio }
}

#[test]
fn leaves_within_ranges() {
    let fresh = Trainer::start(&Settings::default()).unwrap();
    assert_eq!(fresh.leaves_within(WHOLE), Ok(vec![0]));
    let trainer = split_at(&[0, 1, 16]);
    let leaves: Vec<u16> = (2..25).filter(|i| *i != 16).collect();
    assert_eq!(trainer.leaves_within(WHOLE), Ok(leaves));
    let infinite = [f64::NEG_INFINITY, f64::INFINITY];
    let all = Ranges { ack_ewma: infinite, send_ewma: infinite, rtt_ratio: infinite };
    assert_eq!(trainer.leaves_within(all), trainer.leaves_within(WHOLE));
    // Node 1 is the box below 300, 300 and 500; its upper ends are left out, and the ends of the ranges are counted.
    let below = |x: f64| f64::from_bits(x.to_bits() - 1);
    let cut = |ack, send| Ranges { ack_ewma: [ack; 2], send_ewma: [send; 2], rtt_ratio: [0.0, 1000.0] };
    assert_eq!(trainer.leaves_within(cut(0.0, 0.0)).map(|l| l.len()), Ok(3));
    assert_eq!(trainer.leaves_within(cut(below(300.0), below(300.0))).unwrap().iter().filter(|n| **n > 8).count(), 3);
    assert_eq!(trainer.leaves_within(cut(300.0, 0.0)).map(|l| l.len()), Ok(2));
    assert_eq!(trainer.leaves_within(cut(600.0, 0.0)), Ok(vec![]));
    assert_eq!(trainer.leaves_within(cut(-1.0, 0.0)), Ok(vec![]));
}

#[test]
fn equal_ends_are_a_lookup() {
    let trainer = split_at(&[0, 3, 8, 20]);
    for p in [point(0.0, 0.0, 0.0), point(299.0, 301.0, 499.0), point(450.0, 599.0, 999.0), point(599.0, 599.0, 999.0)] {
        let leaves = trainer.leaves_within(Ranges::at(p)).unwrap();
        let tally = trainer.tally(&[p]);
        assert_eq!(leaves.len(), 1);
        assert_eq!(tally[usize::from(leaves[0])], 1, "{p:?}");
    }
    for p in [point(600.0, 0.0, 0.0), point(0.0, -1.0, 0.0), point(0.0, 0.0, 1000.0)] {
        assert_eq!(trainer.leaves_within(Ranges::at(p)), Ok(vec![]), "{p:?}");
    }
    assert_eq!(trainer.leaves_within(Ranges::at(point(f64::NAN, 0.0, 0.0))), Err(Refusal(28)));
}

#[test]
fn ranges_refused() {
    let trainer = split_at(&[0, 1]);
    let record = trainer.record();
    let call = knellstone_ranges;
    let whole = WHOLE.to_bytes();
    let swapped = Ranges { send_ewma: [1.0, 0.5], ..WHOLE }.to_bytes();
    for axis in 0..6 {
        let mut nan = whole;
        nan[8 * axis..8 * axis + 8].copy_from_slice(&f64::NAN.to_bits().to_be_bytes());
        assert_eq!(refused(call, record, &nan, 30), 28);
        assert_eq!(refused(call, record, &nan, 0), 28, "28 before 29");
    }
    assert_eq!(refused(call, record, &swapped, 30), 28);
    for length in [0, 47, 49, 96] {
        assert_eq!(refused(call, record, &[&swapped[..], &swapped].concat()[..length], 0), 6, "6 before 28 and 29");
    }
    // 15 leaves: 30 bytes.
    assert_eq!(refused(call, record, &whole, 29), 29);
    assert_eq!(refused(call, record, &whole, 0), 29);
    for room in [30, 31, 33] {
        let mut out = vec![0xa5; room];
        assert_eq!(made(call, record, &whole, &mut out), 30);
        let nodes: Vec<u8> = (2..17).flat_map(|i: u16| i.to_be_bytes()).collect();
        assert_eq!(out[..30], nodes);
        assert!(out[30..].iter().all(|b| *b == 0xa5));
    }
    assert_eq!(refused(call, &record[..record.len() - 1], &swapped[..47], 0), 6);
    let (mut version, mut phase) = (record.to_vec(), record.to_vec());
    version[4] = 4;
    let at = phase.len() - 31;
    phase[at] = 9;
    assert_eq!(refused(call, &version, &swapped[..47], 0), 7);
    assert_eq!(refused(call, &phase, &swapped[..47], 0), 8);
    assert_eq!(trainer.leaves_within_from(&whole, 14), Err(Refusal(29)));
    assert_eq!(trainer.leaves_within_from(&whole, 15).map(|l| l.len()), Ok(15));
}

#[test]
fn cubes_tested() {
    let usual = Some(Settings::default().default_action);
    let deepest = split_at(&[0, 8, 16, 24]);
    let tested = |t: &Trainer, p| t.lookup_tested(&[p])[0];
    let outside = Lookup { found: None, tested: 1 };
    for p in [point(600.0, 0.0, 0.0), point(0.0, f64::NAN, 0.0), point(0.0, 0.0, -1.0)] {
        assert_eq!(tested(&deepest, p), outside);
    }
    // The last child of the last child: one cube, then eight at each of four splits.
    assert_eq!(tested(&deepest, point(599.9, 599.9, 999.9)), Lookup { found: usual, tested: 1 + 8 * 4 });
    assert_eq!(tested(&deepest, point(0.0, 0.0, 0.0)), Lookup { found: usual, tested: 2 });
    assert_eq!(tested(&Trainer::start(&Settings::default()).unwrap(), point(1.0, 1.0, 1.0)).tested, 1);
    let points: Vec<Point> = (0..50).map(|i| point(13.0 * f64::from(i), 601.0 - 12.0 * f64::from(i), 20.0 * f64::from(i))).collect();
    let rows = deepest.lookup_tested(&points);
    assert_eq!(rows.iter().map(|l| l.found).collect::<Vec<_>>(), deepest.lookup(&points));
    for (l, p) in rows.iter().zip(&points) {
        assert_eq!(*l, tested(&deepest, *p));
        assert!(l.tested <= 33 && (l.found.is_some() || l.tested == 1));
    }
    assert_eq!(deepest.lookup_tested(&[]), []);
}

#[test]
fn the_most_cubes() {
    let settings = Settings { rule_splits: 64, optimization_rounds_per_split: 0, drill_down: false, ..Settings::default() };
    let mut trainer = Trainer::start(&settings).unwrap();
    while let Question::Counts { .. } = trainer.question() {
        let counts: Vec<u64> = (0..trainer.nodes()).map(|i| u64::from(i + 1 == trainer.nodes())).collect();
        trainer.answer_counts(&counts).unwrap();
    }
    let below = |x: f64| f64::from_bits(x.to_bits() - 1);
    let last = point(below(600.0), below(600.0), below(1000.0));
    let row = trainer.lookup_tested(&[last])[0];
    assert!(row.tested > 255 && row.tested <= 513, "{}", row.tested);
    assert_eq!(trainer.leaves_within(WHOLE).map(|l| l.len() > 255), Ok(true));
}

#[test]
fn tested_refused() {
    let trainer = split_at(&[0]);
    let record = trainer.record();
    let call = knellstone_lookup_tested;
    let points = [0; 72];
    assert_eq!(refused(call, record, &points[..71], 0), 6, "6 before 9");
    assert_eq!(refused(call, record, &points[..1], 69), 6);
    for room in [0, 63, 68] {
        assert_eq!(refused(call, record, &points, room), 9, "{room}");
    }
    for room in [69, 80] {
        let mut out = vec![0xa5; room];
        assert_eq!(made(call, record, &points, &mut out), 69);
        assert_eq!((out[0], out[21], out[22], out[23], out[68]), (1, 0, 2, 1, 2));
        assert!(out[69..].iter().all(|b| *b == 0xa5));
    }
    let (mut version, mut phase) = (record.to_vec(), record.to_vec());
    version[4] = 0;
    let at = phase.len() - 31;
    phase[at] = 9;
    assert_eq!(refused(call, &[], &points[..71], 0), 6);
    assert_eq!(refused(call, &version, &points[..71], 0), 7);
    assert_eq!(refused(call, &phase, &points[..71], 0), 8);
}
