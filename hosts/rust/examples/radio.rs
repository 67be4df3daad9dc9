//! A fast short-range radio sees no gap of a second. In the usual box its memories stay in one leaf when the root is split;
//! in a box of a second they are spread, and what lies past it finds no rule.

use knellstone::{Point, Refusal, RepeatMode, Sender, Settings, Trainer};

fn main() -> Result<(), Refusal> {
    let point = |gap| Point { ack_ewma: gap, send_ewma: gap, rtt_ratio: 1.0 + gap };
    let memories: Vec<Point> = (0..8).map(|i| point(f64::from(i) / 8.0)).collect();
    for ends in [Settings::default().ends, [1.0, 1.0, 4.0]] {
        let settings = Settings { rule_splits: 1, optimization_rounds_per_split: 0, ends, ..Settings::default() };
        let mut trainer = Trainer::start(&settings)?;
        println!("ends {ends:?}: {} bytes", trainer.record().len());
        trainer.answer_counts(&trainer.tally(&memories))?;
        println!("  split: {:?}", trainer.tally(&memories));
        let mut sender = Sender::new(RepeatMode::Off)?;
        for (sent, received) in [(0.0, 0.01), (0.5, 0.51), (9.0, 9.01)] {
            match sender.ack(&trainer, sent, received, None) {
                Ok(reply) => println!("  acked at {received} s: window {}", reply.window),
                Err(refusal) => println!("  acked at {received} s: {refusal}"),
            }
        }
    }
    Ok(())
}
