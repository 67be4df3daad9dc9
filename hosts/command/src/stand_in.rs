//! `knellstone stand-in`: a simulator for trying the command, in the lines of docs/SIMULATOR.md.

use crate::fail::Fail;
use knellstone::{Action, Point, Trainer};
use std::io::{BufRead, Write};

/// What a link box may remember: quiet air with short gaps, busy air with long ones and a higher ratio.
pub fn memories() -> Vec<Point> {
    (0..48)
        .map(|i| {
            let busy = f64::from(i % 12) / 12.0;
            Point {
                ack_ewma: 0.01 + 400.0 * busy,
                send_ewma: 0.01 + 350.0 * busy,
                rtt_ratio: 1.0 + 700.0 * busy * busy,
            }
        })
        .collect()
}

/// How close each memory's action comes to a window and a wait that would suit it.
fn score(found: &[Option<Action>], points: &[Point]) -> f64 {
    let miss = |(found, p): (&Option<Action>, &Point)| {
        let busy = p.ack_ewma / 400.0;
        found.map_or(10.0, |a| {
            let window = 20.0 * a.window_multiplier + f64::from(a.window_increment);
            (window - (30.0 - 24.0 * busy)).abs() + (a.intersend_delay - 0.0005 - 0.002 * busy).abs() * 1000.0
        })
    };
    -found.iter().zip(points).map(miss).sum::<f64>()
}

/// Until its input ends.
pub fn run() -> Result<(), Fail> {
    let points = memories();
    let mut out = std::io::stdout().lock();
    for line in std::io::stdin().lock().lines().map_while(Result::ok) {
        let words: Vec<&str> = line.split(' ').collect();
        let id = words.get(1).copied().unwrap_or("0");
        let answer = answer(&words, &points).unwrap_or_else(|why| format!("fail {id} {why}"));
        if writeln!(out, "{answer}").and_then(|()| out.flush()).is_err() {
            break;
        }
    }
    Ok(())
}

fn answer(words: &[&str], points: &[Point]) -> Result<String, String> {
    match words {
        ["counts", id, form, record @ ..] => {
            let counts = trainer(form, record)?.tally(points);
            Ok(counts.iter().fold(format!("counts {id}"), |line, n| format!("{line} {n}")))
        }
        ["score", id, leaf, multiplier, increment, delay, form, record @ ..] => {
            let trainer = trainer(form, record)?;
            let bad = |_| "a number that is none".to_string();
            let action = Action::new(
                multiplier.parse().map_err(|_| bad(()))?,
                increment.parse().map_err(|_| bad(()))?,
                delay.parse().map_err(|_| bad(()))?,
            );
            let leaf = leaf.parse().map_err(|_| bad(()))?;
            let found = trainer.lookup_replaced(leaf, action, points).map_err(|r| r.to_string())?;
            Ok(format!("score {id} {:?}", score(&found, points)))
        }
        _ => Err("no such question".into()),
    }
}

fn trainer(form: &str, record: &[&str]) -> Result<Trainer, String> {
    let bytes = match form {
        "hex" => unhex(record.first().unwrap_or(&"")).ok_or("a record that is not in hex")?,
        "file" => std::fs::read(record.join(" ")).map_err(|e| e.to_string())?,
        _ => return Err("no such form of a record".into()),
    };
    Trainer::load(&bytes).map_err(|r| r.to_string())
}

fn unhex(text: &str) -> Option<Vec<u8>> {
    let digits: Vec<u8> = text.chars().map(|c| c.to_digit(16).map(|d| d as u8)).collect::<Option<_>>()?;
    Some(digits.chunks(2).map(|pair| 16 * pair[0] + pair.get(1).unwrap_or(&0)).collect())
}
