//! How far training is, on standard error: a bar where that is a terminal, else a line a row.

use crate::view::View;
use std::io::{IsTerminal, Write};
use std::time::{Duration, Instant};

const WIDTH: usize = 20;
const REDRAW: Duration = Duration::from_millis(100);

pub struct Bar {
    terminal: bool,
    drawn: bool,
    last: Option<Instant>,
    started: Instant,
    from: f64,
}

/// What is shown of a row.
pub struct Shown<'a> {
    pub view: &'a View,
    pub done: usize,
    pub asked: usize,
    pub best: Option<f64>,
}

impl Bar {
    pub fn new(view: &View) -> Bar {
        Bar {
            terminal: std::io::stderr().is_terminal(),
            drawn: false,
            last: None,
            started: Instant::now(),
            from: view.progress(),
        }
    }

    /// A line of its own, above the bar.
    pub fn say(&mut self, line: &str) {
        self.clear();
        eprintln!("knellstone: {line}");
    }

    pub fn clear(&mut self) {
        if self.drawn {
            eprint!("\r\x1b[K");
            self.drawn = false;
        }
    }

    /// While a row is asked.
    pub fn draw(&mut self, shown: &Shown) {
        if !self.terminal || self.last.is_some_and(|at| at.elapsed() < REDRAW) {
            return;
        }
        let full = (shown.view.progress() * WIDTH as f64) as usize;
        let bar: String = (0..WIDTH).map(|i| if i < full { '#' } else { '-' }).collect();
        // A line that is longer than the terminal is wide is cut and not wrapped.
        eprint!("\r\x1b[?7l[{bar}] {}\x1b[K\x1b[?7h", self.words(shown));
        let _ = std::io::stderr().flush();
        self.drawn = true;
        self.last = Some(Instant::now());
    }

    /// After a row, where there is no bar.
    pub fn row(&mut self, shown: &Shown) {
        if !self.terminal {
            eprintln!("{}", self.words(shown));
        }
    }

    fn words(&self, shown: &Shown) -> String {
        let view = shown.view;
        let (splits, rounds) = (view.settings.rule_splits, view.settings.optimization_rounds_per_split);
        let mut words = format!("{:.0}% stage {}/{splits}", 100.0 * view.progress(), view.stage.min(splits));
        match view.phase {
            3 => words += &format!(" round {}/{rounds} counts", view.round + 1),
            4 | 5 => {
                words +=
                    &format!(" round {}/{rounds} leaf {} {}/{}", view.round + 1, view.leaf, shown.done, shown.asked)
            }
            _ => words += " counts",
        }
        if let Some(best) = shown.best {
            words += &format!(" best {best:.4}");
        }
        words + &format!(", {} left", self.left(view.progress()))
    }

    /// The time that the rest takes, where it goes as all since the start did.
    fn left(&self, progress: f64) -> String {
        let gone = progress - self.from;
        if gone <= 0.0 {
            return "-:--".into();
        }
        clock(self.started.elapsed().as_secs_f64() * (1.0 - progress) / gone)
    }

    pub fn elapsed(&self) -> String {
        clock(self.started.elapsed().as_secs_f64())
    }
}

/// Seconds as minutes and seconds, or with hours.
fn clock(seconds: f64) -> String {
    let s = seconds.round() as u64;
    if s < 3600 {
        format!("{}:{:02}", s / 60, s % 60)
    } else {
        format!("{}:{:02}:{:02}", s / 3600, s / 60 % 60, s % 60)
    }
}

#[cfg(test)]
mod tests {
    use super::*;
    use crate::view::tests::split_at;

    #[test]
    fn clocks() {
        assert_eq!(
            (clock(0.4), clock(59.6), clock(3599.0), clock(3661.0)),
            ("0:00".into(), "1:00".into(), "59:59".into(), "1:01:01".into())
        );
    }

    #[test]
    fn words_name_stage_round_leaf_and_best() {
        let mut trainer = knellstone::Trainer::start(&knellstone::Settings::default()).unwrap();
        let bar = Bar::new(&View::of(&trainer));
        trainer.answer_counts(&[5]).unwrap();
        let view = View::of(&trainer);
        let words = bar.words(&Shown { view: &view, done: 3, asked: 37, best: Some(-1.5) });
        assert_eq!(words, "0% stage 0/12 round 1/2 leaf 0 3/37 best -1.5000, -:-- left");
        let view = View::of(&split_at(&[0]));
        assert_eq!(bar.words(&Shown { view: &view, done: 0, asked: 1, best: None }), "3% stage 2/64 counts, 0:00 left");
    }
}
