//! The table, as Markdown.

use crate::clock::{spread, Spread, Times};

pub struct Table {
    pub repeats: usize,
    lines: Vec<[String; 4]>,
    notes: Vec<String>,
}

/// Three significant digits.
fn digits(x: f64) -> String {
    match x {
        x if x < 9.995 => format!("{x:.2}"),
        x if x < 99.95 => format!("{x:.1}"),
        x => format!("{x:.0}"),
    }
}

fn time(nanoseconds: f64) -> String {
    match nanoseconds {
        t if t < 999.5 => format!("{} ns", digits(t)),
        t if t < 999.5e3 => format!("{} µs", digits(t / 1e3)),
        t if t < 999.5e6 => format!("{} ms", digits(t / 1e6)),
        t => format!("{} s", digits(t / 1e9)),
    }
}

pub fn thousands(n: usize) -> String {
    let digits = n.to_string();
    let mut text = String::new();
    for (i, digit) in digits.chars().enumerate() {
        if i > 0 && (digits.len() - i) % 3 == 0 {
            text.push(',');
        }
        text.push(digit);
    }
    text
}

impl Table {
    pub fn new(repeats: usize) -> Table {
        Table { repeats, lines: Vec::new(), notes: Vec::new() }
    }

    fn line(&mut self, name: &str, ratio: String, spread: String, repeats: String, note: &str) {
        let mut name = name.to_owned();
        if !note.is_empty() {
            self.notes.push(note.to_owned());
            name += &format!(" ({})", self.notes.len());
        }
        self.lines.push([name, ratio, spread, repeats]);
    }

    /// A row with both sides' times of a unit, which is said with its article.
    pub fn timed(&mut self, name: &str, unit: &str, times: &Times, note: &str) {
        let Spread { low, median, high } = times.ratios();
        let (ours, theirs) = (spread(times.ours.clone()).median, spread(times.theirs.clone()).median);
        let ratio = format!("{} ({} : {} {unit})", digits(median), time(ours), time(theirs));
        let between = format!("{} to {}", digits(low), digits(high));
        self.line(name, ratio, between, times.ours.len().to_string(), note);
    }

    /// A row that has no counterpart.
    pub fn ours_alone(&mut self, name: &str, unit: &str, times: Vec<f64>, note: &str) {
        let repeats = times.len().to_string();
        let Spread { low, median, high } = spread(times);
        let ratio = format!("none ({} {unit})", time(median));
        self.line(name, ratio, format!("{} to {}", time(low), time(high)), repeats, note);
    }

    pub fn bytes(&mut self, name: &str, ours: usize, theirs: usize, note: &str) {
        let ratio = digits(ours as f64 / theirs as f64);
        let ratio = format!("{ratio} ({} : {} bytes)", thousands(ours), thousands(theirs));
        self.line(name, ratio, "-".into(), "-".into(), note);
    }

    pub fn print(&self) {
        let head = ["row", "ours / Rust's (medians)", "lowest to highest", "repeats"].map(str::to_owned);
        let rows: Vec<&[String; 4]> = std::iter::once(&head).chain(&self.lines).collect();
        let width = |column: usize| rows.iter().map(|row| row[column].chars().count()).max().unwrap();
        let widths: [usize; 4] = std::array::from_fn(width);
        for (i, row) in rows.iter().enumerate() {
            let cells = row.iter().zip(widths).map(|(cell, width)| format!(" {cell:width$} |"));
            println!("|{}", cells.collect::<String>());
            if i == 0 {
                println!("|{}", widths.map(|width| "-".repeat(width + 2) + "|").concat());
            }
        }
        println!();
        for (i, note) in self.notes.iter().enumerate() {
            println!("{}. {note}", i + 1);
        }
    }
}
