//! Simulators: processes that read a question a line and answer a line each. docs/SIMULATOR.md has their lines.

use crate::fail::{fail, Fail, OUTSIDE, SIMULATORS, STOPPED};
use crate::system;
use std::collections::VecDeque;
use std::ffi::{OsStr, OsString};
use std::io::{BufRead, BufReader, Read, Write};
use std::os::unix::process::CommandExt;
use std::process::{Child, Command, Stdio};
use std::sync::mpsc::{self, Receiver, RecvTimeoutError, Sender};
use std::thread;
use std::time::{Duration, Instant};

const LINE_MOST: u64 = 1 << 16;
/// So often in a row a simulator may fail before it is left alone, and so often a question before training stops.
const FAILS_MOST: u32 = 5;
const LOOK: Duration = Duration::from_millis(100);
const GRACE: Duration = Duration::from_millis(500);

enum Word {
    Answer(String),
    TooLong,
    Said(String),
    Ended,
}

/// What one process said; the number tells it from the one before it in the same place.
struct Heard {
    run: u64,
    word: Word,
}

struct Running {
    run: u64,
    child: Child,
    lines: Sender<String>,
}

#[derive(Default)]
struct Place {
    running: Option<Running>,
    asked: Option<(usize, Instant)>,
    fails: u32,
}

pub struct Simulators {
    command: OsString,
    timeout: Option<Duration>,
    places: Vec<Place>,
    runs: u64,
    questions: u64,
    heard: Receiver<Heard>,
    hears: Sender<Heard>,
}

/// A question's line without its number, which is put after the first word.
pub struct Question {
    pub kind: &'static str,
    pub rest: String,
}

/// What whoever asks is told meanwhile.
pub enum Note {
    Line(String),
    Done,
    Look,
}

struct Row<T> {
    first: u64,
    waiting: VecDeque<usize>,
    failed: Vec<Vec<usize>>,
    answers: Vec<Option<T>>,
    left: usize,
}

impl Simulators {
    pub fn new(command: &OsStr, jobs: usize, timeout: Option<Duration>) -> Simulators {
        let (hears, heard) = mpsc::channel();
        let places = (0..jobs).map(|_| Place::default()).collect();
        Simulators { command: command.to_owned(), timeout, places, runs: 0, questions: 0, heard, hears }
    }

    /// Asks all of a row, each of one simulator, and hands the answers back in order. What fails is asked again elsewhere. Where it
    /// does not end well, the answers that there are come with the failure.
    pub fn ask<T>(
        &mut self,
        questions: &[Question],
        read: impl Fn(&str) -> Result<T, String>,
        mut note: impl FnMut(Note, &[Option<T>]) -> Result<(), Fail>,
    ) -> Result<Vec<T>, (Vec<Option<T>>, Fail)> {
        let n = questions.len();
        let mut row = Row {
            first: self.questions,
            waiting: (0..n).collect(),
            failed: vec![Vec::new(); n],
            answers: (0..n).map(|_| None).collect(),
            left: n,
        };
        self.questions += n as u64;
        while row.left > 0 {
            let step = self.step(questions, &read, &mut note, &mut row);
            if let Err(failure) = step {
                return Err((row.answers, failure));
            }
        }
        Ok(row.answers.into_iter().map(|a| a.expect("none is left")).collect())
    }

    fn step<T>(
        &mut self,
        questions: &[Question],
        read: &impl Fn(&str) -> Result<T, String>,
        note: &mut impl FnMut(Note, &[Option<T>]) -> Result<(), Fail>,
        row: &mut Row<T>,
    ) -> Result<(), Fail> {
        if system::stop_noted() != 0 {
            return fail(STOPPED, "stopped");
        }
        for place in 0..self.places.len() {
            self.hand_out(place, questions, row)?;
        }
        let heard = match self.heard.recv_timeout(LOOK) {
            Ok(heard) => Some(heard),
            Err(RecvTimeoutError::Timeout) => None,
            Err(RecvTimeoutError::Disconnected) => unreachable!("a sender is kept here"),
        };
        note(Note::Look, &row.answers)?;
        if let Some(Heard { run, word }) = heard {
            if let Some(place) = self.places.iter().position(|p| p.running.as_ref().is_some_and(|r| r.run == run)) {
                self.hear(place, word, read, note, row)?;
            }
        }
        for place in 0..self.places.len() {
            let late = |(_, since): &(usize, Instant)| self.timeout.is_some_and(|t| since.elapsed() > t);
            if self.places[place].asked.as_ref().is_some_and(late) {
                let words = format!("gave no answer within {} s", self.timeout.unwrap_or_default().as_secs_f64());
                self.failed(place, &words, note, row)?;
            }
        }
        Ok(())
    }

    fn name(&self, place: usize) -> String {
        match &self.places[place].running {
            Some(running) => format!("simulator {} (process {})", place + 1, running.child.id()),
            None => format!("simulator {}", place + 1),
        }
    }

    fn advice(&self) -> String {
        format!("try the command by hand: {}", self.command.to_string_lossy())
    }

    fn start(&mut self, place: usize) -> Result<(), Fail> {
        let started = Command::new("sh")
            .arg("-c")
            .arg(&self.command)
            .env("KNELLSTONE_JOB", (place + 1).to_string())
            .stdin(Stdio::piped())
            .stdout(Stdio::piped())
            .stderr(Stdio::piped())
            .process_group(0)
            .spawn();
        let mut child = match started {
            Ok(child) => child,
            Err(e) => return fail(OUTSIDE, format!("cannot start simulator {}: {e}", place + 1)),
        };
        self.runs += 1;
        let run = self.runs;
        let (input, output) = (child.stdin.take(), child.stdout.take());
        let errors = child.stderr.take();
        let (mut input, output, errors) = (input.expect("piped"), output.expect("piped"), errors.expect("piped"));
        let (lines, to_write) = mpsc::channel::<String>();
        thread::spawn(move || {
            // A process that has ended takes no line; its end is heard from its output.
            while to_write
                .recv()
                .is_ok_and(|line| input.write_all(line.as_bytes()).and_then(|()| input.flush()).is_ok())
            {}
        });
        let (hears, says) = (self.hears.clone(), self.hears.clone());
        thread::spawn(move || read_lines(output, |word| hears.send(Heard { run, word }).is_ok(), Word::Answer, true));
        thread::spawn(move || read_lines(errors, |word| says.send(Heard { run, word }).is_ok(), Word::Said, false));
        self.places[place].running = Some(Running { run, child, lines });
        Ok(())
    }

    /// Whether a simulator may still be started or asked.
    fn of_use(&self, place: usize) -> bool {
        self.places[place].fails < FAILS_MOST
    }

    fn hand_out<T>(&mut self, place: usize, questions: &[Question], row: &mut Row<T>) -> Result<(), Fail> {
        if self.places[place].asked.is_some() || !self.of_use(place) {
            return Ok(());
        }
        let elsewhere = |q: usize| (0..self.places.len()).any(|p| self.of_use(p) && !row.failed[q].contains(&p));
        let Some(at) = row.waiting.iter().position(|q| !row.failed[*q].contains(&place) || !elsewhere(*q)) else {
            return Ok(());
        };
        let q = row.waiting.remove(at).expect("a place of the list");
        if self.places[place].running.is_none() {
            self.start(place)?;
        }
        let place = &mut self.places[place];
        let line = format!("{} {} {}\n", questions[q].kind, row.first + q as u64, questions[q].rest);
        // Where the writer has gone, so has the process, and its end is heard next.
        let _ = place.running.as_ref().expect("it was started").lines.send(line);
        place.asked = Some((q, Instant::now()));
        Ok(())
    }

    fn hear<T>(
        &mut self,
        place: usize,
        word: Word,
        read: &impl Fn(&str) -> Result<T, String>,
        note: &mut impl FnMut(Note, &[Option<T>]) -> Result<(), Fail>,
        row: &mut Row<T>,
    ) -> Result<(), Fail> {
        let line = match word {
            Word::Said(line) => return note(Note::Line(format!("simulator {}: {line}", place + 1)), &row.answers),
            Word::Ended => {
                let words = self.ended(place);
                return self.failed(place, &words, note, row);
            }
            Word::TooLong => return self.failed(place, "answers a line of over 65536 bytes", note, row),
            Word::Answer(line) => line,
        };
        let Some((q, _)) = self.places[place].asked else {
            return self.failed(place, &format!("speaks without being asked: {}", shown(&line)), note, row);
        };
        match answer(&line, row.first + q as u64).and_then(read) {
            Ok(value) => {
                row.answers[q] = Some(value);
                row.left -= 1;
                self.places[place].asked = None;
                self.places[place].fails = 0;
                note(Note::Done, &row.answers)
            }
            Err(words) => self.failed(place, &words, note, row),
        }
    }

    /// How a process that closed its output ended.
    fn ended(&mut self, place: usize) -> String {
        let Some(running) = &mut self.places[place].running else { return "ended".into() };
        let since = Instant::now();
        loop {
            match running.child.try_wait() {
                Ok(Some(status)) => return format!("ended with {status}"),
                Ok(None) if since.elapsed() < GRACE => thread::sleep(Duration::from_millis(2)),
                _ => return "closed its output".into(),
            }
        }
    }

    /// Says what is wrong with a simulator, ends it, and puts its question back.
    fn failed<T>(
        &mut self,
        place: usize,
        words: &str,
        note: &mut impl FnMut(Note, &[Option<T>]) -> Result<(), Fail>,
        row: &mut Row<T>,
    ) -> Result<(), Fail> {
        let name = self.name(place);
        let asked = self.places[place].asked.take();
        if let Some(running) = self.places[place].running.take() {
            end(running);
        }
        self.places[place].fails += 1;
        let mut told = format!("{name} {words}");
        if let Some((q, _)) = asked {
            row.failed[q].push(place);
            row.waiting.push_front(q);
            told += &format!("; question {} is asked again", row.first + q as u64);
        }
        if !self.of_use(place) {
            told += &format!("; it failed {FAILS_MOST} times in a row and is left alone");
        }
        note(Note::Line(told), &row.answers)?;
        if !(0..self.places.len()).any(|p| self.of_use(p)) {
            return fail(SIMULATORS, format!("no simulator is left; the last, {name}, {words}; {}", self.advice()));
        }
        match asked.filter(|(q, _)| row.failed[*q].len() >= FAILS_MOST as usize) {
            Some((q, _)) => fail(
                SIMULATORS,
                format!(
                    "question {} failed {FAILS_MOST} times; the last, {name}, {words}; {}",
                    row.first + q as u64,
                    self.advice()
                ),
            ),
            None => Ok(()),
        }
    }
}

impl Drop for Simulators {
    /// Their input is closed first, which asks them to end.
    fn drop(&mut self) {
        let mut children: Vec<Child> = Vec::new();
        for place in &mut self.places {
            let asked = place.asked.take();
            if let Some(running) = place.running.take() {
                if asked.is_some() {
                    end(running);
                } else {
                    children.push(running.child);
                }
            }
        }
        let since = Instant::now();
        while since.elapsed() < GRACE && children.iter_mut().any(|c| matches!(c.try_wait(), Ok(None))) {
            thread::sleep(Duration::from_millis(2));
        }
        for mut child in children {
            if matches!(child.try_wait(), Ok(None)) {
                system::end_group(child.id());
                let _ = child.wait();
            }
        }
    }
}

fn end(mut running: Running) {
    // A leader that has been waited for may have given its number to another, so its group is not touched then.
    if matches!(running.child.try_wait(), Ok(None)) {
        system::end_group(running.child.id());
    }
    let _ = running.child.wait();
}

fn read_lines(from: impl Read, mut send: impl FnMut(Word) -> bool, made: fn(String) -> Word, tells_end: bool) {
    let mut from = BufReader::new(from);
    loop {
        let mut line = Vec::new();
        let read = from.by_ref().take(LINE_MOST + 1).read_until(b'\n', &mut line);
        let word = match read {
            Ok(0) | Err(_) => break,
            Ok(n) if n as u64 > LINE_MOST => Word::TooLong,
            Ok(_) => made(String::from_utf8_lossy(&line).trim_end().to_string()),
        };
        let word = if tells_end || matches!(word, Word::Said(_)) { word } else { continue };
        if !send(word) {
            return;
        }
    }
    if tells_end {
        send(Word::Ended);
    }
}

/// What an answer's line says, kind and value, where it answers the question of this number.
fn answer(line: &str, number: u64) -> Result<&str, String> {
    let mut words = line.splitn(3, ' ');
    let (kind, id, rest) = (words.next().unwrap_or(""), words.next().unwrap_or(""), words.next().unwrap_or(""));
    if !["score", "counts", "fail"].contains(&kind) {
        return Err(format!("answers rubbish: {}", shown(line)));
    }
    if id != number.to_string() {
        return Err(format!("answers question {} where {number} was asked", shown(id)));
    }
    if kind == "fail" {
        return Err(format!("could not answer: {}", shown(rest)));
    }
    Ok(line)
}

/// A line of another, cut where it is long, with nothing that moves a cursor.
fn shown(line: &str) -> String {
    let cut: String = line.chars().take(60).flat_map(char::escape_default).collect();
    if line.chars().count() > 60 {
        format!("'{cut}..'")
    } else {
        format!("'{cut}'")
    }
}

/// The value of an answer of a kind: the words after its number.
fn value<'a>(line: &'a str, kind: &str) -> Result<impl Iterator<Item = &'a str>, String> {
    let mut words = line.split(' ');
    if words.next() != Some(kind) {
        return Err(format!("answers another kind than {kind}: {}", shown(line)));
    }
    words.next();
    Ok(words)
}

pub fn score(line: &str) -> Result<f64, String> {
    let words: Vec<&str> = value(line, "score")?.collect();
    match words[..] {
        [word] => word.parse().map_err(|_| format!("answers a score that is no number: {}", shown(word))),
        _ => Err(format!("answers {} numbers where one score was asked: {}", words.len(), shown(line))),
    }
}

pub fn counts(line: &str) -> Result<Vec<u64>, String> {
    let read = |word: &str| {
        word.parse().map_err(|_| format!("answers a count that is no whole number from 0 on: {}", shown(word)))
    };
    value(line, "counts")?.map(read).collect()
}

#[cfg(test)]
mod tests {
    use super::*;

    #[test]
    fn answers_are_read() {
        assert_eq!(answer("score 7 -1.5", 7).and_then(score), Ok(-1.5));
        assert_eq!(answer("score 7 1e3", 7).and_then(score), Ok(1000.0));
        assert!(answer("score 7 nan", 7).and_then(score).unwrap().is_nan());
        assert_eq!(answer("counts 0 1 0 18446744073709551615", 0).and_then(counts), Ok(vec![1, 0, u64::MAX]));
        assert_eq!(answer("counts 0", 0).and_then(counts), Ok(vec![]));
    }

    #[test]
    fn rubbish_has_its_words() {
        let words = |line, number| answer(line, number).and_then(score).unwrap_err();
        assert_eq!(words("", 7), "answers rubbish: ''");
        assert_eq!(words("hello 7", 7), "answers rubbish: 'hello 7'");
        assert_eq!(words("score 8 1", 7), "answers question '8' where 7 was asked");
        assert_eq!(words("score 07 1", 7), "answers question '07' where 7 was asked");
        assert_eq!(words("score 7", 7), "answers 0 numbers where one score was asked: 'score 7'");
        assert_eq!(words("score 7 1 2", 7), "answers 2 numbers where one score was asked: 'score 7 1 2'");
        assert_eq!(words("score 7 x", 7), "answers a score that is no number: 'x'");
        assert_eq!(words("counts 7 1", 7), "answers another kind than score: 'counts 7 1'");
        assert_eq!(words("fail 7 no licence\u{1b}[2J", 7), "could not answer: 'no licence\\u{1b}[2J'");
        assert_eq!(words(&"x".repeat(100), 7), format!("answers rubbish: '{}..'", "x".repeat(60)));
        let words = |line| answer(line, 7).and_then(counts).unwrap_err();
        assert_eq!(words("counts 7 1 -1"), "answers a count that is no whole number from 0 on: '-1'");
        assert_eq!(words("counts 7 1  2"), "answers a count that is no whole number from 0 on: ''");
        assert_eq!(words("score 7 1"), "answers another kind than counts: 'score 7 1'");
    }
}
