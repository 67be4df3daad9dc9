//! `knellstone train`: asks simulators what the trainer asks, and saves after each row.

use crate::args::Args;
use crate::bar::{Bar, Shown};
use crate::fail::{fail, outside, print, Fail, FULL, OUTSIDE, STOPPED};
use crate::files::{self, beside};
use crate::json::{self, Json};
use crate::simulators::{self, Note, Question, Simulators};
use crate::system;
use crate::view::View;
use knellstone::{Action, Question as Asked, Refusal, Trainer};
use std::ffi::OsStr;
use std::fs::{File, OpenOptions, TryLockError};
use std::io::Write;
use std::path::{Path, PathBuf};
use std::time::{Duration, Instant, SystemTime, UNIX_EPOCH};

pub const OPTIONS: [(&str, usize); 5] =
    [("--simulator", 1), ("--jobs", 1), ("--record", 1), ("--timeout", 1), ("--records", 1)];
const JOBS_MOST: usize = 1024;
const TIMEOUT_USUAL: f64 = 3600.0;
const TIMEOUT_MOST: f64 = 1e9;
/// A row that lasts is saved this often as far as its answers go in order.
const SAVE_EVERY: Duration = Duration::from_secs(10);
/// A training that started so lately has little to lose by a loss of power, and is not made to wait for the disk.
const YOUNG: Duration = Duration::from_secs(10);

pub fn run(args: &Args) -> Result<(), Fail> {
    let Some(command) = args.value("--simulator") else { return args.usage("--simulator is missing") };
    let jobs = args.number("--jobs", 1, 1, JOBS_MOST)?;
    let timeout = args.number("--timeout", TIMEOUT_USUAL, 0.0, TIMEOUT_MOST)?;
    let by_file = match args.value("--records").map(OsStr::to_string_lossy).as_deref() {
        None | Some("hex") => false,
        Some("file") => true,
        Some(other) => return args.usage(format!("--records {other} is neither hex nor file")),
    };
    let (path, settings) = match args.rest.len() {
        0 => match args.path("--record") {
            Some(path) => (path, None),
            None => return args.usage("SETTINGS is missing, or --record to go on from"),
        },
        _ => {
            let [settings] = args.files(["SETTINGS"])?;
            (args.path("--record").unwrap_or_else(|| settings.with_extension("record")), Some(settings))
        }
    };
    system::note_stops();
    let job = Job::open(path, settings.as_deref(), by_file)?;
    let timeout = (timeout > 0.0).then(|| Duration::from_secs_f64(timeout));
    job.train(Simulators::new(command, jobs, timeout))
}

struct Job {
    trainer: Trainer,
    path: PathBuf,
    log: File,
    by_file: bool,
    bar: Bar,
    /// From when on a save waits for the disk.
    flush_from: Instant,
    counts: usize,
    scores: usize,
}

impl Job {
    /// From the record where it is there, else from settings. A record of other settings is left as it is.
    fn open(path: PathBuf, settings: Option<&Path>, by_file: bool) -> Result<Job, Fail> {
        let wanted = settings.map(files::settings).transpose()?;
        if wanted.is_none() && !path.exists() {
            return fail(OUTSIDE, format!("there is no {}; name the settings to start with", path.display()));
        }
        let log = locked(&path)?;
        let now = Instant::now();
        let (trainer, words, flush_from) = if path.exists() {
            let trainer = files::trainer(&path)?;
            if wanted.is_some_and(|s| s.to_bytes() != View::of(&trainer).settings.to_bytes()) {
                return fail(
                    OUTSIDE,
                    format!("{0} is a record of other settings; name another by --record, or give it these by `knellstone change {0} SETTINGS`", path.display()),
                );
            }
            (trainer, "goes on from", now)
        } else {
            // Counts that lie here are of a training whose record is gone.
            files::remove(&beside(&path, ".counts"))?;
            let settings = wanted.expect("settings, or a record that is there");
            (Trainer::start(&settings).expect("the settings were tried"), "starts", now + YOUNG)
        };
        let mut bar = Bar::new(&View::of(&trainer));
        bar.say(&format!("{words} {}", path.display()));
        Ok(Job { trainer, path, log, by_file, bar, flush_from, counts: 0, scores: 0 })
    }

    fn train(mut self, mut simulators: Simulators) -> Result<(), Fail> {
        let trained = self.rows(&mut simulators);
        self.bar.clear();
        drop(simulators);
        files::remove(&self.asked_path())?;
        let path = self.path.display();
        match trained {
            Ok(()) => {
                let view = View::of(&self.trainer);
                let (leaves, splits) = (view.leaves().count(), view.splits.len());
                print(&format!(
                    "{path}: done, {leaves} leaves, {splits} splits, after {} lists of counts and {} scores in {}\n",
                    self.counts,
                    self.scores,
                    self.bar.elapsed()
                ))
            }
            Err(failure) => {
                let saved = match failure.status {
                    STOPPED => format!("stopped by signal {} and saved", system::stop_noted()),
                    OUTSIDE => format!("{}\nwhat was saved before stands", failure.words),
                    _ => format!("{}\nwhat was answered is saved", failure.words),
                };
                let status = failure.status;
                fail(status, format!("{saved}; `knellstone train --record {path} --simulator ..` goes on"))
            }
        }
    }

    fn rows(&mut self, simulators: &mut Simulators) -> Result<(), Fail> {
        if !self.path.exists() {
            self.save(&self.path, self.trainer.record())?;
        }
        loop {
            match self.trainer.question() {
                Asked::Counts { .. } => self.counts_row(simulators)?,
                Asked::Score { leaf, .. } => self.scores_row(simulators, leaf)?,
                Asked::Done { .. } => return Ok(()),
            }
        }
    }

    fn save(&self, path: &Path, bytes: &[u8]) -> Result<(), Fail> {
        files::saved(path, bytes, Instant::now() >= self.flush_from)
    }

    fn counts_path(&self) -> PathBuf {
        beside(&self.path, ".counts")
    }

    fn asked_path(&self) -> PathBuf {
        beside(&self.path, ".asked")
    }

    /// The record's words at a question's end: in hex, or the name of a file that has it.
    fn record_words(&self) -> Result<String, Fail> {
        if !self.by_file {
            let hex: String = self.trainer.record().iter().map(|b| format!("{b:02x}")).collect();
            return Ok(format!("hex {hex}"));
        }
        let path = self.asked_path();
        files::saved(&path, self.trainer.record(), false)?;
        let whole = path.canonicalize().map_err(|e| outside("find", &path, e))?;
        match whole.to_str().filter(|name| !name.contains(['\n', '\r'])) {
            Some(name) => Ok(format!("file {name}")),
            None => fail(OUTSIDE, format!("{} does not go on a line; use --records hex", whole.display())),
        }
    }

    fn counts_row(&mut self, simulators: &mut Simulators) -> Result<(), Fail> {
        let view = View::of(&self.trainer);
        let question = Question { kind: "counts", rest: self.record_words()? };
        let trainer = &self.trainer;
        // An answer that the trainer refuses is the simulator's, but for a tree that is full.
        let read = |line: &str| {
            let counts = simulators::counts(line)?;
            let mut next = trainer.clone();
            match next.answer_counts(&counts) {
                Ok(()) => Ok((counts, Some(next))),
                Err(Refusal(20)) => Ok((counts, None)),
                Err(refusal) => {
                    let (given, nodes) = (counts.len(), trainer.nodes());
                    Err(format!("answers {given} counts, and the tree has {nodes} nodes: {refusal}"))
                }
            }
        };
        let bar = &mut self.bar;
        let answer = simulators.ask(&[question], read, |note, _| {
            match note {
                Note::Line(line) => bar.say(&line),
                _ => bar.draw(&Shown { view: &view, done: 0, asked: 1, best: None }),
            }
            Ok(())
        });
        let (counts, next) = answer.map_err(|(_, failure)| failure)?.remove(0);
        let Some(next) = next else {
            return fail(
                FULL,
                format!(
                    "the tree is full: {}, and the settings ask for more; rule_splits and drill_down say how many",
                    Refusal(20)
                ),
            );
        };
        self.counts += 1;
        self.bar.row(&Shown { view: &view, done: 1, asked: 1, best: None });
        // The counts that lie beside a record are of its tree, also where this is broken off between the two.
        if next.nodes() == self.trainer.nodes() {
            let bytes: Vec<u8> = counts.iter().flat_map(|n| n.to_be_bytes()).collect();
            self.save(&self.counts_path(), &bytes)?;
        } else {
            files::remove(&self.counts_path())?;
        }
        self.trainer = next;
        self.save(&self.path, self.trainer.record())?;
        self.write_log(&view, 1, None)
    }

    fn scores_row(&mut self, simulators: &mut Simulators, leaf: u16) -> Result<(), Fail> {
        let view = View::of(&self.trainer);
        let record = self.record_words()?;
        let actions = self.trainer.asked();
        let question = |a: &Action| Question {
            kind: "score",
            rest: format!("{leaf} {:?} {} {:?} {record}", a.window_multiplier, a.window_increment, a.intersend_delay),
        };
        let questions: Vec<Question> = actions.iter().map(question).collect();
        let (path, trainer, bar) = (&self.path, &self.trainer, &mut self.bar);
        let mut saved = Instant::now();
        let answers = simulators.ask(&questions, simulators::score, |note, answers| {
            match note {
                Note::Line(line) => bar.say(&line),
                _ => {
                    let done = answers.iter().flatten().count();
                    bar.draw(&Shown { view: &view, done, asked: actions.len(), best: best(&view, answers) });
                }
            }
            if saved.elapsed() > SAVE_EVERY {
                saved = Instant::now();
                files::save(path, after(trainer, answers).record())?;
            }
            Ok(())
        });
        let scores = match answers {
            Ok(scores) => scores,
            Err((answers, failure)) => {
                files::save(&self.path, after(&self.trainer, &answers).record())?;
                return Err(failure);
            }
        };
        let given: Vec<Option<f64>> = scores.into_iter().map(Some).collect();
        self.trainer = after(&self.trainer, &given);
        self.scores += given.len();
        let best = best(&view, &given);
        self.bar.row(&Shown { view: &view, done: given.len(), asked: given.len(), best });
        self.save(&self.path, self.trainer.record())?;
        self.write_log(&view, given.len(), best)
    }

    /// A line of JSON a row: what was asked, of how many, and what came of it.
    fn write_log(&mut self, view: &View, answers: usize, best: Option<f64>) -> Result<(), Fail> {
        let at =
            SystemTime::now().duration_since(UNIX_EPOCH).map_or(0.0, |t| (t.as_secs_f64() * 1000.0).round() / 1000.0);
        let line = json::object([
            ("at", json::float(at)),
            ("stage", json::whole(view.stage)),
            ("round", json::whole(view.round)),
            ("phase", json::whole(view.phase)),
            ("leaf", if best.is_some() { json::whole(view.leaf) } else { Json::Null }),
            ("answers", json::whole(answers)),
            ("best", best.map_or(Json::Null, json::float)),
            ("splits", json::whole((self.trainer.nodes() - 1) / 8)),
        ]);
        let path = log_path(&self.path);
        self.log.write_all((line.line() + "\n").as_bytes()).map_err(|e| outside("write", &path, e))
    }
}

pub fn log_path(record: &Path) -> PathBuf {
    beside(record, ".log")
}

/// The log, which one training alone holds.
pub fn locked(record: &Path) -> Result<File, Fail> {
    let path = log_path(record);
    let log = OpenOptions::new().append(true).create(true).open(&path).map_err(|e| outside("write", &path, e))?;
    match log.try_lock() {
        Err(TryLockError::WouldBlock) => {
            fail(OUTSIDE, format!("another `knellstone train` is at work on {}", record.display()))
        }
        // Where a file system knows no locks, none is held.
        _ => Ok(log),
    }
}

/// The trainer after those of a row's answers that come before the first that is missing.
fn after(trainer: &Trainer, answers: &[Option<f64>]) -> Trainer {
    let scores: Vec<f64> = answers.iter().map_while(|a| *a).collect();
    let mut next = trainer.clone();
    next.answer_scores(&scores).expect("scores that were asked for are taken");
    next
}

/// The best score so far of the leaf that is tuned: its own action's, or a candidate's that is above it.
fn best(view: &View, answers: &[Option<f64>]) -> Option<f64> {
    let (own, candidates) = if view.phase == 4 { (answers[0]?, &answers[1..]) } else { (view.best, answers) };
    let kept = if view.kept == crate::view::NONE_KEPT { own } else { view.kept_score };
    Some(candidates.iter().flatten().fold(kept, |best, x| if *x > best { *x } else { best }))
}
