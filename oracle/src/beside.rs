//! Side-by-side runs: the same scripts through the program under test and through the oracle.

use std::{
    fs::{self, File},
    io,
    panic::catch_unwind,
    path::Path,
    process::{Command, Stdio},
    sync::{
        atomic::{AtomicBool, AtomicU64, Ordering},
        Mutex,
    },
    thread,
};

use crate::{driver::play, gen, trace};

pub struct Run<'a> {
    pub program: &'a Path,
    pub out: &'a Path,
    pub scripts: u64,
    pub seed: u64,
    pub jobs: usize,
}

/// The seed of script i of a run, so that `gen` makes it again.
pub fn seed_of(run: u64, i: u64) -> u64 {
    (run << 32) + i
}

#[derive(Default)]
struct Found {
    same: AtomicU64,
    different: AtomicU64,
    /// Held while the first difference is written.
    first: Mutex<bool>,
    disagreed: AtomicBool,
}

impl Run<'_> {
    /// The exit status: 0 all same, 1 some different, 3 the oracle disagrees with itself.
    pub fn compare(&self, kinds: &[&str]) -> i32 {
        fs::create_dir_all(self.out).expect("a folder for what differs");
        for old in ["first.script", "first.program", "first.oracle", "disagree.script"] {
            let _ = fs::remove_file(self.out.join(old));
        }
        let found = Found::default();
        for (kind, _) in gen::KINDS.iter().chain([&gen::TRACE]) {
            if !kinds.is_empty() && !kinds.contains(kind) {
                continue;
            }
            let (same, different) = (count(&found.same), count(&found.different));
            thread::scope(|scope| {
                for job in 0..self.jobs {
                    let found = &found;
                    scope.spawn(move || self.job(kind, job, found));
                }
            });
            if found.disagreed.load(Ordering::Relaxed) {
                println!("the oracle disagrees with itself: see {}", self.out.display());
                return 3;
            }
            println!(
                "{kind}: {} same, {} different",
                count(&found.same) - same,
                count(&found.different) - different
            );
        }
        println!("{} same, {} different", count(&found.same), count(&found.different));
        i32::from(count(&found.different) > 0)
    }

    fn job(&self, kind: &str, job: usize, found: &Found) {
        let place = self.out.join(format!("now-{job}"));
        for i in (job as u64..self.scripts).step_by(self.jobs) {
            if found.disagreed.load(Ordering::Relaxed) {
                break;
            }
            let seed = seed_of(self.seed, i);
            let script = gen::script(kind, seed).expect("a kind");
            let Ok(wanted) = catch_unwind(|| wanted(kind, &script)) else {
                fs::write(self.out.join("disagree.script"), &script).expect("a file");
                found.disagreed.store(true, Ordering::Relaxed);
                break;
            };
            let lines = self.program_lines(kind, &script, &place).expect("the program to run");
            if lines.as_ref() == Some(&wanted) {
                found.same.fetch_add(1, Ordering::Relaxed);
            } else {
                found.different.fetch_add(1, Ordering::Relaxed);
                self.keep(kind, seed, &script, lines.as_deref(), &wanted, found);
            }
        }
        let _ = fs::remove_file(place);
    }

    /// The program trace: beside replay, or where rt leaves it, each program in its own crate's out.
    fn trace(&self) -> std::path::PathBuf {
        let beside = self.program.with_file_name("trace");
        match self.program.ancestors().nth(3) {
            Some(crates) if !beside.exists() => crates.join("trace/out/trace"),
            _ => beside,
        }
    }

    /// None where a signal ended the program.
    fn program_lines(&self, kind: &str, script: &[u8], place: &Path) -> io::Result<Option<Vec<u8>>> {
        let program =
            if kind == gen::TRACE.0 { self.trace() } else { self.program.to_owned() };
        fs::write(place, script)?;
        let ended = Command::new(program).stdin(File::open(place)?).stderr(Stdio::null()).output()?;
        Ok(ended.status.code().map(|_| ended.stdout))
    }

    fn keep(&self, kind: &str, seed: u64, script: &[u8], lines: Option<&[u8]>, oracle: &[u8], found: &Found) {
        let mut kept = found.first.lock().expect("no panic while writing");
        if *kept {
            return;
        }
        *kept = true;
        let program = lines.unwrap_or(b"a signal ended the program\n");
        let write = |name: &str, bytes: &[u8]| {
            fs::write(self.out.join(name), bytes).expect("a file for what differs");
        };
        write("first.script", script);
        write("first.program", program);
        write("first.oracle", oracle);
        println!("first different: gen {kind} {seed}");
        let mut pairs = Lines(program).zip(Lines(oracle)).enumerate();
        if let Some((at, (p, o))) = pairs.find(|(_, (p, o))| p != o) {
            println!("  line {}: program {:.200}", at + 1, String::from_utf8_lossy(p));
            println!("  line {}: oracle  {:.200}", at + 1, String::from_utf8_lossy(o));
        }
    }
}

/// What the oracle answers to a script, or to an input of the program trace.
fn wanted(kind: &str, script: &[u8]) -> Vec<u8> {
    if kind == gen::TRACE.0 {
        trace::lines(script)
    } else {
        play(script).output
    }
}

fn count(of: &AtomicU64) -> u64 {
    of.load(Ordering::Relaxed)
}

/// Lines, then empty ones for ever.
struct Lines<'a>(&'a [u8]);

impl<'a> Iterator for Lines<'a> {
    type Item = &'a [u8];

    fn next(&mut self) -> Option<&'a [u8]> {
        let end = self.0.iter().position(|b| *b == b'\n').unwrap_or(self.0.len());
        let (line, rest) = self.0.split_at(end);
        self.0 = rest.get(1..).unwrap_or(&[]);
        Some(line)
    }
}
