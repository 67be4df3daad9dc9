//! Knellstone's oracle. `oracle` alone lists what it does.

mod beside;
mod census;
mod differences;
mod driver;
mod gen;
mod plain;
mod rust;
mod script;
mod selftest;
mod trace;

use std::{
    env, fs,
    io::{self, BufRead, Read, Write},
    path::Path,
    process::exit,
};

const USAGE: &str = "\
oracle drive                        a script on standard input, its lines on standard output
oracle list                         names of script files on standard input; the lines go to NAME.lines
oracle trace                        a record and a trace on standard input, their lines on standard output
oracle kinds                        the kinds of scripts, and of inputs of the program trace
oracle gen KIND SEED                one script on standard output
oracle beside PROGRAM OUT N SEED [KIND..]
                                    N scripts of each kind through PROGRAM and the oracle, and N traces through
                                    the program trace beside it; OUT gets the first that differs
oracle census N SEED                what N scripts of each kind reach
oracle selftest                     the oracle's own checks
oracle differences                  where the originals part from document 01, as a page";

fn usage() -> ! {
    eprintln!("{USAGE}");
    exit(2)
}

fn number(text: &str) -> u64 {
    text.parse().unwrap_or_else(|_| usage())
}

fn put(bytes: &[u8]) {
    io::stdout().write_all(bytes).expect("standard output");
}

fn main() {
    let args: Vec<String> = env::args().skip(1).collect();
    let args: Vec<&str> = args.iter().map(String::as_str).collect();
    match args[..] {
        ["drive"] => {
            let mut script = Vec::new();
            io::stdin().read_to_end(&mut script).expect("standard input");
            put(&driver::play(&script).output);
        }
        ["trace"] => {
            let mut input = Vec::new();
            io::stdin().read_to_end(&mut input).expect("standard input");
            put(&trace::lines(&input));
        }
        ["list"] => {
            for name in io::stdin().lock().lines() {
                let name = name.expect("a file name");
                let script = fs::read(&name).expect("a script");
                fs::write(format!("{name}.lines"), driver::play(&script).output).expect("a file");
            }
        }
        ["kinds"] => {
            for (kind, _) in gen::KINDS.iter().chain([&gen::TRACE]) {
                println!("{kind}");
            }
        }
        ["gen", kind, seed] => match gen::script(kind, number(seed)) {
            Some(script) => put(&script),
            None => usage(),
        },
        ["beside", program, out, n, seed, ref kinds @ ..] => {
            let jobs = env::var("JOBS").map_or(1, |jobs| number(&jobs).max(1) as usize);
            let run = beside::Run {
                program: Path::new(program),
                out: Path::new(out),
                scripts: number(n),
                seed: number(seed),
                jobs,
            };
            exit(run.compare(kinds));
        }
        ["census", n, seed] => census::take(number(n), number(seed)),
        ["selftest"] => exit(selftest::run()),
        ["differences"] => print!("{}", differences::page()),
        _ => usage(),
    }
}
