//! How the command ends when it does not end well: words that say what to do, and an exit status.

use std::fmt::Display;
use std::io::Write;
use std::path::Path;

pub const OUTSIDE: i32 = 1;
pub const USAGE: i32 = 2;
pub const REFUSED: i32 = 3;
pub const SIMULATORS: i32 = 4;
pub const FULL: i32 = 5;
pub const STOPPED: i32 = 130;

#[derive(Debug)]
pub struct Fail {
    pub status: i32,
    pub words: String,
}

pub fn fail<T>(status: i32, words: impl Into<String>) -> Result<T, Fail> {
    Err(Fail { status, words: words.into() })
}

/// For a file or process that the machine would not give.
pub fn outside(what: &str, path: &Path, error: impl Display) -> Fail {
    Fail { status: OUTSIDE, words: format!("cannot {what} {}: {error}", path.display()) }
}

/// To standard output, whole; where its reader has left, that is no failure.
pub fn print(text: &str) -> Result<(), Fail> {
    let mut out = std::io::stdout().lock();
    match out.write_all(text.as_bytes()).and_then(|()| out.flush()) {
        Err(e) if e.kind() != std::io::ErrorKind::BrokenPipe => {
            fail(OUTSIDE, format!("cannot write to standard output: {e}"))
        }
        _ => Ok(()),
    }
}
