//! `knellstone demo`: trains a small tree against the stand-in with two jobs, inspects it and paces a trace by it.

use crate::args::Args;
use crate::fail::{outside, print, Fail, OUTSIDE};
use crate::{files, inspect, settings, train};
use knellstone::{Event, RepeatMode, Sender, Settings};
use std::ffi::OsString;
use std::fs;
use std::path::{Path, PathBuf};

pub fn run(args: &Args) -> Result<(), Fail> {
    if !args.rest.is_empty() {
        let [folder] = args.files(["FOLDER"])?;
        return shown(&folder);
    }
    let folder = std::env::temp_dir().join(format!("knellstone-demo-{}", std::process::id()));
    let done = shown(&folder);
    let _ = fs::remove_dir_all(&folder);
    done
}

fn shown(folder: &Path) -> Result<(), Fail> {
    let entered = fs::create_dir_all(folder).and_then(|()| std::env::set_current_dir(folder));
    entered.map_err(|e| outside("enter", folder, e))?;
    let (settings_path, record) = (PathBuf::from("small.json"), PathBuf::from("small.record"));
    let small = Settings { rule_splits: 2, optimization_rounds_per_split: 1, drill_down: false, ..Settings::default() };
    files::save(&settings_path, settings::to_json(&small).pretty().as_bytes())?;
    let own =
        std::env::current_exe().map_err(|e| Fail { status: OUTSIDE, words: format!("cannot find itself: {e}") })?;
    let simulator = format!("exec {} stand-in", quoted(&own));
    print("$ knellstone train small.json --simulator 'knellstone stand-in' --jobs 2\n")?;
    let words = ["--simulator".into(), simulator.into(), "--jobs".into(), "2".into(), settings_path.into_os_string()];
    train::run(&Args::read("train", &train::OPTIONS, words.to_vec())?)?;
    print("\n$ knellstone inspect small.record\n")?;
    let words: Vec<OsString> = vec![record.clone().into_os_string()];
    inspect::run(&Args::read("inspect", &inspect::OPTIONS, words)?)?;
    print("\npaced by it: a packet each 20 ms, acknowledged after 50 ms\n")?;
    paced(&record)
}

fn paced(record: &Path) -> Result<(), Fail> {
    let trainer = files::trainer(record)?;
    let mut sender = Sender::new(RepeatMode::Off).expect("no repeat is a mode");
    for i in 0..6 {
        let sent = f64::from(i) * 0.02;
        let events = [Event::Send { at: sent }, Event::Tick, Event::Ack { sent, received: sent + 0.05, draw: None }];
        let line = match sender.run(&trainer, &events)[2] {
            Ok(reply) => format!("ack {i}: window {}, wait {:.2} ms\n", reply.window, 1000.0 * sender.wait()),
            Err(refusal) => format!("ack {i}: {refusal}\n"),
        };
        print(&line)?;
    }
    Ok(())
}

/// A path as one word of a shell.
fn quoted(path: &Path) -> String {
    format!("'{}'", path.display().to_string().replace('\'', "'\\''"))
}
