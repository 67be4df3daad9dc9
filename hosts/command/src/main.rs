//! The workshop's command; docs/COMMAND.md says what it does.

mod args;
mod bar;
mod demo;
mod fail;
mod files;
mod help;
mod inspect;
mod json;
mod report;
mod settings;
mod simulators;
mod stand_in;
mod system;
mod trace;
mod train;
mod view;

use args::Args;
use fail::{fail, print, Fail, REFUSED, USAGE};
use knellstone::Settings;
use std::ffi::OsString;
use view::View;

fn main() {
    if let Err(failure) = run(std::env::args_os().skip(1).collect()) {
        for line in failure.words.lines() {
            eprintln!("knellstone: {line}");
        }
        std::process::exit(failure.status);
    }
}

fn run(mut words: Vec<OsString>) -> Result<(), Fail> {
    if words.is_empty() {
        return fail(USAGE, "no command; see knellstone --help");
    }
    let command = words.remove(0).to_string_lossy().into_owned();
    let asks = words.iter().take_while(|word| *word != "--").any(|word| word == "--help" || word == "-h");
    if let Some(text) = help::of(&command).filter(|_| asks) {
        return print(text);
    }
    match command.as_str() {
        "--help" | "-h" => print(help::ALL),
        "help" => help_command(&Args::read("help", &[], words)?),
        "--version" | "-V" => print(concat!("knellstone ", env!("CARGO_PKG_VERSION"), "\n")),
        "settings" => settings_command(&Args::read("settings", &[("--record", 1)], words)?),
        "train" => train::run(&Args::read("train", &train::OPTIONS, words)?),
        "inspect" => inspect::run(&Args::read("inspect", &inspect::OPTIONS, words)?),
        "report" => report::run(&Args::read("report", &report::OPTIONS, words)?),
        "change" => change(&Args::read("change", &[], words)?),
        "panel" => panel(&Args::read("panel", &[], words)?),
        "trace" => trace::run(&Args::read("trace", &trace::OPTIONS, words)?),
        "demo" => demo::run(&Args::read("demo", &[], words)?),
        "stand-in" => stand_in::run(),
        "completion" => completion(&Args::read("completion", &[], words)?),
        _ => fail(USAGE, format!("there is no command {command}; see knellstone --help")),
    }
}

fn help_command(args: &Args) -> Result<(), Fail> {
    match args.rest.first().map(|word| word.to_string_lossy()) {
        None => print(help::ALL),
        Some(command) => match help::of(&command) {
            Some(text) => print(text),
            None => fail(USAGE, format!("there is no command {command}; see knellstone --help")),
        },
    }
}

fn completion(args: &Args) -> Result<(), Fail> {
    match args.rest.first().and_then(|word| word.to_str()) {
        Some("bash") => print(help::BASH),
        _ => args.usage("the shell is missing, or is another than bash"),
    }
}

/// Prints the default settings or a record's, or checks a file.
fn settings_command(args: &Args) -> Result<(), Fail> {
    if let Some(path) = args.path("--record") {
        let [] = args.files([])?;
        return print(&settings::to_json(&View::of(&files::trainer(&path)?).settings).pretty());
    }
    if args.rest.is_empty() {
        return print(&settings::to_json(&Settings::default()).pretty());
    }
    let [path] = args.files(["FILE"])?;
    let settings = files::settings(&path)?;
    let candidates = settings.candidates(settings.default_action).map_or(0, |list| list.len());
    print(&format!(
        "{}: good, {} splits of {} rounds each, {candidates} candidates for the default action\n",
        path.display(),
        settings.rule_splits,
        settings.optimization_rounds_per_split
    ))
}

/// Gives a saved training new settings.
fn change(args: &Args) -> Result<(), Fail> {
    let [path, new] = args.files(["RECORD", "SETTINGS"])?;
    let settings = files::settings(&new)?;
    files::trainer(&path)?;
    let _log = train::log_path(&path).exists().then(|| train::locked(&path)).transpose()?;
    let mut trainer = files::trainer(&path)?;
    let view = View::of(&trainer);
    if let Err(refusal) = trainer.change_settings(&settings) {
        return fail(REFUSED, format!("{}: {refusal}: {}", path.display(), why_not(&view, &settings)));
    }
    files::save(&path, trainer.record())?;
    print(&format!(
        "{}: has these settings now, at stage {} of {}, round {}\n",
        path.display(),
        view.stage,
        settings.rule_splits,
        view.round + 1
    ))
}

/// Why a running training cannot take these settings (27).
fn why_not(view: &View, new: &Settings) -> String {
    let bits = |ends: [f64; 3]| ends.map(f64::to_bits);
    if bits(view.settings.ends) != bits(new.ends) {
        return "upper_ends must stay as they are".into();
    }
    if view.phase >= 6 {
        return "its training is done, or only counts are left to give; start another with these settings".into();
    }
    if view.stage > new.rule_splits {
        return format!("rule_splits {} is below its stage, {}", new.rule_splits, view.stage);
    }
    format!("optimization_rounds_per_split {} must be at least {}", new.optimization_rounds_per_split, view.round + 1)
}

/// The lines of the program `panel` for a record and counts.
fn panel(args: &Args) -> Result<(), Fail> {
    let [record, counts] = args.files(["RECORD", "COUNTS"])?;
    let mut input = files::read(&record)?;
    input.extend(files::read(&counts)?);
    match knellstone::panel_of(&input) {
        Ok(lines) => print(&lines),
        Err(refusal) => {
            print(&format!("refused {}\n", refusal.0))?;
            fail(REFUSED, refusal.to_string())
        }
    }
}
