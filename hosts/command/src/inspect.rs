//! `knellstone inspect`: what a record holds, as a table or as JSON.

use crate::args::Args;
use crate::fail::{fail, print, Fail, REFUSED};
use crate::files::{self, beside};
use crate::json::{self, Json};
use crate::settings;
use crate::view::{Node, View, NONE_KEPT};
use knellstone::{Action, Point, Question, Ranges, Trainer};
use std::path::Path;

pub const OPTIONS: [(&str, usize); 3] = [("--counts", 1), ("--at", 3), ("--json", 0)];
const BAR: usize = 20;

pub fn run(args: &Args) -> Result<(), Fail> {
    let [path] = args.files(["RECORD"])?;
    let at = args.values("--at").map(|words| ranges(args, words)).transpose()?;
    let trainer = files::trainer(&path)?;
    let view = View::of(&trainer);
    let used = Used::read(&path, args.path("--counts").as_deref(), &trainer)?;
    let text = match (at, args.has("--json")) {
        (None, false) => table(&trainer, &view, &used),
        (None, true) => {
            json::object([("record", state_json(&trainer, &view)), ("nodes", nodes_json(&view, &used))]).pretty()
        }
        (Some(at), false) => found_words(&view, &used, found(&trainer, &at)?),
        (Some(at), true) => found_json(&view, &used, &at, found(&trainer, &at)?).pretty(),
    };
    print(&text)
}

/// Counts and the shares that the library gives them; none where there are no counts.
pub struct Used {
    pub counts: Vec<u64>,
    pub shares: Vec<Option<u64>>,
    pub note: Option<String>,
}

impl Used {
    /// The counts that are named, or those that training left beside the record.
    pub fn read(record: &Path, named: Option<&Path>, trainer: &Trainer) -> Result<Used, Fail> {
        let beside = beside(record, ".counts");
        let (counts, note) = match named {
            Some(path) => (Some(files::counts(path, trainer)?), None),
            None if beside.exists() => match files::counts(&beside, trainer) {
                Ok(counts) => (Some(counts), None),
                Err(failure) => (None, Some(failure.words)),
            },
            None => (None, None),
        };
        let nodes = trainer.nodes();
        let mut used = Used { counts: Vec::new(), shares: vec![None; nodes], note };
        if let Some(counts) = counts {
            let lines = trainer.panel(&counts).or_else(|refusal| fail(REFUSED, refusal.to_string()))?;
            for line in lines.lines().skip(1) {
                let (node, share) = line.split_once(' ').expect("a node and its share");
                let node: usize = node.parse().expect("a node's number");
                used.shares[node] = share.parse().ok();
            }
            used.counts = counts;
        }
        Ok(used)
    }
}

/// A number a person reads: six digits that matter at most.
pub fn short(x: f64) -> String {
    if !x.is_finite() || x == 0.0 {
        return format!("{x}");
    }
    let digits = (5 - x.abs().log10().floor() as i32).clamp(0, 12) as usize;
    let text = format!("{x:.digits$}");
    match text.contains('.') {
        true => text.trim_end_matches('0').trim_end_matches('.').to_string(),
        false => text,
    }
}

pub fn action_words(a: Action) -> String {
    format!(
        "multiplier {}, increment {}, wait {} ms",
        short(a.window_multiplier),
        a.window_increment,
        short(1000.0 * a.intersend_delay)
    )
}

fn question_words(trainer: &Trainer) -> String {
    match trainer.question() {
        Question::Counts { .. } => format!("one count for each of {} nodes", trainer.nodes()),
        Question::Score { leaf, action, .. } => {
            format!(
                "the score with leaf {leaf} set to {}; {} scores in a row",
                action_words(action),
                trainer.asked().len()
            )
        }
        Question::Done { .. } => "none, training is done".into(),
    }
}

pub fn state_words(trainer: &Trainer, view: &View) -> Vec<(&'static str, String)> {
    let s = &view.settings;
    let ends = format!("{} s, {} s, ratio {}", short(s.ends[0]), short(s.ends[1]), short(s.ends[2]));
    let depth = view.nodes.iter().map(|n| n.depth).max().unwrap_or(0);
    let mut words = vec![
        (
            "tree",
            format!(
                "{} leaves, {} splits, {} nodes, depth {depth}",
                view.leaves().count(),
                view.splits.len(),
                view.nodes.len()
            ),
        ),
        (
            "stage",
            match view.stage > s.rule_splits {
                true => format!("past the last of {}", s.rule_splits),
                false => format!(
                    "{} of {}, round {} of {}",
                    view.stage,
                    s.rule_splits,
                    view.round + 1,
                    s.optimization_rounds_per_split
                ),
            },
        ),
        ("phase", format!("{}, {}; {:.0}% done", view.phase, view.phase_words(), 100.0 * view.progress())),
        ("question", question_words(trainer)),
    ];
    if view.phase == 5 {
        let kept = if view.kept == NONE_KEPT {
            "none kept".into()
        } else {
            format!("candidate {} kept with {}", view.kept, short(view.kept_score))
        };
        words.push(("best", format!("{}, candidate {} is next, {kept}", short(view.best), view.k)));
    }
    words.extend([
        ("min_action", action_words(s.min_action)),
        ("max_action", action_words(s.max_action)),
        ("initial_action_change", action_words(s.initial_action_change)),
        ("max_action_change", action_words(s.max_action_change)),
        ("action_change_multiplier", s.action_change_multiplier.to_string()),
        ("drill_down", s.drill_down.to_string()),
        ("default_action", action_words(s.default_action)),
        ("upper_ends", ends),
    ]);
    words
}

fn span(node: &Node, axis: usize) -> String {
    format!("{}..{}", short(node.low[axis]), short(node.high[axis]))
}

fn share_words(share: Option<u64>) -> String {
    share.map_or(String::new(), |share| {
        let full = (share as usize * BAR).div_ceil(1000);
        format!("{:>3}.{}% {}", share / 10, share % 10, "#".repeat(full)).trim_end().to_string()
    })
}

fn row(number: u16, node: &Node, used: &Used) -> [String; 10] {
    let last = match node.children {
        0 => share_words(used.shares[usize::from(number)]),
        first => format!("split to {first}..{}", first + 7),
    };
    [
        number.to_string(),
        node.depth.to_string(),
        span(node, 0),
        span(node, 1),
        span(node, 2),
        short(node.action.window_multiplier),
        node.action.window_increment.to_string(),
        short(1000.0 * node.action.intersend_delay),
        if node.marked { "*".into() } else { String::new() },
        last,
    ]
}

const HEADS: [&str; 10] =
    ["node", "depth", "ack s", "send s", "ratio", "multiplier", "increment", "wait ms", "mark", "share"];

fn rows_text(rows: &[[String; 10]]) -> String {
    let width = |i: usize| rows.iter().map(|r| r[i].len()).chain([HEADS[i].len()]).max().unwrap_or(0);
    let widths: [usize; 10] = std::array::from_fn(width);
    let line = |cells: [&str; 10]| {
        let words: Vec<String> = (0..10)
            .map(|i| if i < 9 { format!("{:>w$}", cells[i], w = widths[i]) } else { cells[i].to_string() })
            .collect();
        words.join("  ").trim_end().to_string() + "\n"
    };
    let rows = rows.iter().map(|r| line(std::array::from_fn(|i| r[i].as_str())));
    [line(HEADS)].into_iter().chain(rows).collect()
}

fn table(trainer: &Trainer, view: &View, used: &Used) -> String {
    let mut out = String::new();
    for (name, words) in state_words(trainer, view) {
        out += &format!("{name:<25} {words}\n");
    }
    if let Some(note) = &used.note {
        out += &format!("no shares: {note}\n");
    }
    let rows: Vec<[String; 10]> = (0..).zip(&view.nodes).map(|(i, node)| row(i, node, used)).collect();
    out + "\n" + &rows_text(&rows)
}

pub fn state_json(trainer: &Trainer, view: &View) -> Json {
    let question = match trainer.question() {
        Question::Counts { .. } => json::object([("kind", json::text("counts"))]),
        Question::Score { leaf, action, .. } => json::object([
            ("kind", json::text("score")),
            ("leaf", json::whole(leaf)),
            ("action", settings::action_json(action)),
            ("in_a_row", json::whole(trainer.asked().len())),
        ]),
        Question::Done { .. } => json::object([("kind", json::text("done"))]),
    };
    let in_5 = |value: Json| if view.phase == 5 { value } else { Json::Null };
    let kept = view.phase == 5 && view.kept != NONE_KEPT;
    json::object([
        ("bytes", json::whole(trainer.record().len())),
        ("settings", settings::to_json(&view.settings)),
        ("splits", Json::List(view.splits.iter().map(json::whole).collect())),
        ("stage", json::whole(view.stage)),
        ("round", json::whole(view.round)),
        ("phase", json::whole(view.phase)),
        ("phase_words", json::text(view.phase_words())),
        ("progress", json::float(view.progress())),
        ("question", question),
        ("best", in_5(json::float(view.best))),
        ("next_candidate", in_5(json::whole(view.k))),
        ("kept_candidate", if kept { json::whole(view.kept) } else { Json::Null }),
        ("kept_score", if kept { json::float(view.kept_score) } else { Json::Null }),
    ])
}

fn node_json(number: u16, node: &Node, used: &Used) -> Json {
    let floats = |list: [f64; 3]| Json::List(list.map(json::float).to_vec());
    let at = usize::from(number);
    json::object([
        ("node", json::whole(number)),
        ("depth", json::whole(node.depth)),
        ("parent", node.parent.map_or(Json::Null, json::whole)),
        ("first_child", if node.is_leaf() { Json::Null } else { json::whole(node.children) }),
        ("low", floats(node.low)),
        ("high", floats(node.high)),
        ("window_multiplier", json::float(node.action.window_multiplier)),
        ("window_increment", json::whole(node.action.window_increment)),
        ("intersend_delay_s", json::float(node.action.intersend_delay)),
        ("marked", Json::Bool(node.marked)),
        ("count", used.counts.get(at).map_or(Json::Null, json::whole)),
        ("share", used.shares[at].map_or(Json::Null, json::whole)),
    ])
}

pub fn nodes_json(view: &View, used: &Used) -> Json {
    Json::List((0..).zip(&view.nodes).map(|(i, node)| node_json(i, node, used)).collect())
}

/// Three numbers or ranges LO..HI of them.
struct At {
    low: [f64; 3],
    high: [f64; 3],
    ranges: bool,
}

fn ranges(args: &Args, words: &[std::ffi::OsString]) -> Result<At, Fail> {
    let mut at = At { low: [0.0; 3], high: [0.0; 3], ranges: false };
    for (axis, word) in words.iter().enumerate() {
        let word = word.to_string_lossy();
        let (low, high) = word.split_once("..").unwrap_or((&word, &word));
        at.ranges |= word.contains("..");
        let (Ok(low), Ok(high)) = (low.parse::<f64>(), high.parse::<f64>()) else {
            return args.usage(format!("--at {word}: neither a number nor a range LO..HI of two"));
        };
        if low.is_nan() || high.is_nan() || low > high {
            return args
                .usage(format!("--at {word}: a range with an end that is no number, or its lowest above its highest"));
        }
        (at.low[axis], at.high[axis]) = (low, high);
    }
    Ok(at)
}

/// The leaves that could be reached, and how many boxes a lookup of a single point opened.
fn found(trainer: &Trainer, at: &At) -> Result<(Vec<u16>, Option<u16>), Fail> {
    let axis = |i: usize| [at.low[i], at.high[i]];
    let ranges = Ranges { ack_ewma: axis(0), send_ewma: axis(1), rtt_ratio: axis(2) };
    let leaves = trainer.leaves_within(ranges).or_else(|refusal| fail(REFUSED, refusal.to_string()))?;
    let point = Point { ack_ewma: at.low[0], send_ewma: at.low[1], rtt_ratio: at.low[2] };
    Ok((leaves, (!at.ranges).then(|| trainer.lookup_tested(&[point])[0].tested)))
}

fn found_words(view: &View, used: &Used, (leaves, opened): (Vec<u16>, Option<u16>)) -> String {
    let rows: Vec<[String; 10]> = leaves.iter().map(|leaf| row(*leaf, &view.nodes[usize::from(*leaf)], used)).collect();
    match opened {
        Some(opened) if leaves.is_empty() => {
            format!("no leaf: the point is outside the root box; boxes opened: {opened}\n")
        }
        Some(opened) => format!("leaf {}; boxes opened: {opened}\n\n{}", leaves[0], rows_text(&rows)),
        None if leaves.is_empty() => "no leaf: the ranges are outside the root box\n".into(),
        None => {
            format!("{} of {} leaves could be reached\n\n{}", leaves.len(), view.leaves().count(), rows_text(&rows))
        }
    }
}

fn found_json(view: &View, used: &Used, at: &At, (leaves, opened): (Vec<u16>, Option<u16>)) -> Json {
    let floats = |list: [f64; 3]| Json::List(list.map(json::float).to_vec());
    json::object([
        ("low", floats(at.low)),
        ("high", floats(at.high)),
        ("boxes_opened", opened.map_or(Json::Null, json::whole)),
        ("leaves", Json::List(leaves.iter().map(|i| node_json(*i, &view.nodes[usize::from(*i)], used)).collect())),
    ])
}

#[cfg(test)]
mod tests {
    use super::*;

    #[test]
    fn short_numbers() {
        let cases = [
            (0.0, "0"),
            (600.0, "600"),
            (37.5, "37.5"),
            (0.00057220458984375, "0.000572205"),
            (1e6, "1000000"),
            (-0.25, "-0.25"),
            (123456.7, "123457"),
        ];
        for (x, words) in cases {
            assert_eq!(short(x), words);
        }
    }
}
