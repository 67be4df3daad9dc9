//! `knellstone report`: a record as one page in itself.

use crate::args::Args;
use crate::fail::{print, Fail};
use crate::files;
use crate::inspect::{short, state_words, Used};
use crate::json::{self, Json};
use crate::train::log_path;
use crate::view::{Node, View};

pub const OPTIONS: [(&str, usize); 2] = [("--counts", 1), ("--log", 1)];
const PAGE: &str = include_str!("../page/page.html");
const STYLE: &str = include_str!("../page/page.css");
const SCRIPT: &str = include_str!("../page/page.js");

pub fn run(args: &Args) -> Result<(), Fail> {
    let [path] = args.files(["RECORD"])?;
    let trainer = files::trainer(&path)?;
    let view = View::of(&trainer);
    let used = Used::read(&path, args.path("--counts").as_deref(), &trainer)?;
    let usual = log_path(&path);
    let log = match args.path("--log").or_else(|| usual.exists().then_some(usual)) {
        Some(log) => course(&String::from_utf8_lossy(&files::read(&log)?)),
        None => Vec::new(),
    };
    let name = path.file_name().map_or_else(|| path.display().to_string(), |n| n.to_string_lossy().into_owned());
    let mut state = state_words(&trainer, &view);
    state.extend(used.note.iter().map(|note| ("no shares", note.clone())));
    print(&page(&name, &state, &view, &used, log))
}

/// The rows of a log; what is no row of one is passed over.
fn course(log: &str) -> Vec<Json> {
    log.lines().filter_map(|line| json::parse(line).ok()).filter(|row| matches!(row, Json::Object(_))).collect()
}

fn page(name: &str, state: &[(&'static str, String)], view: &View, used: &Used, log: Vec<Json>) -> String {
    let state: String =
        state.iter().map(|(name, words)| format!("<dt>{name}</dt><dd>{}</dd>\n", escaped(words))).collect();
    let rows: String = view.leaves().map(|(leaf, node)| row(leaf, node, used.shares[usize::from(leaf)])).collect();
    let course = if log.is_empty() {
        "<p>No log lies beside this record.</p>".to_string()
    } else {
        "<p>The best score of each row of answers; a line upward is a split.</p>\n<svg id=\"course\" viewBox=\"0 0 640 235\" role=\"img\" aria-label=\"best scores by row\"></svg>".to_string()
    };
    let leaves = view.leaves().map(|(leaf, node)| leaf_json(leaf, node, used.shares[usize::from(leaf)])).collect();
    let data = json::object([("leaves", Json::List(leaves)), ("course", Json::List(log))]);
    let parts = [
        ("TITLE", escaped(&format!("{name}: {} leaves", view.leaves().count()))),
        ("STYLE", STYLE.into()),
        ("STATE", state),
        ("COURSE", course),
        ("ROWS", rows),
        ("DATA", data.line()),
        ("SCRIPT", SCRIPT.into()),
    ];
    filled(PAGE, &parts)
}

/// The page with its parts in place. A part's own text is not looked into.
fn filled(page: &str, parts: &[(&str, String)]) -> String {
    let mut out = String::new();
    let mut rest = page;
    while let Some((before, after)) = rest.split_once('@') {
        let (name, after) = after.split_once('@').expect("a part's name ends");
        let (_, text) = parts.iter().find(|(n, _)| *n == name).expect("a part of the page");
        out += before;
        out += text;
        rest = after;
    }
    out + rest
}

fn row(leaf: u16, node: &Node, share: Option<u64>) -> String {
    let span = |axis: usize| format!("{}..{}", short(node.low[axis]), short(node.high[axis]));
    let share = share.map_or(String::new(), |share| {
        format!(
            "{}.{}%<span class=\"bar\" style=\"width:{}.{}%\"></span>",
            share / 10,
            share % 10,
            share * 7 / 100,
            share * 7 % 100 / 10
        )
    });
    let mark = if node.marked { "*" } else { "" };
    format!(
        "<tr class=\"leaf\" data-node=\"{leaf}\"><td>{leaf}</td><td>{}</td><td>{}</td><td>{}</td><td>{}</td><td>{}</td><td>{}</td><td>{}</td><td>{mark}</td><td>{share}</td></tr>\n",
        node.depth,
        span(0),
        span(1),
        span(2),
        short(node.action.window_multiplier),
        node.action.window_increment,
        short(1000.0 * node.action.intersend_delay),
    )
}

fn leaf_json(leaf: u16, node: &Node, share: Option<u64>) -> Json {
    let floats = |list: [f64; 3]| Json::List(list.map(json::float).to_vec());
    json::object([
        ("node", json::whole(leaf)),
        ("low", floats(node.low)),
        ("high", floats(node.high)),
        ("multiplier", json::float(node.action.window_multiplier)),
        ("increment", json::whole(node.action.window_increment)),
        ("wait", json::float(1000.0 * node.action.intersend_delay)),
        ("share", share.map_or(Json::Null, json::whole)),
    ])
}

fn escaped(text: &str) -> String {
    text.replace('&', "&amp;").replace('<', "&lt;").replace('>', "&gt;").replace('"', "&quot;")
}

#[cfg(test)]
mod tests {
    use super::*;
    use crate::view::tests::split_at;

    #[test]
    fn a_page_is_whole_and_by_itself() {
        let trainer = split_at(&[0, 3]);
        let view = View::of(&trainer);
        let used = Used { counts: Vec::new(), shares: vec![None; view.nodes.len()], note: None };
        let text = page(
            "<b>&.record",
            &state_words(&trainer, &view),
            &view,
            &used,
            course("{\"best\": -1.5, \"splits\": 0}\nrubbish\n"),
        );
        assert_eq!(text.matches("<tr class=\"leaf\"").count(), 15);
        assert!(text.contains("<title>&lt;b&gt;&amp;.record: 15 leaves</title>"));
        assert!(
            !text.contains("src=") && !text.contains("href=") && !text.contains("@import") && !text.contains("url(")
        );
        assert_eq!(text.matches("http").count(), 1, "the name of SVG alone");
        assert_eq!(text.matches("</script>").count(), 2);
        assert!(text.contains("\"course\": [{\"best\": -1.5"));
    }
}
