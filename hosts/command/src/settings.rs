//! Settings in a text file, with the names that FlowForge's settings have; docs/COMMAND.md has the subset.

use crate::json::{self, Json};
use knellstone::{Action, Settings, Trainer};

const ACTION_NAMES: [&str; 3] = ["window_multiplier", "window_increment", "intersend_delay"];
const POINT_NAMES: [&str; 3] = ["ack_ewma", "send_ewma", "rtt_ratio"];
/// What the originals hand to their simulator; here it stays with the simulator, and is passed over.
const PASSED_OVER: [&str; 2] = ["change_eval_config", "count_rule_usage_config"];
const NAMES: [&str; 10] = [
    "rule_splits",
    "optimization_rounds_per_split",
    "min_action",
    "max_action",
    "initial_action_change",
    "max_action_change",
    "action_change_multiplier",
    "default_action",
    "drill_down",
    "upper_ends",
];

pub fn to_json(s: &Settings) -> Json {
    json::object([
        ("rule_splits", json::whole(s.rule_splits)),
        ("optimization_rounds_per_split", json::whole(s.optimization_rounds_per_split)),
        ("min_action", action_json(s.min_action)),
        ("max_action", action_json(s.max_action)),
        ("initial_action_change", action_json(s.initial_action_change)),
        ("max_action_change", action_json(s.max_action_change)),
        ("action_change_multiplier", json::whole(s.action_change_multiplier)),
        ("default_action", action_json(s.default_action)),
        ("drill_down", Json::Bool(s.drill_down)),
        (
            "upper_ends",
            json::object([
                (POINT_NAMES[0], span_json(s.ends[0])),
                (POINT_NAMES[1], span_json(s.ends[1])),
                (POINT_NAMES[2], json::float(s.ends[2])),
            ]),
        ),
    ])
}

pub fn action_json(a: Action) -> Json {
    json::object([
        (ACTION_NAMES[0], json::float(a.window_multiplier)),
        (ACTION_NAMES[1], json::whole(a.window_increment)),
        (ACTION_NAMES[2], span_json(a.intersend_delay)),
    ])
}

/// As the originals write a span: in milliseconds below a second; in seconds also where that alone reads back.
pub fn span_json(x: f64) -> Json {
    let milliseconds = x * 1000.0;
    if x < 1.0 && (milliseconds / 1000.0).to_bits() == x.to_bits() {
        json::text(format!("{milliseconds}ms"))
    } else {
        json::text(format!("{x}s"))
    }
}

/// As the originals read a span: a decimal and `ms` or `s`.
fn span(word: &str) -> Option<f64> {
    let word = word.strip_suffix('s')?;
    match word.strip_suffix('m') {
        Some(word) => word.parse::<f64>().ok().map(|x| x / 1000.0),
        None => word.parse().ok(),
    }
}

/// The settings of a text, or all that is wrong with it, each with its field's name.
pub fn read(text: &str) -> Result<Settings, Vec<String>> {
    let value = json::parse(text).map_err(|e| vec![format!("no JSON: {e}")])?;
    let Json::Object(fields) = value else {
        return Err(vec!["settings are one JSON object; `knellstone settings` prints the default ones".into()]);
    };
    let mut form = Form { wrong: Vec::new() };
    for (name, _) in &fields {
        if !NAMES.contains(&name.as_str()) && !PASSED_OVER.contains(&name.as_str()) {
            form.wrong.push(format!("{name}: no such field; there are {}", NAMES.join(", ")));
        }
    }
    let usual = Settings::default();
    let settings = Settings {
        rule_splits: form.whole(&fields, "rule_splits", 0, 64),
        optimization_rounds_per_split: form.whole(&fields, "optimization_rounds_per_split", 0, 1000),
        action_change_multiplier: form.whole(&fields, "action_change_multiplier", 2, 16),
        drill_down: form.flag(&fields, "drill_down"),
        min_action: form.action(&fields, "min_action"),
        max_action: form.action(&fields, "max_action"),
        initial_action_change: form.action(&fields, "initial_action_change"),
        max_action_change: form.action(&fields, "max_action_change"),
        default_action: form.action(&fields, "default_action"),
        ends: if get(&fields, "upper_ends").is_some() { form.ends(&fields) } else { usual.ends },
    };
    if form.wrong.is_empty() {
        form.changes(&settings);
    }
    if form.wrong.is_empty() {
        if let Err(refusal) = Trainer::start(&settings) {
            form.wrong.push(refusal.to_string());
        }
    }
    if form.wrong.is_empty() {
        Ok(settings)
    } else {
        Err(form.wrong)
    }
}

/// A file that is read field by field, and what is wrong with it.
struct Form {
    wrong: Vec<String>,
}

fn get<'a>(fields: &'a [(String, Json)], name: &str) -> Option<&'a Json> {
    fields.iter().find(|(n, _)| n == name).map(|(_, value)| value)
}

impl Form {
    fn wants(&mut self, name: &str, value: Option<&Json>, wanted: &str) {
        self.wrong.push(match value {
            None => format!("{name}: missing; it is {wanted}"),
            Some(value) => format!("{name}: {} is not {wanted}", value.line()),
        });
    }

    fn number<T: std::str::FromStr + PartialOrd>(
        &mut self,
        name: &str,
        value: Option<&Json>,
        low: T,
        high: T,
        wanted: &str,
    ) -> Option<T> {
        let number = match value {
            Some(Json::Number(word)) => word.parse().ok().filter(|x| low <= *x && *x <= high),
            _ => None,
        };
        if number.is_none() {
            self.wants(name, value, wanted);
        }
        number
    }

    fn whole(&mut self, fields: &[(String, Json)], name: &str, low: u32, high: u32) -> u32 {
        let wanted = format!("a whole number from {low} to {high}");
        self.number(name, get(fields, name), low, high, &wanted).unwrap_or(low)
    }

    fn flag(&mut self, fields: &[(String, Json)], name: &str) -> bool {
        match get(fields, name) {
            Some(Json::Bool(b)) => *b,
            other => {
                self.wants(name, other, "true or false");
                false
            }
        }
    }

    fn float(&mut self, name: &str, value: Option<&Json>, low: f64, high: f64, wanted: &str) -> f64 {
        self.number(name, value, low, high, wanted).unwrap_or(low)
    }

    fn span(&mut self, name: &str, value: Option<&Json>, low: f64, high: f64, wanted: &str) -> f64 {
        let read = match value {
            Some(Json::Text(word)) => span(word).filter(|x| low <= *x && *x <= high),
            _ => None,
        };
        read.unwrap_or_else(|| {
            self.wants(name, value, wanted);
            low
        })
    }

    /// An object whose fields are these and no others.
    fn parts<'a>(
        &mut self,
        fields: &'a [(String, Json)],
        name: &str,
        parts: [&str; 3],
    ) -> Option<&'a [(String, Json)]> {
        let wanted = format!("an object of {}, {} and {}", parts[0], parts[1], parts[2]);
        match get(fields, name) {
            Some(Json::Object(inner)) => {
                for (part, _) in inner.iter().filter(|(part, _)| !parts.contains(&part.as_str())) {
                    self.wrong.push(format!("{name}.{part}: no such field; it is {wanted}"));
                }
                Some(inner)
            }
            other => {
                self.wants(name, other, &wanted);
                None
            }
        }
    }

    fn action(&mut self, fields: &[(String, Json)], name: &str) -> Action {
        let Some(inner) = self.parts(fields, name, ACTION_NAMES) else { return Action::new(0.0, 0, 0.0) };
        let [multiplier, increment, delay] = ACTION_NAMES.map(|part| (format!("{name}.{part}"), get(inner, part)));
        let (low, high) = (-1_000_000, 1_000_000);
        Action::new(
            self.float(&multiplier.0, multiplier.1, f64::MIN, f64::MAX, "a finite number"),
            self.number(&increment.0, increment.1, low, high, "a whole number from -1000000 to 1000000").unwrap_or(low),
            self.span(&delay.0, delay.1, f64::MIN, f64::MAX, "a finite time in a string, such as \"3ms\" or \"0.5s\""),
        )
    }

    fn ends(&mut self, fields: &[(String, Json)]) -> [f64; 3] {
        let Some(inner) = self.parts(fields, "upper_ends", POINT_NAMES) else { return [1.0; 3] };
        let (low, high) = (1.0, 1e6);
        let [ack, send, ratio] = POINT_NAMES.map(|part| (format!("upper_ends.{part}"), get(inner, part)));
        let time = "a time from \"1s\" to \"1000000s\"";
        [
            self.span(&ack.0, ack.1, low, high, time),
            self.span(&send.0, send.1, low, high, time),
            self.float(&ratio.0, ratio.1, low, high, "a number from 1 to 1000000"),
        ]
    }

    /// What is asked of the changes, part by part.
    fn changes(&mut self, s: &Settings) {
        let (first, most, times) = (s.initial_action_change, s.max_action_change, s.action_change_multiplier);
        let initial = |part: usize| format!("initial_action_change.{}", ACTION_NAMES[part]);
        let above = [first.window_multiplier > 0.0, first.window_increment > 0, first.intersend_delay > 0.0];
        for part in (0..3).filter(|part| !above[*part]) {
            self.wrong.push(format!("{}: must be above 0", initial(part)));
        }
        for (name, action) in [("initial_action_change", first), ("max_action_change", most)] {
            if action.window_increment > 65536 {
                self.wrong.push(format!("{name}.window_increment: {} is above 65536", action.window_increment));
            }
        }
        let float_axis = |x: f64, max: f64| values(x, |x| f64::from(times) * x, |x| *x <= max);
        let whole_axis =
            values(i64::from(first.window_increment), |x| i64::from(times) * x, |x| *x <= most.window_increment.into());
        let lengths = [
            float_axis(first.window_multiplier, most.window_multiplier),
            whole_axis,
            float_axis(first.intersend_delay, most.intersend_delay),
        ];
        for part in (0..3).filter(|part| above[*part] && lengths[*part] > 8) {
            self.wrong.push(format!(
                "max_action_change.{}: {}, times {times} again and again, takes more than 8 steps up to it; lower it, or raise that or action_change_multiplier",
                ACTION_NAMES[part],
                initial(part),
            ));
        }
    }
}

/// How many values an axis lists, nine where it lists more than eight.
fn values<T>(first: T, next: impl Fn(&T) -> T, within: impl Fn(&T) -> bool) -> usize {
    std::iter::successors(Some(first), |x| Some(next(x))).take(9).take_while(within).count()
}

#[cfg(test)]
mod tests {
    use super::*;

    fn usual() -> String {
        to_json(&Settings::default()).pretty()
    }

    #[test]
    fn the_default_is_read_back() {
        assert_eq!(read(&usual()).unwrap(), Settings::default());
    }

    #[test]
    fn a_file_of_the_originals_is_read() {
        let text = r#"{"rule_splits": 12, "optimization_rounds_per_split": 2,
            "min_action": {"window_multiplier": 0.0, "window_increment": 0, "intersend_delay": "0.25ms"},
            "max_action": {"window_multiplier": 1.0, "window_increment": 256, "intersend_delay": "3ms"},
            "initial_action_change": {"window_multiplier": 0.01, "window_increment": 1, "intersend_delay": "0.05ms"},
            "max_action_change": {"window_multiplier": 0.5, "window_increment": 32, "intersend_delay": "1ms"},
            "action_change_multiplier": 4,
            "default_action": {"window_multiplier": 1.0, "window_increment": 1, "intersend_delay": "3ms"},
            "change_eval_config": {"network_samples": 50, "run_sim_for": "60s"},
            "count_rule_usage_config": {"network_samples": 500, "run_sim_for": "60s"},
            "drill_down": true}"#;
        assert_eq!(read(text).unwrap(), Settings::default());
    }

    #[test]
    fn spans_read_back() {
        for x in [
            0.0,
            5e-5,
            0.00025,
            0.003,
            0.1,
            0.3,
            1.0,
            1.5,
            600.0,
            1e6,
            -0.002,
            0.1 + 0.2,
            7e-5,
            1.0 / 3.0,
            f64::MIN_POSITIVE,
        ] {
            let Json::Text(word) = span_json(x) else { panic!() };
            assert_eq!(span(&word).unwrap().to_bits(), x.to_bits(), "{word}");
        }
    }

    /// Each edit of the default, the field that its message names, and words of it. The library refuses what is refused here.
    #[test]
    fn each_kind_of_bad_field_is_named() {
        let cases = [
            ("\"rule_splits\": 12", "\"rule_splits\": 65", "rule_splits: 65 is not a whole number from 0 to 64"),
            ("\"rule_splits\": 12", "\"rule_splits\": -1", "rule_splits: -1 is not"),
            ("\"rule_splits\": 12", "\"rule_splits\": 1.5", "rule_splits: 1.5 is not"),
            ("\"rule_splits\": 12", "\"rule_splits\": \"12\"", "rule_splits: \"12\" is not"),
            ("\"rule_splits\": 12", "\"rule_split\": 12", "rule_split: no such field"),
            ("\"rule_splits\": 12,", "", "rule_splits: missing"),
            (
                "\"optimization_rounds_per_split\": 2",
                "\"optimization_rounds_per_split\": 1001",
                "optimization_rounds_per_split: 1001",
            ),
            (
                "\"action_change_multiplier\": 4",
                "\"action_change_multiplier\": 1",
                "action_change_multiplier: 1 is not",
            ),
            (
                "\"action_change_multiplier\": 4",
                "\"action_change_multiplier\": 17",
                "action_change_multiplier: 17 is not",
            ),
            ("\"drill_down\": true", "\"drill_down\": 1", "drill_down: 1 is not true or false"),
            ("\"window_increment\": 256", "\"window_increment\": 1000001", "max_action.window_increment: 1000001"),
            (
                "\"window_multiplier\": 0.5",
                "\"window_multiplier\": 1e999",
                "max_action_change.window_multiplier: 1e999 is not a finite",
            ),
            ("\"0.25ms\"", "\"0.25\"", "min_action.intersend_delay: \"0.25\" is not"),
            ("\"0.25ms\"", "\"nanms\"", "min_action.intersend_delay: \"nanms\" is not"),
            ("\"0.25ms\"", "0.25", "min_action.intersend_delay: 0.25 is not"),
            (
                "\"window_multiplier\": 0.01",
                "\"window_multiplier\": 0",
                "initial_action_change.window_multiplier: must be above 0",
            ),
            ("\"0.05ms\"", "\"-1ms\"", "initial_action_change.intersend_delay: must be above 0"),
            (
                "\"window_increment\": 32",
                "\"window_increment\": 65537",
                "max_action_change.window_increment: 65537 is above 65536",
            ),
            (
                "\"window_multiplier\": 0.5",
                "\"window_multiplier\": 1e6",
                "max_action_change.window_multiplier: initial_action_change",
            ),
            ("\"1ms\"", "\"10s\"", "max_action_change.intersend_delay: initial_action_change"),
            ("\"600s\"", "\"0.5s\"", "upper_ends.ack_ewma: \"0.5s\" is not"),
            ("1000.0", "1000001", "upper_ends.rtt_ratio: 1000001 is not"),
            ("\"rtt_ratio\"", "\"ratio\"", "upper_ends.ratio: no such field"),
        ];
        for (old, new, words) in cases {
            let text = usual().replacen(old, new, 1);
            assert_ne!(text, usual(), "{old}");
            let wrong = read(&text).unwrap_err().join("\n");
            assert!(wrong.contains(words), "{new}: {wrong}");
            assert!(!wrong.contains("refused"), "{new}: {wrong}");
        }
    }

    /// What this file accepts and the library accepts is the same: the changes' parts from small lists.
    #[test]
    fn the_library_agrees() {
        let mut both = [0, 0];
        for times in [2, 4, 16] {
            for (first, most) in [
                (0.0, 1.0),
                (0.01, 0.5),
                (0.01, 2.0),
                (1e-9, 1.0),
                (0.5, 0.1),
                (-1.0, 1.0),
                (1.0, 128.0),
                (1.0, 255.9),
                (1.0, 256.0),
            ] {
                for (increment, max) in
                    [(1, 32), (0, 1), (1, 128), (1, 256), (65536, 65536), (65537, 65536), (1, 65537), (-1, 4), (5, 1)]
                {
                    let settings = Settings {
                        action_change_multiplier: times,
                        initial_action_change: Action::new(first, increment, 0.001),
                        max_action_change: Action::new(most, max, 0.002),
                        ..Settings::default()
                    };
                    let mut form = Form { wrong: Vec::new() };
                    form.changes(&settings);
                    assert_eq!(
                        form.wrong.is_empty(),
                        Trainer::start(&settings).is_ok(),
                        "{settings:?}: {:?}",
                        form.wrong
                    );
                    both[usize::from(form.wrong.is_empty())] += 1;
                }
            }
        }
        assert!(both[0] > 20 && both[1] > 20, "{both:?}");
    }
}
