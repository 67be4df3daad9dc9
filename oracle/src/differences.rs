//! Where the originals part from document 01. Each is shown by the original as it is, called without the
//! driver's precautions, and by the smallest script, whose line is 01's answer.

use std::{
    cell::RefCell,
    fmt::Write,
    panic::{catch_unwind, set_hook, take_hook, AssertUnwindSafe},
    rc::Rc,
};

use flowforge::{
    ccas::remy::{cube::Cube, point::Point, rule_tree::RuleTree, RemyCca, RemyPolicy},
    harness::{self, moment, seconds_of, Asked, Host},
    quantities::seconds,
    trainers::remy::RemyTrainer,
    util::{logging::NothingLogger, rand::Rng},
    AckReceived, Cca, PacketSent,
};

use crate::{
    driver::play,
    plain::{Ack, Action, Settings},
    rust::{as_given, counting, improvements, leaf, of_settings, to_action},
    script::{Call, Header, Writer},
};

pub struct Difference {
    pub name: &'static str,
    pub place: &'static str,
    pub text: &'static str,
    /// None where no call of a script can show it.
    pub script: Option<Vec<u8>>,
    /// The oracle's answer: the script's first line from which on 01 and the original part.
    pub line: &'static str,
    /// What the original gives, called as it is.
    pub original: fn() -> String,
    pub gives: &'static str,
}

pub fn default_settings() -> Settings {
    of_settings(&RemyTrainer::default())
}

pub fn header(settings: Settings) -> Header {
    Header { drill: u8::from(settings.drill), settings, mode: 0, lo: 0, hi: 0 }
}

pub fn script(settings: Settings, calls: &[Call]) -> Vec<u8> {
    let mut writer = Writer::new(&header(settings));
    for call in calls {
        writer.call(call);
    }
    writer.bytes
}

pub fn ack(sent: f64, received: f64) -> Call {
    Call::Ack(Ack { sent, received, draw: None })
}

fn action(multiplier: f64, increment: i32, delay: f64) -> Action {
    Action { multiplier, increment, delay }
}

fn zero_delay() -> Settings {
    Settings {
        min: action(-9.0, -9, -1.0),
        max: action(9.0, 9, -0.0),
        initial_change: action(1.0, 1, 1.0),
        max_change: action(1.0, 1, 1.0),
        ..default_settings()
    }
}

fn nine_values() -> Settings {
    Settings { multiplier: 2, max_change: action(0.01, 256, 0.05 / 1000.0), ..default_settings() }
}

fn splits(rule_splits: u32) -> Settings {
    Settings { rule_splits, rounds: 0, drill: false, ..default_settings() }
}

fn fresh() -> RuleTree {
    RuleTree::default(to_action(&default_settings().default))
}

fn first_ack<T: RemyPolicy>(sender: &mut RemyCca<T>, sent: f64, received: f64) -> u32 {
    let ack = AckReceived { sent_time: moment(sent), received_time: moment(received) };
    sender.ack_received(ack, &mut Rng::from_seed(0), &mut NothingLogger)
}

/// Runs `train` on counts of 0, so many times, and tells what it reported and how far it came.
struct Zeros {
    answers: usize,
    seen: Rc<RefCell<(Vec<f64>, usize)>>,
}

impl Host for Zeros {
    fn answer(&mut self, asked: Asked<'_>) -> f64 {
        if let Asked::Counts { tree, .. } = asked {
            self.seen.borrow_mut().1 = tree.num_parents();
        }
        if self.answers == 0 {
            harness::stop();
        }
        self.answers -= 1;
        0.0
    }

    fn progress(&mut self, fraction: f64) {
        self.seen.borrow_mut().0.push(fraction);
    }
}

fn train_on_zeros(settings: &Settings, answers: usize) -> (Vec<f64>, usize) {
    let seen = Rc::default();
    let host = Zeros { answers, seen: Rc::clone(&seen) };
    harness::train(&as_given(settings), settings.ends, Box::new(host));
    seen.take()
}

fn quietly<T>(f: impl FnOnce() -> T) -> Option<T> {
    let hook = take_hook();
    set_hook(Box::new(|_| {}));
    let ended = catch_unwind(AssertUnwindSafe(f)).ok();
    set_hook(hook);
    ended
}

pub fn all() -> Vec<Difference> {
    vec![
        Difference {
            name: "zero-lookup",
            place: "quantities/time_span.rs (`Ord`), ccas/remy/cube.rs (`contains`)",
            text: "Spans are ordered by `total_cmp`, so a span of -0 lies below the edge 0 and is outside; \
                   01 compares as IEEE 754 does, so it is inside. A ratio of -0 is inside for both. The \
                   oracle asks the original with +0. So for lookup, replaced lookup and tally; a fresh \
                   sender makes no span of -0.",
            script: Some(script(default_settings(), &[Call::Lookup([-0.0, 0.0, 0.0])])),
            line: "action 3ff0000000000000 1 3f689374bc6a7efa",
            original: || {
                let point = Point {
                    ack_ewma: seconds(-0.0),
                    send_ewma: seconds(0.0),
                    rtt_ratio: 0.0,
                };
                fresh().action(&point).map_or("none", |_| "action").to_owned()
            },
            gives: "none",
        },
        Difference {
            name: "zero-candidate",
            place: "trainers/remy.rs (`possible_improvements`)",
            text: "The same order drops a candidate whose delay is +0 where the greatest delay is -0; 01 \
                   keeps it. The oracle gives the original a greatest delay of +0 in place of -0. (A sum of \
                   -0 cannot arise, so the least delay makes no difference.)",
            script: Some(script(zero_delay(), &[Call::Candidate(action(0.0, 0, 1.0), 0)])),
            line: "candidates 4 3ff0000000000000 1 0000000000000000",
            original: || {
                let list = improvements(&as_given(&zero_delay()), &action(0.0, 0, 1.0));
                format!("{} candidates", list.len())
            },
            gives: "0 candidates",
        },
        Difference {
            name: "window-sum",
            place: "ccas/remy/action.rs (`apply_to`)",
            text: "01's own noted difference: the sum of product and increment is an `i32`, which overflows \
                   where the product is held to an end of its range. Built for release the sum wraps, built \
                   for debug it panics; 01 sums whole numbers. The oracle tests the sum ahead and then sets \
                   the sender's window to 01's.",
            script: Some(script(
                Settings {
                    default: action(3e9, 1, 0.0),
                    ..default_settings()
                },
                &[ack(0.0, 1.0)],
            )),
            line: "window 1000000",
            original: || format!("window {}", to_action(&action(3e9, 1, 0.0)).apply_to(1)),
            gives: "window 0",
        },
        Difference {
            name: "ack-without-rule",
            place: "ccas/remy/mod.rs (`ack_received`)",
            text: "Without a rule for its point the original panics, after it has updated its memory. 01 \
                   refuses the ack with 22 and leaves the sender. The oracle lets the lookup find nothing \
                   and takes the ack back.",
            script: Some(script(default_settings(), &[ack(1.0, 1.0)])),
            line: "refused 22",
            original: || {
                let mut sender = RemyCca::new(fresh(), None);
                let ended = quietly(|| first_ack(&mut sender, 1.0, 1.0));
                format!("{ended:?}, last ack {:?}", sender.held().last_ack)
            },
            gives: "None, last ack Some(1.0)",
        },
        Difference {
            name: "any-moment",
            place: "ccas/remy/mod.rs, quantities/time.rs",
            text: "Any float is a moment to the original; 01 admits 0 to 4,294,967,296. Refused (1) before the \
                   original is called.",
            script: Some(script(default_settings(), &[Call::Send(-1.0)])),
            line: "refused 1",
            original: || {
                let packet = PacketSent {
                    sent_time: moment(-1.0),
                };
                let mut sender = RemyCca::new(fresh(), None);
                let window = sender.packet_sent(packet, &mut Rng::from_seed(0), &mut NothingLogger);
                format!("window {window}, send {:?}", sender.held().send)
            },
            gives: "window 0, send Some(-1.0)",
        },
        Difference {
            name: "any-settings",
            place: "trainers/remy.rs (`changes`)",
            text: "An axis may have any number of values; 01 refuses more than 8, and so too the other ranges \
                   of the settings. With a multiplier of 1 or less `changes` does not end. Refused (2) before \
                   the original is called.",
            script: Some(script(nine_values(), &[])),
            line: "refused 2",
            original: || {
                let given = as_given(&nine_values());
                format!("{} candidates", improvements(&given, &nine_values().default).len())
            },
            gives: "9 candidates",
        },
        Difference {
            name: "any-action",
            place: "ccas/remy/rule_tree.rs, trainers/remy.rs",
            text: "Any action is taken; 01 refuses one that is not valid, with 1 alone and with 2 in settings.",
            script: Some(script(
                default_settings(),
                &[Call::Candidate(action(0.0, 1_000_001, 0.0), 0)],
            )),
            line: "refused 1",
            original: || {
                let list = improvements(&RemyTrainer::default(), &action(0.0, 1_000_001, 0.0));
                format!("{} candidates", list.len())
            },
            gives: "0 candidates",
        },
        Difference {
            name: "any-total",
            place: "ccas/remy/rule_tree.rs (`CountingRuleTree`)",
            text: "Counts may come to any total, and their sum may overflow; 01 refuses a total over 2^53 with \
                   4 before the original is called.",
            script: Some(script(default_settings(), &[Call::Counts(vec![(1 << 53) + 1])])),
            line: "refused 4",
            original: || {
                let mut tree = fresh();
                let chosen = counting(&mut tree, &[(1 << 53) + 1]).most_used_unoptimized_rule();
                format!("share {:?}", chosen.map(|(share, _)| share))
            },
            gives: "share Some(1.0)",
        },
        Difference {
            name: "parents-counted",
            place: "ccas/remy/rule_tree.rs (`num_used_rules`, `_most_used_rule`)",
            text: "A count at a parent adds to the total and to the used rules; 01 refuses it with 4 before the \
                   original is called.",
            script: Some(script(
                splits(2),
                &[Call::Counts(vec![0]), Call::Counts(vec![1, 0, 0, 0, 0, 0, 0, 0, 0])],
            )),
            line: "refused 4",
            original: || {
                let mut tree = fresh();
                leaf(&mut tree, 0).split();
                let used = counting(&mut tree, &[1, 0, 0, 0, 0, 0, 0, 0, 0]).num_used_rules();
                format!("{used} used")
            },
            gives: "1 used",
        },
        Difference {
            name: "more-stages",
            place: "trainers/remy.rs (`train`)",
            text: "The original splits as often as it is told; 01 refuses more than 64 in the settings with 2.",
            script: Some(script(splits(65), &[])),
            line: "refused 2",
            original: || format!("{} parents", train_on_zeros(&splits(65), 65).1),
            gives: "65 parents",
        },
        Difference {
            name: "more-splits",
            place: "trainers/remy.rs (`train`)",
            text: "Drilling, the original splits on without an end; 01 refuses a 65th split with 20. The script \
                   is a header (rule_splits 1, rounds 0, drill on) and 65 answers: counts of 0 for 1, 9, 17 .. \
                   513 nodes.",
            script: Some(script(
                Settings {
                    drill: true,
                    ..splits(1)
                },
                &(0..=64).map(|k| Call::Counts(vec![0; 8 * k + 1])).collect::<Vec<_>>(),
            )),
            line: "refused 20",
            original: || {
                let settings = Settings {
                    drill: true,
                    ..splits(1)
                };
                format!("{} parents", train_on_zeros(&settings, 65).1)
            },
            gives: "65 parents",
        },
        Difference {
            name: "progress",
            place: "trainers/remy.rs (`train`)",
            text: "Progress is told at the start of each stage, so never 1; 01 puts it into every question. \
                   The oracle computes it by 01's rule and holds what the original told against it.",
            script: Some(script(splits(0), &[])),
            line: "ask counts 3ff0000000000000",
            original: || format!("{:?}", train_on_zeros(&splits(0), 1).0),
            gives: "[0.0]",
        },
        Difference {
            name: "shortest-nan",
            place: "ccas/remy/mod.rs (`ack_received`)",
            text: "By `total_cmp` a held shortest of NaN with its sign bit clear gives way to any round trip, \
                   one with it set never; by 01 a NaN stays. No script shows it: a sender starts fresh and no \
                   admitted moments make a NaN.",
            script: None,
            line: "",
            original: || {
                let kept = |nan: f64| {
                    let mut sender = RemyCca::new(fresh(), None);
                    let mut held = sender.held();
                    held.round_trips = Some((nan, 1.0));
                    held.pending = Some((0, to_action(&default_settings().default)));
                    sender.hold(&held);
                    first_ack(&mut sender, 0.0, 1.0);
                    sender.held().round_trips.unwrap().0
                };
                let positive = f64::from_bits(0x7ff8_0000_0000_0000);
                format!("{} and {}", kept(positive), kept(-positive))
            },
            gives: "1 and NaN",
        },
        Difference {
            name: "wait-nan",
            place: "ccas/remy/mod.rs (`next_tick`)",
            text: "With a held wait of NaN the greater of now and send + wait goes by the NaN's sign; 01 does \
                   not say, and the rewrite answers now. No script shows it: every wait is a valid action's.",
            script: None,
            line: "",
            original: || {
                let wake = |nan: f64| {
                    let mut sender = RemyCca::new(fresh(), None);
                    let mut held = sender.held();
                    held.wait = nan;
                    held.send = Some(0.0);
                    sender.hold(&held);
                    sender.next_tick(moment(1.0)).map(seconds_of).unwrap()
                };
                let positive = f64::from_bits(0x7ff8_0000_0000_0000);
                format!("{} and {}", wake(positive), wake(-positive))
            },
            gives: "NaN and 1",
        },
        Difference {
            name: "midpoint",
            place: "ccas/remy/cube.rs (`split_rtt_ratio`)",
            text: "01's own noted difference: on a cube with an end past half the largest float `f64::midpoint` \
                   is not (max + min) / 2. No script shows it: every cube lies inside the root.",
            script: None,
            line: "",
            original: || {
                let mut cube = Cube::default();
                cube.min.rtt_ratio = 1e308;
                cube.max.rtt_ratio = 1.5e308;
                format!("{:e}", cube.split()[0].max.rtt_ratio)
            },
            gives: "1.25e308",
        },
    ]
}

const HEAD: &str = "\
# Where the originals part from document 01

Written by `oracle differences`; `oracle selftest` checks every line of it. A script is given in hexadecimal
and runs with `xxd -r -p | oracle drive`. \"The original\" is its answer when it is called as it is; the line
is the oracle's, which follows 01. Rows without a script cannot come up in a side-by-side run.

Not differences but additions of 01, for which the originals have nothing to compare: the record and its
refusals (6 to 9), the order of the refusals, 3 for a number that is no leaf's (the originals reach a leaf
only through counts; the oracle uses counts that are above 0 at one leaf), 5 (the originals draw for
themselves; the draw handed in stands in for their generator), 21 and 23, other upper ends than 600, 600 and
1000 (the originals are given a root with the same ones), and every state that only a loaded record can bring
about, such as a mark in phase 1 or phase 2 with drill off.
";

pub fn page() -> String {
    let mut page = String::from(HEAD);
    for d in all() {
        let text = d.text.split_whitespace().collect::<Vec<_>>().join(" ");
        write!(page, "\n## {}\n\n{}.\n\n{}\n\n", d.name, d.place, text).unwrap();
        writeln!(page, "- the original: `{}`", (d.original)()).unwrap();
        if let Some(script) = &d.script {
            writeln!(page, "- document 01: `{}`", shown_line(&d, script)).unwrap();
            if script.len() < 400 {
                let hex: String = script.iter().map(|b| format!("{b:02x}")).collect();
                writeln!(page, "- script: `{hex}`").unwrap();
            }
        }
    }
    page
}

/// The line of the script's output that the row names, or what stands last in its place.
pub fn shown_line(d: &Difference, script: &[u8]) -> String {
    let output = String::from_utf8(play(script).output).expect("plain lines");
    let found = output.lines().find(|line| *line == d.line);
    found.unwrap_or_else(|| output.lines().last().unwrap_or("")).to_owned()
}
