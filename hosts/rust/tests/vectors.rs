//! The host library answers the stored scripts with the lines that the originals gave (vectors/README.md).
//! Lines of calls that the library doesn't have (wakes, tallies) are passed over, and of a tree's lines the cubes.

use knellstone::{even_row, next_list, Ack, Action, Event, Generator, Point, Question, Refusal, Sender, Trainer};
use std::{fs, path::Path};

struct Script<'a> {
    bytes: &'a [u8],
    at: usize,
}

/// The script ends inside a call, or has one that is none.
struct Bad;

impl<'a> Script<'a> {
    fn take(&mut self, n: usize) -> Result<&'a [u8], Bad> {
        let piece = self.bytes.get(self.at..self.at + n).ok_or(Bad)?;
        self.at += n;
        Ok(piece)
    }

    fn number(&mut self, n: usize) -> Result<u64, Bad> {
        Ok(self.take(n)?.iter().fold(0, |x, b| x << 8 | u64::from(*b)))
    }

    fn float(&mut self) -> Result<f64, Bad> {
        Ok(f64::from_bits(self.number(8)?))
    }

    fn ack(&mut self) -> Result<Ack, Bad> {
        let (sent, received) = (self.float()?, self.float()?);
        let (flag, draw) = (self.number(1)?, self.number(4)?);
        Ok(Ack { sent, received, draw: (flag == 1).then_some(draw as u32) })
    }

    fn point(&mut self) -> Result<Point, Bad> {
        Ok(Point { ack_ewma: self.float()?, send_ewma: self.float()?, rtt_ratio: self.float()? })
    }

    fn action(&mut self) -> Result<Action, Bad> {
        Ok(Action::from_bytes(self.take(20)?.try_into().unwrap()))
    }
}

fn hex(x: f64) -> String {
    if x.is_nan() {
        "7ff8000000000000".into()
    } else {
        format!("{:016x}", x.to_bits())
    }
}

fn shown(a: Action) -> String {
    format!("{} {} {}", hex(a.window_multiplier), a.window_increment, hex(a.intersend_delay))
}

fn bytes_shown(bytes: &[u8]) -> String {
    bytes.iter().map(|b| format!("{b:02x}")).collect()
}

fn question(t: &Trainer) -> String {
    match t.question() {
        Question::Counts { progress } => format!("ask counts {}", hex(progress)),
        Question::Score { leaf, action, progress } => format!("ask score {leaf} {} {}", shown(action), hex(progress)),
        Question::Done { progress } => format!("done {}", hex(progress)),
    }
}

fn refused(r: Refusal) -> String {
    format!("refused {}", r.0)
}

/// The sender's line, read from the layout of its bytes.
fn sender_line(s: &Sender) -> String {
    let b = s.bytes();
    let float = |at: usize| hex(f64::from_bits(u64::from_be_bytes(b[at..at + 8].try_into().unwrap())));
    let flagged = |at: usize| if b[at] == 1 { float(at + 1) } else { "-".into() };
    let trips = if b[36] == 1 { format!("{} {}", float(37), float(45)) } else { "- -".into() };
    let pending = if b[53] == 1 {
        let left = u32::from_be_bytes(b[54..58].try_into().unwrap());
        format!("{left} {}", shown(Action::from_bytes(b[58..78].try_into().unwrap())))
    } else {
        "-".into()
    };
    format!(
        "sender {} {} {} {} {trips} {pending} {} {} {}",
        flagged(0), flagged(9), flagged(18), flagged(27), s.window(), hex(s.wait()), flagged(87)
    )
}

/// The lines that a call gives, the lines of a trainer's tree, or that they are passed over.
enum Gives {
    Lines(Vec<String>),
    Tree(Trainer),
    Passes,
}

/// Each node of a record's tree, without its cube.
fn nodes(record: &[u8]) -> Vec<String> {
    let short = |at: usize| usize::from(u16::from_be_bytes([record[at], record[at + 1]]));
    let splits = short(142);
    let node = |i: usize| {
        let at = 144 + 2 * splits + 21 * i;
        let action = Action::from_bytes(record[at..at + 20].try_into().unwrap());
        let kind = match (0..splits).find(|k| short(144 + 2 * k) == i) {
            Some(k) => format!("parent {}", 8 * k + 1),
            None => "leaf".into(),
        };
        format!("{i} {kind} {} {} ", record[at + 20], shown(action))
    };
    (0..1 + 8 * splits).map(node).collect()
}

/// The generator's line.
fn state(g: &Generator) -> String {
    if g.words() == [0; 4] {
        return "state -".into();
    }
    g.words().iter().fold("state".into(), |line, word| format!("{line} {word}"))
}

fn call(script: &mut Script, trainer: &mut Trainer, sender: &mut Sender, generator: &mut Generator) -> Result<Gives, Bad> {
    let answered = |t: &Trainer, r: Result<(), Refusal>| {
        Gives::Lines(vec![r.map_or_else(refused, |()| "ok".into()), question(t)])
    };
    let found = |a: Option<Action>| a.map_or("none".into(), |a| format!("action {}", shown(a)));
    Ok(match script.number(1)? {
        1 => {
            let n = script.number(2)?;
            if n > 600 {
                return Err(Bad);
            }
            let counts = (0..n).map(|_| script.number(8)).collect::<Result<Vec<_>, _>>()?;
            let r = trainer.answer_counts(&counts);
            answered(trainer, r)
        }
        2 => {
            let r = trainer.answer_score(script.float()?);
            answered(trainer, r)
        }
        3 => {
            let room = script.number(2)? as usize;
            let saved = if room < trainer.record().len() {
                "refused 9".into()
            } else {
                *trainer = Trainer::load(&trainer.record().to_vec()).expect("its own record");
                format!("saved {}", bytes_shown(trainer.record()))
            };
            Gives::Lines(vec![saved, question(trainer)])
        }
        code @ 4..=6 => {
            let event = match code {
                4 => {
                    let Ack { sent, received, draw } = script.ack()?;
                    Event::Ack { sent, received, draw }
                }
                5 => Event::Send { at: script.float()? },
                _ => Event::Tick,
            };
            let line = sender.run(trainer, &[event])[0].map_or_else(refused, |r| format!("window {}", r.window));
            Gives::Lines(vec![line, sender_line(sender)])
        }
        8 => Gives::Lines(vec![found(trainer.lookup(&[script.point()?])[0])]),
        9 => {
            let (leaf, action, point) = (script.number(2)? as u16, script.action()?, script.point()?);
            Gives::Lines(vec![trainer.lookup_replaced(leaf, action, &[point]).map_or_else(refused, |a| found(a[0]))])
        }
        13 => {
            let n = script.number(4)? as usize;
            if n > 16_500 {
                return Err(Bad);
            }
            let line = match Trainer::load(script.take(n)?) {
                Ok(loaded) => {
                    *trainer = loaded;
                    "loaded".into()
                }
                Err(r) => refused(r),
            };
            Gives::Lines(vec![line, question(trainer)])
        }
        11 => {
            let (action, k) = (script.action()?, script.number(4)? as usize);
            let picked = |list: Vec<Action>| {
                format!("candidates {} {}", list.len(), list.get(k).map_or("-".into(), |a| shown(*a)))
            };
            Gives::Lines(vec![trainer.candidates(action).map_or_else(refused, picked)])
        }
        14 => {
            let n = script.number(4)? as usize;
            if n > 16_500 {
                return Err(Bad);
            }
            let same = |other: Trainer| format!("equal {}", u8::from(trainer.same_tree(&other)));
            Gives::Lines(vec![Trainer::load(script.take(n)?).map_or_else(refused, same)])
        }
        15 => {
            let r = trainer.change_settings_from(script.take(137)?);
            answered(trainer, r)
        }
        19 => {
            let mut words = [0; 4];
            for word in &mut words {
                *word = script.number(8)?;
            }
            // The call of a host has no test of its own for what a generator is made of: a step of four zeros has it.
            let made = Generator::new(words);
            Gives::Lines(vec![match made.clone().step() {
                Ok(_) => {
                    *generator = made;
                    state(generator)
                }
                Err(r) => refused(r),
            }])
        }
        20 => {
            let event = Event::Ack { sent: script.float()?, received: script.float()?, draw: Some(7) };
            let line = match sender.run_own(trainer, generator, &[event]) {
                Ok(replies) => replies[0].map_or_else(refused, |r| format!("window {}", r.window)),
                Err(r) => refused(r),
            };
            Gives::Lines(vec![line, sender_line(sender), state(generator)])
        }
        23 => Gives::Lines(match generator.step() {
            Ok(output) => vec![format!("output {output}"), state(generator)],
            Err(r) => vec![refused(r)],
        }),
        24 => Gives::Lines(vec![generator.step_back().map_or_else(refused, |()| state(generator))]),
        16 => {
            let n = script.number(2)?;
            if n > 600 {
                return Err(Bad);
            }
            let acks = (0..n).map(|_| script.ack()).collect::<Result<Vec<_>, _>>()?;
            let places = script.number(2)? as usize;
            // The crate lends a place for each ack.
            let burst = if places < acks.len() { Err(Refusal(9)) } else { sender.burst(trainer, &acks) };
            let line = burst.map_or_else(refused, |b| {
                let stopped = b.stopped.map_or(0, |r| r.0);
                b.windows.iter().fold(format!("burst {} {stopped}", b.windows.len()), |line, w| format!("{line} {w}"))
            });
            Gives::Lines(vec![line, sender_line(sender)])
        }
        7 => script.take(8).map(|_| Gives::Passes)?,
        18 => {
            let (ranges, places) = (script.take(48)?, script.number(2)? as usize);
            let line = match trainer.leaves_within_from(ranges, places) {
                Ok(leaves) => leaves.iter().fold(format!("leaves {}", leaves.len()), |line, node| format!("{line} {node}")),
                Err(r) => refused(r),
            };
            Gives::Lines(vec![line])
        }
        21 => Gives::Lines(vec![format!("tested {}", trainer.lookup_tested(&[script.point()?])[0].tested)]),
        10 | 22 => script.take(24).map(|_| Gives::Passes)?,
        12 => Gives::Tree(trainer.clone()),
        17 => {
            let mut copy = trainer.clone();
            match copy.undo_split() {
                Ok(()) => Gives::Tree(copy),
                Err(Refusal(3)) => Gives::Passes,
                Err(r) => Gives::Lines(vec![refused(r)]),
            }
        }
        25 => {
            let row = even_row(script.point()?);
            Gives::Lines(vec![row.map_or("none".into(), |row| format!("row {row}"))])
        }
        26 => {
            let (n, length) = (script.number(1)? as u32, script.number(1)?);
            let list = (0..length).map(|_| script.number(2).map(|node| node as u16)).collect::<Result<Vec<_>, _>>()?;
            let line = match next_list(n, &list) {
                Ok(Some(next)) => next.iter().fold("next".into(), |line, node| format!("{line} {node}")),
                Ok(None) => "last".into(),
                Err(r) => refused(r),
            };
            Gives::Lines(vec![line])
        }
        _ => return Err(Bad),
    })
}

struct Lines<'a> {
    left: std::str::Lines<'a>,
    name: &'a str,
    compared: usize,
}

impl Lines<'_> {
    fn expect(&mut self, ours: &str) {
        assert_eq!(self.left.next(), Some(ours), "{}", self.name);
        self.compared += 1;
    }

    fn expect_tree(&mut self, ours: &[String]) {
        self.expect(&format!("tree {}", ours.len()));
        for node in ours {
            let line = self.left.next().unwrap_or_default();
            assert!(line.starts_with(node.as_str()), "{}: {line} is not {node}", self.name);
            self.compared += 1;
        }
    }

    /// A line, and where it tells of a tree's nodes, a line for each.
    fn pass(&mut self) {
        let first = self.left.next().unwrap_or_default();
        let nodes = first.strip_prefix("tree ").map_or(0, |n| n.parse().unwrap());
        (0..nodes).for_each(|_| assert!(self.left.next().is_some(), "{}", self.name));
    }
}

fn replay(bytes: &[u8], lines: &mut Lines) {
    let mut script = Script { bytes, at: 0 };
    let (Ok(settings), Ok(mode)) = (script.take(137), script.take(9)) else {
        return lines.expect("bad script");
    };
    let mut trainer = match Trainer::start_from(settings) {
        Ok(t) => t,
        Err(r) => return lines.expect(&refused(r)),
    };
    let mut sender = match Sender::new_from(mode) {
        Ok(s) => s,
        Err(r) => return lines.expect(&refused(r)),
    };
    let mut generator = Generator::new([0; 4]);
    lines.expect(&question(&trainer));
    while script.at < bytes.len() {
        match call(&mut script, &mut trainer, &mut sender, &mut generator) {
            Ok(Gives::Lines(ours)) => ours.iter().for_each(|line| lines.expect(line)),
            Ok(Gives::Tree(of)) => lines.expect_tree(&nodes(of.record())),
            Ok(Gives::Passes) => lines.pass(),
            Err(Bad) => return lines.expect("bad script"),
        }
    }
    lines.expect(&format!("record {}", bytes_shown(trainer.record())));
}

#[test]
fn stored_scripts() {
    let folder = Path::new(env!("CARGO_MANIFEST_DIR")).join("../../vectors");
    let list = fs::read_to_string(folder.join("LIST")).unwrap();
    let mut compared = 0;
    for line in list.lines() {
        let name = line.replace(' ', "-");
        let script = fs::read(folder.join(format!("{name}.script"))).unwrap();
        let stored = fs::read_to_string(folder.join(format!("{name}.lines"))).unwrap();
        let mut lines = Lines { left: stored.lines(), name: &name, compared: 0 };
        replay(&script, &mut lines);
        assert_eq!(lines.left.next(), None, "{name}");
        compared += lines.compared;
    }
    assert!(compared > 5000, "{compared} lines");
}
