//! `knellstone trace`: a sender paced by a record's tree, a line an event.

use crate::args::Args;
use crate::fail::{fail, print, Fail, REFUSED};
use crate::files;
use knellstone::{trace_bytes, trace_of, Event};
use std::path::Path;

pub const OPTIONS: [(&str, usize); 1] = [("--text", 0)];

/// The lines of the program `trace` for a record and the events of standard input.
pub fn run(args: &Args) -> Result<(), Fail> {
    let [record] = args.files(["RECORD"])?;
    let mut input = files::read(&record)?;
    let events = files::read(Path::new("-"))?;
    if args.has("--text") {
        input.extend(trace_bytes(&events_of(&String::from_utf8_lossy(&events))?));
    } else {
        input.extend(events);
    }
    match trace_of(&input) {
        Ok(lines) => print(&lines),
        Err(refusal) => {
            print(&format!("refused {}\n", refusal.0))?;
            let hint = if refusal.0 == 25 { "; a trace has at most 32768 bytes, docs/HOSTS.md has them" } else { "" };
            fail(REFUSED, format!("{refusal}{hint}"))
        }
    }
}

/// Events as lines: `ack SENT RECEIVED`, `send AT` or `tick`, in seconds. Empty lines are passed over.
fn events_of(text: &str) -> Result<Vec<Event>, Fail> {
    let lines = text.lines().enumerate().filter(|(_, line)| !line.trim().is_empty());
    lines.map(|(i, line)| event(line).ok_or(()).or_else(|()| wrong(i, line))).collect()
}

fn wrong(i: usize, line: &str) -> Result<Event, Fail> {
    let shown: String = line.chars().take(60).flat_map(char::escape_default).collect();
    fail(REFUSED, format!("line {}: '{shown}' is neither 'ack SENT RECEIVED', 'send AT' nor 'tick'", i + 1))
}

fn event(line: &str) -> Option<Event> {
    match line.split_whitespace().collect::<Vec<_>>()[..] {
        ["ack", sent, received] => {
            Some(Event::Ack { sent: sent.parse().ok()?, received: received.parse().ok()?, draw: None })
        }
        ["send", at] => Some(Event::Send { at: at.parse().ok()? }),
        ["tick"] => Some(Event::Tick),
        _ => None,
    }
}

#[cfg(test)]
mod tests {
    use super::*;

    #[test]
    fn events_are_read() {
        let events = events_of("send 0.5\n\n  tick \nack 0.5 0.75\n").unwrap();
        let ack = Event::Ack { sent: 0.5, received: 0.75, draw: None };
        assert_eq!(events, [Event::Send { at: 0.5 }, Event::Tick, ack]);
        for (text, words) in
            [("tick\nack 1", "line 2: 'ack 1'"), ("send x", "line 1: 'send x'"), ("tick 1", "line 1: 'tick 1'")]
        {
            assert!(events_of(text).unwrap_err().words.starts_with(words), "{text}");
        }
    }
}
