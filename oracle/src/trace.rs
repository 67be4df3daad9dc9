//! The program `trace`: a record and a trace of events, and the lines that the originals answer to them, with the
//! plain rule's mark at each clipped window.

use crate::{
    plain::{Ack, Refused, Repeat, Sender, Trainer},
    rust::{disagree, Originals},
};

const LONGEST_RECORD: usize = 16_384;
const LONGEST_TRACE: usize = 32_768;
const VERSION: u8 = 1;

#[derive(Clone, Debug)]
pub enum Event {
    Ack(f64, f64),
    Send(f64),
    Tick,
}

pub fn put(out: &mut Vec<u8>, event: &Event) {
    let (kind, moments) = match event {
        Event::Ack(sent, received) => (1, vec![*sent, *received]),
        Event::Send(moment) => (2, vec![*moment]),
        Event::Tick => (3, Vec::new()),
    };
    out.extend([1 + 8 * moments.len() as u8, kind]);
    for moment in moments {
        out.extend(moment.to_bits().to_be_bytes());
    }
}

/// A whole trace of these bytes of events.
pub fn framed(events: &[u8]) -> Vec<u8> {
    let mut out = (events.len() as u32 + 1).to_be_bytes().to_vec();
    out.push(VERSION);
    out.extend(events);
    out
}

fn float(bytes: &[u8]) -> f64 {
    f64::from_be_bytes(bytes.try_into().unwrap())
}

/// The events, or none where the trace is to be refused.
pub fn events(trace: &[u8]) -> Option<Vec<Event>> {
    let (length, rest) = trace.split_first_chunk::<4>()?;
    let (version, mut rest) = rest.split_first()?;
    let fits = trace.len() <= LONGEST_TRACE && u32::from_be_bytes(*length) as usize == trace.len() - 4;
    if !fits || *version != VERSION {
        return None;
    }
    let mut events = Vec::new();
    while let Some((length, after)) = rest.split_first() {
        let (event, after) = after.split_at_checked(*length as usize)?;
        let (kind, moments) = event.split_first()?;
        events.push(match (kind, moments.len()) {
            (1, 16) => Event::Ack(float(&moments[..8]), float(&moments[8..])),
            (2, 8) => Event::Send(float(moments)),
            (3, 0) => Event::Tick,
            _ => return None,
        });
        rest = after;
    }
    Some(events)
}

/// The record's trainer and the trace after it: 6, 7, 8, 25.
fn read(input: &[u8]) -> Result<(Trainer, Vec<Event>), Refused> {
    let (length, rest) = input.split_first_chunk::<4>().ok_or(6u32)?;
    let length = u32::from_be_bytes(*length) as usize;
    if length > LONGEST_RECORD || length > rest.len() {
        return Err(6);
    }
    let (record, trace) = input.split_at(4 + length);
    let trainer = Trainer::load(record)?;
    Ok((trainer, events(trace).ok_or(25u32)?))
}

/// What an event answers, and whether its window was clipped.
fn answer(
    event: &Event,
    trainer: &Trainer,
    sender: &mut Sender,
    originals: &mut Originals,
) -> Result<(u32, bool), Refused> {
    let (original, plain, clipped) = match *event {
        Event::Ack(sent, received) => {
            let ack = Ack { sent, received, draw: None };
            let (clipped, plain) = sender.ack_clipped(&trainer.tree, &ack);
            (originals.ack(&ack), plain, clipped)
        }
        Event::Send(moment) => (originals.send(moment), sender.send(moment), false),
        Event::Tick => (Ok(originals.tick()), Ok(sender.tick()), false),
    };
    if original != plain {
        disagree("an event of a trace", original, plain);
    }
    original.map(|window| (window, clipped))
}

pub fn lines(input: &[u8]) -> Vec<u8> {
    let (trainer, events) = match read(input) {
        Ok(read) => read,
        Err(number) => return format!("refused {number}\n").into_bytes(),
    };
    let mut originals = Originals::new(&trainer, Repeat::Off);
    let mut sender = Sender::new(Repeat::Off).expect("repeat off");
    let mut out = String::new();
    for event in &events {
        out += &match answer(event, &trainer, &mut sender, &mut originals) {
            Ok((window, true)) => format!("{window} c\n"),
            Ok((window, false)) => format!("{window}\n"),
            Err(number) => format!("refused {number}\n"),
        };
    }
    out.into_bytes()
}
