//! Replay scripts: how calls are written and read.

use crate::plain::{Ack, Action, Point, Ranges, Repeat, Settings};

const LONGEST_COUNTS: usize = 600;
const LONGEST_RECORD: usize = 16_500;
const LONGEST_BURST: usize = 600;

/// The header as it stands, before anything is judged.
#[derive(Clone, Debug)]
pub struct Header {
    pub settings: Settings,
    pub drill: u8,
    pub mode: u8,
    pub lo: u32,
    pub hi: u32,
}

#[derive(Clone, Debug)]
pub enum Call {
    Counts(Vec<u64>),
    Score(f64),
    Reload(u16),
    Ack(Ack),
    Send(f64),
    Tick,
    Wake(f64),
    Lookup(Point),
    LookupReplaced(u16, Action, Point),
    Tested(Point),
    Tally(Point),
    Candidate(Action, u32),
    PrintTree,
    Load(Vec<u8>),
    Equal(Vec<u8>),
    UndoSplit,
    Apply(Action, u32),
    EvenRow(Point),
    NextList(u8, Vec<u16>),
    /// The settings and their drill byte.
    ChangeSettings(Settings, u8),
    Seed([u64; 4]),
    /// Sent, received; the draw is the generator's.
    OwnAck(f64, f64),
    Step,
    StepBack,
    /// Ranges, and the length of the lent list.
    Leaves(Ranges, u16),
    /// Acks, and the length of the lent lists.
    Burst(Vec<Ack>, u16),
}

#[derive(Debug)]
pub struct BadScript;

pub struct Reader<'a> {
    rest: &'a [u8],
}

impl<'a> Reader<'a> {
    pub fn new(script: &'a [u8]) -> Reader<'a> {
        Reader { rest: script }
    }

    fn bytes(&mut self, n: usize) -> Result<&'a [u8], BadScript> {
        let (head, rest) = self.rest.split_at_checked(n).ok_or(BadScript)?;
        self.rest = rest;
        Ok(head)
    }

    fn array<const N: usize>(&mut self) -> Result<[u8; N], BadScript> {
        Ok(self.bytes(N)?.try_into().unwrap())
    }

    fn u8(&mut self) -> Result<u8, BadScript> {
        Ok(self.array::<1>()?[0])
    }

    fn u16(&mut self) -> Result<u16, BadScript> {
        self.array().map(u16::from_be_bytes)
    }

    fn u32(&mut self) -> Result<u32, BadScript> {
        self.array().map(u32::from_be_bytes)
    }

    fn u64(&mut self) -> Result<u64, BadScript> {
        self.array().map(u64::from_be_bytes)
    }

    fn f64(&mut self) -> Result<f64, BadScript> {
        self.u64().map(f64::from_bits)
    }

    fn action(&mut self) -> Result<Action, BadScript> {
        Ok(Action { multiplier: self.f64()?, increment: self.u32()? as i32, delay: self.f64()? })
    }

    fn point(&mut self) -> Result<Point, BadScript> {
        Ok([self.f64()?, self.f64()?, self.f64()?])
    }

    fn ranges(&mut self) -> Result<Ranges, BadScript> {
        let mut range = || Ok([self.f64()?, self.f64()?]);
        Ok([range()?, range()?, range()?])
    }

    fn settings(&mut self) -> Result<(Settings, u8), BadScript> {
        let (rule_splits, rounds, multiplier) = (self.u32()?, self.u32()?, self.u32()?);
        let drill = self.u8()?;
        let settings = Settings {
            rule_splits,
            rounds,
            multiplier,
            drill: drill == 1,
            min: self.action()?,
            max: self.action()?,
            initial_change: self.action()?,
            max_change: self.action()?,
            default: self.action()?,
            ends: self.point()?,
        };
        Ok((settings, drill))
    }

    pub fn header(&mut self) -> Result<Header, BadScript> {
        let (settings, drill) = self.settings()?;
        Ok(Header { settings, drill, mode: self.u8()?, lo: self.u32()?, hi: self.u32()? })
    }

    fn ack(&mut self) -> Result<Ack, BadScript> {
        let (sent, received) = (self.f64()?, self.f64()?);
        let handed_in = self.u8()? == 1;
        let draw = self.u32()?;
        Ok(Ack { sent, received, draw: handed_in.then_some(draw) })
    }

    fn record(&mut self) -> Result<Vec<u8>, BadScript> {
        let n = self.u32()? as usize;
        if n > LONGEST_RECORD {
            return Err(BadScript);
        }
        self.bytes(n).map(<[u8]>::to_vec)
    }

    /// The next call; none at the end of the input.
    pub fn call(&mut self) -> Result<Option<Call>, BadScript> {
        if self.rest.is_empty() {
            return Ok(None);
        }
        Ok(Some(match self.u8()? {
            1 => {
                let n = self.u16()? as usize;
                if n > LONGEST_COUNTS {
                    return Err(BadScript);
                }
                Call::Counts((0..n).map(|_| self.u64()).collect::<Result<_, _>>()?)
            }
            2 => Call::Score(self.f64()?),
            3 => Call::Reload(self.u16()?),
            4 => Call::Ack(self.ack()?),
            5 => Call::Send(self.f64()?),
            6 => Call::Tick,
            7 => Call::Wake(self.f64()?),
            8 => Call::Lookup(self.point()?),
            9 => Call::LookupReplaced(self.u16()?, self.action()?, self.point()?),
            10 => Call::Tally(self.point()?),
            11 => Call::Candidate(self.action()?, self.u32()?),
            12 => Call::PrintTree,
            13 => Call::Load(self.record()?),
            14 => Call::Equal(self.record()?),
            15 => {
                let (settings, drill) = self.settings()?;
                Call::ChangeSettings(settings, drill)
            }
            16 => {
                let n = self.u16()? as usize;
                if n > LONGEST_BURST {
                    return Err(BadScript);
                }
                let acks = (0..n).map(|_| self.ack()).collect::<Result<_, _>>()?;
                Call::Burst(acks, self.u16()?)
            }
            17 => Call::UndoSplit,
            22 => Call::Apply(self.action()?, self.u32()?),
            25 => Call::EvenRow(self.point()?),
            26 => {
                let (n, length) = (self.u8()?, self.u8()?);
                Call::NextList(n, (0..length).map(|_| self.u16()).collect::<Result<_, _>>()?)
            }
            19 => Call::Seed([self.u64()?, self.u64()?, self.u64()?, self.u64()?]),
            20 => Call::OwnAck(self.f64()?, self.f64()?),
            23 => Call::Step,
            24 => Call::StepBack,
            21 => Call::Tested(self.point()?),
            18 => Call::Leaves(self.ranges()?, self.u16()?),
            _ => return Err(BadScript),
        }))
    }
}

pub struct Writer {
    pub bytes: Vec<u8>,
}

impl Writer {
    pub fn new(header: &Header) -> Writer {
        let mut writer = Writer { bytes: Vec::new() };
        writer.settings(&header.settings, header.drill);
        writer.bytes.push(header.mode);
        writer.bytes.extend(header.lo.to_be_bytes());
        writer.bytes.extend(header.hi.to_be_bytes());
        writer
    }

    fn settings(&mut self, s: &Settings, drill: u8) {
        for number in [s.rule_splits, s.rounds, s.multiplier] {
            self.bytes.extend(number.to_be_bytes());
        }
        self.bytes.push(drill);
        for action in [&s.min, &s.max, &s.initial_change, &s.max_change, &s.default] {
            self.action(action);
        }
        self.point(&s.ends);
    }

    fn f64(&mut self, x: f64) {
        self.bytes.extend(x.to_bits().to_be_bytes());
    }

    fn action(&mut self, action: &Action) {
        self.f64(action.multiplier);
        self.bytes.extend(action.increment.to_be_bytes());
        self.f64(action.delay);
    }

    fn point(&mut self, point: &Point) {
        for x in point {
            self.f64(*x);
        }
    }

    fn ack(&mut self, ack: &Ack) {
        self.f64(ack.sent);
        self.f64(ack.received);
        self.bytes.push(u8::from(ack.draw.is_some()));
        self.bytes.extend(ack.draw.unwrap_or(0).to_be_bytes());
    }

    fn record(&mut self, record: &[u8]) {
        self.bytes.extend((record.len() as u32).to_be_bytes());
        self.bytes.extend(record);
    }

    pub fn call(&mut self, call: &Call) {
        match call {
            Call::Counts(counts) => {
                self.bytes.push(1);
                self.bytes.extend((counts.len() as u16).to_be_bytes());
                for count in counts {
                    self.bytes.extend(count.to_be_bytes());
                }
            }
            Call::Score(score) => {
                self.bytes.push(2);
                self.f64(*score);
            }
            Call::Reload(length) => {
                self.bytes.push(3);
                self.bytes.extend(length.to_be_bytes());
            }
            Call::Ack(ack) => {
                self.bytes.push(4);
                self.ack(ack);
            }
            Call::Send(moment) => {
                self.bytes.push(5);
                self.f64(*moment);
            }
            Call::Tick => self.bytes.push(6),
            Call::Wake(now) => {
                self.bytes.push(7);
                self.f64(*now);
            }
            Call::Lookup(point) => {
                self.bytes.push(8);
                self.point(point);
            }
            Call::LookupReplaced(leaf, action, point) => {
                self.bytes.push(9);
                self.bytes.extend(leaf.to_be_bytes());
                self.action(action);
                self.point(point);
            }
            Call::Tally(point) => {
                self.bytes.push(10);
                self.point(point);
            }
            Call::Candidate(action, k) => {
                self.bytes.push(11);
                self.action(action);
                self.bytes.extend(k.to_be_bytes());
            }
            Call::PrintTree => self.bytes.push(12),
            Call::Load(record) => {
                self.bytes.push(13);
                self.record(record);
            }
            Call::Equal(record) => {
                self.bytes.push(14);
                self.record(record);
            }
            Call::UndoSplit => self.bytes.push(17),
            Call::Apply(action, window) => {
                self.bytes.push(22);
                self.action(action);
                self.bytes.extend(window.to_be_bytes());
            }
            Call::EvenRow(point) => {
                self.bytes.push(25);
                self.point(point);
            }
            Call::NextList(n, list) => {
                self.bytes.extend([26, *n, list.len() as u8]);
                for node in list {
                    self.bytes.extend(node.to_be_bytes());
                }
            }
            Call::ChangeSettings(settings, drill) => {
                self.bytes.push(15);
                self.settings(settings, *drill);
            }
            Call::Seed(words) => {
                self.bytes.push(19);
                for word in words {
                    self.bytes.extend(word.to_be_bytes());
                }
            }
            Call::OwnAck(sent, received) => {
                self.bytes.push(20);
                self.f64(*sent);
                self.f64(*received);
            }
            Call::Step => self.bytes.push(23),
            Call::StepBack => self.bytes.push(24),
            Call::Tested(point) => {
                self.bytes.push(21);
                self.point(point);
            }
            Call::Leaves(ranges, length) => {
                self.bytes.push(18);
                for end in ranges.iter().flatten() {
                    self.f64(*end);
                }
                self.bytes.extend(length.to_be_bytes());
            }
            Call::Burst(acks, length) => {
                self.bytes.push(16);
                self.bytes.extend((acks.len() as u16).to_be_bytes());
                for ack in acks {
                    self.ack(ack);
                }
                self.bytes.extend(length.to_be_bytes());
            }
        }
    }
}

/// The repeat that a header names, or none where its mode is unknown.
pub fn repeat(header: &Header) -> Option<Repeat> {
    match header.mode {
        0 => Some(Repeat::Off),
        1 => Some(Repeat::Always(header.lo)),
        2 => Some(Repeat::Within(header.lo, header.hi)),
        _ => None,
    }
}
