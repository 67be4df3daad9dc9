use super::{admitted, Action, Point, Refused, Tree};

const GREATEST_HI: u32 = 4_294_967_294;

#[derive(Clone, Copy, Debug)]
pub enum Repeat {
    Off,
    Always(u32),
    Within(u32, u32),
}

pub type Draw = Option<u32>;

#[derive(Clone, Copy, Debug)]
pub struct Ack {
    pub sent: f64,
    pub received: f64,
    pub draw: Draw,
}

#[derive(Clone, Copy, Debug)]
pub struct Pending {
    /// One less than the acks it still serves.
    pub left: u32,
    pub action: Action,
}

#[derive(Clone, Debug)]
pub struct Sender {
    pub repeat: Repeat,
    pub last_ack: Option<f64>,
    pub last_sent: Option<f64>,
    pub ack_average: Option<f64>,
    pub send_average: Option<f64>,
    /// The shortest and the last round trip.
    pub round_trips: Option<(f64, f64)>,
    pub pending: Option<Pending>,
    pub window: u32,
    pub wait: f64,
    pub send: Option<f64>,
}

fn averaged(average: Option<f64>, last: Option<f64>, now: f64) -> Option<f64> {
    match (last, average) {
        (None, average) => average,
        (Some(last), None) => Some(now - last),
        (Some(last), Some(average)) => Some(0.875 * average + 0.125 * (now - last)),
    }
}

impl Sender {
    pub fn new(repeat: Repeat) -> Result<Sender, Refused> {
        if let Repeat::Within(lo, hi) = repeat {
            if lo > hi || hi > GREATEST_HI {
                return Err(2);
            }
        }
        Ok(Sender {
            repeat,
            last_ack: None,
            last_sent: None,
            ack_average: None,
            send_average: None,
            round_trips: None,
            pending: None,
            window: 1,
            wait: 0.0,
            send: None,
        })
    }

    /// The action that a good ack uses and the sender after it, but for window and wait: 1, 22, 5.
    fn after_ack(&self, tree: &Tree, ack: &Ack) -> Result<(Action, Sender), Refused> {
        let (sent, received) = (admitted(ack.sent)?, admitted(ack.received)?);
        let mut next = self.clone();
        next.ack_average = averaged(self.ack_average, self.last_ack, received);
        next.send_average = averaged(self.send_average, self.last_sent, sent);
        next.last_ack = Some(received);
        next.last_sent = Some(sent);
        let current = received - sent;
        let shortest = match self.round_trips {
            Some((shortest, _)) if current < shortest => current,
            Some((shortest, _)) => shortest,
            None => current,
        };
        next.round_trips = Some((shortest, current));
        if let Some(pending) = self.pending {
            next.pending = pending.left.checked_sub(1).map(|left| Pending { left, ..pending });
            return Ok((pending.action, next));
        }
        let action = tree.lookup(&next.point()).ok_or(22u32)?;
        let draw = match (self.repeat, ack.draw) {
            (Repeat::Off, _) => None,
            (Repeat::Always(n), _) => Some(n),
            (Repeat::Within(lo, hi), Some(n)) if lo <= n && n <= hi => Some(n),
            (Repeat::Within(..), _) => return Err(5),
        };
        next.pending = draw.map(|left| Pending { left, action });
        Ok((action, next))
    }

    fn point(&self) -> Point {
        let ratio = self.round_trips.map_or(0.0, |(shortest, current)| current / shortest);
        [self.ack_average.unwrap_or(0.0), self.send_average.unwrap_or(0.0), ratio]
    }

    fn answer(&self) -> u32 {
        if self.send.is_some() {
            0
        } else {
            self.window
        }
    }

    /// The window, and whether the sum left 32 bits on the way.
    pub fn ack(&mut self, tree: &Tree, ack: &Ack) -> Result<(u32, bool), Refused> {
        let (action, mut next) = self.after_ack(tree, ack)?;
        let wide = i32::try_from(action.window_sum(self.window)).is_err();
        next.window = action.apply_to(self.window);
        next.wait = action.delay;
        *self = next;
        Ok((self.answer(), wide))
    }

    /// The same, and whether the action's window was clipped.
    pub fn ack_clipped(&mut self, tree: &Tree, ack: &Ack) -> (bool, Result<u32, Refused>) {
        let clipped = self.after_ack(tree, ack).is_ok_and(|(action, _)| action.clips(self.window));
        (clipped, self.ack(tree, ack).map(|(window, _)| window))
    }

    pub fn send(&mut self, moment: f64) -> Result<u32, Refused> {
        self.send = Some(admitted(moment)?);
        Ok(self.answer())
    }

    pub fn tick(&mut self) -> u32 {
        self.send = None;
        self.answer()
    }

    pub fn wake(&self, now: f64) -> Result<Option<f64>, Refused> {
        let now = admitted(now)?;
        Ok(self.send.map(|send| {
            let due = send + self.wait;
            if now < due {
                due
            } else {
                now
            }
        }))
    }
}
