use super::{Action, Point, Refused};

const AXIS: usize = 8;
const CHANGE_INCREMENT: i32 = 65_536;

/// The upper ends of a record that has none.
pub const USUAL_ENDS: Point = [600.0, 600.0, 1000.0];

#[derive(Clone, Debug)]
pub struct Settings {
    pub rule_splits: u32,
    pub rounds: u32,
    pub multiplier: u32,
    pub drill: bool,
    pub min: Action,
    pub max: Action,
    pub initial_change: Action,
    pub max_change: Action,
    pub default: Action,
    /// The upper ends of the root: ack, send, ratio.
    pub ends: Point,
}

/// Initial, then times the multiplier each, while at most the greatest; refused with more than 8.
fn axis<T: Copy + PartialOrd>(initial: T, greatest: T, times: impl Fn(T) -> T) -> Result<Vec<T>, Refused> {
    let mut values = Vec::new();
    let mut value = initial;
    while value <= greatest {
        if values.len() == AXIS {
            return Err(2);
        }
        values.push(value);
        value = times(value);
    }
    Ok(values)
}

impl Settings {
    pub fn check(&self) -> Result<(), Refused> {
        let actions = [self.min, self.max, self.initial_change, self.max_change, self.default];
        let initial = &self.initial_change;
        let holds = self.rule_splits <= 64
            && self.rounds <= 1000
            && (2..=16).contains(&self.multiplier)
            && actions.iter().all(Action::valid)
            && initial.multiplier > 0.0
            && initial.increment > 0
            && initial.delay > 0.0
            && initial.increment <= CHANGE_INCREMENT
            && self.max_change.increment <= CHANGE_INCREMENT
            && self.ends.iter().all(|end| (1.0..=1_000_000.0).contains(end));
        if holds {
            self.axes().map(|_| ())
        } else {
            Err(2)
        }
    }

    /// The changes of multiplier, increment and delay, without their negatives.
    fn axes(&self) -> Result<(Vec<f64>, Vec<i32>, Vec<f64>), Refused> {
        let (from, to) = (&self.initial_change, &self.max_change);
        let times = f64::from(self.multiplier);
        Ok((
            axis(from.multiplier, to.multiplier, |v| times * v)?,
            axis(from.increment, to.increment, |v| self.multiplier as i32 * v)?,
            axis(from.delay, to.delay, |v| times * v)?,
        ))
    }

    /// Settings that hold; any valid action.
    pub fn candidates(&self, action: &Action) -> Vec<Action> {
        let (multipliers, increments, delays) = self.axes().expect("settings that hold");
        let signed = |v: f64| [v, -v];
        let mut list = Vec::new();
        for m in multipliers.iter().copied().flat_map(signed) {
            for i in increments.iter().flat_map(|&v| [v, -v]) {
                for d in delays.iter().copied().flat_map(signed) {
                    let sum = Action {
                        multiplier: action.multiplier + m,
                        increment: action.increment + i,
                        delay: action.delay + d,
                    };
                    let inside = self.min.multiplier <= sum.multiplier
                        && sum.multiplier <= self.max.multiplier
                        && self.min.increment <= sum.increment
                        && sum.increment <= self.max.increment
                        && self.min.delay <= sum.delay
                        && sum.delay <= self.max.delay;
                    if inside {
                        list.push(sum);
                    }
                }
            }
        }
        list
    }

    /// The public call: the list's length, and candidate k or none past the end.
    pub fn candidate(&self, action: &Action, k: u32) -> Result<(usize, Option<Action>), Refused> {
        self.check()?;
        if !action.valid() {
            return Err(1);
        }
        let list = self.candidates(action);
        Ok((list.len(), list.get(k as usize).copied()))
    }
}
