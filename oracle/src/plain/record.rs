//! The record: big-endian, the length of what follows first.

use super::{Action, Phase, Point, Refused, Settings, Trainer, Tree, NAN, USUAL_ENDS};

/// The version that is saved, with every node and the upper ends. The second has no ends; the first has none either, and of the
/// nodes the leaves alone.
const VERSION: u8 = 3;
const FIRST: u8 = 1;
const LONGEST: usize = 16_384;
const NONE_KEPT: u16 = 65_535;

fn put_action(out: &mut Vec<u8>, action: &Action) {
    out.extend(action.multiplier.to_bits().to_be_bytes());
    out.extend(action.increment.to_be_bytes());
    out.extend(action.delay.to_bits().to_be_bytes());
}

fn flag(byte: u8) -> Result<bool, Refused> {
    match byte {
        0 => Ok(false),
        1 => Ok(true),
        _ => Err(8),
    }
}

/// Reads fields off the front; what is missing is refused with 8.
struct Fields<'a>(&'a [u8]);

impl Fields<'_> {
    fn take<const N: usize>(&mut self) -> Result<[u8; N], Refused> {
        let (head, rest) = self.0.split_first_chunk::<N>().ok_or(8u32)?;
        self.0 = rest;
        Ok(*head)
    }

    fn u8(&mut self) -> Result<u8, Refused> {
        Ok(self.take::<1>()?[0])
    }

    fn u16(&mut self) -> Result<u16, Refused> {
        self.take().map(u16::from_be_bytes)
    }

    fn u32(&mut self) -> Result<u32, Refused> {
        self.take().map(u32::from_be_bytes)
    }

    fn u64(&mut self) -> Result<u64, Refused> {
        self.take().map(u64::from_be_bytes)
    }

    fn point(&mut self) -> Result<Point, Refused> {
        Ok([f64::from_bits(self.u64()?), f64::from_bits(self.u64()?), f64::from_bits(self.u64()?)])
    }

    fn action(&mut self) -> Result<Action, Refused> {
        let action = Action {
            multiplier: f64::from_bits(self.u64()?),
            increment: self.u32()? as i32,
            delay: f64::from_bits(self.u64()?),
        };
        if action.valid() {
            Ok(action)
        } else {
            Err(8)
        }
    }
}

impl Trainer {
    pub fn record(&self) -> Vec<u8> {
        self.record_in(VERSION)
    }

    /// The record as this version has it: what parents hold is not in version 1, the ends are in version 3 alone.
    pub fn record_in(&self, version: u8) -> Vec<u8> {
        let mut out = vec![0; 4];
        out.push(version);
        let settings = &self.settings;
        for number in [settings.rule_splits, settings.rounds, settings.multiplier] {
            out.extend(number.to_be_bytes());
        }
        out.push(u8::from(settings.drill));
        for action in
            [&settings.min, &settings.max, &settings.initial_change, &settings.max_change, &settings.default]
        {
            put_action(&mut out, action);
        }
        if version == VERSION {
            for end in settings.ends {
                out.extend(end.to_bits().to_be_bytes());
            }
        }
        out.extend((self.tree.splits.len() as u16).to_be_bytes());
        for node in &self.tree.splits {
            out.extend((*node as u16).to_be_bytes());
        }
        for node in 0..self.tree.nodes.len() {
            if version != FIRST || self.tree.leaf(node).is_ok() {
                let (action, mark) = self.tree.held(node);
                put_action(&mut out, &action);
                out.push(u8::from(mark));
            }
        }
        out.push(self.phase.number());
        out.extend(self.stage.to_be_bytes());
        out.extend(self.round.to_be_bytes());
        let (leaf, best, k, kept) = match &self.phase {
            Phase::Own { leaf } => (*leaf, 0, 0, None),
            Phase::Candidates { leaf, best, k, kept, .. } => (*leaf, Trainer::held_bits(*best), *k, *kept),
            _ => (0, 0, 0, None),
        };
        out.extend((leaf as u16).to_be_bytes());
        out.extend(best.to_be_bytes());
        out.extend((k as u16).to_be_bytes());
        let (index, score) =
            kept.map_or((NONE_KEPT, 0), |(index, score)| (index as u16, Trainer::held_bits(score)));
        out.extend(index.to_be_bytes());
        out.extend(score.to_be_bytes());
        let length = (out.len() - 4) as u32;
        out[..4].copy_from_slice(&length.to_be_bytes());
        out
    }

    /// 6, then 7, then 8.
    pub fn load(bytes: &[u8]) -> Result<Trainer, Refused> {
        let (length, body) = bytes.split_first_chunk::<4>().ok_or(6u32)?;
        let length = u32::from_be_bytes(*length) as usize;
        if length > LONGEST || length != body.len() {
            return Err(6);
        }
        let (version, body) = body.split_first().ok_or(7u32)?;
        if !(FIRST..=VERSION).contains(version) {
            return Err(7);
        }
        let mut fields = Fields(body);
        let settings = Self::load_settings(&mut fields, *version)?;
        let tree = Self::load_tree(&mut fields, &settings, *version)?;
        let trainer = Self::load_phase(&mut fields, settings, tree)?;
        if fields.0.is_empty() {
            Ok(trainer)
        } else {
            Err(8)
        }
    }

    fn load_settings(fields: &mut Fields, version: u8) -> Result<Settings, Refused> {
        let settings = Settings {
            rule_splits: fields.u32()?,
            rounds: fields.u32()?,
            multiplier: fields.u32()?,
            drill: flag(fields.u8()?)?,
            min: fields.action()?,
            max: fields.action()?,
            initial_change: fields.action()?,
            max_change: fields.action()?,
            default: fields.action()?,
            ends: if version == VERSION { fields.point()? } else { USUAL_ENDS },
        };
        settings.check().map_err(|_| 8u32)?;
        Ok(settings)
    }

    /// Where parents are not written, they hold the default action, unmarked, as the splits left them.
    fn load_tree(fields: &mut Fields, settings: &Settings, version: u8) -> Result<Tree, Refused> {
        let mut tree = Tree::new(settings.ends, settings.default);
        for _ in 0..fields.u16()? {
            let node = fields.u16()?;
            tree.split(node as usize).map_err(|_| 8u32)?;
        }
        for node in 0..tree.nodes.len() {
            if version != FIRST || tree.leaf(node).is_ok() {
                let action = fields.action()?;
                tree.hold(node, (action, flag(fields.u8()?)?));
            }
        }
        Ok(tree)
    }

    fn load_phase(fields: &mut Fields, settings: Settings, tree: Tree) -> Result<Trainer, Refused> {
        let number = fields.u8()?;
        let stage = fields.u32()?;
        let round = fields.u32()?;
        let leaf = fields.u16()? as usize;
        let best = fields.u64()?;
        let k = fields.u16()?;
        let kept = fields.u16()?;
        let kept_score = fields.u64()?;

        let splits = settings.rule_splits;
        let placed = match number {
            1 | 2 => (1..=splits).contains(&stage) && round == 0,
            3..=5 => stage <= splits && round < settings.rounds,
            6 | 7 => stage == splits + 1 && round == 0,
            _ => false,
        };
        let leaf_fits = match number {
            4 | 5 => matches!(tree.leaf(leaf), Ok((_, false))),
            _ => leaf == 0,
        };
        let unsearched = best == 0 && k == 0 && kept == NONE_KEPT && kept_score == 0;
        if !placed || !leaf_fits || (number != 5 && !unsearched) {
            return Err(8);
        }
        let phase = match number {
            1 => Phase::Split,
            2 => Phase::Drill,
            3 => Phase::Choose,
            4 => Phase::Own { leaf },
            5 => {
                let list = settings.candidates(&tree.leaf(leaf)?.0);
                let k = k as usize;
                let best = match f64::from_bits(best) {
                    nan if nan.is_nan() && best != NAN => return Err(8),
                    best => best,
                };
                let score = f64::from_bits(kept_score);
                let kept = match kept {
                    NONE_KEPT if kept_score == 0 => None,
                    index if (index as usize) < k && score > best => Some((index as usize, score)),
                    _ => return Err(8),
                };
                if k >= list.len() {
                    return Err(8);
                }
                Phase::Candidates { leaf, best, k, kept, list }
            }
            6 => Phase::Last,
            _ => Phase::Done,
        };
        Ok(Trainer { settings, tree, stage, round, phase })
    }
}
