//! Document 01, sentence by sentence, in plain Rust. Nothing here is taken from the originals: the driver
//! holds the two against each other.

mod even;
mod generator;
mod lists;
mod record;
mod sender;
mod settings;
mod trainer;
mod tree;

pub use even::{even_row, even_tree};
pub use generator::Generator;
pub use lists::{next_list, split_lists, tree_of};
pub use sender::{Ack, Repeat, Sender};
pub use settings::{Settings, USUAL_ENDS};
pub use trainer::{Answer, Change, Phase, Trainer};
pub use tree::{Kind, Tree};

/// A refusal's number.
pub type Refused = u32;

/// How a NaN that is held or printed is written.
pub const NAN: u64 = 0x7ff8_0000_0000_0000;

pub fn bits(x: f64) -> u64 {
    if x.is_nan() {
        NAN
    } else {
        x.to_bits()
    }
}

/// An admitted moment, -0 read as +0.
pub fn admitted(moment: f64) -> Result<f64, Refused> {
    if (0.0..=4_294_967_296.0).contains(&moment) {
        Ok(if moment == 0.0 { 0.0 } else { moment })
    } else {
        Err(1)
    }
}

/// Ack average, send average, ratio.
pub type Point = [f64; 3];

/// Of each axis the lowest and the highest value.
pub type Ranges = [[f64; 2]; 3];

#[derive(Clone, Copy, Debug)]
pub struct Cube {
    pub min: Point,
    pub max: Point,
}

impl Cube {
    /// The root with these upper ends; the lower ones are 0.
    pub fn root(ends: Point) -> Cube {
        Cube { min: [0.0; 3], max: ends }
    }

    pub fn contains(&self, point: &Point) -> bool {
        (0..3).all(|axis| self.min[axis] <= point[axis] && point[axis] < self.max[axis])
    }

    /// Child c is upper in ack by 4, in send by 2, in ratio by 1.
    pub fn split(&self) -> [Cube; 8] {
        let middle: Point = std::array::from_fn(|axis| (self.max[axis] + self.min[axis]) / 2.0);
        std::array::from_fn(|c| {
            let mut child = *self;
            for axis in 0..3 {
                if c & (4 >> axis) != 0 {
                    child.min[axis] = middle[axis];
                } else {
                    child.max[axis] = middle[axis];
                }
            }
            child
        })
    }
}

#[derive(Clone, Copy, Debug)]
pub struct Action {
    pub multiplier: f64,
    pub increment: i32,
    pub delay: f64,
}

impl Action {
    pub fn valid(&self) -> bool {
        self.multiplier.is_finite()
            && self.delay.is_finite()
            && (-1_000_000..=1_000_000).contains(&self.increment)
    }

    /// Bit for bit, as records and prints show it.
    pub fn same(&self, other: &Action) -> bool {
        bits(self.multiplier) == bits(other.multiplier)
            && self.increment == other.increment
            && bits(self.delay) == bits(other.delay)
    }

    pub fn equal(&self, other: &Action) -> bool {
        self.multiplier == other.multiplier && self.increment == other.increment && self.delay == other.delay
    }

    /// The product, cut to whole and held to 32 bits, plus the increment; not yet clamped.
    pub fn window_sum(&self, window: u32) -> i64 {
        let product = f64::from(window) * self.multiplier;
        let whole = if product.is_nan() {
            0
        } else if product >= 2_147_483_647.0 {
            2_147_483_647
        } else if product <= -2_147_483_648.0 {
            -2_147_483_648
        } else {
            product.trunc() as i64
        };
        whole + i64::from(self.increment)
    }

    pub fn apply_to(&self, window: u32) -> u32 {
        self.window_sum(window).clamp(0, 1_000_000) as u32
    }

    /// Document 02, request 6: the product, once cut to whole, left the i32 range or the sum left 0..=1,000,000; NaN
    /// lies in no range.
    pub fn clips(&self, window: u32) -> bool {
        let whole = (f64::from(window) * self.multiplier).trunc();
        let fits = (-2_147_483_648.0..=2_147_483_647.0).contains(&whole);
        !fits || !(0..=1_000_000).contains(&(whole as i64 + i64::from(self.increment)))
    }
}
