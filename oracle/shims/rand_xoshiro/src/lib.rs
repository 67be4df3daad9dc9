//! Not the generator of that name: it gives its seed at every draw, so a caller hands a draw in as the seed.

use rand::{Rng, SeedableRng};

#[derive(Clone, Debug)]
pub struct Xoshiro256PlusPlus(u64);

impl SeedableRng for Xoshiro256PlusPlus {
    fn seed_from_u64(seed: u64) -> Self {
        Xoshiro256PlusPlus(seed)
    }
}

impl Rng for Xoshiro256PlusPlus {
    fn handed_in(&mut self) -> u64 {
        self.0
    }
}
