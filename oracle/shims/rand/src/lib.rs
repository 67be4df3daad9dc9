//! Draws are handed in: a generator holds the number that the next draw gives.

pub trait Distribution<T> {
    fn sample<R: Rng + ?Sized>(&self, rng: &mut R) -> T;
}

impl<T, D: Distribution<T> + ?Sized> Distribution<T> for &D {
    fn sample<R: Rng + ?Sized>(&self, rng: &mut R) -> T {
        (**self).sample(rng)
    }
}

pub trait Rng {
    fn handed_in(&mut self) -> u64;

    fn sample<T, D: Distribution<T>>(&mut self, distribution: D) -> T {
        distribution.sample(self)
    }
}

pub mod prelude {
    pub use super::Rng;
}

pub trait SeedableRng: Sized {
    fn seed_from_u64(seed: u64) -> Self;

    fn from_rng(rng: &mut impl Rng) -> Result<Self, std::convert::Infallible> {
        Ok(Self::seed_from_u64(rng.handed_in()))
    }
}

pub mod seq {
    pub trait SliceRandom {
        fn shuffle(&mut self, _: &mut impl super::Rng) {
            unimplemented!("nothing is shuffled")
        }
    }

    impl<T> SliceRandom for [T] {}
}
