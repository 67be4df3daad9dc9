//! Of the distributions only the uniform one over whole numbers is drawn from; it gives what is handed in.

pub use rand::Distribution;
use rand::Rng;

pub mod num_traits {
    pub trait PrimInt: std::ops::Add<Output = Self> + Copy {}

    impl PrimInt for u32 {}
}

pub mod uniform {
    pub trait SampleUniform: Copy {
        fn between(low: Self, high: Self, handed_in: u64) -> Self;
    }

    impl SampleUniform for u32 {
        fn between(low: u32, high: u32, handed_in: u64) -> u32 {
            let draw = u32::try_from(handed_in).expect("a draw of 32 bits");
            assert!(low <= draw && draw < high, "a draw outside its range");
            draw
        }
    }

    impl SampleUniform for f64 {
        fn between(_: f64, _: f64, _: u64) -> f64 {
            unimplemented!("no float is drawn")
        }
    }
}

pub struct Uniform<X> {
    low: X,
    high: X,
}

impl<X: uniform::SampleUniform> Uniform<X> {
    pub fn new(low: X, high: X) -> Uniform<X> {
        Uniform { low, high }
    }
}

impl<X: uniform::SampleUniform> Distribution<X> for Uniform<X> {
    fn sample<R: Rng + ?Sized>(&self, rng: &mut R) -> X {
        X::between(self.low, self.high, rng.handed_in())
    }
}

pub struct Normal;
pub struct Exp;

impl Normal {
    pub fn new(_: f64, _: f64) -> Result<Normal, ()> {
        unimplemented!("no float is drawn")
    }
}

impl Exp {
    pub fn new(_: f64) -> Result<Exp, ()> {
        unimplemented!("no float is drawn")
    }
}

impl Distribution<f64> for Normal {
    fn sample<R: Rng + ?Sized>(&self, _: &mut R) -> f64 {
        unimplemented!("no float is drawn")
    }
}

impl Distribution<f64> for Exp {
    fn sample<R: Rng + ?Sized>(&self, _: &mut R) -> f64 {
        unimplemented!("no float is drawn")
    }
}
