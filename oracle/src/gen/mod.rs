//! Scripts, each fixed by its kind and seed. An author plays 01's plain trainer and sender along, so that
//! calls fit the state and scripts reach depth.

mod author;
mod kinds;
mod records;
mod traces;
mod values;

pub const KINDS: &[(&str, fn(Dice) -> Vec<u8>)] = &[
    ("train", kinds::train),
    ("usual", kinds::usual),
    ("drill", kinds::drill),
    ("refuse", kinds::refuse),
    ("reload", kinds::reload),
    ("sender", kinds::sender),
    ("lookup", kinds::lookup),
    ("candidate", kinds::candidate),
    ("damage", kinds::damage),
    ("equal", kinds::equal),
    ("header", kinds::header),
    ("limits", kinds::limits),
    ("cut", kinds::cut),
    ("mixed", kinds::mixed),
    ("undo", kinds::undo),
    ("ends", kinds::ends),
    ("apply", kinds::apply),
    ("lists", kinds::lists),
    ("even", kinds::even),
    ("change", kinds::change),
    ("draws", kinds::draws),
    ("tested", kinds::tested),
    ("ranges", kinds::ranges),
    ("burst", kinds::burst),
];

/// Inputs of the program `trace`.
pub const TRACE: (&str, fn(Dice) -> Vec<u8>) = ("trace", traces::trace);

/// None where there is no such kind.
pub fn script(kind: &str, seed: u64) -> Option<Vec<u8>> {
    let (name, author) = KINDS.iter().chain([&TRACE]).find(|(name, _)| *name == kind)?;
    let mut state = seed;
    for byte in name.bytes() {
        state = Dice(state ^ u64::from(byte)).next();
    }
    Some(author(Dice(state)))
}

/// splitmix64.
#[derive(Clone)]
pub struct Dice(u64);

impl Dice {
    pub fn next(&mut self) -> u64 {
        self.0 = self.0.wrapping_add(0x9e37_79b9_7f4a_7c15);
        let mut z = self.0;
        z = (z ^ (z >> 30)).wrapping_mul(0xbf58_476d_1ce4_e5b9);
        z = (z ^ (z >> 27)).wrapping_mul(0x94d0_49bb_1331_11eb);
        z ^ (z >> 31)
    }

    /// Dice of their own: what they throw does not change what these throw.
    fn beside(&self) -> Dice {
        Dice(!self.0)
    }

    fn below(&mut self, n: usize) -> usize {
        (self.next() % n as u64) as usize
    }

    fn within(&mut self, lo: usize, hi: usize) -> usize {
        lo + self.below(hi - lo + 1)
    }

    fn one_in(&mut self, n: usize) -> bool {
        self.below(n) == 0
    }

    fn pick<T: Copy>(&mut self, of: &[T]) -> T {
        of[self.below(of.len())]
    }

    fn unit(&mut self) -> f64 {
        (self.next() >> 11) as f64 / (1u64 << 53) as f64
    }
}
