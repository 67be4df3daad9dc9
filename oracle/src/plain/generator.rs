use super::{Refused, Repeat, Sender};

/// xoshiro256++, written as its authors published it; never four zeros.
#[derive(Clone, Copy, Debug, PartialEq)]
pub struct Generator(pub [u64; 4]);

impl Generator {
    pub fn new(words: [u64; 4]) -> Result<Generator, Refused> {
        if words == [0; 4] {
            return Err(26);
        }
        Ok(Generator(words))
    }

    pub fn output(&self) -> u64 {
        let s = &self.0;
        s[0].wrapping_add(s[3]).rotate_left(23).wrapping_add(s[0])
    }

    pub fn step(&mut self) {
        let s = &mut self.0;
        let t = s[1] << 17;
        s[2] ^= s[0];
        s[3] ^= s[1];
        s[1] ^= s[2];
        s[0] ^= s[3];
        s[2] ^= t;
        s[3] = s[3].rotate_left(45);
    }

    /// The same lines from the last to the first. Of s[1] only itself under its own shift is left: its low 17 bits
    /// stand there, and each round gives 17 more.
    pub fn step_back(&mut self) {
        let s = &mut self.0;
        s[3] = s[3].rotate_right(45);
        s[0] ^= s[3];
        let mixed = s[1] ^ s[2];
        let mut before = mixed;
        for _ in 0..3 {
            before = mixed ^ (before << 17);
        }
        s[2] ^= before << 17;
        s[1] = before;
        s[3] ^= s[1];
        s[2] ^= s[0];
    }

    /// The draw for a sender's repeat.
    pub fn draw(&self, repeat: Repeat) -> Option<u32> {
        match repeat {
            Repeat::Within(lo, hi) if lo <= hi => {
                let span = u64::from(hi) - u64::from(lo) + 1;
                Some((u64::from(lo) + self.output() % span) as u32)
            }
            _ => None,
        }
    }

    /// Whether a draw is due at a sender's next ack.
    pub fn due(sender: &Sender) -> bool {
        matches!(sender.repeat, Repeat::Within(..)) && sender.pending.is_none()
    }
}
