//! A small seeded random number generator (xoshiro256**, seeded by splitmix64).

/// The generator. The same seed always gives the same numbers.
pub struct Rng {
    state: [u64; 4],
}

fn splitmix(state: &mut u64) -> u64 {
    *state = state.wrapping_add(0x9E37_79B9_7F4A_7C15);
    let mut z = *state;
    z = (z ^ (z >> 30)).wrapping_mul(0xBF58_476D_1CE4_E5B9);
    z = (z ^ (z >> 27)).wrapping_mul(0x94D0_49BB_1331_11EB);
    z ^ (z >> 31)
}

impl Rng {
    /// A generator from one seed.
    pub fn new(seed: u64) -> Rng {
        let mut mix = seed;
        Rng {
            state: [
                splitmix(&mut mix),
                splitmix(&mut mix),
                splitmix(&mut mix),
                splitmix(&mut mix),
            ],
        }
    }

    /// The generator of one numbered case of a seeded run.
    pub fn for_case(seed: u64, case: u64) -> Rng {
        let mut mix = seed;
        let first = splitmix(&mut mix);
        Rng::new(first ^ case.wrapping_mul(0xD134_2543_DE82_EF95))
    }

    /// The next 64 random bits.
    pub fn bits(&mut self) -> u64 {
        let s = &mut self.state;
        let out = s[1].wrapping_mul(5).rotate_left(7).wrapping_mul(9);
        let t = s[1] << 17;
        s[2] ^= s[0];
        s[3] ^= s[1];
        s[1] ^= s[2];
        s[0] ^= s[3];
        s[2] ^= t;
        s[3] = s[3].rotate_left(45);
        out
    }

    /// A number below `n`; 0 when `n` is 0.
    pub fn below(&mut self, n: usize) -> usize {
        if n == 0 {
            return 0;
        }
        ((u128::from(self.bits()) * n as u128) >> 64) as usize
    }

    /// A number from `low` to `high`, both included.
    pub fn range(&mut self, low: usize, high: usize) -> usize {
        low + self.below(high - low + 1)
    }

    /// True once in `n` on average.
    pub fn one_in(&mut self, n: usize) -> bool {
        self.below(n) == 0
    }

    /// True or false alike.
    pub fn coin(&mut self) -> bool {
        self.bits() >> 63 == 1
    }

    /// One of the things given.
    pub fn pick<T: Copy>(&mut self, things: &[T]) -> T {
        things[self.below(things.len())]
    }

    /// A count from 0 to `most`, small ones far more often.
    pub fn small(&mut self, most: usize) -> usize {
        let bound = match self.below(10) {
            0..=5 => 3,
            6..=8 => 10,
            _ => most,
        };
        self.range(0, bound.min(most))
    }

    /// Random bytes.
    pub fn bytes(&mut self, length: usize) -> Vec<u8> {
        let mut out = Vec::with_capacity(length + 8);
        while out.len() < length {
            out.extend_from_slice(&self.bits().to_le_bytes());
        }
        out.truncate(length);
        out
    }

    /// A number of `width` bits, the edges more often than chance gives.
    pub fn number(&mut self, width: u32) -> u64 {
        let mask = u64::MAX >> (64 - width);
        let raw = match self.below(8) {
            0 => 0,
            1 => 1,
            2 => mask,
            3 => mask >> 1,
            4 => (mask >> 1) + 1,
            5 => self.bits() & 0xFF,
            _ => self.bits(),
        };
        raw & mask
    }
}
