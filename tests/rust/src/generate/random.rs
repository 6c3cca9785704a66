//! Random numbers from a seed: xoshiro256** seeded by splitmix64, and numbers near the edges that matter.

/// A source of random numbers.
pub struct Random {
    state: [u64; 4],
}

/// The next state of splitmix64 and its output.
fn splitmix(state: &mut u64) -> u64 {
    *state = state.wrapping_add(0x9E37_79B9_7F4A_7C15);
    let mut z = *state;
    z = (z ^ (z >> 30)).wrapping_mul(0xBF58_476D_1CE4_E5B9);
    z = (z ^ (z >> 27)).wrapping_mul(0x94D0_49BB_1331_11EB);
    z ^ (z >> 31)
}

impl Random {
    /// The source of a seed and of an index under it, so that each input can be made again by itself.
    pub fn new(seed: u64, index: u64) -> Random {
        let mut state = seed;
        let mut mixed = splitmix(&mut state) ^ index;
        Random { state: std::array::from_fn(|_| splitmix(&mut mixed)) }
    }

    #[allow(clippy::should_implement_trait)]
    pub fn next(&mut self) -> u64 {
        let s = &mut self.state;
        let answer = s[1].wrapping_mul(5).rotate_left(7).wrapping_mul(9);
        let t = s[1] << 17;
        s[2] ^= s[0];
        s[3] ^= s[1];
        s[1] ^= s[2];
        s[0] ^= s[3];
        s[2] ^= t;
        s[3] = s[3].rotate_left(45);
        answer
    }

    /// A number below a bound; 0 if the bound is.
    pub fn below(&mut self, bound: usize) -> usize {
        ((u128::from(self.next()) * bound as u128) >> 64) as usize
    }

    /// A number from one to another, both in.
    pub fn between(&mut self, least: usize, greatest: usize) -> usize {
        least + self.below(greatest.saturating_sub(least).saturating_add(1))
    }

    /// True so many times in a thousand.
    pub fn per_mille(&mut self, share: u32) -> bool {
        self.below(1000) < share as usize
    }

    pub fn byte(&mut self) -> u8 {
        (self.next() >> 56) as u8
    }

    pub fn bytes(&mut self, length: usize) -> Vec<u8> {
        (0..length).map(|_| self.byte()).collect()
    }

    pub fn pick<'a, T>(&mut self, from: &'a [T]) -> &'a T {
        &from[self.below(from.len())]
    }

    /// A number near the edges of VarUInts, integers and doubles: 2^(7n), 2^53, 2^63, 2^64, a little more or less.
    pub fn edge(&mut self) -> u64 {
        let near = *self.pick(&[0, 0, 0, 7, 14, 21, 28, 32, 35, 42, 49, 53, 56, 63, 64]);
        let base = if near == 64 { 0 } else { (1_u64 << near).wrapping_sub(u64::from(near == 0)) };
        match self.below(8) {
            0 => self.next() >> self.below(64),
            _ => base.wrapping_add(self.below(5) as u64).wrapping_sub(2),
        }
    }

    /// 64 bits of a double, mostly near the edges of the float rule.
    pub fn double_bits(&mut self) -> u64 {
        let sign = self.next() & 1 << 63;
        let e = *self.pick(&[
            0, 1, 872, 873, 874, 875, 876, 885, 895, 896, 897, 898, 1022, 1023, 1024, 1149, 1150, 1151, 1152, 2046,
            2047,
        ]);
        let e = if self.below(4) == 0 { self.below(2048) as u64 } else { e };
        let zeros = self.below(54);
        let f = match self.below(6) {
            0 => 0,
            1 => (1 << 52) - 1,
            2 => 1 << self.below(52),
            3 => self.next(),
            _ => self.next() >> 12 >> zeros << zeros.min(52),
        };
        sign | e << 52 | f & ((1 << 52) - 1)
    }

    /// 32 bits of a float, mostly near its edges.
    pub fn float_bits(&mut self) -> u32 {
        let sign = (self.next() as u32) & 1 << 31;
        let e = *self.pick(&[0, 1, 2, 126, 127, 128, 253, 254, 255, 255]);
        let e = if self.below(4) == 0 { self.below(256) as u32 } else { e };
        let f = match self.below(5) {
            0 => 0,
            1 => 0x7F_FFFF,
            2 => 1 << self.below(23),
            _ => self.next() as u32,
        };
        sign | e << 23 | f & 0x7F_FFFF
    }
}
