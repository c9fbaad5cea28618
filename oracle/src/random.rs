// Random values from splitmix64 with a fixed seed, so that every run repeats.

pub const SEED: u64 = 0x0fad_e000_c0de_2019;

// The generator's state.
pub struct Random(u64);

impl Random {
    // A stream of its own for each thread.
    pub fn new(part: u64) -> Random {
        Random(SEED ^ part << 32)
    }

    // The next 64 bits.
    #[inline(always)]
    pub fn bits(&mut self) -> u64 {
        self.0 = self.0.wrapping_add(0x9e37_79b9_7f4a_7c15);
        let z = self.0;
        let z = (z ^ z >> 30).wrapping_mul(0xbf58_476d_1ce4_e5b9);
        let z = (z ^ z >> 27).wrapping_mul(0x94d0_49bb_1331_11eb);
        z ^ z >> 31
    }

    // A number from 0 up to, but without, n.
    #[inline(always)]
    pub fn below(&mut self, n: u64) -> u64 {
        self.bits() % n
    }

    // Any f32 pattern.
    #[inline(always)]
    pub fn pattern(&mut self) -> u32 {
        self.bits() as u32
    }

    // A number from low to high, both included.
    #[inline(always)]
    pub fn within(&mut self, low: u32, high: u32) -> u32 {
        low + self.below((high - low) as u64 + 1) as u32
    }

    // One of the list.
    #[inline(always)]
    pub fn pick<T: Copy>(&mut self, list: &[T]) -> T {
        list[self.below(list.len() as u64) as usize]
    }

    // A number from low up to, but without, high.
    #[inline(always)]
    pub fn real(&mut self, low: f64, high: f64) -> f64 {
        low + (high - low) * (self.bits() >> 11) as f64 / (1u64 << 53) as f64
    }

    // Any f64 pattern.
    #[inline(always)]
    pub fn any(&mut self) -> f64 {
        f64::from_bits(self.bits())
    }

    // Any sign and fraction, with 2^low <= |x| < 2^(high + 1).
    #[inline(always)]
    pub fn between(&mut self, low: i64, high: i64) -> f64 {
        let field = (1023 + low) as u64 + self.below((high - low + 1) as u64);
        f64::from_bits(self.bits() & 0x800f_ffff_ffff_ffff | field << 52)
    }

    // A size that neither overflows nor underflows in a few products.
    #[inline(always)]
    pub fn moderate(&mut self) -> f64 {
        self.between(-60, 60)
    }

    // The lo and hi of a double-double: lo is about 2^-53 of hi.
    #[inline(always)]
    pub fn pair(&mut self) -> [f64; 2] {
        let hi = self.moderate();
        [hi * self.between(-56, -53), hi]
    }
}
