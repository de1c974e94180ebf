//! The generator's own random numbers: splitmix64, small and the same on every machine.

/// Where bounds and widths end.
const EDGES: [u64; 30] = [
    0,
    1,
    2,
    3,
    4,
    5,
    6,
    7,
    8,
    9,
    15,
    16,
    17,
    63,
    64,
    127,
    128,
    255,
    256,
    257,
    1023,
    1024,
    1025,
    2048,
    65535,
    65536,
    4_294_967_294,
    4_294_967_295,
    4_294_967_296,
    4_294_967_297,
];

pub struct Rng(u64);

impl Rng {
    /// The seed of one case: fixed by the master seed and the case's number alone.
    pub fn of_case(seed: u64, case: u64) -> Rng {
        let mut mixed = Rng(seed ^ case.wrapping_mul(0xD134_2543_DE82_EF95));
        Rng(mixed.word())
    }

    pub fn word(&mut self) -> u64 {
        self.0 = self.0.wrapping_add(0x9E37_79B9_7F4A_7C15);
        let z = (self.0 ^ (self.0 >> 30)).wrapping_mul(0xBF58_476D_1CE4_E5B9);
        let z = (z ^ (z >> 27)).wrapping_mul(0x94D0_49BB_1331_11EB);
        z ^ (z >> 31)
    }

    /// 0 to n − 1; n is never 0 here.
    pub fn below(&mut self, n: u64) -> u64 {
        ((u128::from(self.word()) * u128::from(n)) >> 64) as u64
    }

    pub fn between(&mut self, low: u64, high: u64) -> u64 {
        low + self.below(high - low + 1)
    }

    pub fn one_in(&mut self, n: u64) -> bool {
        self.below(n) == 0
    }

    pub fn percent(&mut self, p: u64) -> bool {
        self.below(100) < p
    }

    pub fn pick<T: Copy>(&mut self, from: &[T]) -> T {
        from[self.below(from.len() as u64) as usize]
    }

    /// An index, each as often as its weight says.
    pub fn weighted(&mut self, weights: &[u64]) -> usize {
        let mut left = self.below(weights.iter().sum());
        for (index, weight) in weights.iter().enumerate() {
            if left < *weight {
                return index;
            }
            left -= weight;
        }
        0
    }

    /// Numbers at which a narrowing, a bound or a sum may go wrong.
    pub fn wild(&mut self) -> u64 {
        match self.below(10) {
            0..=6 => self.pick(&EDGES),
            7 => u64::MAX - self.below(3),
            8 => (1 << 63) - 1 + self.below(3),
            _ => self.word(),
        }
    }
}
