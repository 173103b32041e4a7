//! Random numbers from a seed, the same on every machine (xorshift64*).

/// A generator of random numbers.
#[derive(Clone, Debug)]
pub struct Random(u64);

impl Random {
    /// The generator with this seed.
    pub fn new(seed: u64) -> Random {
        // Seeds that differ little shall give streams that differ much.
        let mixed = (seed ^ 0x9e37_79b9_7f4a_7c15).wrapping_mul(0xbf58_476d_1ce4_e5b9);
        Random((mixed ^ (mixed >> 31)).max(1))
    }

    /// The next 64 bits.
    pub fn bits(&mut self) -> u64 {
        self.0 ^= self.0 >> 12;
        self.0 ^= self.0 << 25;
        self.0 ^= self.0 >> 27;
        self.0.wrapping_mul(0x2545_f491_4f6c_dd1d)
    }

    /// A number below `count`, which is not 0.
    pub fn below(&mut self, count: usize) -> usize {
        ((u128::from(self.bits()) * count as u128) >> 64) as usize
    }

    /// A number below `few`, or once in four times one below `many`.
    pub fn mostly_below(&mut self, few: usize, many: usize) -> usize {
        let count = if self.once_in(4) { many } else { few };
        self.below(count)
    }

    /// True once in `count` times.
    pub fn once_in(&mut self, count: usize) -> bool {
        self.below(count) == 0
    }

    /// A byte below `count`.
    pub fn byte_below(&mut self, count: u8) -> u8 {
        self.below(usize::from(count)) as u8
    }

    /// One of these.
    pub fn pick<'a, T>(&mut self, from: &'a [T]) -> &'a T {
        &from[self.below(from.len())]
    }

    /// A place in the list of weights, each as often as its weight says.
    pub fn weighted(&mut self, weights: &[usize]) -> usize {
        let mut left = self.below(weights.iter().sum());
        for (place, &weight) in weights.iter().enumerate() {
            if left < weight {
                return place;
            }
            left -= weight;
        }
        unreachable!("the weights add up to more than what was left")
    }
}

/// How many random cases a test takes: the usual number times the environment's
/// `FADZGIME_CASES`, if that is set, and one at least.
pub fn cases(usual: u64) -> u64 {
    let Some(times) = std::env::var_os("FADZGIME_CASES") else {
        return usual;
    };
    let times: f64 = times.to_str().and_then(|times| times.parse().ok()).expect("FADZGIME_CASES is a number");
    ((usual as f64 * times) as u64).max(1)
}
