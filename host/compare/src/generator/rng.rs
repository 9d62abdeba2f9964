//! A small random number generator (xorshift64*), so that a run can be had again from its seed.

pub struct Rng(u64);

impl Rng {
    /// A generator of this seed, which is printed: a failing run names it.
    pub fn seeded(seed: u64) -> Rng {
        println!("seed {seed}");
        Rng::quiet(seed)
    }

    /// The same for one of many runs, whose seeds are told by whoever counts them.
    pub fn quiet(seed: u64) -> Rng {
        Rng(seed.wrapping_mul(0x9e37_79b9_7f4a_7c15) | 1)
    }

    #[allow(clippy::should_implement_trait)] // It never ends, and is no iterator.
    pub fn next(&mut self) -> u64 {
        self.0 ^= self.0 >> 12;
        self.0 ^= self.0 << 25;
        self.0 ^= self.0 >> 27;
        self.0.wrapping_mul(0x2545_f491_4f6c_dd1d)
    }

    /// A number below `end`.
    pub fn below(&mut self, end: u64) -> u64 {
        self.next() % end
    }

    /// A number up to `most`, itself included.
    pub fn up_to(&mut self, most: u32) -> u32 {
        self.below(u64::from(most) + 1) as u32
    }

    /// True once in so many times.
    pub fn one_in(&mut self, chances: u64) -> bool {
        self.below(chances) == 0
    }

    /// Whether something happens that does so this often in a hundred times.
    pub fn percent(&mut self, often: u64) -> bool {
        self.below(100) < often
    }

    /// Fills bytes with any.
    pub fn fill(&mut self, bytes: &mut [u8]) {
        bytes.iter_mut().for_each(|byte| *byte = (self.next() >> 32) as u8);
    }

    /// Puts these into any order.
    pub fn shuffle<T>(&mut self, all: &mut [T]) {
        for last in (1..all.len()).rev() {
            all.swap(last, self.below(last as u64 + 1) as usize);
        }
    }

    /// One of these.
    pub fn pick<T: Copy>(&mut self, of: &[T]) -> T {
        of[self.below(of.len() as u64) as usize]
    }
}

/// How many times the usual work a run does: `KRITNAMON_ROUNDS` in the environment, or 1.
pub fn rounds() -> u64 {
    std::env::var("KRITNAMON_ROUNDS").ok().and_then(|text| text.parse().ok()).unwrap_or(1)
}

/// The seed of a run: `KRITNAMON_SEED` in the environment, or 1.
pub fn seed() -> u64 {
    std::env::var("KRITNAMON_SEED").ok().and_then(|text| text.parse().ok()).unwrap_or(1)
}
