//! How often each outcome was given.

use independent::Outcome;
use std::fmt;
use std::ops::{Index, IndexMut};

#[derive(Clone, Default)]
pub struct Outcomes([u64; Outcome::ALL.len()]);

impl Outcomes {
    /// Adds another run's.
    pub fn add(&mut self, other: &Outcomes) {
        for outcome in Outcome::ALL {
            self[outcome] += other[outcome];
        }
    }
}

impl Index<Outcome> for Outcomes {
    type Output = u64;

    fn index(&self, outcome: Outcome) -> &u64 {
        &self.0[outcome.number() as usize]
    }
}

impl IndexMut<Outcome> for Outcomes {
    fn index_mut(&mut self, outcome: Outcome) -> &mut u64 {
        &mut self.0[outcome.number() as usize]
    }
}

/// Those that were given, by name.
impl fmt::Debug for Outcomes {
    fn fmt(&self, to: &mut fmt::Formatter) -> fmt::Result {
        let given = Outcome::ALL.into_iter().filter(|&outcome| self[outcome] > 0);
        to.debug_map().entries(given.map(|outcome| (outcome, self[outcome]))).finish()
    }
}
