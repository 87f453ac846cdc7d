//! Counts of answers by their numbers.

use std::ops::{Index, IndexMut};

use crate::NUMBERS;

/// How often each answer was given: at 0 accepted, at the others the refusals of that number.
#[derive(Clone, Debug)]
pub struct Counts([u64; NUMBERS]);

impl Default for Counts {
    fn default() -> Counts {
        Counts([0; NUMBERS])
    }
}

impl Counts {
    pub fn total(&self) -> u64 {
        self.0.iter().sum()
    }

    /// Each number of an answer, and how often it was given.
    pub fn by_number(&self) -> impl Iterator<Item = (usize, u64)> + '_ {
        self.0.iter().copied().enumerate()
    }
}

impl Index<usize> for Counts {
    type Output = u64;

    fn index(&self, number: usize) -> &u64 {
        &self.0[number]
    }
}

impl IndexMut<usize> for Counts {
    fn index_mut(&mut self, number: usize) -> &mut u64 {
        &mut self.0[number]
    }
}
