//! How many calls got each number.

use std::fmt::{self, Display, Formatter};

#[derive(Clone)]
pub struct Numbers<const N: usize>([u64; N]);

impl<const N: usize> Default for Numbers<N> {
    fn default() -> Self {
        Self([0; N])
    }
}

impl<const N: usize> Numbers<N> {
    pub fn count(&mut self, number: u32) {
        self.0[number as usize] += 1;
    }

    pub fn add(&mut self, other: &Self) {
        for (mine, theirs) in self.0.iter_mut().zip(other.0) {
            *mine += theirs;
        }
    }
}

/// Those that any call got.
impl<const N: usize> Display for Numbers<N> {
    fn fmt(&self, f: &mut Formatter) -> fmt::Result {
        let met = self.0.iter().enumerate().filter(|(_, calls)| **calls > 0);
        let texts: Vec<_> = met.map(|(n, calls)| format!("{n}: {calls}")).collect();
        f.write_str(&texts.join(", "))
    }
}
