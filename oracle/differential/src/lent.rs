//! A slice that is lent to the call: full of rubbish before it, with guards on
//! both sides, and compared after it.

use nikvoldra::call::Checkpoint;
use oracle::rng::Rng;
use std::fmt::Debug;

/// Words on each side of the slice that the call may not reach.
const GUARD: usize = 64;
/// The most words above the minimum.
pub const ABOVE: usize = 4096;
/// How far the rubbish is shifted from call to call.
const SHIFT: usize = 8192;
/// Words that get rubbish anew where the whole slice doesn't.
const SAMPLE: usize = 64;

pub trait Word: Copy + Default + PartialEq + Debug {
    fn rubbish(rng: &mut Rng) -> Self;
    /// Whether all are zero, as a plain loop that the compiler makes wide.
    fn all_zero(words: &[Self]) -> bool;
}

macro_rules! word {
    ($t:ty) => {
        impl Word for $t {
            /// Never zero, often small.
            fn rubbish(rng: &mut Rng) -> Self {
                let v = rng.next() as Self;
                let v = if rng.percent(25) { v % 8 } else { v };
                if v == 0 { 1 } else { v }
            }

            fn all_zero(words: &[Self]) -> bool {
                words
                    .chunks(4096)
                    .all(|c| c.iter().fold(0, |a, b| a | b) == 0)
            }
        }
    };
}
word!(u8);
word!(u32);

impl Word for Checkpoint {
    /// No field is zero.
    fn rubbish(rng: &mut Rng) -> Self {
        let [opens, depth, size, references, prefix_bytes, sentinel] =
            [(); 6].map(|()| u32::rubbish(rng));
        Self {
            opens,
            depth,
            size,
            references,
            prefix_bytes,
            sentinel,
        }
    }

    fn all_zero(words: &[Self]) -> bool {
        words.iter().all(|w| *w == Self::default())
    }
}

/// A length at or above the minimum.
fn long(rng: &mut Rng, minimum: usize) -> usize {
    match rng.below(4) {
        0 => minimum,
        1 => minimum + 1,
        2 => minimum + rng.range(2, 64),
        _ => minimum + rng.range(1, ABOVE),
    }
}

/// A length one below the minimum or far below.
fn short(rng: &mut Rng, minimum: usize) -> usize {
    if rng.percent(70) {
        minimum - 1
    } else {
        rng.below(minimum)
    }
}

/// Each at its minimum, or each at or above it.
pub fn lengths<const N: usize>(rng: &mut Rng, minimums: [usize; N]) -> [usize; N] {
    if rng.percent(50) {
        return minimums;
    }
    minimums.map(|n| long(rng, n))
}

/// `one` of the lengths, and with some chance others, one below its minimum or far
/// below.
pub fn shorten<const N: usize>(
    rng: &mut Rng,
    mut lengths: [usize; N],
    minimums: [usize; N],
    one: usize,
) -> [usize; N] {
    let more = rng.percent(30);
    for (i, minimum) in minimums.into_iter().enumerate() {
        if i == one || more && rng.percent(50) {
            lengths[i] = short(rng, minimum);
        }
    }
    lengths
}

pub struct Lent<T> {
    name: &'static str,
    /// a guard, the slice, a guard
    memory: Vec<T>,
    length: usize,
    rubbish: Vec<T>,
    shift: usize,
    sampled: Vec<usize>,
}

impl<T: Word> Lent<T> {
    pub fn new(name: &'static str, minimum: usize, rng: &mut Rng) -> Self {
        let size = GUARD + minimum + ABOVE + GUARD;
        Self {
            name,
            memory: vec![T::default(); size],
            length: minimum,
            rubbish: (0..size + SHIFT).map(|_| T::rubbish(rng)).collect(),
            shift: 0,
            sampled: vec![],
        }
    }

    /// Rubbish everywhere, guards included; the slice has `length` words.
    pub fn fill(&mut self, length: usize, rng: &mut Rng) {
        self.length = length;
        self.shift = rng.below(SHIFT);
        self.sampled.clear();
        let size = GUARD + length + GUARD;
        self.memory[..size].copy_from_slice(&self.rubbish[self.shift..self.shift + size]);
    }

    /// Rubbish in the first words and in a sample of the others. The rest, which
    /// the call before has left, and the length stay.
    pub fn sprinkle(&mut self, rng: &mut Rng) {
        self.sampled.clear();
        for i in 0..SAMPLE {
            let at = if i < 8 { i } else { rng.below(self.length) };
            self.memory[GUARD + at] = T::rubbish(rng);
            self.sampled.push(at);
        }
    }

    pub fn slice(&mut self) -> &mut [T] {
        &mut self.memory[GUARD..GUARD + self.length]
    }

    /// Writes right before the slice or right after it, as no call in safe Rust can.
    #[cfg(test)]
    pub fn write_outside(&mut self, after: bool) {
        let at = if after {
            GUARD + self.length
        } else {
            GUARD - 1
        };
        // Rubbish is never zero.
        self.memory[at] = T::default();
    }

    fn differs(&self, at: usize, now: T, expected: T) -> String {
        format!(
            "{} of {} words: word {at} is {now:x?}, expected {expected:x?}",
            self.name, self.length
        )
    }

    fn same(&self, now: &[T], expected: &[T]) -> Result<(), String> {
        if now == expected {
            return Ok(());
        }
        let at = (0..now.len()).find(|i| now[*i] != expected[*i]);
        let at = at.expect("a difference");
        Err(self.differs(at, now[at], expected[at]))
    }

    fn guards(&self) -> Result<(), String> {
        let end = GUARD + self.length;
        let rubbish = &self.rubbish[self.shift..];
        if self.memory[..GUARD] != rubbish[..GUARD]
            || self.memory[end..end + GUARD] != rubbish[end..end + GUARD]
        {
            return Err(format!("{}: written outside the slice", self.name));
        }
        Ok(())
    }

    /// The slice is as `fill` left it.
    pub fn untouched(&self) -> Result<(), String> {
        let end = GUARD + self.length;
        self.guards()?;
        self.same(
            &self.memory[GUARD..end],
            &self.rubbish[self.shift + GUARD..self.shift + end],
        )
    }

    /// The slice begins with `used`, and the rest is zero: all of it after
    /// `fill`, else the next words and the sampled ones.
    pub fn holds(&self, used: &[T]) -> Result<(), String> {
        self.guards()?;
        let now = &self.memory[GUARD..GUARD + self.length];
        let n = used.len();
        self.same(&now[..n], used)?;
        let zero = T::default();
        if self.sampled.is_empty() {
            if T::all_zero(&now[n..]) {
                return Ok(());
            }
            let at = (n..now.len()).find(|i| now[*i] != zero).expect("a word");
            return Err(self.differs(at, now[at], zero));
        }
        let next = n..(n + GUARD).min(now.len());
        let sampled = self.sampled.iter().copied().filter(|at| *at >= n);
        match next.chain(sampled).find(|at| now[*at] != zero) {
            None => Ok(()),
            Some(at) => Err(self.differs(at, now[at], zero)),
        }
    }
}
