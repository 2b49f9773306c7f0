//! A call with the four slices that it is lent, and its input with rubbish after it.

use crate::lent::{Lent, Word};
use oracle::rng::Rng;
use std::fmt::Debug;

/// On an input, with work, words, records and bytes.
pub type Call<T, A> = fn(&[u8], &mut [u32], &mut [u32], &mut [T], &mut [u8]) -> A;

/// Bytes of rubbish after the input.
const AFTER: usize = 16;

/// An answer, and what words, records and bytes begin with, where they and work
/// are not to be untouched. The rest is zero.
pub struct Expected<T, A> {
    pub answer: A,
    pub left: Option<(Vec<u32>, Vec<T>, Vec<u8>)>,
}

pub struct Trial<T, A> {
    pub call: Call<T, A>,
    pub rng: Rng,
    work: Lent<u32>,
    words: Lent<u32>,
    records: Lent<T>,
    pub bytes: Lent<u8>,
    input: Vec<u8>,
}

impl<T: Word, A: PartialEq + Debug> Trial<T, A> {
    /// `slices`: their names and least lengths.
    pub fn new(call: Call<T, A>, slices: [(&'static str, usize); 4], seed: u64) -> Self {
        let mut rng = Rng::new(seed);
        let [work, words, records, bytes] = slices;
        Self {
            call,
            work: Lent::new(work.0, work.1, &mut rng),
            words: Lent::new(words.0, words.1, &mut rng),
            records: Lent::new(records.0, records.1, &mut rng),
            bytes: Lent::new(bytes.0, bytes.1, &mut rng),
            input: vec![],
            rng,
        }
    }

    /// Rubbish in all words of the slices, which get these lengths.
    pub fn fill(&mut self, lengths: [usize; 4]) {
        self.work.fill(lengths[0], &mut self.rng);
        self.words.fill(lengths[1], &mut self.rng);
        self.records.fill(lengths[2], &mut self.rng);
        self.bytes.fill(lengths[3], &mut self.rng);
    }

    /// Rubbish in some words of each slice.
    pub fn sprinkle(&mut self) {
        self.work.sprinkle(&mut self.rng);
        self.words.sprinkle(&mut self.rng);
        self.records.sprinkle(&mut self.rng);
        self.bytes.sprinkle(&mut self.rng);
    }

    pub fn run(&mut self, input: &[u8]) -> A {
        self.input.clear();
        self.input.extend(input);
        self.input.extend(self.rng.bytes(AFTER));
        self.run_on(input.len())
    }

    /// The call on so many bytes of the input and the rubbish after it.
    fn run_on(&mut self, length: usize) -> A {
        (self.call)(
            &self.input[..length],
            self.work.slice(),
            self.words.slice(),
            self.records.slice(),
            self.bytes.slice(),
        )
    }

    /// The answer and the slices are as `expected` has them.
    pub fn agrees(&self, now: &A, expected: &Expected<T, A>) -> Result<(), String> {
        let Expected { answer, left } = expected;
        if now != answer {
            return Err(format!("the port: {now:?}\nexpected: {answer:?}"));
        }
        let Some((words, records, bytes)) = left else {
            self.work.untouched()?;
            self.words.untouched()?;
            self.records.untouched()?;
            return self.bytes.untouched();
        };
        self.work.holds(&[])?;
        self.words.holds(words)?;
        self.records.holds(records)?;
        self.bytes.holds(bytes)
    }
}

/// What the tests of the comparisons have in common.
#[cfg(test)]
impl<T: Word, A: PartialEq + Debug> Trial<T, A> {
    /// The call agrees, and a word that is written outside a slice is noticed.
    pub fn notices_outside(
        &mut self,
        input: &[u8],
        lengths: impl Fn(&mut Rng) -> [usize; 4],
        expected: &Expected<T, A>,
    ) {
        let outside: [fn(&mut Self, bool); 4] = [
            |t, after| t.work.write_outside(after),
            |t, after| t.words.write_outside(after),
            |t, after| t.records.write_outside(after),
            |t, after| t.bytes.write_outside(after),
        ];
        for (i, write) in outside.into_iter().enumerate() {
            for after in [false, true] {
                let lengths = lengths(&mut self.rng);
                self.fill(lengths);
                let now = self.run(input);
                assert_eq!(self.agrees(&now, expected), Ok(()));
                write(self, after);
                assert!(self.agrees(&now, expected).is_err(), "slice {i}, {after}");
            }
        }
    }

    /// The call agrees, and one that gets a byte past the input is noticed.
    pub fn notices_a_byte_past(
        &mut self,
        input: &[u8],
        lengths: [usize; 4],
        expected: &Expected<T, A>,
    ) {
        self.fill(lengths);
        let now = self.run(input);
        assert_eq!(self.agrees(&now, expected), Ok(()));
        let now = self.run_on(input.len() + 1);
        assert!(self.agrees(&now, expected).is_err());
    }
}
