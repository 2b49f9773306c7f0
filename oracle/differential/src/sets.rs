//! Sets of inputs, and the run of a comparison over them.

use crate::share::{self, Part};
use std::time::Instant;

/// A set gives its inputs by number, so that threads can share it and a run can
/// take a part of it.
pub struct Set<I> {
    name: &'static str,
    size: usize,
    get: Box<dyn Fn(usize) -> I + Sync>,
}

impl<I> Set<I> {
    pub fn new(name: &'static str, size: usize, get: impl Fn(usize) -> I + Sync + 'static) -> Self {
        Self {
            name,
            size,
            get: Box::new(get),
        }
    }
}

/// What is counted.
pub trait Count: Default {
    fn add(&mut self, other: &Self);
}

/// Compares inputs and counts them, on one thread.
pub trait Compare: Send {
    type Input;
    type Tally: Count;

    /// Input `i` of a set, with the turn that it is for this thread.
    fn one(&mut self, input: &Self::Input, turn: usize, i: usize) -> Result<(), String>;

    fn tally(&mut self) -> &mut Self::Tally;
}

/// The sets one after the other, at most `most` inputs of each but the generated
/// one, by as many threads as there are cores; `new` makes what compares, from a
/// seed. `done` gets the name of each set, its tally, and seconds.
pub fn run<C: Compare>(
    new: impl Fn(u64) -> C,
    sets: Vec<Set<C::Input>>,
    seed: u64,
    most: usize,
    mut done: impl FnMut(&str, &C::Tally, f64),
) -> Result<C::Tally, String> {
    let threads = std::thread::available_parallelism().map_or(1, usize::from);
    let mut cs: Vec<C> = (0..threads)
        .map(|t| new(seed.wrapping_add(t as u64)))
        .collect();
    let mut total = C::Tally::default();
    for set in sets {
        let began = Instant::now();
        let most = if set.name == "generated" {
            set.size
        } else {
            most
        };
        share::run(&mut cs, &Part::of(set.size, most, seed), |c, turn, i| {
            c.one(&(set.get)(i), turn, i)
                .map_err(|text| format!("{}, {text}", set.name))
        })?;
        let mut tally = C::Tally::default();
        for c in &mut cs {
            tally.add(&std::mem::take(c.tally()));
        }
        done(set.name, &tally, began.elapsed().as_secs_f64());
        total.add(&tally);
    }
    Ok(total)
}
