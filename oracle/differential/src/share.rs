//! The inputs of a set, by number, shared by threads.

use std::sync::atomic::{AtomicBool, Ordering::Relaxed};

/// The numbers of the inputs to take of a set.
pub struct Part {
    size: usize,
    from: usize,
    step: usize,
}

impl Part {
    /// At most `most` of `size`, spread evenly.
    pub fn of(size: usize, most: usize, seed: u64) -> Self {
        let mut step = size.div_ceil(most.max(1)).max(1);
        // no common factor with 12 or 256: each letter and byte comes at each place
        while step > 1 && (step.is_multiple_of(2) || step.is_multiple_of(3)) {
            step += 1;
        }
        Self {
            size,
            from: (seed % step as u64) as usize,
            step,
        }
    }
}

/// `each` on every number of the part, with the turn that it is for its worker.
/// Each worker has a thread; the first failure ends all.
pub fn run<W: Send>(
    workers: &mut [W],
    part: &Part,
    each: impl Fn(&mut W, usize, usize) -> Result<(), String> + Sync,
) -> Result<(), String> {
    let threads = workers.len();
    let stop = AtomicBool::new(false);
    let one = |t: usize, worker: &mut W| {
        let numbers = (part.from..part.size).step_by(part.step);
        for (turn, i) in numbers.skip(t).step_by(threads).enumerate() {
            if stop.load(Relaxed) {
                break;
            }
            if let Err(text) = each(worker, turn, i) {
                stop.store(true, Relaxed);
                return Err(text);
            }
        }
        Ok(())
    };
    let one = &one;
    std::thread::scope(|s| {
        let running: Vec<_> = workers
            .iter_mut()
            .enumerate()
            .map(|(t, w)| s.spawn(move || one(t, w)))
            .collect();
        let results: Vec<_> = running
            .into_iter()
            .map(|r| r.join().expect("a thread"))
            .collect();
        results.into_iter().collect()
    })
}
