//! Times of calls, in microseconds.

use std::time::{Duration, Instant};

/// Rounds of measured calls, calls in a round, and how long an input may take.
const ROUNDS: usize = 25;
const CALLS: usize = 16;
const AT_MOST: Duration = Duration::from_secs(5);

pub fn micros(call: impl FnOnce()) -> f64 {
    let start = Instant::now();
    call();
    start.elapsed().as_secs_f64() * 1e6
}

/// The value that a part of the times, in quarters, lies below.
pub fn quartile(times: &mut [f64], quarters: usize) -> f64 {
    times.sort_by(f64::total_cmp);
    times[times.len() * quarters / 4]
}

pub fn median(times: &mut [f64]) -> f64 {
    quartile(times, 2)
}

/// Medians: of the call on an input, on an input that only has the slices zeroed, of the differences of two such calls one after
/// the other, and of the Rust's ways.
pub struct Row {
    pub whole: f64,
    pub zeroing: f64,
    pub difference: f64,
    pub rust: Vec<f64>,
}

pub fn measure(
    port: &mut dyn FnMut(&[u8]),
    input: &[u8],
    empty: &[u8],
    rust: &mut [&mut dyn FnMut()],
) -> Row {
    let [row] = measure_beside(port, [input], empty, rust);
    row
}

/// The times of the call on the inputs, turn by turn, each after a call on the empty one.
pub fn measure_in_turns<const N: usize>(
    port: &mut dyn FnMut(&[u8]),
    inputs: [&[u8]; N],
    empty: &[u8],
) -> Vec<[f64; N]> {
    let began = Instant::now();
    // the first turn only warms up
    inputs.iter().for_each(|input| port(input));
    let mut turns = vec![];
    while turns.len() < ROUNDS * CALLS && (turns.len() < 3 || began.elapsed() <= AT_MOST) {
        turns.push(inputs.map(|input| {
            port(empty);
            micros(|| port(input))
        }));
    }
    turns
}

/// A row for each input, all with the times of the Rust's ways. A round is calls on an input and the empty one in turns, for each
/// input, then calls of each of the Rust's ways.
pub fn measure_beside<I: Copy, const N: usize>(
    port: &mut dyn FnMut(I),
    inputs: [I; N],
    empty: I,
    rust: &mut [&mut dyn FnMut()],
) -> [Row; N] {
    let began = Instant::now();
    rust.iter_mut().for_each(|way| way());
    let calls = if began.elapsed().as_millis() > 50 {
        1
    } else {
        CALLS
    };
    let mut ours = [(); N].map(|()| <[Vec<f64>; 3]>::default());
    let mut theirs = vec![vec![]; rust.len()];
    for round in 0..ROUNDS {
        if round >= 3 && began.elapsed() > AT_MOST {
            break;
        }
        for (input, [whole, zeroing, difference]) in inputs.into_iter().zip(&mut ours) {
            port(empty);
            for _ in 0..calls {
                whole.push(micros(|| port(input)));
                zeroing.push(micros(|| port(empty)));
                difference.push(whole[whole.len() - 1] - zeroing[zeroing.len() - 1]);
            }
        }
        for (way, times) in rust.iter_mut().zip(&mut theirs) {
            // the first only warms up
            way();
            times.extend((0..calls).map(|_| micros(&mut **way)));
        }
    }
    let theirs: Vec<f64> = theirs.iter_mut().map(|times| median(times)).collect();
    ours.map(|[mut whole, mut zeroing, mut difference]| Row {
        whole: median(&mut whole),
        zeroing: median(&mut zeroing),
        difference: median(&mut difference),
        rust: theirs.clone(),
    })
}
