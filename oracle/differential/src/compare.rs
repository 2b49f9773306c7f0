//! The call on an input, compared with the Rust's reader.

use crate::inputs::{self, Input};
use crate::lent::{lengths, shorten};
use crate::numbers::Numbers;
use crate::sets::{self, Compare, Count, Set};
use crate::trial::{Call, Expected, Trial};
use nikvoldra::call::{ATOMS_LENGTH, BYTES_LENGTH, PAIRS_LENGTH, ReadAnswer, WORK_LENGTH};
use oracle::{hex, reading};

/// `nikvoldra::call::read`, or what a test has in its place.
pub type ReadCall = Call<u32, ReadAnswer>;

/// The least lengths of work, pairs, atoms and bytes.
const LEAST: [usize; 4] = [WORK_LENGTH, PAIRS_LENGTH, ATOMS_LENGTH, BYTES_LENGTH];
/// Of so many inputs one is also tried with slices that are too short.
const SHORT_EACH: usize = 16;

/// How many inputs got each number, and how many further calls had slices too
/// short.
#[derive(Default)]
pub struct Tally {
    inputs: u64,
    numbers: Numbers<17>,
    short: u64,
}

impl Count for Tally {
    fn add(&mut self, other: &Self) {
        self.inputs += other.inputs;
        self.numbers.add(&other.numbers);
        self.short += other.short;
    }
}

/// The call with the slices that it is lent, and a tally.
struct Comparison {
    trial: Trial<u32, ReadAnswer>,
    /// the slices have their least lengths and hold what an answer past question 2 left
    settled: bool,
    tally: Tally,
}

fn flat(pairs: &[(u32, u32)]) -> Vec<u32> {
    pairs.iter().flat_map(|(a, b)| [*a, *b]).collect()
}

/// The answer as the call gives it, and the slices: untouched with 1 and 2.
fn expected(r: reading::ReadAnswer) -> Expected<u32, ReadAnswer> {
    let answer = ReadAnswer {
        number: r.number,
        root: r.root,
        pairs: r.pairs.len() as u32,
        atoms: r.atoms.len() as u32,
        bytes: r.bytes.len() as u32,
        ghosts: r.ghosts,
    };
    let left = match r.number {
        1 | 2 => None,
        _ => Some((flat(&r.pairs), flat(&r.atoms), r.bytes)),
    };
    Expected { answer, left }
}

impl Comparison {
    fn new(call: ReadCall, seed: u64) -> Self {
        let slices = [
            ("work", WORK_LENGTH),
            ("pairs", PAIRS_LENGTH),
            ("atoms", ATOMS_LENGTH),
            ("bytes", BYTES_LENGTH),
        ];
        Self {
            trial: Trial::new(call, slices, seed),
            settled: false,
            tally: Tally::default(),
        }
    }

    /// One call; `whole`: with all words of the slices rubbish before it, and
    /// compared after it.
    fn compare(&mut self, input: &[u8], whole: bool) -> Result<(), String> {
        let expected = expected(reading::read(input));
        let number = expected.answer.number;
        if whole {
            let lengths = lengths(&mut self.trial.rng, LEAST);
            self.trial.fill(lengths);
            self.settled = false;
        } else if !self.settled {
            self.trial.fill(LEAST);
            self.settled = number != 2;
        } else {
            self.trial.sprinkle();
        }
        let now = self.trial.run(input);
        self.trial.agrees(&now, &expected)?;
        self.tally.inputs += 1;
        self.tally.numbers.count(number);
        Ok(())
    }

    /// One call with slices that are too short.
    fn compare_short(&mut self, input: &[u8]) -> Result<(), String> {
        let rng = &mut self.trial.rng;
        let lengths = lengths(rng, LEAST);
        let one = rng.below(4);
        let lengths = shorten(rng, lengths, LEAST, one);
        self.trial.fill(lengths);
        self.settled = false;
        let now = self.trial.run(input);
        let refused = expected(reading::ReadAnswer::refused(1));
        self.trial.agrees(&now, &refused)?;
        self.tally.short += 1;
        Ok(())
    }
}

impl Compare for Comparison {
    type Input = Input;
    type Tally = Tally;

    fn one(&mut self, input: &Input, turn: usize, i: usize) -> Result<(), String> {
        let Input { bytes, whole_each } = input;
        let mut result = self.compare(bytes, turn.is_multiple_of(*whole_each));
        if result.is_ok() && turn % SHORT_EACH == 1 && *whole_each == 1 {
            result = self.compare_short(bytes);
        }
        result.map_err(|text| {
            format!(
                "input {i}: the port and the Rust differ\n{text}\ninput: {}",
                hex::encode(bytes)
            )
        })
    }

    fn tally(&mut self) -> &mut Tally {
        &mut self.tally
    }
}

/// All sets, at most `most` inputs of each but the generated ones; `say` gets a
/// line for each set and a last one.
pub fn run(
    call: ReadCall,
    generated: usize,
    seed: u64,
    most: usize,
    say: impl FnMut(&str),
) -> Result<Tally, String> {
    run_sets(call, inputs::sets(generated, seed), seed, most, say)
}

/// The sets one after the other.
pub fn run_sets(
    call: ReadCall,
    sets: Vec<Set<Input>>,
    seed: u64,
    most: usize,
    mut say: impl FnMut(&str),
) -> Result<Tally, String> {
    let new = |seed| Comparison::new(call, seed);
    let mut names = vec![];
    let total = sets::run(new, sets, seed, most, |name, tally, seconds| {
        say(&format!(
            "{} {name}; by number {}; {} calls with slices too short; {seconds:.1} s",
            tally.inputs, tally.numbers, tally.short
        ));
        names.push(format!("{} {name}", tally.inputs));
    })?;
    say(&format!(
        "{} inputs agreed ({}), and {} calls with slices too short",
        total.inputs,
        names.join(", "),
        total.short
    ));
    Ok(total)
}

#[cfg(test)]
mod tests {
    use super::{Comparison, LEAST, ReadCall, expected, run};
    use crate::lent::lengths;
    use crate::stand_in::{Fault, with_fault};
    use oracle::reading;

    const RIGHT: ReadCall = with_fault::<{ Fault::None as u8 }>;

    fn verdict(call: ReadCall) -> Result<(), String> {
        run(call, 300, 1, 50, |_| ()).map(|_| ())
    }

    #[test]
    fn the_oracle_agrees_with_itself() {
        assert_eq!(verdict(RIGHT), Ok(()));
    }

    #[test]
    fn each_fault_is_noticed() {
        let faulty: [ReadCall; 8] = [
            with_fault::<{ Fault::Count as u8 }>,
            with_fault::<{ Fault::Number as u8 }>,
            with_fault::<{ Fault::LeftOnRefusal as u8 }>,
            with_fault::<{ Fault::WorkEnd as u8 }>,
            with_fault::<{ Fault::WorkBeyond as u8 }>,
            with_fault::<{ Fault::PairsBeyond as u8 }>,
            with_fault::<{ Fault::TouchedBy1 as u8 }>,
            with_fault::<{ Fault::LongerInput as u8 }>,
        ];
        for (i, call) in faulty.into_iter().enumerate() {
            assert!(verdict(call).is_err(), "fault {} is not noticed", i + 1);
        }
    }

    /// Both where the slices are cleared and where they are untouched.
    #[test]
    fn a_word_outside_a_slice_is_noticed() {
        let mut trial = Comparison::new(RIGHT, 1).trial;
        for input in [vec![0x80], vec![0x80; reading::MAX_INPUT + 1]] {
            let expected = expected(reading::read(&input));
            trial.notices_outside(&input, |rng| lengths(rng, LEAST), &expected);
        }
    }

    /// An atom of two bytes, of which the second is past the end.
    #[test]
    fn a_byte_past_the_input_is_noticed() {
        let input = [0x82, 0x61];
        let expected = expected(reading::read(&input));
        let mut trial = Comparison::new(RIGHT, 1).trial;
        let lengths = lengths(&mut trial.rng, LEAST);
        trial.notices_a_byte_past(&input, lengths, &expected);
    }
}
