//! The session calls on a file, compared with the unchanged Rust's `Serializer`, and with the one
//! that has the documentation's prefix lengths.

use crate::lent::{ABOVE, lengths, shorten};
use crate::numbers::Numbers;
use crate::session_inputs::{self, Input};
use crate::sets::{self, Compare, Count};
use crate::trial::{Call, Expected, Trial};
use nikvoldra::call::{self, CHECKPOINTS_LENGTH, Checkpoint, WORDS_LENGTH, WORK_LENGTH};
use oracle::plain::{self, Interner};
use oracle::session::{self, MAX_OUTPUT, SessionAnswer};
use oracle::writer::Measure;
use oracle::{hex, reading};
use std::collections::BTreeMap;

/// `nikvoldra::call::session` or `session_documented`, or what a test has in its place.
pub type SessionCall = Call<Checkpoint, call::SessionAnswer>;

/// The two calls.
#[derive(Clone, Copy)]
pub struct Calls {
    pub counted: SessionCall,
    pub documented: SessionCall,
}

/// The least lengths of work, words and checkpoints.
const LEAST: [usize; 3] = [WORK_LENGTH, WORDS_LENGTH, CHECKPOINTS_LENGTH];
/// Too few words: one for each step.
const ONE_WORD_EACH: usize = WORDS_LENGTH / 3;
/// Of so many files one is also tried with slices that are too short.
const SHORT_EACH: usize = 8;
/// Of so many files one is also run by the documentation, as are all that are made for the measures.
const DOCUMENTED_EACH: usize = 2;

/// Files and calls by kind, and what else was met.
#[derive(Default)]
pub struct Tally {
    files: u64,
    /// those that both calls ran, and that differ between them
    by_both: u64,
    differ: u64,
    calls: u64,
    /// those of them by the documentation
    documented: u64,
    steps: u64,
    finished: u64,
    read_back: u64,
    kinds: BTreeMap<&'static str, Numbers<18>>,
}

impl Count for Tally {
    fn add(&mut self, other: &Self) {
        self.files += other.files;
        self.by_both += other.by_both;
        self.differ += other.differ;
        self.calls += other.calls;
        self.documented += other.documented;
        self.steps += other.steps;
        self.finished += other.finished;
        self.read_back += other.read_back;
        for (kind, numbers) in &other.kinds {
            self.kinds.entry(kind).or_default().add(numbers);
        }
    }
}

impl Tally {
    fn numbers(&self) -> Numbers<18> {
        let mut all = Numbers::default();
        for numbers in self.kinds.values() {
            all.add(numbers);
        }
        all
    }
}

/// The lengths of all four slices.
fn and_output([work, words, checkpoints]: [usize; 3], output: usize) -> [usize; 4] {
    [work, words, checkpoints, output]
}

/// The most bytes that the output had: undo may have taken some back.
fn needed(full: &SessionAnswer) -> usize {
    let most = full.words.iter().map(|w| *w as usize / 2).max();
    full.output.len().max(most.unwrap_or(0))
}

/// The answer as the call gives it, and the slices: untouched with 1 to 8.
fn expected(r: &SessionAnswer) -> Expected<Checkpoint, call::SessionAnswer> {
    let answer = call::SessionAnswer {
        number: r.number,
        steps: r.words.len() as u32,
        size: r.output.len() as u32,
    };
    let left = match r.number {
        1..=8 => None,
        _ => Some((r.all_words(), vec![], r.output.clone())),
    };
    Expected { answer, left }
}

/// The calls with the slices that they are lent, and a tally.
struct Comparison {
    calls: Calls,
    /// of the call that has its turn
    trial: Trial<Checkpoint, call::SessionAnswer>,
    tally: Tally,
}

impl Comparison {
    fn new(calls: Calls, seed: u64) -> Self {
        let slices = [
            ("work", WORK_LENGTH),
            ("words", WORDS_LENGTH),
            ("checkpoints", CHECKPOINTS_LENGTH),
            ("output", MAX_OUTPUT),
        ];
        Self {
            calls,
            trial: Trial::new(calls.counted, slices, seed),
            tally: Tally::default(),
        }
    }

    /// One call, with rubbish in all slices before it, and all of it compared.
    fn once(
        &mut self,
        file: &[u8],
        lengths: [usize; 3],
        output: usize,
        answer: &SessionAnswer,
    ) -> Result<(), String> {
        self.trial.fill(and_output(lengths, output));
        let now = self.trial.run(file);
        self.tally.calls += 1;
        self.tally.steps += answer.words.len() as u64;
        self.trial
            .agrees(&now, &expected(answer))
            .map_err(|text| format!("{text}\nlengths: {lengths:?}, output {output}"))
    }

    /// What the Rust gives by a measure with so long an output; `full` with the longest.
    fn rust_gives(
        measure: Measure,
        file: &[u8],
        full: &SessionAnswer,
        output: usize,
    ) -> SessionAnswer {
        // a quote that 12 refuses had bytes that no word counts
        let other = matches!(full.number, 12 | 13) || output < needed(full);
        if output >= MAX_OUTPUT || !other {
            full.clone()
        } else {
            session::run_by(measure, file, output, true)
        }
    }

    fn count(&mut self, kind: &'static str, number: u32) {
        self.tally.kinds.entry(kind).or_default().count(number);
    }

    /// Lengths of the output: enough, at times more than may be used, and too few.
    fn outputs(&mut self, full: &SessionAnswer, turn: usize) -> Vec<usize> {
        let size = needed(full);
        let rng = &mut self.trial.rng;
        let mut outputs = vec![*rng.pick(&[size, size, size + 1, MAX_OUTPUT])];
        if full.number == 13 || rng.percent(10) {
            outputs.push(MAX_OUTPUT + rng.range(1, ABOVE));
        }
        if size > 0 {
            outputs.push(match turn % 2 {
                0 => size - 1,
                _ => rng.below(size),
            });
        }
        outputs
    }

    /// Both calls, or the one by the Rust's ranges.
    fn compare(&mut self, kind: &'static str, file: &[u8], turn: usize) -> Result<(), String> {
        let full = self.by(Measure::Counted, kind, file, turn)?;
        self.tally.files += 1;
        if turn.is_multiple_of(DOCUMENTED_EACH) || kind.starts_with("measure") {
            let before = self.tally.calls;
            let documented = self.by(Measure::Documented, kind, file, turn / DOCUMENTED_EACH)?;
            self.tally.by_both += 1;
            self.tally.differ += u64::from(documented != full);
            self.tally.documented += self.tally.calls - before;
        }
        Ok(())
    }

    /// A call for each of `outputs`, and at times one with slices that are too short: the answer
    /// with an output that is long enough.
    fn by(
        &mut self,
        measure: Measure,
        kind: &'static str,
        file: &[u8],
        turn: usize,
    ) -> Result<SessionAnswer, String> {
        self.trial.call = match measure {
            Measure::Counted => self.calls.counted,
            Measure::Documented => self.calls.documented,
        };
        let of_call = |text| format!("{measure:?}: {text}");
        // panics where the rig's driver and Serializer differ
        let full = session::run_by(measure, file, MAX_OUTPUT, true);
        let outputs = self.outputs(&full, turn);
        for output in &outputs {
            let answer = Self::rust_gives(measure, file, &full, *output);
            let lengths = lengths(&mut self.trial.rng, LEAST);
            self.once(file, lengths, *output, &answer)
                .map_err(of_call)?;
            self.count(kind, answer.number);
            self.read_back(file, &answer).map_err(of_call)?;
        }
        if turn % SHORT_EACH == 1 {
            let rng = &mut self.trial.rng;
            let lengths = lengths(rng, LEAST);
            let short = turn / SHORT_EACH;
            let mut lengths = shorten(rng, lengths, LEAST, short % 3);
            if short % 6 == 4 {
                lengths[1] = ONE_WORD_EACH;
            }
            let refused = SessionAnswer {
                number: 1,
                ..SessionAnswer::default()
            };
            self.once(file, lengths, outputs[0], &refused)
                .map_err(of_call)?;
            self.count(kind, 1);
        }
        Ok(full)
    }

    /// A finished session within demand 3's premises: the bytes that the port has
    /// written, read by the Rust, are the plain filling.
    fn read_back(&mut self, file: &[u8], answer: &SessionAnswer) -> Result<(), String> {
        let Ok(s) = session::parse(file) else {
            return Ok(());
        };
        if !answer.is_finished(&s) {
            return Ok(());
        }
        self.tally.finished += 1;
        if plain::premises(&s).is_err() {
            return Ok(());
        }
        let filling = plain::fill(&s).expect("no restore");
        if !filling.whole {
            return Err("finished, and the plain filling is open".to_string());
        }
        let back = reading::read(&self.trial.bytes.slice()[..answer.output.len()]);
        if back.number != 0 {
            return Err(format!("the finished bytes are refused: {}", back.number));
        }
        let mut interner = Interner::default();
        if interner.reading(&back) != interner.tree(&filling.forest, filling.root) {
            return Err("the tree read back isn't the plain filling".to_string());
        }
        self.tally.read_back += 1;
        Ok(())
    }
}

impl Compare for Comparison {
    type Input = Input;
    type Tally = Tally;

    fn one(&mut self, input: &Input, turn: usize, i: usize) -> Result<(), String> {
        let (kind, file) = input;
        self.compare(kind, file, turn).map_err(|text| {
            format!(
                "file {i} ({kind}): the port and the Rust differ\n{text}\nfile: {}",
                hex::encode(file)
            )
        })
    }

    fn tally(&mut self) -> &mut Tally {
        &mut self.tally
    }
}

fn summary(t: &Tally) -> String {
    format!(
        "{} calls with three words of {} steps, by number {}; {} calls finished, {} of them read back; {} calls by the documentation on {} files, of which {} differ between the calls",
        t.calls,
        t.steps,
        t.numbers(),
        t.finished,
        t.read_back,
        t.documented,
        t.by_both,
        t.differ
    )
}

/// All sets, at most `most` files of each but the generated ones; `say` gets a
/// line for each set, one for each kind, and a last one.
pub fn run(
    calls: Calls,
    generated: usize,
    seed: u64,
    most: usize,
    mut say: impl FnMut(&str),
) -> Result<Tally, String> {
    let new = |seed| Comparison::new(calls, seed);
    let sets = session_inputs::sets(generated, seed);
    let total = sets::run(new, sets, seed, most, |name, tally, seconds| {
        say(&format!(
            "{} files {name}: {}; {seconds:.1} s",
            tally.files,
            summary(tally)
        ));
    })?;
    for (kind, numbers) in &total.kinds {
        say(&format!("calls on files of kind {kind}: {numbers}"));
    }
    say(&format!(
        "{} files agreed: {}",
        total.files,
        summary(&total)
    ));
    Ok(total)
}

#[cfg(test)]
mod tests {
    use super::{Calls, Comparison, LEAST, SessionCall, and_output, expected, run};
    use crate::lent::lengths;
    use crate::session_stand_in::{Fault, documented, with_fault};
    use oracle::session::{self, MAX_OUTPUT};

    const RIGHT: Calls = Calls {
        counted: with_fault::<{ Fault::None as u8 }>,
        documented: documented::<{ Fault::None as u8 }>,
    };
    /// No atoms, pairs and sentinel; one step, which adds the small atom 5.
    const FILE: &[u8] = b"BRS\0\x01\0\0\0\0\xff\xff\xff\xff\x01\x08\0\0\x05";

    fn verdict(calls: Calls) -> Result<(), String> {
        run(calls, 200, 1, 100, |_| ()).map(|_| ())
    }

    #[test]
    fn the_text_agrees_with_the_rust() {
        assert_eq!(verdict(RIGHT), Ok(()));
    }

    /// A call with each fault.
    macro_rules! faulty {
        ($call:ident: $($fault:ident)*) => {
            [$((stringify!($fault), $call::<{ Fault::$fault as u8 }> as SessionCall)),*]
        };
    }
    /// The faults that either call may have.
    macro_rules! all_faulty {
        ($call:ident) => {
            faulty!($call: Number Steps Size Finished DropsItems Byte WordsBeyond OutputBeyond WorkEnd WorkBeyond
                Checkpoint TouchedBy8 TouchedBy1 LongOutput UnknownForget ForgetRestores UnknownQuote QuoteRestores
                QuoteLeavesItems Number17 OneWordEach OneWordShort WordsApart WordsSwapped LastReferences LastPrefixBytes
                RestoreLeavesCounts ForgetLeavesCounts QuoteLeavesCounts QuoteShowsBefore NoPaths NoNil OneByte OtherMeasure)
        };
    }

    #[test]
    fn each_fault_is_noticed() {
        let mut count = 0;
        for (name, counted) in all_faulty!(with_fault) {
            assert!(verdict(Calls { counted, ..RIGHT }).is_err(), "{name}");
            count += 1;
        }
        assert_eq!(count, 34);
    }

    #[test]
    fn each_fault_by_the_documentation_is_noticed() {
        let more = faulty!(documented: LongerReference ShorterReference Prefix512 Prefix513 QuoteMeasures RestoreMeasures ForgetMeasures);
        let mut count = 0;
        for (name, documented) in all_faulty!(documented).into_iter().chain(more) {
            let calls = Calls {
                documented,
                ..RIGHT
            };
            assert!(verdict(calls).is_err(), "{name}");
            count += 1;
        }
        assert_eq!(count, 41);
    }

    /// Both where the slices are cleared and where they are untouched.
    #[test]
    fn a_word_outside_a_slice_is_noticed() {
        let mut trial = Comparison::new(RIGHT, 1).trial;
        for file in [FILE, &FILE[1..]] {
            let expected = expected(&session::run(file, MAX_OUTPUT, true));
            let lengths = |rng: &mut _| and_output(lengths(rng, LEAST), 100);
            trial.notices_outside(file, lengths, &expected);
        }
    }

    /// The atom's last byte is past the end.
    #[test]
    fn a_byte_past_the_file_is_noticed() {
        let file = &FILE[..FILE.len() - 1];
        let expected = expected(&session::run(file, MAX_OUTPUT, true));
        let mut trial = Comparison::new(RIGHT, 1).trial;
        let lengths = lengths(&mut trial.rng, LEAST);
        trial.notices_a_byte_past(file, and_output(lengths, 100), &expected);
    }
}
