//! The session calls made of `oracle::model` (01's text), right or with one
//! fault, to try the comparison itself.

use nikvoldra::call::{CHECKPOINTS_LENGTH, Checkpoint, SessionAnswer, WORDS_LENGTH, WORK_LENGTH};
use oracle::model::{self, Count, Forget, Length, Quote, Ways};
use oracle::session::{self, MAX_OUTPUT, Step};
use oracle::writer::Measure;

#[derive(Clone, Copy, PartialEq)]
#[repr(u8)]
pub enum Fault {
    None,
    /// 12 for 13
    Number,
    /// a refused step is counted
    Steps,
    /// the size is that of the last finished step
    Size,
    /// the last finished word says unfinished
    Finished,
    /// a refused add keeps nothing
    DropsItems,
    /// a byte of the output differs
    Byte,
    /// the words past the steps keep what they held
    WordsBeyond,
    /// a byte past the size keeps what it held
    OutputBeyond,
    /// the last word of work keeps what it held
    WorkEnd,
    /// only the minimum of work is cleared
    WorkBeyond,
    /// a checkpoint record keeps a word
    Checkpoint,
    /// a refused file has its output cleared
    TouchedBy8,
    /// slices that are too short are cleared
    TouchedBy1,
    /// more than 65,535 bytes of the output are used
    LongOutput,
    /// 8 for a `03`
    UnknownForget,
    /// a `03` does what a `02` does; `oracle wrong` has other wrong ones
    ForgetRestores,
    /// 8 for a `04` or a `05`
    UnknownQuote,
    /// a `04` takes its add back as a `02` does; `oracle wrong` has other wrong ones
    QuoteRestores,
    /// a refused `04` leaves its whole items
    QuoteLeavesItems,
    /// 11 for 17
    Number17,
    /// a word for each step is enough
    OneWordEach,
    /// 3,071 words are enough
    OneWordShort,
    /// the words of a step stand 1,024 apart
    WordsApart,
    /// references and prefix bytes are swapped
    WordsSwapped,
    /// the last step's references are not written
    LastReferences,
    /// the last step's prefix bytes are not written
    LastPrefixBytes,
    /// a `02` leaves the counts; `oracle wrong` has other wrong counts
    RestoreLeavesCounts,
    /// a `03` leaves the counts
    ForgetLeavesCounts,
    /// a dropped `04` leaves the counts
    QuoteLeavesCounts,
    /// a `04` shows the counts before it
    QuoteShowsBefore,
    /// the prefix of a path is none
    NoPaths,
    /// nil has no prefix
    NoNil,
    /// no prefix has more than a byte
    OneByte,
    /// the other call's measure
    OtherMeasure,
    /// a reference may be a byte longer than what it stands for; `oracle wrong` has other wrong
    /// measures
    LongerReference,
    /// a reference must be shorter
    ShorterReference,
    /// prefix 3 for 512 bytes
    Prefix512,
    /// prefix 3 from 513 bytes on
    Prefix513,
    /// a `04` has the Rust's measure
    QuoteMeasures,
    /// after a `02` all steps have it
    RestoreMeasures,
    /// after a `03` all steps have it
    ForgetMeasures,
}

struct Slices<'a> {
    work: &'a mut [u32],
    words: &'a mut [u32],
    checkpoints: &'a mut [Checkpoint],
    output: &'a mut [u8],
}

pub fn with_fault<const FAULT: u8>(
    file: &[u8],
    work: &mut [u32],
    words: &mut [u32],
    checkpoints: &mut [Checkpoint],
    output: &mut [u8],
) -> SessionAnswer {
    let mut slices = Slices {
        work,
        words,
        checkpoints,
        output,
    };
    answer(Measure::Counted, FAULT, file, &mut slices)
}

pub fn documented<const FAULT: u8>(
    file: &[u8],
    work: &mut [u32],
    words: &mut [u32],
    checkpoints: &mut [Checkpoint],
    output: &mut [u8],
) -> SessionAnswer {
    let mut slices = Slices {
        work,
        words,
        checkpoints,
        output,
    };
    answer(Measure::Documented, FAULT, file, &mut slices)
}

/// A measure, or a wrong one in its place.
fn length(measure: Measure, fault: &impl Fn(Fault) -> bool) -> Length {
    let wrong = [
        (
            Fault::OtherMeasure,
            Length::By(match measure {
                Measure::Counted => Measure::Documented,
                Measure::Documented => Measure::Counted,
            }),
        ),
        (Fault::LongerReference, Length::Longer),
        (Fault::ShorterReference, Length::Shorter),
        (Fault::Prefix512, Length::Long512),
        (Fault::Prefix513, Length::Long513),
        (Fault::QuoteMeasures, Length::NotQuoted),
        (Fault::RestoreMeasures, Length::LostByRestore),
        (Fault::ForgetMeasures, Length::LostByForget),
    ];
    let found = wrong.into_iter().find(|(f, _)| fault(*f));
    found.map_or(Length::By(measure), |(_, length)| length)
}

fn answer(measure: Measure, fault: u8, file: &[u8], s: &mut Slices) -> SessionAnswer {
    let fault = |f: Fault| f as u8 == fault;
    let refusal = |number| SessionAnswer {
        number,
        ..SessionAnswer::default()
    };
    let least = if fault(Fault::OneWordEach) {
        WORDS_LENGTH / 3
    } else {
        WORDS_LENGTH - usize::from(fault(Fault::OneWordShort))
    };
    if s.work.len() < WORK_LENGTH
        || s.words.len() < least
        || s.checkpoints.len() < CHECKPOINTS_LENGTH
    {
        if fault(Fault::TouchedBy1) {
            s.output.fill(0);
        }
        return refusal(1);
    }
    let steps = match session::parse(file) {
        Ok(file) => file.steps,
        Err(number) => {
            if fault(Fault::TouchedBy8) {
                s.output.fill(0);
            }
            return refusal(number);
        }
    };
    if fault(Fault::UnknownForget) && steps.iter().any(|s| matches!(s, Step::Forget(_))) {
        return refusal(8);
    }
    let quotes = |s: &Step| matches!(s, Step::Quote(_) | Step::Take);
    if fault(Fault::UnknownQuote) && steps.iter().any(quotes) {
        return refusal(8);
    }
    let forget = if fault(Fault::ForgetRestores) {
        Forget::LeavesCache
    } else {
        Forget::Right
    };
    let quote = if fault(Fault::QuoteRestores) {
        Quote::Back(Forget::LeavesCache)
    } else if fault(Fault::QuoteLeavesItems) {
        Quote::RefusedLeavesItems
    } else {
        Quote::Right
    };
    let counts = [
        (Fault::RestoreLeavesCounts, Count::LeftByRestore),
        (Fault::ForgetLeavesCounts, Count::LeftByForget),
        (Fault::QuoteLeavesCounts, Count::LeftByQuote),
        (Fault::QuoteShowsBefore, Count::QuoteShowsBefore),
        (Fault::NoPaths, Count::NoPaths),
        (Fault::NoNil, Count::NoNil),
        (Fault::OneByte, Count::OneByte),
    ];
    let count = counts.iter().find(|(f, _)| fault(*f));
    let ways = Ways {
        forget,
        quote,
        count: count.map_or(Count::Right, |(_, count)| *count),
        length: length(measure, &fault),
    };
    let (mut r, _) = model::run_with(ways, file, s.output.len());
    if fault(Fault::LongOutput) && r.number == 13 && s.output.len() > MAX_OUTPUT {
        r.number = 0;
    }
    if fault(Fault::DropsItems) && matches!(r.number, 12 | 13) {
        let size = r.words.last().map_or(0, |w| w / 2);
        r.output.truncate(size as usize);
    }
    clear(&fault, s, 3 * r.words.len(), r.output.len());
    for (i, (word, counts)) in r.words.iter().zip(&r.counts).enumerate() {
        let last = i + 1 == r.words.len();
        let [at, next, after] = match fault(Fault::WordsApart) {
            false => [3 * i, 3 * i + 1, 3 * i + 2],
            true => [i, i + WORDS_LENGTH / 3, i + 2 * (WORDS_LENGTH / 3)],
        };
        if after >= s.words.len() {
            break;
        }
        s.words[at] = *word;
        s.words[next] = counts.references;
        s.words[after] = counts.prefix_bytes;
        if fault(Fault::WordsSwapped) {
            s.words.swap(next, after);
        }
        if last && fault(Fault::LastReferences) {
            s.words[next] = 0;
        }
        if last && fault(Fault::LastPrefixBytes) {
            s.words[after] = 0;
        }
    }
    s.output[..r.output.len()].copy_from_slice(&r.output);
    if let (true, Some(w)) = (fault(Fault::Finished), r.words.last()) {
        s.words[3 * (r.words.len() - 1)] = w & !1;
    }
    if fault(Fault::Byte) && r.output.len() > 9 {
        s.output[9] ^= 1;
    }
    SessionAnswer {
        number: match r.number {
            13 if fault(Fault::Number) => 12,
            17 if fault(Fault::Number17) => 11,
            n => n,
        },
        steps: r.words.len() as u32 + u32::from(fault(Fault::Steps) && r.number != 0),
        size: match r.words.last() {
            Some(w) if fault(Fault::Size) => w / 2,
            _ => r.output.len() as u32,
        },
    }
}

/// What a session leaves in the slices besides `words` words and `size` bytes.
fn clear(fault: &impl Fn(Fault) -> bool, s: &mut Slices, words: usize, size: usize) {
    let cleared = match s.work.len() {
        n if fault(Fault::WorkEnd) => n - 1,
        _ if fault(Fault::WorkBeyond) => WORK_LENGTH,
        n => n,
    };
    s.work[..cleared].fill(0);
    s.checkpoints.fill(Checkpoint::default());
    if fault(Fault::Checkpoint) {
        s.checkpoints[15].sentinel = 1;
    }
    let from = words + usize::from(fault(Fault::WordsBeyond));
    if from < s.words.len() {
        s.words[from..].fill(0);
    }
    let from = size + usize::from(fault(Fault::OutputBeyond));
    if from < s.output.len() {
        s.output[from..].fill(0);
    }
}
