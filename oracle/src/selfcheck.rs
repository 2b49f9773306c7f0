//! The rig against itself: the driver against `Serializer` and against 01's
//! text (`model`), by both measures of a found path, the reader against
//! the plain reader and `node_from_bytes_backrefs_old`, and read-back.

use crate::generate::exhaustive;
use crate::generate::sessions::MEASURES;
use crate::model::{Count, Forget, Length, Met, Quote, Ways};
use crate::plain::{self, Interner};
use crate::reading::{self, MAX_INPUT, ReadAnswer};
use crate::rng::Rng;
use crate::session::{self, MAX_OUTPUT, SessionAnswer, SessionFile, Step};
use crate::writer::Measure;
use crate::{generate, model, node};
use clvm_rs::Allocator;
use clvm_rs::serde::node_from_bytes_backrefs_old;

#[derive(Debug, Default)]
pub struct Counts {
    /// each by both measures
    pub sessions: usize,
    /// those that differ between the measures
    pub differ: usize,
    /// sessions with `03`, `04` or `05`, compared with those of the adds that survive
    pub survivors: usize,
    pub finished: usize,
    pub read_back: usize,
    pub trees: usize,
    pub accepted: usize,
    pub references: usize,
    /// how often each number was given
    pub numbers: [usize; 18],
    pub met: Met,
}

/// The same tree by the Rust's reader, its old reader and the plain one.
pub fn check_tree(input: &[u8], counts: &mut Counts) -> Result<(), String> {
    let r = reading::read(input);
    counts.trees += 1;
    counts.numbers[r.number as usize] += 1;
    if input.len() > MAX_INPUT {
        return if r == ReadAnswer::refused(2) {
            Ok(())
        } else {
            Err("question 2".to_string())
        };
    }
    let mut a = Allocator::new();
    let old = match node_from_bytes_backrefs_old(&mut a, input) {
        Ok(root) => reading::answer(&a, node::to_word(root)),
        Err(e) => ReadAnswer::refused(reading::number_of(&e)),
    };
    let plain = plain::read(input);
    let plain_number = plain.as_ref().err().copied().unwrap_or(0);
    if r.number != old.number || r.number != plain_number {
        return Err(format!(
            "numbers: {} of the reader, {} of the old one, {plain_number} of the plain one",
            r.number, old.number
        ));
    }
    let Ok(plain) = plain else {
        return Ok(());
    };
    counts.accepted += 1;
    let mut interner = Interner::default();
    let ours = interner.reading(&r);
    if ours != interner.reading(&old) || ours != interner.tree(&plain.forest, plain.root) {
        return Err("the trees read differ".to_string());
    }
    let made = r.pairs.len() + r.ghosts as usize;
    if made != old.pairs.len() || made != plain.pairs || made > 131_072 {
        return Err(format!(
            "pairs and ghosts: {made}, the plain way makes {}",
            plain.pairs
        ));
    }
    Ok(())
}

/// With `03`, `04` or `05` and no `02` the session is that of the adds that survive, and
/// of the step that is refused. Whether the file is such a one.
fn check_survivors(
    measure: Measure,
    s: &SessionFile,
    output_length: usize,
    r: &SessionAnswer,
) -> Result<bool, String> {
    let (taken, rest) = s.steps.split_at(r.words.len());
    let Some(adds) = plain::survivors(taken) else {
        return Ok(false);
    };
    if adds.len() == taken.len() {
        return Ok(false);
    }
    let refused = rest.iter().take(usize::from(r.number != 0));
    let alone = SessionFile {
        steps: adds
            .iter()
            .map(|(_, h)| Step::Add(*h))
            .chain(refused.copied())
            .collect(),
        ..s.clone()
    };
    let expected = SessionAnswer {
        words: adds.iter().map(|(i, _)| r.words[*i]).collect(),
        counts: adds.iter().map(|(i, _)| r.counts[*i]).collect(),
        ..r.clone()
    };
    if session::run_parsed(measure, &alone, output_length, true) != expected {
        return Err("the survivors alone give something else".to_string());
    }
    Ok(true)
}

/// A session by both measures.
pub fn check_session(file: &[u8], output_length: usize, counts: &mut Counts) -> Result<(), String> {
    let mut check = |measure| {
        let answer = session::run_by(measure, file, output_length, true);
        check_answer(measure, file, output_length, &answer, counts)
            .map_err(|e| format!("{measure:?}: {e}"))?;
        Ok::<_, String>(answer)
    };
    let differ = check(Measure::Counted)? != check(Measure::Documented)?;
    counts.sessions += 1;
    counts.differ += usize::from(differ);
    Ok(())
}

/// What the Rust, whose driver and `Serializer` agree, gives by a measure.
fn check_answer(
    measure: Measure,
    file: &[u8],
    output_length: usize,
    r: &SessionAnswer,
    counts: &mut Counts,
) -> Result<(), String> {
    counts.numbers[r.number as usize] += 1;
    let (by_text, met) = model::run(measure, file, output_length);
    counts.met.add(&met);
    if by_text != *r {
        return Err(format!(
            "01's text gives {} {:?} {}",
            by_text.number,
            by_text.all_words(),
            crate::hex::encode(&by_text.output)
        ));
    }
    let parsed = session::parse(file);
    if let Ok(s) = &parsed
        && s.to_bytes() != file
    {
        return Err("the file isn't what its parts give".to_string());
    }
    let Ok(s) = parsed else {
        return Ok(());
    };
    let survivors = check_survivors(measure, &s, output_length, r)?;
    counts.survivors += usize::from(survivors);
    if !r.is_finished(&s) {
        return Ok(());
    }
    counts.finished += 1;
    if plain::premises(&s).is_err() {
        return Ok(());
    }
    let filling = plain::fill(&s).expect("no restore");
    if !filling.whole {
        return Err("finished, and the plain filling is open".to_string());
    }
    let back = reading::read(&r.output);
    if back.number != 0 {
        return Err(format!("the finished bytes are refused: {}", back.number));
    }
    let mut interner = Interner::default();
    if interner.reading(&back) != interner.tree(&filling.forest, filling.root) {
        return Err("the tree read back isn't the plain filling".to_string());
    }
    let plain = plain::read(&r.output).map_err(|n| format!("the plain reader gives {n}"))?;
    for reference in &plain.references {
        if reference.bytes > reference.in_full {
            return Err(format!("too long: {reference:?}"));
        }
    }
    let references = plain.references.len();
    if r.counts.last().map(|c| c.references as usize) != Some(references) {
        return Err(format!("the plain reader meets {references} references"));
    }
    counts.references += references;
    counts.read_back += 1;
    Ok(())
}

/// Wrong ways of a `03`, and the kinds made for each.
const WRONG: &[(Forget, &[&str])] = &[
    (
        Forget::LeavesCache,
        &["forgets", "undo-mixed", "fit-tests", "forgets-finished"],
    ),
    (Forget::LeavesParents, &["forgets-parents"]),
    (Forget::LeavesMoved, &["forgets-moved"]),
    (Forget::LeavesFront, &["forgets-front"]),
    (Forget::LeavesHandles, &["forgets-twins"]),
    (Forget::LeavesSentinel, &["forgets-finished"]),
    (Forget::TakesMore, &["undo-mixed", "forgets-moved"]),
];
/// Wrong ways of a `04` and a `05`, and the kinds made for each.
const WRONG_QUOTES: &[(Quote, &[&str])] = &[
    (Quote::LeavesItems, &["quotes", "quote-tests"]),
    (
        Quote::Back(Forget::LeavesCache),
        &["quotes", "quote-tests", "quotes-finished"],
    ),
    (Quote::Back(Forget::LeavesParents), &["quotes-parents"]),
    (Quote::Back(Forget::LeavesMoved), &["quotes-moved"]),
    (Quote::Back(Forget::LeavesFront), &["quotes-front"]),
    (Quote::Back(Forget::LeavesHandles), &["quotes-twins"]),
    (Quote::Back(Forget::LeavesSentinel), &["quotes-finished"]),
    (Quote::LeavesFinished, &["quotes-finished"]),
    (Quote::TakesPlace, &["quotes-undo", "quotes-10"]),
    (Quote::TakesNone, &["quotes-undo", "quotes-10"]),
    (Quote::AsksLater, &["quotes-10"]),
    (Quote::RefusedLeavesItems, &["quotes-12", "quotes-13"]),
    (Quote::StaysOpen, &["quotes-17"]),
    (Quote::KeptByAdd, &["quotes-17"]),
    (Quote::KeptByRestore, &["quotes-17"]),
    (Quote::KeptByForget, &["quotes-17"]),
    (Quote::KeptByQuote, &["quotes", "quote-tests"]),
];
/// Wrong counts, and kinds that notice each.
const WRONG_COUNTS: &[(Count, &[&str])] = &[
    (Count::LeftByRestore, &["restores", "counts-widths"]),
    (Count::LeftByForget, &["forgets", "counts-widths"]),
    (Count::ReferencesLeft, &["undo-mixed", "fit-tests"]),
    (Count::PrefixesLeft, &["undo-mixed", "fit-tests"]),
    (Count::LeftByQuote, &["quotes", "quote-tests"]),
    (Count::QuoteShowsBefore, &["quotes", "quote-tests"]),
    (Count::TakenTwice, &["quotes", "sixteen-quotes"]),
    (Count::NoPaths, &["counts-widths", "right-list"]),
    (Count::MarkToo, &["shared", "doubling"]),
    (Count::NoNil, &["tiny", "lists"]),
    (Count::EachAtom, &["tiny", "lists"]),
    (Count::OneByte, &["counts-widths", "atom-sizes"]),
    (Count::PathOneByte, &["counts-widths", "visits"]),
];
/// A measure, wrong ones in its place, and the kinds made for each.
const WRONG_MEASURES: &[(Measure, Length, &[&str])] = &[
    (Measure::Counted, Length::By(Measure::Documented), &MEASURES),
    (Measure::Documented, Length::By(Measure::Counted), &MEASURES),
    (
        Measure::Documented,
        Length::Longer,
        &["measure-atoms", "measure-pairs", "long-paths"],
    ),
    (
        Measure::Documented,
        Length::Shorter,
        &["measure-atoms", "measure-pairs", "long-paths"],
    ),
    (Measure::Documented, Length::Short64, &["long-paths"]),
    (
        Measure::Documented,
        Length::Long512,
        &["measure-atoms", "measure-pairs", "measure-steps"],
    ),
    (
        Measure::Documented,
        Length::Long513,
        &["measure-atoms", "measure-pairs", "measure-open"],
    ),
    (Measure::Documented, Length::NotQuoted, &["measure-steps"]),
    (Measure::Documented, Length::NotTaken, &["measure-steps"]),
    (
        Measure::Documented,
        Length::LostByRestore,
        &["measure-steps"],
    ),
    (
        Measure::Documented,
        Length::LostByForget,
        &["measure-steps"],
    ),
];
/// Files of each kind.
const FILES: u64 = 60;
/// Files of each kind for the measures that are also compared with the Rust.
const MEASURE_FILES: u64 = 30;

/// Each wrong way gives another answer on some files of its kinds: a line for each.
pub fn run_wrong() -> Result<String, String> {
    let mut text = String::new();
    let right = Ways::default();
    for (forget, kinds) in WRONG {
        let ways = Ways {
            forget: *forget,
            ..right
        };
        text += &noticed(&format!("{forget:?}"), kinds, ways, right)?;
    }
    for (quote, kinds) in WRONG_QUOTES {
        let ways = Ways {
            quote: *quote,
            ..right
        };
        text += &noticed(&format!("{quote:?}"), kinds, ways, right)?;
    }
    for (count, kinds) in WRONG_COUNTS {
        let ways = Ways {
            count: *count,
            ..right
        };
        text += &noticed(&format!("{count:?}"), kinds, ways, right)?;
    }
    for (measure, length, kinds) in WRONG_MEASURES {
        let ways = Ways {
            length: *length,
            ..right
        };
        let way = format!("{length:?} for {measure:?}");
        text += &noticed(&way, kinds, ways, Ways::by(*measure))?;
    }
    text += &format!(
        "{} wrong ways of a 03, {} of a 04 and a 05, {} of the counts and {} of the measures, each noticed\n",
        WRONG.len(),
        WRONG_QUOTES.len(),
        WRONG_COUNTS.len(),
        WRONG_MEASURES.len()
    );
    Ok(text)
}

/// How many files of each kind notice a wrong way.
fn noticed(way: &str, kinds: &[&str], wrong: Ways, right: Ways) -> Result<String, String> {
    let mut text = String::new();
    for kind in kinds {
        let differs = |seed: &u64| {
            let file = generate::session(*seed, kind).expect("a kind");
            let [wrong, right] = [wrong, right].map(|w| model::run_with(w, &file, MAX_OUTPUT).0);
            wrong != right
        };
        let count = (0..FILES).filter(differs).count();
        if count == 0 {
            return Err(format!("{way} is not noticed by {kind}"));
        }
        text += &format!("{way}: {count} of {FILES} files of {kind} notice\n");
    }
    Ok(text)
}

/// Every small session and tree (see `generate::exhaustive`); with `part` only
/// each `part`th.
pub fn run_exhaustive(part: usize) -> Result<Counts, String> {
    let mut counts = Counts::default();
    let mut failure = Ok(());
    let mut i = 0_usize;
    exhaustive::sessions(|file| {
        i += 1;
        if failure.is_ok() && i.is_multiple_of(part) {
            failure = check_session(file, MAX_OUTPUT, &mut counts)
                .map_err(|e| format!("{e}\n{}", crate::hex::encode(file)));
        }
    });
    exhaustive::trees(|tree| {
        i += 1;
        if failure.is_ok() && i.is_multiple_of(part) {
            failure = check_tree(tree, &mut counts)
                .map_err(|e| format!("{e}\n{}", crate::hex::encode(tree)));
        }
    });
    failure.map(|()| counts)
}

/// Sessions of each kind made for the measures, of which some differ between them.
fn check_measures(seed: u64, counts: &mut Counts) -> Result<(), String> {
    for kind in MEASURES {
        let before = counts.differ;
        for i in 0..MEASURE_FILES {
            let file = generate::session(seed.wrapping_mul(1_000_003) + i, kind).expect("a kind");
            check_session(&file, MAX_OUTPUT, counts).map_err(|e| format!("{kind} {i}: {e}"))?;
        }
        if counts.differ == before {
            return Err(format!("no file of {kind} differs between the measures"));
        }
    }
    match counts.met.by_bytes.iter().flatten().all(|n| *n > 0) {
        true => Ok(()),
        false => Err(format!("not reached: {:?}", counts.met.by_bytes)),
    }
}

/// `n` sessions and `n` trees, and sessions for the measures; the first failure with its
/// input's kind.
pub fn run(n: usize, seed: u64) -> Result<Counts, String> {
    let mut rng = Rng::new(seed);
    let mut counts = Counts::default();
    for i in 0..n {
        let (kind, file) = generate::any_session(&mut rng);
        let length = if rng.percent(70) {
            MAX_OUTPUT
        } else {
            let size = session::run(&file, MAX_OUTPUT, false).output.len();
            generate::output_length(&mut rng, size)
        };
        check_session(&file, length, &mut counts)
            .map_err(|e| format!("session {i} ({kind}): {e}\n{}", crate::hex::encode(&file)))?;
        let (kind, tree) = generate::any_tree(&mut rng);
        check_tree(&tree, &mut counts)
            .map_err(|e| format!("tree {i} ({kind}): {e}\n{}", crate::hex::encode(&tree)))?;
    }
    check_measures(seed, &mut counts)?;
    Ok(counts)
}

pub fn print(c: &Counts) -> String {
    let mut s = format!(
        "sessions {}, each by both measures, {} of them otherwise; as their survivors {}, finished {}, read back {} with {} references\ntrees {}, accepted {}\nnumbers",
        c.sessions,
        c.differ,
        c.survivors,
        c.finished,
        c.read_back,
        c.references,
        c.trees,
        c.accepted
    );
    for (n, count) in c.numbers.iter().enumerate() {
        if n != 1 {
            s += &format!(" {n}:{count}");
        }
    }
    let m = &c.met;
    s += &format!(
        "\nsearches {}: used {}, not used {}, list empty {}, pass limit {}, visit limit {}; dropped as seen {}, longest path {}\n",
        m.searches,
        m.used,
        m.not_used,
        m.list_empty,
        m.pass_limit,
        m.visit_limit,
        m.seen_dropped,
        m.longest_path
    );
    s += &format!(
        "parents overwritten {}, moved {}, front dropped {}; second handles {}; most open pairs {}, most entries {}\n",
        m.overwritten, m.moved, m.front_dropped, m.second_handles, m.most_open, m.most_entries
    );
    s += &format!(
        "paths of 511, 512, 513 and more bytes, whose entry has 2, 3 and 4 more: {:?}\n",
        m.by_bytes
    );
    s += &format!(
        "prefixes of 0, 1, 2 and 3 bytes: of atoms {:?}, of paths {:?}\n",
        m.atom_widths, m.path_widths
    );
    s
}
