//! The two session calls, by the Rust's measure of a found path and by the documentation's, on the
//! same sessions.

use crate::session_benchmark::{Case, EMPTY, atom, begin, steps};
use crate::session_compare::SessionCall;
use crate::times::measure_beside;
use nikvoldra::call::{self, SessionAnswer};
use oracle::generate::sessions::Builder;
use oracle::rng::Rng;
use oracle::session::{self, MAX_OUTPUT};
use oracle::writer::Measure;
use std::hint::black_box;

/// A session call on a file.
pub type AnyPort<'a> = dyn FnMut(SessionCall, &[u8]) -> SessionAnswer + 'a;

const CALLS: [(Measure, SessionCall); 2] = [
    (Measure::Counted, call::session),
    (Measure::Documented, call::session_documented),
];

/// The trees, and so many values of a spine after them; then the trees again.
fn far(mut b: Builder, s: u32, trees: &[u32], above: usize) -> Vec<u8> {
    let mut spine = vec![s];
    for i in 0..600 {
        let pair = b.pair(b.small(1), spine[i]);
        spine.push(pair);
    }
    let first = b.right(trees, spine[above % 600]);
    b.add(first);
    (0..above / 600).for_each(|_| b.add(spine[600]));
    let (last, rest) = trees.split_last().expect("a tree");
    let again = b.right(rest, *last);
    b.add(again);
    b.done()
}

/// Sessions with paths of 512 bytes and entries of 515: the documentation has references, the Rust has
/// none.
pub fn cases() -> Vec<Case> {
    let mut rng = Rng::new(6);
    let (mut b, s) = begin();
    let one = [atom(&mut b, &mut rng, 513)];
    let one = far(b, s, &one, 4_087);
    let (mut b, s) = begin();
    let many: Vec<u32> = (0..8).map(|_| atom(&mut b, &mut rng, 513)).collect();
    let many = far(b, s, &many, 4_080);
    let (mut b, s) = begin();
    let three = b.small(128);
    let half = (0..7).fold(three, |t, _| b.pair(t, t));
    let tree = [b.pair(half, three)];
    let tree = far(b, s, &tree, 4_087);
    [
        ("an atom again after 4,087 values", one),
        ("8 atoms again after 4,080 values", many),
        ("a pair of 515 bytes in full again after 4,087 values", tree),
    ]
    .map(|(name, file)| Case { name, file })
    .into()
}

/// The calls and the Rust on a case: a line of the table.
pub fn row(c: &Case, port: &mut AnyPort) -> String {
    let parsed = session::parse(&c.file).expect("a good file");
    let store = parsed.allocator();
    let [references, sizes] = {
        let answers = CALLS.map(|(measure, call)| {
            let expected = session::run_by(measure, &c.file, MAX_OUTPUT, true);
            let now = port(call, &c.file);
            assert_eq!((now.number, expected.number), (0, 0), "{}", c.name);
            assert_eq!(now.size as usize, expected.output.len(), "{}", c.name);
            expected
        });
        let references = answers.each_ref().map(|r| {
            let last = r.counts.last().expect("a step");
            last.references as usize
        });
        [references, answers.map(|r| r.output.len())]
    };
    let mut once = |(call, file): (SessionCall, &[u8])| {
        port(call, file);
    };
    let mut rust = || {
        black_box(steps(black_box(&parsed), &store));
    };
    let inputs = CALLS.map(|(_, call)| (call, &c.file[..]));
    let empty = (call::session as SessionCall, EMPTY);
    let [counted, documented] = measure_beside(&mut once, inputs, empty, &mut [&mut rust]);
    let rust = counted.rust[0];
    let both = |[one, other]: [usize; 2]| match one == other {
        true => one.to_string(),
        false => format!("{one}, {other}"),
    };
    format!(
        "| {} | {} | {} | {} | {:.1} | {:.1} | {:.2} | {rust:.1} | {:.2} |",
        c.name,
        parsed.steps.len(),
        both(sizes),
        both(references),
        counted.difference,
        documented.difference,
        documented.difference / counted.difference,
        documented.difference / rust
    )
}

pub fn heading() {
    println!(
        "\nThe first sessions again, and some with paths of 512 bytes, by both session calls: *session* is `nikvoldra_session`,"
    );
    println!(
        "*documented* `nikvoldra_session_documented`. Medians in microseconds, less the zeroing; where the outputs or the references at the"
    );
    println!(
        "end differ, the first call's and the second's. *`Serializer`* is the Rust's steps, by its own measure.\n"
    );
    println!(
        "| session | steps | output | references | session | documented | documented : session | `Serializer` | documented : `Serializer` |"
    );
    println!("|---|--:|--:|--:|--:|--:|--:|--:|--:|");
}
