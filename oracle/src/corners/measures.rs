//! The two measures of a found path. They differ where it has 512 bytes or more and the entry's
//! length is its bytes and 3 more: the documentation has a reference there, the Rust has none.

use super::{Cases, File, S, small};
use crate::node::ATOM;
use crate::plain::{self, Interner};
use crate::session::Step::{Add, Forget, Quote, Restore, Take};
use crate::session::{self, MAX_OUTPUT, SessionAnswer, SessionFile, Step};
use crate::writer::Measure;
use crate::{hex, model, reading};
use bumpalo::Bump;
use clvm_rs::serde::write_atom::write_atom;
use documented::serde::{ChildPos, PathBuilder};

/// By the Rust's ranges, and by the documentation's; 01's text gives the same.
fn both(s: &SessionFile) -> [SessionAnswer; 2] {
    let file = s.to_bytes();
    [Measure::Counted, Measure::Documented].map(|measure| {
        let answer = session::run_by(measure, &file, MAX_OUTPUT, true);
        assert_eq!(model::run(measure, &file, MAX_OUTPUT).0, answer);
        answer
    })
}

/// x with `above` values of the stack above it, in fifteen adds of a spine; then the steps that
/// are made of x.
fn far(mut f: File, x: u32, above: usize, steps: &[Step]) -> SessionFile {
    let most = above.div_ceil(15);
    let mut spine = vec![S];
    for i in 0..most {
        let p = f.pair(small(1), spine[i]);
        spine.push(p);
    }
    let whole = (above - 1) / most;
    let first = f.pair(x, spine[above - whole * most]);
    let mut all = vec![Add(first)];
    all.resize(1 + whole, Add(spine[most]));
    all.extend(steps);
    f.steps(all)
}

/// x is an atom of so many bytes.
fn far_atom(size: usize, above: usize, steps: &[Step]) -> SessionFile {
    let mut f = File::new();
    f.0.atoms = vec![vec![0x80; size]];
    far(f, ATOM << 26, above, steps)
}

/// x is a pair of 511 bytes in full, `last` and an `ff`; its handle is 7.
fn far_pair(last: u32, above: usize, steps: &[Step]) -> SessionFile {
    let mut f = File::new();
    f.0.atoms = vec![vec![0x85]];
    let rest = (0..7).fold(small(128), |t, _| f.pair(t, t));
    let x = f.pair(rest, last);
    far(f, x, above, steps)
}

const X: u32 = ATOM << 26;
const PAIR: u32 = 7;

/// The bytes that the Rust writes for an atom.
fn in_full(atom: &[u8]) -> usize {
    let mut out = vec![];
    write_atom(&mut out, atom).expect("write_atom");
    out.len()
}

/// The bytes that a path is counted at are those that its atom has.
fn lengths(c: &mut Cases) {
    let differs = |byte: &u8| {
        let arena = Bump::new();
        let mut p = PathBuilder::default();
        for bit in (0..8).rev() {
            let right = usize::from(byte >> bit & 1);
            p.push(&arena, [ChildPos::Left, ChildPos::Right][right]);
        }
        p.serialized_length() as usize != in_full(&[*byte])
    };
    let differ: Vec<u8> = (0..=255).filter(differs).collect();
    c.equal("documented: serialized_length of each byte", differ, vec![]);
    let arena = Bump::new();
    let mut p = PathBuilder::default();
    let mut bytes = 0;
    for (n, prefix) in [
        (0, 1),
        (1, 1),
        (2, 1),
        (63, 1),
        (64, 2),
        (511, 2),
        (512, 2),
        (8_191, 2),
        (8_192, 3),
        (1_048_575, 3),
        (1_048_576, 4),
    ] {
        while bytes < n {
            (0..8).for_each(|_| p.push(&arena, ChildPos::Right));
            bytes += 1;
        }
        let name = format!("documented: serialized_length of {n} path bytes");
        c.equal(&name, p.serialized_length(), n + prefix);
        let name = format!("{name} is its atom's");
        c.equal(&name, in_full(&vec![0xff; n as usize]) as u32, n + prefix);
    }
}

/// What is written for x, by both measures.
fn written(c: &mut Cases) {
    for (name, size, above, counted, documented) in [
        (
            "a path of 511 bytes, an entry of 513",
            511,
            4_085,
            "c1ff",
            "c1ff",
        ),
        (
            "a path of 511 bytes, an entry of 514",
            512,
            4_085,
            "fec1",
            "fec1",
        ),
        (
            "a path of 511 bytes, the longest",
            512,
            4_086,
            "fec1",
            "fec1",
        ),
        (
            "a path of 512 bytes, an entry of 514",
            512,
            4_087,
            "c200",
            "c200",
        ),
        (
            "a path of 512 bytes, an entry of 515",
            513,
            4_087,
            "c201",
            "fec2",
        ),
        (
            "a path of 512 bytes, the longest",
            513,
            4_094,
            "c201",
            "fec2",
        ),
        (
            "a path of 512 bytes, an entry of 516",
            514,
            4_087,
            "fec2",
            "fec2",
        ),
        (
            "a path of 513 bytes, an entry of 515",
            513,
            4_095,
            "c201",
            "c201",
        ),
        (
            "a path of 513 bytes, an entry of 516",
            514,
            4_095,
            "c202",
            "fec2",
        ),
    ] {
        let s = far_atom(size, above, &[Add(X)]);
        let begins = both(&s).map(|r| {
            let at = 3 + size + 2 * above;
            (r.number, hex::encode(&r.output[at..at + 2]))
        });
        let expected = [counted, documented].map(|h| (0, h.to_string()));
        c.equal(&format!("measures: {name}"), begins, expected);
    }
}

/// The whole of a session that differs: where the reference is as long as an atom, and where it
/// is longer than the pair's items.
fn sizes(c: &mut Cases) {
    let last = |r: &SessionAnswer| (r.number, r.words.len(), r.all_words()[45..].to_vec());
    // the atom once is c2 01 and 513 bytes, the reference fe c2 00 and 512
    let s = far_atom(513, 4_087, &[Add(X)]);
    let size = 1 + 515 + 2 * 4_087 + 515;
    c.equal(
        "measures: an atom has the same size",
        both(&s).map(|r| last(&r)),
        [0, 1].map(|references| (0, 16, vec![2 * size + 1, references, 4])),
    );
    // the pair once is ff x 7, 82 00 80, fe 02 x 7, 82 00 80 twice, with the last for 82 00 80
    for (name, last_atom, full, sizes) in [
        ("514", ATOM << 26, 514, [28, 28]),
        ("515", small(128), 515, [29, 515]),
        ("516", small(0x8000), 516, [515, 515]),
    ] {
        let s = far_pair(last_atom, 4_087, &[Add(PAIR)]);
        let now = both(&s).map(|r| r.output.len() - 1 - 2 * 4_087);
        let once = full - 486;
        c.equal(
            &format!("measures: a pair of {name} bytes in full"),
            now,
            sizes.map(|again| once + again),
        );
    }
    // neither keeps demand 3's premises; both read back all the same
    for s in [
        far_atom(513, 4_087, &[Add(X)]),
        far_pair(small(128), 4_087, &[Add(PAIR)]),
    ] {
        c.equal("measures: no premises", plain::premises(&s).is_err(), true);
        let filling = plain::fill(&s).expect("no restore");
        for r in both(&s) {
            let mut i = Interner::default();
            let tree = i.tree(&filling.forest, filling.root);
            let back = reading::read(&r.output);
            c.equal(
                "measures: read back",
                (back.number, i.reading(&back)),
                (0, tree),
            );
        }
    }
}

/// 12 and 13 by one measure and not by the other, and steps of all kinds.
fn steps(c: &mut Cases) {
    let numbers = |s: &SessionFile| both(s).map(|r| (r.number, r.words.len()));
    let wide = far_pair(small(0x8000), 4_095, &[Add(PAIR)]);
    c.equal(
        "measures: 4,096 open pairs, 12 without the reference",
        numbers(&wide),
        [(12, 15), (0, 16)],
    );
    let s = far_pair(small(128), 4_087, &[Add(PAIR)]);
    let output = |length| {
        let by = |m| session::run_by(m, &s.to_bytes(), length, true).number;
        [Measure::Counted, Measure::Documented].map(by)
    };
    c.equal("measures: 13 of the reference", output(8_718), [0, 13]);
    c.equal("measures: it fits", output(8_719), [0, 0]);
    // 515 bytes each time: the references of the last two steps differ
    for (name, steps) in [
        ("a quote", vec![Quote(X)]),
        ("a quote that is taken", vec![Quote(X), Take]),
        ("after a 02", vec![Quote(S), Take, Restore(15), Add(X)]),
        ("after a 03", vec![Quote(S), Take, Forget(15), Add(X)]),
        ("again after a 02", vec![Add(X), Restore(15), Add(X)]),
        ("again after a 03", vec![Add(X), Forget(15), Add(X)]),
    ] {
        let now = both(&far_atom(513, 4_087, &steps)).map(|r| {
            let told = r.counts.last().map(|c| c.references);
            (r.number, told)
        });
        c.equal(
            &format!("measures: {name}"),
            now,
            [(0, Some(0)), (0, Some(1))],
        );
    }
}

pub fn all(c: &mut Cases) {
    lengths(c);
    written(c);
    sizes(c);
    steps(c);
}
