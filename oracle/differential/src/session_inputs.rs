//! The session files that are compared, in sets.

use crate::sets::Set;
use oracle::generate::exhaustive::{
    SESSIONS, UNDO_SESSIONS, forget_session, forget_sessions, quote_session, quote_sessions,
    session, undo_session,
};
use oracle::generate::sessions::{KINDS, MEASURES};
use oracle::generate::{self, any_session};
use oracle::rng::Rng;

/// Files of each kind.
const OF_EACH: usize = 40;

/// A file and its kind.
pub type Input = (&'static str, Vec<u8>);

pub fn sets(generated: usize, seed: u64) -> Vec<Set<Input>> {
    let taken = forget_sessions();
    let quoted = quote_sessions();
    vec![
        // one kind after the other: files that are spread evenly have all kinds
        Set::new("of each kind", KINDS.len() * OF_EACH, move |i| {
            let kind = KINDS[i / OF_EACH].0;
            let own = seed.wrapping_mul(1_000_003) + (i % OF_EACH) as u64;
            (kind, generate::session(own, kind).expect("a kind"))
        }),
        Set::new("for the measures", MEASURES.len() * OF_EACH, move |i| {
            let kind = MEASURES[i % MEASURES.len()];
            let own = seed.wrapping_mul(1_000_003) + (OF_EACH + i) as u64;
            (kind, generate::session(own, kind).expect("a kind"))
        }),
        Set::new("generated", generated, move |i| {
            let own = seed
                .wrapping_mul(0x9e37_79b9_7f4a_7c15)
                .wrapping_add(i as u64);
            any_session(&mut Rng::new(own))
        }),
        Set::new("of two pairs, up to four steps", UNDO_SESSIONS, |i| {
            ("two pairs", undo_session(i))
        }),
        Set::new(
            "of two pairs, up to five steps, all taken",
            taken.len(),
            move |i| ("two pairs forgets", forget_session(taken[i])),
        ),
        Set::new(
            "of two pairs, up to four steps, quotes among them",
            quoted.len(),
            move |i| ("two pairs quotes", quote_session(quoted[i])),
        ),
        Set::new("of three pairs, up to three adds", SESSIONS, |i| {
            ("three pairs", session(i))
        }),
    ]
}
