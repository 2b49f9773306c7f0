//! Seeded generators of session files, encoded trees and leaf cases. The same
//! seed and kind give the same bytes.

pub mod exhaustive;
pub mod leaf_cases;
pub mod sessions;
pub mod trees;

pub use leaf_cases::leaf_cases;

use crate::rng::Rng;

/// A kind's name, how often `any` takes it, and its generator.
pub type Kind = (&'static str, usize, fn(&mut Rng) -> Vec<u8>);

fn of_kind(kinds: &[Kind], seed: u64, name: &str) -> Option<Vec<u8>> {
    let kind = kinds.iter().find(|k| k.0 == name)?;
    // each kind its own numbers, whatever its place in the list
    let salt = name
        .bytes()
        .fold(0_u64, |h, b| h.wrapping_mul(0x100_0000_01b3) ^ u64::from(b));
    let mut rng = Rng::new(seed.wrapping_mul(0x9e37_79b9_7f4a_7c15) ^ salt);
    Some(kind.2(&mut rng))
}

fn any(kinds: &'static [Kind], rng: &mut Rng) -> (&'static str, Vec<u8>) {
    let total: usize = kinds.iter().map(|k| k.1).sum();
    let mut at = rng.below(total);
    for (name, weight, make) in kinds {
        if at < *weight {
            return (name, make(rng));
        }
        at -= weight;
    }
    unreachable!()
}

/// A session file of the named kind.
pub fn session(seed: u64, kind: &str) -> Option<Vec<u8>> {
    of_kind(sessions::KINDS, seed, kind)
}

/// An encoded tree of the named kind.
pub fn tree(seed: u64, kind: &str) -> Option<Vec<u8>> {
    of_kind(trees::KINDS, seed, kind)
}

/// A session file of some kind, light kinds more often, and the kind's name.
pub fn any_session(rng: &mut Rng) -> (&'static str, Vec<u8>) {
    any(sessions::KINDS, rng)
}

/// An encoded tree of some kind, and the kind's name.
pub fn any_tree(rng: &mut Rng) -> (&'static str, Vec<u8>) {
    any(trees::KINDS, rng)
}

/// An output length for a session that writes `size` bytes: at, one below or
/// far below what is needed.
pub fn output_length(rng: &mut Rng, size: usize) -> usize {
    match rng.below(3) {
        0 => size,
        1 => size.saturating_sub(1),
        _ => rng.below(size + 1),
    }
}

/// Changes a few bytes: set, flipped, taken out, put in, or the end cut off.
pub fn damage(rng: &mut Rng, bytes: &mut Vec<u8>) {
    for _ in 0..rng.range(1, 3) {
        if bytes.is_empty() {
            bytes.push(rng.byte());
            continue;
        }
        let at = rng.below(bytes.len());
        match rng.below(6) {
            0 => bytes[at] = rng.byte(),
            1 => bytes[at] ^= 1 << rng.below(8),
            2 => {
                bytes.remove(at);
            }
            3 => bytes.insert(at, rng.byte()),
            4 => bytes[at] = *rng.pick(&[0x00, 0x01, 0x7f, 0x80, 0x81, 0xc0, 0xfc, 0xfe, 0xff]),
            _ => bytes.truncate(at),
        }
    }
}
