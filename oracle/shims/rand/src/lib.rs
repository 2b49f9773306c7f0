//! Stand-in for rand: a splitmix64 generator, seeded from the standard
//! library's hasher keys. It only makes the cache's salts, on which no answer
//! depends.

use std::hash::{BuildHasher, Hasher};

pub struct ThreadRng(u64);

pub fn rng() -> ThreadRng {
    ThreadRng(
        std::collections::hash_map::RandomState::new()
            .build_hasher()
            .finish(),
    )
}

pub trait Random {
    fn random_from(next: &mut dyn FnMut() -> u64) -> Self;
}

impl Random for u64 {
    fn random_from(next: &mut dyn FnMut() -> u64) -> Self {
        next()
    }
}

impl Random for [u8; 8] {
    fn random_from(next: &mut dyn FnMut() -> u64) -> Self {
        next().to_be_bytes()
    }
}

pub trait RngExt {
    fn random<T: Random>(&mut self) -> T;
}

impl RngExt for ThreadRng {
    fn random<T: Random>(&mut self) -> T {
        T::random_from(&mut || {
            self.0 = self.0.wrapping_add(0x9e37_79b9_7f4a_7c15);
            let mut z = self.0;
            z = (z ^ (z >> 30)).wrapping_mul(0xbf58_476d_1ce4_e5b9);
            z = (z ^ (z >> 27)).wrapping_mul(0x94d0_49bb_1331_11eb);
            z ^ (z >> 31)
        })
    }
}

pub mod prelude {
    pub use crate::RngExt;
}
