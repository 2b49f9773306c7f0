//! Numbers are only named by allocator.rs; the rig never makes one. A number is
//! kept as its signed big-endian bytes.

use num_traits::ToPrimitive;

pub struct Number(Vec<u8>);
pub type Malachite = Number;

pub fn number_from_u8(v: &[u8]) -> Number {
    Number(v.to_vec())
}

pub fn malachite_number_from_u8(v: &[u8]) -> Malachite {
    number_from_u8(v)
}

impl Number {
    pub fn to_signed_bytes_be(&self) -> Vec<u8> {
        self.0.clone()
    }
}

impl From<u32> for Number {
    fn from(v: u32) -> Self {
        let mut bytes = vec![0];
        bytes.extend_from_slice(&v.to_be_bytes());
        Self(bytes)
    }
}

impl ToPrimitive for Number {
    fn to_u32(&self) -> Option<u32> {
        if self.0.first().is_some_and(|b| b & 0x80 != 0) {
            return None;
        }
        let mut value: u32 = 0;
        for b in &self.0 {
            if value >> 24 != 0 {
                return None;
            }
            value = (value << 8) | u32::from(*b);
        }
        Some(value)
    }
}
