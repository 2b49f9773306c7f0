//! Stand-in for chia_bls: points are only named by allocator.rs; the rig never
//! makes one.

#[derive(Debug)]
pub struct NotAPoint;

pub struct G1Element([u8; 48]);
pub struct G2Element([u8; 96]);

impl G1Element {
    pub fn from_bytes(_: &[u8; 48]) -> Result<Self, NotAPoint> {
        Err(NotAPoint)
    }
    pub fn to_bytes(&self) -> [u8; 48] {
        self.0
    }
}

impl G2Element {
    pub fn from_bytes(_: &[u8; 96]) -> Result<Self, NotAPoint> {
        Err(NotAPoint)
    }
    pub fn to_bytes(&self) -> [u8; 96] {
        self.0
    }
}
