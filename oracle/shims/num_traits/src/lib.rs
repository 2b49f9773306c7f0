//! Stand-in for num_traits: the one trait that allocator.rs names.

pub trait ToPrimitive {
    fn to_u32(&self) -> Option<u32>;
}
