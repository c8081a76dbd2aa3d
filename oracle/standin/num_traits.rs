//! Stand-in for the crate `num_traits`: the one call that the decoder makes.

pub trait FromPrimitive: Sized {
    fn from_u64(n: u64) -> Option<Self>;

    fn from_u32(n: u32) -> Option<Self> {
        Self::from_u64(n.into())
    }
}
