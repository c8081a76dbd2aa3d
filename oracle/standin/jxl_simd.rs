//! Stand-in for the crate `jxl_simd`: what `util/fast_math.rs` must see to compile, and what
//! `frame/modular/transforms/rct.rs` runs on. The one descriptor is the scalar one: a vector is
//! one number. The crate is not at hand: that + and - of whole numbers wrap is document 01's word.

use std::num::Wrapping;
use std::ops::{Add, Div, Mul, Sub};

pub trait SimdDescriptor: Copy {
    type F32Vec: F32SimdVec<Descriptor = Self>;
    type I32Vec: I32SimdVec<Descriptor = Self>;
    fn new() -> Option<Self>;

    /// There is nothing narrower but the scalar one; it is never asked, as its vectors have one lane.
    fn maybe_downgrade_256bit(self) -> ScalarDescriptor {
        ScalarDescriptor
    }
    fn maybe_downgrade_128bit(self) -> ScalarDescriptor {
        ScalarDescriptor
    }
}

type Floats<D> = <D as SimdDescriptor>::F32Vec;
type Ints<D> = <D as SimdDescriptor>::I32Vec;

pub trait F32SimdVec:
    Copy + Add<Output = Self> + Sub<Output = Self> + Mul<Output = Self> + Div<Output = Self>
{
    type Descriptor: SimdDescriptor;
    fn splat(d: Self::Descriptor, value: f32) -> Self;
    fn abs(self) -> Self;
    fn floor(self) -> Self;
    fn copysign(self, sign: Self) -> Self;
    fn mul_add(self, factor: Self, term: Self) -> Self;
    fn as_i32(self) -> Ints<Self::Descriptor>;
    fn bitcast_to_i32(self) -> Ints<Self::Descriptor>;
}

pub trait I32SimdVec: Copy + Add<Output = Self> + Sub<Output = Self> {
    type Descriptor: SimdDescriptor;
    const LEN: usize;
    fn splat(d: Self::Descriptor, value: i32) -> Self;
    fn load(d: Self::Descriptor, words: &[i32]) -> Self;
    fn store(self, words: &mut [i32]);
    fn shifted_left(self, by: u32) -> Self;
    fn shifted_right(self, by: u32) -> Self;
    fn as_f32(self) -> Floats<Self::Descriptor>;
    fn bitcast_to_f32(self) -> Floats<Self::Descriptor>;
}

#[derive(Clone, Copy)]
pub struct ScalarDescriptor;

impl SimdDescriptor for ScalarDescriptor {
    type F32Vec = f32;
    type I32Vec = Wrapping<i32>;
    fn new() -> Option<Self> {
        Some(ScalarDescriptor)
    }
}

impl I32SimdVec for Wrapping<i32> {
    type Descriptor = ScalarDescriptor;
    const LEN: usize = 1;
    fn splat(_: ScalarDescriptor, value: i32) -> Self {
        Wrapping(value)
    }
    #[inline(always)]
    fn load(_: ScalarDescriptor, words: &[i32]) -> Self {
        Wrapping(words[0])
    }
    #[inline(always)]
    fn store(self, words: &mut [i32]) {
        words[0] = self.0;
    }
    fn shifted_left(self, by: u32) -> Self {
        Wrapping(self.0 << by)
    }
    /// Arithmetic: the sign comes in from the left.
    #[inline(always)]
    fn shifted_right(self, by: u32) -> Self {
        Wrapping(self.0 >> by)
    }
    fn as_f32(self) -> f32 {
        self.0 as f32
    }
    fn bitcast_to_f32(self) -> f32 {
        f32::from_bits(self.0 as u32)
    }
}

/// Here because a descriptor must name its floats; nothing that is compared calls it.
impl F32SimdVec for f32 {
    type Descriptor = ScalarDescriptor;
    fn splat(_: ScalarDescriptor, value: f32) -> Self {
        value
    }
    fn abs(self) -> Self {
        f32::abs(self)
    }
    fn floor(self) -> Self {
        f32::floor(self)
    }
    fn copysign(self, sign: Self) -> Self {
        f32::copysign(self, sign)
    }
    fn mul_add(self, factor: Self, term: Self) -> Self {
        f32::mul_add(self, factor, term)
    }
    fn as_i32(self) -> Wrapping<i32> {
        Wrapping(self as i32)
    }
    fn bitcast_to_i32(self) -> Wrapping<i32> {
        Wrapping(self.to_bits() as i32)
    }
}

#[macro_export]
macro_rules! shl {
    ($v:expr, $by:literal) => {
        $v.shifted_left($by)
    };
}

#[macro_export]
macro_rules! shr {
    ($v:expr, $by:literal) => {
        $v.shifted_right($by)
    };
}

/// Makes the function of any descriptor, and the one that runs it; here always with the scalar one.
#[macro_export]
macro_rules! simd_function {
    ($run:ident, $d:ident: $D:ident, fn $name:ident($($arg:ident: $type:ty),*) $body:block) => {
        #[inline(always)]
        fn $name<$D: $crate::SimdDescriptor>($d: $D, $($arg: $type),*) $body

        fn $run($($arg: $type),*) {
            $name($crate::ScalarDescriptor, $($arg),*)
        }
    };
}
