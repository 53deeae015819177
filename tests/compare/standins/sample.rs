// Stand-in for src/sample.rs: the trait of samples, for f64 and f32.
use std::fmt::Debug;
use std::ops::{Add, AddAssign, Div, DivAssign, Mul, Neg, Sub};

pub trait CoerceFrom<V> {
    fn coerce_from(value: V) -> Self;
}

macro_rules! coerce {
    ($($t:ty: $($v:ty),*;)*) => {$($(
        impl CoerceFrom<$v> for $t {
            fn coerce_from(value: $v) -> Self {
                value as $t
            }
        }
    )*)*};
}
coerce! { f64: f32, f64, usize; f32: f32, f64, usize; }

pub trait Sample:
    Copy
    + Send
    + Debug
    + PartialEq
    + PartialOrd
    + Add<Output = Self>
    + AddAssign
    + Sub<Output = Self>
    + Mul<Output = Self>
    + Div<Output = Self>
    + DivAssign
    + Neg<Output = Self>
    + CoerceFrom<f32>
    + CoerceFrom<f64>
    + CoerceFrom<usize>
    + std::iter::Sum
    + 'static
    + crate::sinc_interpolator::AvxSample
    + crate::sinc_interpolator::SseSample
    + crate::sinc_interpolator::NeonSample
{
    const PI: Self;
    fn zero() -> Self;
    fn one() -> Self;
    fn sin(self) -> Self;
    fn coerce<V>(value: V) -> Self
    where
        Self: CoerceFrom<V>,
    {
        Self::coerce_from(value)
    }
}

macro_rules! sample {
    ($t:ident) => {
        impl Sample for $t {
            const PI: Self = std::$t::consts::PI;
            fn zero() -> Self {
                0.0
            }
            fn one() -> Self {
                1.0
            }
            fn sin(self) -> Self {
                $t::sin(self)
            }
        }
    };
}
sample!(f64);
sample!(f32);
