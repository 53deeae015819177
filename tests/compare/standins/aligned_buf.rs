// Stand-in for src/sinc_interpolator/aligned_buf.rs: a buffer of samples, alignment left aside.
use std::ops::{Deref, DerefMut};

pub struct AlignedBuf<T> {
    data: Vec<T>,
}

impl<T: crate::Sample> AlignedBuf<T> {
    pub fn zeroed(len: usize) -> Self {
        Self { data: vec![T::zero(); len] }
    }
    pub fn from_slice(slice: &[T]) -> Self {
        Self { data: slice.to_vec() }
    }
}

impl<T> Deref for AlignedBuf<T> {
    type Target = [T];
    fn deref(&self) -> &[T] {
        &self.data
    }
}

impl<T> DerefMut for AlignedBuf<T> {
    fn deref_mut(&mut self) -> &mut [T] {
        &mut self.data
    }
}
