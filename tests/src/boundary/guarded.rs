//! Lists that are handed to the library, full of noise and with noise on both
//! sides, so that a value written where none belongs is seen.

use crate::random::Random;

/// Values on either side that are not handed over.
pub(super) const MARGIN: usize = 4;

#[derive(Clone)]
pub struct Guarded<T> {
    all: Vec<T>,
}

impl<T: Copy> Guarded<T> {
    pub fn new(length: usize, mut noise: impl FnMut() -> T) -> Guarded<T> {
        Guarded { all: (0..length + 2 * MARGIN).map(|_| noise()).collect() }
    }

    /// The list itself.
    pub fn inner(&mut self) -> &mut [T] {
        let end = self.all.len() - MARGIN;
        &mut self.all[MARGIN..end]
    }

    /// The list and its margins, as they are now.
    pub fn all(&self) -> &[T] {
        &self.all
    }

    /// What list and margins have to be after as many of the values as fit
    /// have been written to the start of the list.
    pub fn after_writing(&self, values: &[T]) -> Vec<T> {
        let mut expected = Guarded { all: self.all.clone() };
        for (slot, value) in expected.inner().iter_mut().zip(values) {
            *slot = *value;
        }
        expected.all
    }
}

/// The list without its margins.
pub fn inner_of<T>(all: &[T]) -> &[T] {
    &all[MARGIN..all.len() - MARGIN]
}

pub fn guarded_bytes(random: &mut Random, length: usize) -> Guarded<u8> {
    Guarded::new(length, || random.byte())
}

pub fn guarded_u32(random: &mut Random, length: usize) -> Guarded<u32> {
    Guarded::new(length, || random.u32())
}

pub fn guarded_u64(random: &mut Random, length: usize) -> Guarded<u64> {
    Guarded::new(length, || random.next())
}
