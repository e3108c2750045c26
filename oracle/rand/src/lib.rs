//! A stand-in for `rand`: it hands out values that were drawn beforehand, so that both programs get the same ones.

use std::ops::Range;

/// Values drawn beforehand.
pub struct Drawn<'a> {
    /// what `random_range` gives, from the front
    pub numbers: &'a [u64],
    /// what `fill_bytes` gives
    pub bytes: &'a [u8],
    /// what `shuffle` does: place i gets the element that was at `order[i]`
    pub order: &'a [u8],
}

pub trait Rng {
    fn number(&mut self) -> u64;
    fn fill_bytes(&mut self, dst: &mut [u8]);
    fn order(&self) -> &[u8];
}

impl Rng for Drawn<'_> {
    fn number(&mut self) -> u64 {
        let (first, rest) = self.numbers.split_first().expect("a number was drawn");
        self.numbers = rest;
        *first
    }

    fn fill_bytes(&mut self, dst: &mut [u8]) {
        dst.copy_from_slice(&self.bytes[..dst.len()]);
    }

    fn order(&self) -> &[u8] {
        self.order
    }
}

pub trait RngExt: Rng {
    /// The next number. Whether it lies in the range is the caller's business: records with a payload of 16 bytes, which quinn never
    /// draws, are made this way.
    fn random_range<T: TryFrom<u64>>(&mut self, _: Range<T>) -> T {
        T::try_from(self.number()).ok().expect("the number fits")
    }
}

impl<R: Rng> RngExt for R {}

pub mod seq {
    pub trait SliceRandom {
        fn shuffle<R: super::Rng>(&mut self, rng: &mut R);
    }

    impl<T: Copy> SliceRandom for [T] {
        fn shuffle<R: super::Rng>(&mut self, rng: &mut R) {
            let before = self.to_vec();
            for (slot, from) in self.iter_mut().zip(rng.order()) {
                *slot = before[*from as usize];
            }
        }
    }
}
