//! Buffers that are lent to a call, with something behind them that it must leave alone.

use std::fmt::Debug;

/// What stands in the buffer before the call, and what stands behind it.
pub trait Element: Copy + Debug + Default + PartialEq {
    const STALE: Self;
    const GUARD: Self;
}

impl Element for u8 {
    const STALE: Self = 0x5a;
    const GUARD: Self = 0xc5;
}

impl Element for u64 {
    const STALE: Self = 0x5a5a_5a5a_5a5a_5a5a;
    const GUARD: Self = 0xc5c5_c5c5_c5c5_c5c5;
}

/// A buffer of so many elements.
#[derive(Clone, Debug)]
pub struct Lent<T> {
    all: Vec<T>,
    length: usize,
}

impl<T: Element> Lent<T> {
    const BEHIND: usize = 8;

    pub fn new(length: usize) -> Self {
        let mut all = vec![T::STALE; length + Self::BEHIND];
        all[length..].fill(T::GUARD);
        Self { all, length }
    }

    pub fn lend(&mut self) -> &mut [T] {
        &mut self.all[..self.length]
    }

    /// The buffer holds these and then zeros, and what stands behind it is as it was.
    pub fn holds(&self, front: &[T]) -> bool {
        let (lent, behind) = self.all.split_at(self.length);
        behind.iter().all(|e| *e == T::GUARD)
            && lent.len() >= front.len()
            && lent[..front.len()] == *front
            && lent[front.len()..].iter().all(|e| *e == T::default())
    }
}
