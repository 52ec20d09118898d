//! Buffers with guards on both sides, so that a write outside of a buffer
//! that was lent shows as a difference.

use std::fmt;
use std::ops::{Deref, DerefMut};

const GUARD_ITEMS: usize = 32;
const GUARD: u8 = 0xA5;

#[derive(Clone, PartialEq, Eq)]
pub struct Guarded<T> {
    whole: Vec<T>,
}

impl<T: Copy + From<u8>> Guarded<T> {
    pub fn new(items: &[T]) -> Self {
        let guard = [T::from(GUARD); GUARD_ITEMS];
        Guarded {
            whole: [&guard, items, &guard].concat(),
        }
    }
}

impl<T> Deref for Guarded<T> {
    type Target = [T];

    fn deref(&self) -> &[T] {
        &self.whole[GUARD_ITEMS..self.whole.len() - GUARD_ITEMS]
    }
}

impl<T> DerefMut for Guarded<T> {
    fn deref_mut(&mut self) -> &mut [T] {
        let end = self.whole.len() - GUARD_ITEMS;
        &mut self.whole[GUARD_ITEMS..end]
    }
}

impl<T: Copy + From<u8> + PartialEq> Guarded<T> {
    fn guards_hold(&self) -> bool {
        let end = self.whole.len() - GUARD_ITEMS;
        let (before, after) = (&self.whole[..GUARD_ITEMS], &self.whole[end..]);
        before
            .iter()
            .chain(after)
            .all(|&item| item == T::from(GUARD))
    }
}

/// The items in hexadecimal, with their count.
impl<T: Copy + From<u8> + PartialEq + fmt::UpperHex> fmt::Display for Guarded<T> {
    fn fmt(&self, f: &mut fmt::Formatter) -> fmt::Result {
        let digits = 2 * std::mem::size_of::<T>();
        write!(f, "({}) ", self.len())?;
        for item in self.iter() {
            write!(f, "{item:0digits$X}")?;
        }
        if !self.guards_hold() {
            write!(f, " WRITTEN OUTSIDE")?;
        }
        Ok(())
    }
}
