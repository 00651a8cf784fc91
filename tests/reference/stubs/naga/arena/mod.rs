//! Puts beside the published `src/arena.rs`, which ends before it, the arena
//! that keeps one of each value. Ground: lib.rs says of it "just like an
//! `Arena`, except that it stores only a single instance of each value". Check
//! refuses repeated types (12), so inserting one never finds it there.

mod published;
pub use published::*;

use crate::{FastIndexSet, Span};
use std::hash::Hash;
use std::num::NonZeroU32;

#[derive(Debug)]
pub struct UniqueArena<T> {
    values: FastIndexSet<T>,
}

impl<T> Default for UniqueArena<T> {
    fn default() -> Self {
        UniqueArena { values: FastIndexSet::default() }
    }
}

/// Handles count from 1.
fn handle<T>(index: usize) -> Handle<T> {
    Handle::new(NonZeroU32::new(index as u32 + 1).expect("not 0"))
}

impl<T: Eq + Hash> UniqueArena<T> {
    pub fn insert(&mut self, value: T, _: Span) -> Handle<T> {
        handle(self.values.insert_full(value).0)
    }
}

impl<T> UniqueArena<T> {
    pub fn len(&self) -> usize {
        self.values.len()
    }

    pub fn iter(&self) -> impl DoubleEndedIterator<Item = (Handle<T>, &T)> {
        self.values.iter().enumerate().map(|(i, v)| (handle(i), v))
    }
}

impl<T> std::ops::Index<Handle<T>> for UniqueArena<T> {
    type Output = T;
    // Where there is none, tests/panics wants the place that asked for it.
    #[cfg_attr(whole, track_caller)]
    fn index(&self, handle: Handle<T>) -> &T {
        self.values.get_index(handle.index()).expect("a handle of this arena")
    }
}
