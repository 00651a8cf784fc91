//! Stands for the crate `indexmap`: a set and a map that keep the order of
//! insertion. Ground: the crate's documentation ("insert: if an equivalent item
//! already exists in the set, returns false, leaving the original value in the
//! set and without altering its insertion order"). The used capabilities and
//! the arena of types lie in such a set. As there, the items lie in order beside
//! a table of their places by hash, so that finding one takes no longer in time.

use std::hash::{BuildHasher, Hash};
use std::marker::PhantomData;

pub struct IndexSet<T, S> {
    items: Vec<(u64, T)>,
    /// A power of two of slots, at most half of them taken: a place in `items`
    /// plus 1, or 0. A slot is looked for from the hash's high bits on.
    slots: Vec<u32>,
    hasher: S,
}

impl<T, S: Default> Default for IndexSet<T, S> {
    fn default() -> Self {
        IndexSet { items: Vec::new(), slots: Vec::new(), hasher: S::default() }
    }
}

impl<T: Eq + Hash, S: BuildHasher> IndexSet<T, S> {
    pub fn insert(&mut self, item: T) -> bool {
        self.insert_full(item).1
    }

    pub fn insert_full(&mut self, item: T) -> (usize, bool) {
        let hash = self.hasher.hash_one(&item);
        if 2 * (self.items.len() + 1) > self.slots.len() {
            self.grow();
        }
        let slot = self.slot_of(hash, &item);
        match self.slots[slot] {
            0 => {
                self.items.push((hash, item));
                self.slots[slot] = self.items.len() as u32;
                (self.items.len() - 1, true)
            }
            place => (place as usize - 1, false),
        }
    }

    pub fn get_index_of(&self, item: &T) -> Option<usize> {
        if self.items.is_empty() {
            return None;
        }
        let slot = self.slot_of(self.hasher.hash_one(item), item);
        (self.slots[slot] as usize).checked_sub(1)
    }

    /// The slot that holds an item, or the free one where it belongs.
    fn slot_of(&self, hash: u64, item: &T) -> usize {
        let mut slot = self.first_slot(hash);
        loop {
            match self.slots[slot] {
                0 => return slot,
                place => {
                    let (known, other) = &self.items[place as usize - 1];
                    if *known == hash && other == item {
                        return slot;
                    }
                }
            }
            slot = (slot + 1) % self.slots.len();
        }
    }

    fn first_slot(&self, hash: u64) -> usize {
        (hash >> 32) as usize & (self.slots.len() - 1)
    }

    fn grow(&mut self) {
        self.slots = vec![0; (2 * self.slots.len()).max(8)];
        for (at, (hash, _)) in self.items.iter().enumerate() {
            let mut slot = self.first_slot(*hash);
            while self.slots[slot] != 0 {
                slot = (slot + 1) % self.slots.len();
            }
            self.slots[slot] = at as u32 + 1;
        }
    }
}

impl<T, S> IndexSet<T, S> {
    pub fn iter(&self) -> impl DoubleEndedIterator<Item = &T> + ExactSizeIterator {
        self.items.iter().map(|(_, item)| item)
    }
    pub fn get_index(&self, index: usize) -> Option<&T> {
        self.items.get(index).map(|(_, item)| item)
    }
    pub fn len(&self) -> usize {
        self.items.len()
    }
    pub fn is_empty(&self) -> bool {
        self.items.is_empty()
    }
    pub fn clear(&mut self) {
        self.items.clear();
        self.slots.clear();
    }
}

impl<T: std::fmt::Debug, S> std::fmt::Debug for IndexSet<T, S> {
    fn fmt(&self, f: &mut std::fmt::Formatter<'_>) -> std::fmt::Result {
        f.debug_set().entries(self.iter()).finish()
    }
}

/// Only named by the published files.
#[derive(Debug)]
pub struct IndexMap<K, V, S>(PhantomData<(K, V, S)>);

impl<K, V, S> Default for IndexMap<K, V, S> {
    fn default() -> Self {
        IndexMap(PhantomData)
    }
}
