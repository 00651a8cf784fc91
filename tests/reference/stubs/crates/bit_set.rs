//! Stands for the crate `bit_set`, which only naga's validator uses.

#[derive(Debug, Default)]
pub struct BitSet;

impl BitSet {
    pub fn new() -> Self {
        BitSet
    }
    pub fn clear(&mut self) {}
}
