//! Sheets for the comparison, from a fixed seed: small families in full, random
//! valid sheets, edges, and damaged sheets with the refusal they must get; and words
//! to list.

mod blocks;
mod damage;
mod edges;
mod families;
mod functions;
mod halves;
mod listing;
mod strides;
mod sweep;
mod valid;
mod values;

use crate::sheet::*;
pub use blocks::blocks;
use blocks::some_blocks;
pub use damage::{changed, damaged, damaged_as, DAMAGES};
pub use edges::edges;
pub use families::families;
use families::*;
pub use functions::functions;
pub use halves::halves;
pub use listing::{
    changed_words, counts_missing, instructions, list_by_registry, sheets_to_list, words_to_list,
    Listing, Longer, Words, OPCODES,
};
pub use strides::strides;
pub use sweep::sweep;
use valid::*;
pub use valid::{aim, valid};

/// What is known of a sheet before anyone answers.
#[derive(Clone, Copy, Debug, PartialEq, Eq)]
pub enum Expect {
    /// Check fits it or refuses it with 14: the reference answers.
    Domain,
    /// Check refuses it with this number.
    Refused(u8),
    /// Bytes changed at random: the second reading says whether it lies in the
    /// domain.
    Unknown,
}

#[derive(Clone, Debug)]
pub struct Case {
    pub sheet: Vec<u8>,
    pub expect: Expect,
}

fn domain(sheet: &Sheet) -> Case {
    let sheet = sheet.encode();
    assert!(sheet.len() <= MAX_SHEET);
    Case { sheet, expect: Expect::Domain }
}

/// How many of document 02's papers there are by now.
pub const PAPERS: u8 = 5;

/// The generator splitmix64. Beside its state it knows up to which paper of document 02
/// values and records are drawn, 0 for document 01 alone: what was stored before a paper
/// is drawn without it and stays as it is, and what the paper adds comes behind.
pub struct Random {
    state: u64,
    papers: u8,
}

impl Random {
    pub fn new(seed: u64, papers: u8) -> Self {
        Random { state: seed, papers }
    }

    fn next(&mut self) -> u64 {
        self.state = self.state.wrapping_add(0x9e37_79b9_7f4a_7c15);
        let mut z = self.state;
        z = (z ^ (z >> 30)).wrapping_mul(0xbf58_476d_1ce4_e5b9);
        z = (z ^ (z >> 27)).wrapping_mul(0x94d0_49bb_1331_11eb);
        z ^ (z >> 31)
    }

    /// A number below `n`.
    fn below(&mut self, n: usize) -> usize {
        (self.next() % n as u64) as usize
    }

    /// True `one` time in `of`.
    fn chance(&mut self, one: usize, of: usize) -> bool {
        self.below(of) < one
    }

    fn mix<T>(&mut self, items: &mut [T]) {
        for i in (1..items.len()).rev() {
            items.swap(i, self.below(i + 1));
        }
    }

    fn pick<T: Clone>(&mut self, from: &[T]) -> T {
        from[self.below(from.len())].clone()
    }
}
