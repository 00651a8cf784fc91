//! Stands for `src/block.rs`: statements of a function body. No sheet has any.

#[derive(Clone, Debug, Default)]
pub struct Block;
