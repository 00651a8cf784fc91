//! Stands for `src/back/spv/block.rs`: function bodies. No sheet has any.

use super::{Block, BlockContext, Error, LoopContext};
use crate::{Expression, Handle};

pub struct DebugInfoInner<'a> {
    pub source_code: &'a str,
    pub source_file_id: spirv::Word,
}

pub enum BlockExit {
    Return,
}

impl BlockContext<'_> {
    pub(super) fn cache_expression_value(
        &mut self,
        _: Handle<Expression>,
        _: &mut Block,
    ) -> Result<(), Error> {
        unreachable!("there are no functions")
    }

    pub(super) fn write_block(
        &mut self,
        _: spirv::Word,
        _: &crate::Block,
        _: BlockExit,
        _: LoopContext,
        _: Option<&DebugInfoInner>,
    ) -> Result<(), Error> {
        unreachable!("there are no functions")
    }
}
