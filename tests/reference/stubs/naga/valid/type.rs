//! Stands for `src/valid/type.rs`: the validator is not run.

use super::Validator;
use crate::proc::GlobalCtx;
use crate::{Handle, Type};

#[derive(Clone, Debug)]
pub struct Disalignment;

#[derive(Clone, Debug)]
pub struct TypeError;

#[derive(Clone, Copy, Debug)]
pub struct TypeFlags;

#[derive(Debug)]
pub struct TypeInfo {
    pub flags: TypeFlags,
}

impl Validator {
    pub(super) fn reset_types(&mut self, _: usize) {
        unreachable!("the validator is not run")
    }

    pub(super) fn validate_type(
        &self,
        _: Handle<Type>,
        _: GlobalCtx,
    ) -> Result<TypeInfo, TypeError> {
        unreachable!("the validator is not run")
    }
}
