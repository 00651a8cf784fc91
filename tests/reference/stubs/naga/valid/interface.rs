//! Stands for `src/valid/interface.rs`: the validator is not run.

use super::{FunctionInfo, ModuleInfo, Validator};
use crate::{EntryPoint, Module, WithSpan};

#[derive(Clone, Debug)]
pub enum EntryPointError {
    Conflict,
}

#[derive(Clone, Debug)]
pub struct GlobalVariableError;

#[derive(Clone, Debug)]
pub struct VaryingError;

impl Validator {
    pub(super) fn validate_entry_point(
        &mut self,
        _: &EntryPoint,
        _: &Module,
        _: &ModuleInfo,
    ) -> Result<FunctionInfo, WithSpan<EntryPointError>> {
        unreachable!("the validator is not run")
    }
}
