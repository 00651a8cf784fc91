//! Stands for `src/valid/function.rs`: the validator is not run.

use super::{FunctionInfo, ModuleInfo, Validator};
use crate::{Function, Module, WithSpan};

#[derive(Clone, Debug)]
pub struct CallError;

#[derive(Clone, Debug)]
pub struct FunctionError;

#[derive(Clone, Debug)]
pub struct LocalVariableError;

impl Validator {
    pub(super) fn validate_function(
        &mut self,
        _: &Function,
        _: &Module,
        _: &ModuleInfo,
        _: bool,
    ) -> Result<FunctionInfo, WithSpan<FunctionError>> {
        unreachable!("the validator is not run")
    }
}
