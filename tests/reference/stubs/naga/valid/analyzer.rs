//! Stands for `src/valid/analyzer.rs`: what the validator finds out about a
//! function or a constant. The reference needs the table of types of constant
//! expressions, from which it reads a Splat's type; the driver fills it. Ground:
//! document 01, "a Splat's type is given as a value, never a handle".

use super::{ConstExpressionError, ModuleInfo, ShaderStages};
use crate::proc::{GlobalCtx, ResolveContext, TypeResolution};
use crate::{Expression, GlobalVariable, Handle};

impl ModuleInfo {
    /// For so many constants, each of a type to be set.
    pub fn of_constants(count: usize, unset: impl Fn() -> TypeResolution) -> Self {
        ModuleInfo {
            type_flags: Vec::new(),
            functions: Vec::new(),
            entry_points: Vec::new(),
            const_expression_types: (0..count).map(|_| unset()).collect(),
        }
    }

    pub fn set_constant(&mut self, index: usize, resolution: TypeResolution) {
        self.const_expression_types[index] = resolution;
    }

    pub fn get_entry_point(&self, _: usize) -> &FunctionInfo {
        unreachable!("there are no functions")
    }

    pub fn process_const_expression(
        &mut self,
        _: Handle<Expression>,
        _: &ResolveContext,
        _: GlobalCtx,
    ) -> Result<(), ConstExpressionError> {
        unreachable!("the validator is not run")
    }
}

#[derive(Debug)]
pub struct ExpressionInfo;

#[derive(Debug)]
pub struct FunctionInfo {
    pub available_stages: ShaderStages,
}

impl FunctionInfo {
    pub fn dominates_global_use(&self, _: &Self) -> bool {
        unreachable!("there are no functions")
    }
}

impl std::ops::Index<Handle<GlobalVariable>> for FunctionInfo {
    type Output = GlobalUse;
    fn index(&self, _: Handle<GlobalVariable>) -> &GlobalUse {
        unreachable!("there are no functions")
    }
}

#[derive(Debug)]
pub struct GlobalUse;

impl GlobalUse {
    pub fn is_empty(&self) -> bool {
        unreachable!("there are no functions")
    }
}

#[derive(Debug)]
pub struct Uniformity;

#[derive(Debug)]
pub struct UniformityRequirements;
