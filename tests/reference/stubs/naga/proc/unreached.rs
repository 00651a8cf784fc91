//! Names of `src/proc` that the published files use outside the functions that
//! document 01 names.

use crate::{
    Arena, Binding, BuiltIn, Expression, FunctionArgument, Handle, LocalVariable, Module, Type,
    TypeInner, UniqueArena,
};

/// The type of an expression.
#[derive(Debug)]
pub enum TypeResolution {
    Handle(Handle<Type>),
    Value(TypeInner),
}

impl Clone for TypeResolution {
    fn clone(&self) -> Self {
        unreachable!("only the validator copies resolutions")
    }
}

#[derive(Clone, Copy, Debug, Default)]
pub struct BoundsCheckPolicies;

pub struct ExpressionConstnessTracker;

impl ExpressionConstnessTracker {
    pub fn from_arena(_: &Arena<Expression>) -> Self {
        unreachable!("there are no functions")
    }
    pub fn is_const(&self, _: Handle<Expression>) -> bool {
        unreachable!("there are no functions")
    }
}

pub struct ResolveContext;

impl ResolveContext {
    pub fn with_locals(_: &Module, _: &Arena<LocalVariable>, _: &[FunctionArgument]) -> Self {
        unreachable!("the validator is not run")
    }
}

impl Expression {
    pub fn needs_pre_emit(&self) -> bool {
        unreachable!("there are no functions")
    }
}

impl TypeInner {
    pub fn is_handle(&self) -> bool {
        unreachable!("there are no functions")
    }
    pub fn size(&self, _: GlobalCtx) -> u32 {
        unreachable!("the validator is not run")
    }
}

impl Binding {
    pub fn to_built_in(&self) -> Option<BuiltIn> {
        unreachable!("there are no functions")
    }
}

impl Module {
    pub fn to_ctx(&self) -> GlobalCtx<'_> {
        unreachable!("the validator is not run")
    }
}

#[derive(Clone, Copy)]
pub struct GlobalCtx<'a> {
    pub types: &'a UniqueArena<Type>,
}
