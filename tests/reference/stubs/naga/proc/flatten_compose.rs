//! Stands for `flatten_compose` of `src/proc/mod.rs`. Ground: document 01,
//! "`flatten_compose`, which is not among the files, hands back the parts
//! unchanged for every Compose that Check lets through".

use crate::{Arena, Expression, Handle, Type, UniqueArena};

pub fn flatten_compose<'a>(
    _: Handle<Type>,
    components: &'a [Handle<Expression>],
    _: &'a Arena<Expression>,
    _: &'a UniqueArena<Type>,
) -> impl Iterator<Item = Handle<Expression>> + 'a {
    components.iter().copied()
}
