//! Stands for `src/proc/mod.rs`: helpers over the IR. Four matter to the
//! reference, each in a file of its own; the rest is named by the published
//! files and must not be reached.

mod flatten_compose;
mod layouter;
mod literal;
mod storage_format;
mod unreached;

pub use flatten_compose::flatten_compose;
pub use layouter::{Alignment, LayoutError, LayoutErrorInner, Layouter, TypeLayout};
pub use unreached::*;
