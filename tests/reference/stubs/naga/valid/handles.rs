//! Stands for `src/valid/handles.rs`: the validator is not run.

use super::{LayoutError, ValidationError};

#[derive(Clone, Debug)]
pub struct InvalidHandleError;

/// `thiserror` derives this where it is not a stub.
impl From<LayoutError> for ValidationError {
    fn from(_: LayoutError) -> Self {
        unreachable!("the validator is not run")
    }
}
