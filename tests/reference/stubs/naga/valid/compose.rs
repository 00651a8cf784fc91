//! Stands for `src/valid/compose.rs`: the validator is not run.

#[derive(Clone, Debug)]
pub struct ComposeError;
