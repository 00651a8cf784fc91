//! Stands for `src/back/spv/index.rs`: function bodies. No sheet has any, and the
//! published files name nothing of it.
