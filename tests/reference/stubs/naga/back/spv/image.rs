//! Stands for `src/back/spv/image.rs`: function bodies. No sheet has any, and the
//! published files name nothing of it.
