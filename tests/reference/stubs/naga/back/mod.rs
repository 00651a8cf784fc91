//! Stands for `src/back/mod.rs`: names the back ends, of which one is here.

pub mod spv;
