//! Stands for `src/front`: the readers of shading languages. The published
//! `front/wgsl/parse/ast.rs` is among them and not compiled: none of the
//! reference's functions uses it.
