//! Stands for the equality, hash, width and kind of literals in
//! `src/proc/mod.rs`. Ground: document 01, "Literals carry 64-bit and 32-bit
//! floats with every bit kept and are equal by form and bits"; a form's scalar
//! is what its name says.

use crate::{Bytes, Literal, ScalarKind, BOOL_WIDTH};
use std::hash::{Hash, Hasher};

impl Literal {
    /// Form and bits.
    fn key(&self) -> (u8, u64) {
        match *self {
            Literal::F64(v) => (0, v.to_bits()),
            Literal::F32(v) => (1, v.to_bits() as u64),
            Literal::U32(v) => (2, v as u64),
            Literal::I32(v) => (3, v as u32 as u64),
            Literal::Bool(v) => (4, v as u64),
        }
    }

    pub const fn scalar_kind(&self) -> ScalarKind {
        match *self {
            Literal::F64(_) | Literal::F32(_) => ScalarKind::Float,
            Literal::U32(_) => ScalarKind::Uint,
            Literal::I32(_) => ScalarKind::Sint,
            Literal::Bool(_) => ScalarKind::Bool,
        }
    }

    pub const fn width(&self) -> Bytes {
        match *self {
            Literal::F64(_) => 8,
            Literal::F32(_) | Literal::U32(_) | Literal::I32(_) => 4,
            Literal::Bool(_) => BOOL_WIDTH,
        }
    }

    pub fn new(_: u8, _: ScalarKind, _: Bytes) -> Option<Self> {
        unreachable!("only function bodies make literals")
    }
}

impl PartialEq for Literal {
    fn eq(&self, other: &Self) -> bool {
        self.key() == other.key()
    }
}

impl Eq for Literal {}

impl Hash for Literal {
    fn hash<H: Hasher>(&self, hasher: &mut H) {
        self.key().hash(hasher)
    }
}
