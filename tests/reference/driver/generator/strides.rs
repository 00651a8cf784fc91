//! What paper 4 adds: matrices whose stride is written, of every size and width. Those of
//! width 2 are among paper 1's.

use super::*;

pub fn strides() -> Vec<Case> {
    [4, 8].into_iter().flat_map(members).collect()
}

/// Matrices of every size and of a width as members, alone and under one and two arrays, and
/// in wrappers.
pub(super) fn members(width: u8) -> Vec<Case> {
    let mut cases = Vec::new();
    for columns in 2..=4 {
        for rows in 2..=4 {
            let records = vec![
                unnamed(Inner::Matrix { columns, rows, width }),
                unnamed(Inner::Array { base: 0, size: 3, stride: 32 }),
                unnamed(Inner::Array { base: 1, size: 2, stride: 96 }),
                unnamed(structure(&[0, 1, 2])),
                Record::Global(global(0, UNIFORM, 0)),
                Record::Global(global(1, STORAGE, 3)),
            ];
            cases.push(domain(&Sheet { start: 0, flags: 0, records }));
        }
    }
    cases
}
