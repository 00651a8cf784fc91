//! A second reading of document 01 and of document 02's papers: Check, Declare, Wrapped
//! and the list, written from their text and the SPIR-V Specification, not from the Rust that
//! they name. The comparison runs it against that Rust. It knows no hash map and keeps
//! every instruction as data until the end.
//!
//! `Fault` lists slips that can be planted one at a time; the run has to report
//! each, or it would prove nothing by staying silent.

mod check;
mod constants;
mod functions;
mod globals;
mod listing;
mod numbers;
mod types;

use crate::faults::Fault;
use crate::sheet::*;
pub use listing::{join, list};
use numbers::*;

/// Why a sheet is refused, and at which record where there is one.
#[derive(Clone, Copy, Debug, PartialEq, Eq)]
pub struct Refusal {
    pub number: u8,
    pub record: Option<usize>,
}

fn refusal<T>(number: u8) -> Result<T, Refusal> {
    Err(Refusal { number, record: None })
}

struct Instruction {
    opcode: u16,
    operands: Vec<u64>,
}

/// What two finds have to agree in to get one id.
#[derive(Clone, Debug, PartialEq, Eq)]
enum Shape {
    Scalar {
        kind: u8,
        width: u8,
    },
    Vector {
        size: u8,
        kind: u8,
        width: u8,
    },
    Matrix {
        columns: u8,
        rows: u8,
        width: u8,
    },
    Pointer {
        base: u16,
        class: u8,
    },
    ValuePointer {
        size: u8,
        kind: u8,
        width: u8,
        class: u8,
    },
    Image {
        kind: u8,
        dim: u8,
        depth: bool,
        arrayed: bool,
        multi: bool,
        sampled: u8,
        format: u8,
    },
    Sampler,
    AccelerationStructure,
    RayQuery,
    RemappedPointer {
        base: u16,
        size: u32,
        space: u8,
        access: u8,
    },
    RemappedArray {
        base: u16,
        size: u32,
    },
    /// Never made by the rules; a planted fault keeps equal shapes apart with it.
    Apart(Box<Shape>),
}

/// What a composite's type is told apart by.
#[derive(Clone, Debug, PartialEq, Eq)]
enum TypeKey {
    Entry(u16),
    Shape(Shape),
    /// Never made by the rules; a planted fault shares composites by type id.
    Id(u64),
}

#[derive(Clone, Debug, PartialEq, Eq)]
enum ConstantKey {
    Literal(Literal),
    Composite(TypeKey, Vec<u64>),
    Null(u64),
}

/// A constant that was read: what it is, its id and its type's id.
struct Known {
    constant: Constant,
    id: u64,
    type_id: u64,
}

pub struct Second {
    fault: Option<Fault>,
    flags: u8,
    // What was read.
    available: Option<Vec<u32>>,
    remaps: Vec<(u32, u32, u32)>,
    types: Vec<Type>,
    zeroables: Vec<bool>,
    functions: Vec<functions::Function>,
    globals: Vec<Global>,
    // What was given out. Ids are held in 64 bits: start may lie near 2^32, and
    // 15 is only tested after all records.
    last: u64,
    entries: Vec<u64>,
    shapes: Vec<(Shape, u64)>,
    void: Option<u64>,
    constants: Vec<Known>,
    constant_keys: Vec<(ConstantKey, u64)>,
    capabilities: Vec<u32>,
    names: Vec<Instruction>,
    annotations: Vec<Instruction>,
    declarations: Vec<Instruction>,
}

/// Check: every test up to 15. What comes back has all declarations in it.
pub fn check(sheet: &[u8], fault: Option<Fault>) -> Result<Second, Refusal> {
    if sheet.len() < HEADER || sheet.len() > MAX_SHEET {
        return refusal(1);
    }
    if sheet[0] != 1 {
        return refusal(2);
    }
    if sheet[5] > 3 {
        return refusal(3);
    }
    let start = u32::from_be_bytes(sheet[1..5].try_into().unwrap());
    let mut s = Second {
        fault,
        flags: sheet[5],
        available: None,
        remaps: Vec::new(),
        types: Vec::new(),
        zeroables: Vec::new(),
        functions: Vec::new(),
        globals: Vec::new(),
        last: start as u64,
        entries: Vec::new(),
        shapes: Vec::new(),
        void: None,
        constants: Vec::new(),
        constant_keys: Vec::new(),
        capabilities: Vec::new(),
        names: Vec::new(),
        annotations: Vec::new(),
        declarations: Vec::new(),
    };
    if s.has(Fault::LimitBeforeRecords) && s.bound() > MAX_BOUND {
        return refusal(15);
    }
    if s.has(Fault::VoidBeforeTypes) && has_functions(sheet) {
        s.find_void();
    }
    let mut rest = &sheet[HEADER..];
    let mut rank = 0;
    let mut index = 0;
    while !rest.is_empty() {
        (rest, rank) = s.record(rest, rank).map_err(|r| Refusal { record: Some(index), ..r })?;
        index += 1;
    }
    let limit = if s.has(Fault::LimitOnLastId) { MAX_BOUND + 1 } else { MAX_BOUND };
    if s.bound() > limit {
        return refusal(15);
    }
    Ok(s)
}

/// Declare: the words, if the lent buffer holds them.
pub fn declare(sheet: &[u8], room: usize, fault: Option<Fault>) -> Result<Vec<u32>, Refusal> {
    let words = check(sheet, fault)?.words();
    if words.len() > room {
        refusal(16)
    } else {
        Ok(words)
    }
}

/// Wrapped: whether the global of this index is put inside a wrapper.
pub fn wrapped(sheet: &[u8], index: usize, fault: Option<Fault>) -> Result<bool, Refusal> {
    let s = check(sheet, fault)?;
    match s.globals.get(index) {
        Some(global) => Ok(s.needs_wrapper(global)),
        None => refusal(17),
    }
}

/// The scalar that a literal's form names.
fn literal_scalar(literal: Literal) -> (u8, u8) {
    match literal {
        Literal::F64(_) => (FLOAT, 8),
        Literal::F32(_) => (FLOAT, 4),
        Literal::U32(_) => (UINT, 4),
        Literal::I32(_) => (SINT, 4),
        Literal::Bool(_) => (BOOL, 1),
    }
}

impl Second {
    fn has(&self, fault: Fault) -> bool {
        self.fault == Some(fault)
    }

    fn write(&mut self, record: Record) -> Result<(), Refusal> {
        match record {
            Record::Available(list) => self.available = Some(list),
            Record::Remap { group, binding, size } => self.remaps.push((group, binding, size)),
            Record::Type(t) => {
                self.write_type(&t);
                self.zeroables.push(self.is_zeroable(&t.inner));
                self.types.push(t.clone());
                return self.ask(&t.inner);
            }
            Record::Function(f) => self.write_function(f),
            Record::Constant(c) => self.write_constant(c),
            Record::Global(g) => {
                self.write_global(&g);
                self.globals.push(g);
            }
        }
        Ok(())
    }

    fn take_id(&mut self) -> u64 {
        self.last += 1;
        self.last
    }

    fn use_capability(&mut self, number: u32) {
        if self.has(Fault::CapabilityTwice) || !self.capabilities.contains(&number) {
            self.capabilities.push(number);
        }
    }

    fn declare(&mut self, opcode: u16, operands: &[u64]) {
        self.declarations.push(Instruction { opcode, operands: operands.to_vec() });
    }

    fn decorate(&mut self, id: u64, decoration: u64, operands: &[u64]) {
        let operands = [&[id, decoration], operands].concat();
        self.annotations.push(Instruction { opcode: op::DECORATE, operands });
    }

    fn decorate_member(&mut self, id: u64, index: usize, decoration: u64, operands: &[u64]) {
        let of_member = |a: &Instruction| {
            a.opcode == op::MEMBER_DECORATE && (a.operands[0], a.operands[2]) == (id, decoration)
        };
        if self.has(Fault::DecorationOfOtherMember) && self.annotations.iter().any(of_member) {
            return;
        }
        let operands = [&[id, index as u64, decoration], operands].concat();
        self.annotations.push(Instruction { opcode: op::MEMBER_DECORATE, operands });
    }

    /// OpName, or OpMemberName with an index; nothing without bit 0 or a name.
    fn label(&mut self, opcode: u16, at: &[u64], name: &Name) {
        if self.flags & DEBUG == 0 && !self.has(Fault::NamesWithoutFlag) {
            return;
        }
        let Some(name) = name else { return };
        if name.is_empty() && self.has(Fault::EmptyNameDropped) {
            return;
        }
        let operands = [at, &self.packed(name)].concat();
        let equal = |n: &Instruction| n.opcode == opcode && n.operands == operands;
        if self.has(Fault::EqualNamesDropped) && self.names.iter().any(equal) {
            return;
        }
        self.names.push(Instruction { opcode, operands });
    }

    /// A literal string: four bytes a word, the first in the low-order byte,
    /// ended by a zero byte and filled up with zeros.
    fn packed(&self, name: &[u8]) -> Vec<u64> {
        let mut bytes = name.to_vec();
        if !self.has(Fault::NameUnterminated) {
            bytes.push(0);
        }
        while bytes.len() % 4 != 0 {
            bytes.push(0);
        }
        bytes
            .chunks(4)
            .map(|c| {
                let word = [c[0], c[1], c[2], c[3]];
                let big = self.has(Fault::NameBigEndian);
                (if big { u32::from_be_bytes(word) } else { u32::from_le_bytes(word) }) as u64
            })
            .collect()
    }

    pub fn bound(&self) -> u64 {
        self.last + 1
    }

    pub fn words(&self) -> Vec<u32> {
        let mut words = vec![0x0723_0203, 0x0001_0300, 28, self.bound() as u32, 0];
        let mut put = |i: &Instruction| {
            words.push(((i.operands.len() + 1) << 16) as u32 | i.opcode as u32);
            words.extend(i.operands.iter().map(|&w| w as u32));
        };
        let mut capabilities = self.capabilities.clone();
        if self.has(Fault::CapabilitiesSorted) {
            capabilities.sort();
        }
        for number in capabilities {
            put(&Instruction { opcode: op::CAPABILITY, operands: vec![number as u64] });
        }
        for section in [&self.names, &self.annotations, &self.declarations] {
            section.iter().for_each(&mut put);
        }
        words
    }

    /// How many globals the sheet has, and which are wrapped.
    pub fn wrappers(&self) -> Vec<bool> {
        self.globals.iter().map(|g| self.needs_wrapper(g)).collect()
    }
}
