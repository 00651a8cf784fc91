//! The sheet of document 01 and of document 02's papers: which fields a tag has, and how
//! they lie in bytes.
//!
//! This is the one table of the format. The generator encodes by it, the second
//! reading and the reference's decoder decode by it. Values are not judged
//! here: that is Check's work. The damaged sheets and the samples are spelt
//! out by scripts of their own, so a slip in this table shows there.

pub const MAX_SHEET: usize = 16_384;
pub const MAX_TYPES: usize = 256;
pub const MAX_FUNCTIONS: usize = 64;
pub const MAX_PARAMETERS: usize = 16;
pub const MAX_CONSTANTS: usize = 256;
pub const MAX_GLOBALS: usize = 64;
pub const MAX_REMAPS: usize = 64;
pub const MAX_MEMBERS: usize = 64;
pub const MAX_BOUND: u64 = 4_194_303;
pub const NO_INIT: u16 = 65_535;
/// As the return type of a function record.
pub const VOID: u16 = 65_535;
pub const HEADER: usize = 6;

pub const DEBUG: u8 = 1;
pub const NATIVE_ZERO: u8 = 2;

/// Kinds of scalars.
pub const SINT: u8 = 0;
pub const UINT: u8 = 1;
pub const FLOAT: u8 = 2;
pub const BOOL: u8 = 3;

/// Kinds with the widths that they may have.
pub const SCALARS: [(u8, u8); 11] = [
    (SINT, 1),
    (SINT, 2),
    (SINT, 4),
    (SINT, 8),
    (UINT, 1),
    (UINT, 2),
    (UINT, 4),
    (UINT, 8),
    (FLOAT, 4),
    (FLOAT, 8),
    (BOOL, 1),
];

/// The one that paper 1 adds to them.
pub const HALF: (u8, u8) = (FLOAT, 2);

/// Spaces.
pub const FUNCTION: u8 = 0;
pub const PRIVATE: u8 = 1;
pub const WORKGROUP: u8 = 2;
pub const UNIFORM: u8 = 3;
pub const STORAGE: u8 = 4;
pub const HANDLE: u8 = 5;
pub const PUSH_CONSTANT: u8 = 6;

/// Image classes.
pub const SAMPLED: u8 = 0;
pub const DEPTH: u8 = 1;
pub const STORED: u8 = 2;

/// Image dimensions that bring in a capability.
pub const D1: u8 = 0;
pub const CUBE: u8 = 3;

pub type Name = Option<Vec<u8>>;

#[derive(Clone, Debug, PartialEq, Eq)]
pub struct Member {
    pub ty: u16,
    pub offset: u32,
    pub name: Name,
}

#[derive(Clone, Debug, PartialEq, Eq)]
pub enum Inner {
    Scalar { kind: u8, width: u8 },
    Vector { size: u8, kind: u8, width: u8 },
    Matrix { columns: u8, rows: u8, width: u8 },
    Atomic { kind: u8, width: u8 },
    Pointer { base: u16, space: u8, access: u8 },
    ValuePointer { size: u8, kind: u8, width: u8, space: u8, access: u8 },
    Array { base: u16, size: u32, stride: u32 },
    Struct { span: u32, members: Vec<Member> },
    Image { dim: u8, arrayed: u8, class: u8, first: u8, second: u8 },
    Sampler { comparison: u8 },
    AccelerationStructure,
    RayQuery,
    BindingArray { base: u16, size: u32 },
}

/// A literal's form is its Rust case; the value is kept as its bits.
#[derive(Clone, Copy, Debug, PartialEq, Eq)]
pub enum Literal {
    F64(u64),
    F32(u32),
    U32(u32),
    I32(u32),
    Bool(u8),
}

#[derive(Clone, Debug, PartialEq, Eq)]
pub enum Constant {
    Literal(Literal),
    Alias(u16),
    Zero(u16),
    Compose { ty: u16, parts: Vec<u16> },
    Splat { size: u8, value: u16 },
}

#[derive(Clone, Debug, PartialEq, Eq)]
pub struct Global {
    pub name: Name,
    pub ty: u16,
    pub space: u8,
    pub access: u8,
    pub bound: u8,
    pub group: u32,
    pub binding: u32,
    pub init: u16,
}

#[derive(Clone, Debug, PartialEq, Eq)]
pub struct Type {
    pub name: Name,
    pub inner: Inner,
}

/// Of paper 2.
#[derive(Clone, Debug, PartialEq, Eq)]
pub struct FunctionType {
    pub return_type: u16,
    pub parameters: Vec<u16>,
}

#[derive(Clone, Debug, PartialEq, Eq)]
pub enum Record {
    Available(Vec<u32>),
    Remap { group: u32, binding: u32, size: u32 },
    Type(Type),
    Function(FunctionType),
    Constant(Constant),
    Global(Global),
}

/// A sheet in memory, as the generator builds it.
#[derive(Clone, Debug)]
pub struct Sheet {
    pub start: u32,
    pub flags: u8,
    pub records: Vec<Record>,
}

impl Record {
    pub fn tag(&self) -> u8 {
        match self {
            Record::Available(_) => 1,
            Record::Remap { .. } => 2,
            Record::Type(Type { inner, .. }) => match inner {
                Inner::Scalar { .. } => 16,
                Inner::Vector { .. } => 17,
                Inner::Matrix { .. } => 18,
                Inner::Atomic { .. } => 19,
                Inner::Pointer { .. } => 20,
                Inner::ValuePointer { .. } => 21,
                Inner::Array { .. } => 22,
                Inner::Struct { .. } => 23,
                Inner::Image { .. } => 24,
                Inner::Sampler { .. } => 25,
                Inner::AccelerationStructure => 26,
                Inner::RayQuery => 27,
                Inner::BindingArray { .. } => 28,
            },
            Record::Function(_) => 48,
            Record::Constant(c) => match c {
                Constant::Literal(_) => 64,
                Constant::Alias(_) => 65,
                Constant::Zero(_) => 66,
                Constant::Compose { .. } => 67,
                Constant::Splat { .. } => 68,
            },
            Record::Global(_) => 96,
        }
    }
}

impl Inner {
    /// Whether this type declares a 16-bit float, for itself or as what it is made of.
    pub fn is_half(&self) -> bool {
        match *self {
            Inner::Scalar { kind, width }
            | Inner::Atomic { kind, width }
            | Inner::Vector { kind, width, .. }
            | Inner::ValuePointer { kind, width, .. } => (kind, width) == HALF,
            Inner::Matrix { width, .. } => width == HALF.1,
            _ => false,
        }
    }
}

/// Tags and bodies of any sheet, up to a record whose length is none.
fn tags_and_bodies(sheet: &[u8]) -> impl Iterator<Item = (u8, &[u8])> {
    let mut rest = sheet.get(HEADER..).unwrap_or(&[]);
    std::iter::from_fn(move || {
        let (&length, after) = rest.split_first_chunk::<2>()?;
        let (record, after) = after.split_at_checked(u16::from_be_bytes(length) as usize)?;
        rest = after;
        record.split_first().map(|(&tag, body)| (tag, body))
    })
}

/// The records of any sheet, up to one that is none.
fn sound_records(sheet: &[u8]) -> impl Iterator<Item = Record> + '_ {
    tags_and_bodies(sheet).map_while(|(tag, body)| rank(tag).and_then(|_| decode(tag, body).ok()))
}

/// Whether a type of any sheet, up to a record that is none, declares a 16-bit float.
pub fn has_halves(sheet: &[u8]) -> bool {
    sound_records(sheet).any(|record| matches!(record, Record::Type(t) if t.inner.is_half()))
}

/// Whether a global of any sheet, up to a record that is none, is a BindingArray in Storage
/// space, whose base gets Block.
pub fn has_bases(sheet: &[u8]) -> bool {
    let mut types = Vec::new();
    sound_records(sheet).any(|record| match record {
        Record::Type(t) => {
            types.push(t.inner);
            false
        }
        Record::Global(g) => {
            let inner = types.get(g.ty as usize);
            g.space == STORAGE && matches!(inner, Some(Inner::BindingArray { .. }))
        }
        _ => false,
    })
}

/// Whether any sheet, up to a record whose length is none, has a function record, sound or not.
pub fn has_functions(sheet: &[u8]) -> bool {
    tags_and_bodies(sheet).any(|(tag, _)| tag == 48)
}

/// The rank of a tag, or none for an unknown one.
pub fn rank(tag: u8) -> Option<u8> {
    match tag {
        1 => Some(0),
        2 => Some(1),
        16..=28 => Some(2),
        48 => Some(3),
        64..=68 => Some(4),
        96 => Some(5),
        _ => None,
    }
}

// ---- encoding

struct Out(Vec<u8>);

impl Out {
    fn byte(&mut self, v: u8) -> &mut Self {
        self.0.push(v);
        self
    }
    fn half(&mut self, v: u16) -> &mut Self {
        self.0.extend(v.to_be_bytes());
        self
    }
    fn word(&mut self, v: u32) -> &mut Self {
        self.0.extend(v.to_be_bytes());
        self
    }
    fn name(&mut self, name: &Name) -> &mut Self {
        match name {
            None => self.0.push(255),
            Some(bytes) => {
                assert!(bytes.len() <= 254);
                self.0.push(bytes.len() as u8);
                self.0.extend(bytes);
            }
        }
        self
    }
}

impl Record {
    /// The record's bytes after its length: the tag, then the body.
    pub fn encode(&self) -> Vec<u8> {
        let mut out = Out(vec![self.tag()]);
        match self {
            Record::Available(list) => list.iter().for_each(|&c| {
                out.word(c);
            }),
            &Record::Remap { group, binding, size } => {
                out.word(group).word(binding).word(size);
            }
            Record::Type(Type { name, inner }) => {
                out.name(name);
                match inner {
                    &Inner::Scalar { kind, width } | &Inner::Atomic { kind, width } => {
                        out.byte(kind).byte(width);
                    }
                    &Inner::Vector { size, kind, width } => {
                        out.byte(size).byte(kind).byte(width);
                    }
                    &Inner::Matrix { columns, rows, width } => {
                        out.byte(columns).byte(rows).byte(width);
                    }
                    &Inner::Pointer { base, space, access } => {
                        out.half(base).byte(space).byte(access);
                    }
                    &Inner::ValuePointer { size, kind, width, space, access } => {
                        out.byte(size).byte(kind).byte(width).byte(space).byte(access);
                    }
                    &Inner::Array { base, size, stride } => {
                        out.half(base).word(size).word(stride);
                    }
                    Inner::Struct { span, members } => {
                        out.word(*span).byte(members.len() as u8);
                        for m in members {
                            out.half(m.ty).word(m.offset).name(&m.name);
                        }
                    }
                    &Inner::Image { dim, arrayed, class, first, second } => {
                        out.byte(dim).byte(arrayed).byte(class).byte(first).byte(second);
                    }
                    &Inner::Sampler { comparison } => {
                        out.byte(comparison);
                    }
                    Inner::AccelerationStructure | Inner::RayQuery => {}
                    &Inner::BindingArray { base, size } => {
                        out.half(base).word(size);
                    }
                }
            }
            Record::Function(FunctionType { return_type, parameters }) => {
                out.half(*return_type).byte(parameters.len() as u8);
                for &parameter in parameters {
                    out.half(parameter);
                }
            }
            Record::Constant(constant) => match constant {
                Constant::Literal(literal) => match *literal {
                    Literal::F64(bits) => {
                        out.byte(0).word((bits >> 32) as u32).word(bits as u32);
                    }
                    Literal::F32(bits) => {
                        out.byte(1).word(bits);
                    }
                    Literal::U32(bits) => {
                        out.byte(2).word(bits);
                    }
                    Literal::I32(bits) => {
                        out.byte(3).word(bits);
                    }
                    Literal::Bool(value) => {
                        out.byte(4).byte(value);
                    }
                },
                &Constant::Alias(of) => {
                    out.half(of);
                }
                &Constant::Zero(ty) => {
                    out.half(ty);
                }
                Constant::Compose { ty, parts } => {
                    out.half(*ty).half(parts.len() as u16);
                    for &part in parts {
                        out.half(part);
                    }
                }
                &Constant::Splat { size, value } => {
                    out.byte(size).half(value);
                }
            },
            Record::Global(g) => {
                out.name(&g.name).half(g.ty).byte(g.space).byte(g.access).byte(g.bound);
                out.word(g.group).word(g.binding).half(g.init);
            }
        }
        out.0
    }
}

impl Sheet {
    pub fn encode(&self) -> Vec<u8> {
        let mut out = header(self.start, self.flags);
        for record in &self.records {
            put_record(&mut out, &record.encode());
        }
        out
    }
}

pub fn header(start: u32, flags: u8) -> Vec<u8> {
    let mut out = Out(vec![1]);
    out.word(start).byte(flags);
    out.0
}

pub fn put_record(out: &mut Vec<u8>, record: &[u8]) {
    out.extend((record.len() as u16).to_be_bytes());
    out.extend(record);
}

// ---- decoding

/// Why a body is no record of its tag: refusal 8, or 10 for the one value that
/// decides how long the body has to be.
#[derive(Clone, Copy, Debug, PartialEq, Eq)]
pub enum Misfit {
    Length,
    LiteralForm,
}

struct In<'a>(&'a [u8]);

impl In<'_> {
    fn take<const N: usize>(&mut self) -> Result<[u8; N], Misfit> {
        let (head, rest) = self.0.split_first_chunk::<N>().ok_or(Misfit::Length)?;
        self.0 = rest;
        Ok(*head)
    }
    fn byte(&mut self) -> Result<u8, Misfit> {
        Ok(self.take::<1>()?[0])
    }
    fn half(&mut self) -> Result<u16, Misfit> {
        Ok(u16::from_be_bytes(self.take()?))
    }
    fn word(&mut self) -> Result<u32, Misfit> {
        Ok(u32::from_be_bytes(self.take()?))
    }
    fn name(&mut self) -> Result<Name, Misfit> {
        let length = self.byte()? as usize;
        if length == 255 {
            return Ok(None);
        }
        if self.0.len() < length {
            return Err(Misfit::Length);
        }
        let (name, rest) = self.0.split_at(length);
        self.0 = rest;
        Ok(Some(name.to_vec()))
    }
}

/// The record of a known tag with this body.
pub fn decode(tag: u8, body: &[u8]) -> Result<Record, Misfit> {
    let mut s = In(body);
    let record = match tag {
        1 => {
            let mut list = Vec::new();
            while !s.0.is_empty() {
                list.push(s.word()?);
            }
            Record::Available(list)
        }
        2 => Record::Remap { group: s.word()?, binding: s.word()?, size: s.word()? },
        16..=28 => Record::Type(Type { name: s.name()?, inner: decode_inner(tag, &mut s)? }),
        48 => {
            let return_type = s.half()?;
            let count = s.byte()?;
            let parameters = (0..count).map(|_| s.half()).collect::<Result<_, _>>()?;
            Record::Function(FunctionType { return_type, parameters })
        }
        64..=68 => Record::Constant(decode_constant(tag, &mut s)?),
        96 => Record::Global(Global {
            name: s.name()?,
            ty: s.half()?,
            space: s.byte()?,
            access: s.byte()?,
            bound: s.byte()?,
            group: s.word()?,
            binding: s.word()?,
            init: s.half()?,
        }),
        _ => unreachable!("the tag is known"),
    };
    if s.0.is_empty() {
        Ok(record)
    } else {
        Err(Misfit::Length)
    }
}

fn decode_inner(tag: u8, s: &mut In) -> Result<Inner, Misfit> {
    Ok(match tag {
        16 => Inner::Scalar { kind: s.byte()?, width: s.byte()? },
        17 => Inner::Vector { size: s.byte()?, kind: s.byte()?, width: s.byte()? },
        18 => Inner::Matrix { columns: s.byte()?, rows: s.byte()?, width: s.byte()? },
        19 => Inner::Atomic { kind: s.byte()?, width: s.byte()? },
        20 => Inner::Pointer { base: s.half()?, space: s.byte()?, access: s.byte()? },
        21 => Inner::ValuePointer {
            size: s.byte()?,
            kind: s.byte()?,
            width: s.byte()?,
            space: s.byte()?,
            access: s.byte()?,
        },
        22 => Inner::Array { base: s.half()?, size: s.word()?, stride: s.word()? },
        23 => {
            let span = s.word()?;
            let count = s.byte()?;
            let members = (0..count)
                .map(|_| Ok(Member { ty: s.half()?, offset: s.word()?, name: s.name()? }))
                .collect::<Result<_, Misfit>>()?;
            Inner::Struct { span, members }
        }
        24 => Inner::Image {
            dim: s.byte()?,
            arrayed: s.byte()?,
            class: s.byte()?,
            first: s.byte()?,
            second: s.byte()?,
        },
        25 => Inner::Sampler { comparison: s.byte()? },
        26 => Inner::AccelerationStructure,
        27 => Inner::RayQuery,
        _ => Inner::BindingArray { base: s.half()?, size: s.word()? },
    })
}

fn decode_constant(tag: u8, s: &mut In) -> Result<Constant, Misfit> {
    Ok(match tag {
        64 => Constant::Literal(match s.byte()? {
            0 => Literal::F64(u64::from_be_bytes(s.take()?)),
            1 => Literal::F32(s.word()?),
            2 => Literal::U32(s.word()?),
            3 => Literal::I32(s.word()?),
            4 => Literal::Bool(s.byte()?),
            _ => return Err(Misfit::LiteralForm),
        }),
        65 => Constant::Alias(s.half()?),
        66 => Constant::Zero(s.half()?),
        67 => {
            let ty = s.half()?;
            let count = s.half()?;
            Constant::Compose { ty, parts: (0..count).map(|_| s.half()).collect::<Result<_, _>>()? }
        }
        _ => Constant::Splat { size: s.byte()?, value: s.half()? },
    })
}

/// The next record of a sheet whose records up to here are sound, and what
/// follows it; none at the end. The tag must be known and the body must fit.
pub fn next_record(rest: &[u8]) -> Option<(Record, &[u8])> {
    let (&length, after) = rest.split_first_chunk::<2>()?;
    let (record, after) = after.split_at(u16::from_be_bytes(length) as usize);
    Some((decode(record[0], &record[1..]).expect("a record that fits"), after))
}
