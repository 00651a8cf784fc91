//! Random valid sheets.

use super::*;

/// UTF-8 of exactly this many bytes, without a zero byte.
pub(super) fn text(random: &mut Random, length: usize) -> Vec<u8> {
    let mut out = String::new();
    while out.len() < length {
        let c = match random.below(8) {
            0 => random.pick(&['é', 'ß', '\u{80}', '\u{7ff}']),
            1 => random.pick(&['€', '箱', '\u{800}', '\u{ffff}', '\u{d7ff}', '\u{e000}']),
            2 => random.pick(&['🧺', '\u{10000}', '\u{10ffff}']),
            _ => (b'!' + random.below(94) as u8) as char,
        };
        if out.len() + c.len_utf8() <= length {
            out.push(c);
        }
    }
    out.into_bytes()
}

pub(super) fn name(random: &mut Random) -> Name {
    let length = match random.below(40) {
        0..=17 => return None,
        18 => random.below(255),
        19 => 0,
        _ => random.below(14),
    };
    Some(text(random, length))
}

/// What decides whether two constants' types have one id.
#[derive(Clone, Copy, Debug, PartialEq, Eq)]
enum Key {
    Scalar(u8, u8),
    Vector(u8, u8, u8),
    Matrix(u8, u8, u8),
    Entry(u16),
}

/// The scalars to draw from; those of a paper more often than document 01's.
fn scalars(papers: u8) -> Vec<(u8, u8)> {
    let mut all = SCALARS.to_vec();
    if papers >= 1 {
        all.extend([HALF; 4]);
    }
    all
}

/// A valid sheet while it grows.
struct Builder<'a> {
    random: &'a mut Random,
    records: Vec<Record>,
    bytes: usize,
    types: Vec<Type>,
    zeroable: Vec<bool>,
    functions: Vec<FunctionType>,
    constants: Vec<(Constant, Key)>,
    /// Bindings worth using again.
    bindings: Vec<(u32, u32)>,
}

/// How many entries of each kind to aim at.
#[derive(Clone, Copy)]
pub struct Aim {
    pub types: usize,
    pub functions: usize,
    pub constants: usize,
    pub globals: usize,
}

impl Builder<'_> {
    /// Adds a record if there is room for it.
    fn add(&mut self, record: Record) -> bool {
        let bytes = record.encode().len() + 2;
        if self.bytes + bytes > MAX_SHEET {
            return false;
        }
        self.bytes += bytes;
        self.records.push(record);
        true
    }

    fn options(&mut self) {
        let list = match self.random.below(10) {
            0..=4 => None,
            5 => Some(Vec::new()),
            6..=7 => {
                let mut list = Vec::new();
                for c in capabilities(self.random.papers) {
                    if self.random.chance(9, 10) {
                        list.push(c);
                    }
                }
                list.push(self.random.next() as u32);
                Some(list)
            }
            _ => Some(capabilities(self.random.papers)),
        };
        if let Some(list) = list {
            self.add(Record::Available(list));
        }
        self.bindings = vec![(0, 0)];
        for _ in 0..self.random.below(4) {
            let at = (self.random.below(3) as u32, self.random.below(3) as u32);
            if !self.bindings.contains(&at) {
                self.bindings.push(at);
            }
        }
        self.bindings.push((self.random.next() as u32, self.random.next() as u32));
        for (group, binding) in self.bindings.clone() {
            if self.random.chance(1, 3) {
                let size = self.number();
                self.add(Record::Remap { group, binding, size: size.max(1) });
            }
        }
    }

    /// Small numbers often, so that lengths and literals meet.
    fn number(&mut self) -> u32 {
        match self.random.below(8) {
            0 => self.random.next() as u32,
            1 => self.random.pick(&[u32::MAX, 1 << 31, 255, 256, 65_535, 65_536]),
            _ => self.random.below(7) as u32,
        }
    }

    fn scalar(&mut self) -> (u8, u8) {
        if self.random.chance(1, 2) {
            (FLOAT, 4)
        } else {
            let scalars = scalars(self.random.papers);
            self.random.pick(&scalars)
        }
    }

    fn some_type(&mut self) -> Option<u16> {
        let count = self.types.len();
        (count > 0).then(|| match self.random.below(2) {
            0 => self.random.below(count) as u16,
            _ => (count - 1 - self.random.below(count.min(6))) as u16,
        })
    }

    fn inner(&mut self) -> Inner {
        let (kind, width) = self.scalar();
        let size = 2 + self.random.below(3) as u8;
        let (space, access) = self.random.pick(&SPACES);
        let base = self.some_type();
        match (self.random.below(20), base) {
            (0..=1, _) => Inner::Scalar { kind, width },
            (2..=3, _) => Inner::Vector { size, kind, width },
            (4..=5, _) => Inner::Matrix {
                columns: size,
                rows: 2 + self.random.below(3) as u8,
                width: self.random.pick(match self.random.papers {
                    0 => &[4, 4, 8],
                    _ => &[4, 4, 8, 2],
                }),
            },
            (6, _) => Inner::Atomic { kind, width },
            (7, Some(base)) => Inner::Pointer { base, space, access },
            (8, _) => {
                let size = self.random.pick(&[0, size]);
                Inner::ValuePointer { size, kind, width, space, access }
            }
            (9..=11, Some(base)) => {
                let size = self.number();
                Inner::Array { base, size, stride: self.number() }
            }
            (12..=14, Some(_)) => {
                let count = match self.random.below(30) {
                    0 => MAX_MEMBERS - self.random.below(3),
                    1..=3 => 0,
                    _ => 1 + self.random.below(4),
                };
                let mut members = Vec::new();
                for _ in 0..count {
                    let ty = self.some_type().expect("there is one");
                    let offset = self.number();
                    members.push(Member { ty, offset, name: name(self.random) });
                }
                Inner::Struct { span: self.number(), members }
            }
            (15..=16, _) => {
                let class = self.random.below(3) as u8;
                let (first, second) = match class {
                    SAMPLED => (self.random.below(3), self.random.below(2)),
                    DEPTH => (0, self.random.below(2)),
                    _ => (self.random.below(40), self.random.below(4)),
                };
                Inner::Image {
                    dim: self.random.pick(&[0, 1, 1, 1, 2, 3]),
                    arrayed: self.random.below(2) as u8,
                    class,
                    first: first as u8,
                    second: second as u8,
                }
            }
            (17, _) => match self.random.below(4) {
                0 => Inner::AccelerationStructure,
                1 => Inner::RayQuery,
                _ => Inner::Sampler { comparison: self.random.below(2) as u8 },
            },
            (18..=19, Some(base)) => Inner::BindingArray { base, size: self.number() },
            _ => Inner::Scalar { kind, width },
        }
    }

    /// Paper 5: what Block comes on. Dynamic arrays, structs that have one, and BindingArrays
    /// of what another has as its base, by entry or by id.
    fn inner_of_blocks(&mut self) -> Inner {
        let Some(mut base) = self.some_type() else { return self.inner() };
        let (mut arrays, mut bases) = (Vec::new(), Vec::new());
        for (entry, ty) in self.types.iter().enumerate() {
            match ty.inner {
                Inner::Array { size: 0, .. } => arrays.push(entry as u16),
                Inner::BindingArray { base, .. } => bases.push(base),
                _ => {}
            }
        }
        match self.random.below(6) {
            0 => Inner::Array { base, size: 0, stride: self.number() },
            1 if !arrays.is_empty() => {
                let mut members = vec![self.random.pick(&arrays)];
                members.extend((0..self.random.below(3)).filter_map(|_| self.some_type()));
                self.random.mix(&mut members);
                let member = |ty| Member { ty, offset: self.number(), name: name(self.random) };
                Inner::Struct { members: members.into_iter().map(member).collect(), span: 16 }
            }
            2..=3 if !bases.is_empty() => {
                base = self.random.pick(&bases);
                base = self.of_one_id(base);
                Inner::BindingArray { base, size: self.number() }
            }
            _ => Inner::BindingArray { base, size: self.number() },
        }
    }

    fn add_type(&mut self) {
        let inner = match self.random.papers >= 5 && self.random.chance(1, 4) {
            true => self.inner_of_blocks(),
            false => self.inner(),
        };
        let ty = Type { inner, name: name(self.random) };
        if self.types.contains(&ty) || !self.add(Record::Type(ty.clone())) {
            return;
        }
        self.zeroable.push(match &ty.inner {
            Inner::Scalar { .. }
            | Inner::Atomic { .. }
            | Inner::Vector { .. }
            | Inner::Matrix { .. } => true,
            &Inner::Array { base, size, .. } => size != 0 && self.zeroable[base as usize],
            Inner::Struct { members, .. } => members.iter().all(|m| self.zeroable[m.ty as usize]),
            _ => false,
        });
        self.types.push(ty);
    }

    fn key(&self, index: u16) -> Key {
        match self.types[index as usize].inner {
            Inner::Scalar { kind, width } | Inner::Atomic { kind, width } => {
                Key::Scalar(kind, width)
            }
            Inner::Vector { size, kind, width } => Key::Vector(size, kind, width),
            Inner::Matrix { columns, rows, width } => Key::Matrix(columns, rows, width),
            _ => Key::Entry(index),
        }
    }

    fn add_function(&mut self) {
        let made = match self.functions.is_empty() || self.random.chance(1, 2) {
            true => self.new_function(),
            false => self.like_a_function(),
        };
        if self.functions.len() < MAX_FUNCTIONS && self.add(Record::Function(made.clone())) {
            self.functions.push(made);
        }
    }

    fn returned(&mut self) -> u16 {
        match self.random.below(3) {
            0 => VOID,
            _ => self.some_type().unwrap_or(VOID),
        }
    }

    fn new_function(&mut self) -> FunctionType {
        let return_type = self.returned();
        let count = match self.random.below(8) {
            0 => MAX_PARAMETERS - self.random.below(2),
            1 => self.random.below(MAX_PARAMETERS + 1),
            _ => self.random.below(4),
        };
        FunctionType {
            return_type,
            parameters: (0..count).map_while(|_| self.some_type()).collect(),
        }
    }

    /// An earlier function type, the same by entries or by ids, or with a thing changed.
    fn like_a_function(&mut self) -> FunctionType {
        let mut like = self.random.pick(&self.functions);
        match (self.random.below(6), like.parameters.len().checked_sub(1)) {
            (0, _) => {}
            (1, _) => like.return_type = self.returned(),
            (2, Some(last)) => like.parameters[last] = self.some_type().expect("there is one"),
            (3, Some(last)) => like.parameters.swap(0, last),
            (4, Some(last)) => like.parameters.truncate(last),
            _ => {
                let FunctionType { return_type, parameters } = &mut like;
                let types = parameters.iter_mut().chain([return_type]);
                types.filter(|ty| **ty != VOID).for_each(|ty| *ty = self.of_one_id(*ty));
            }
        }
        like
    }

    /// This type or another entry that has its id.
    fn of_one_id(&mut self, ty: u16) -> u16 {
        let key = self.key(ty);
        let same: Vec<u16> = (0..self.types.len() as u16).filter(|&t| self.key(t) == key).collect();
        self.random.pick(&same)
    }

    fn literal(&mut self) -> Literal {
        const F32: [u32; 9] = [
            0,
            0x8000_0000,
            0x3f80_0000,
            0x7f80_0000,
            0x7fc0_0000,
            0x7f80_0001,
            0xffc0_1234,
            0xff80_0001,
            1,
        ];
        match self.random.below(10) {
            0 | 1 => {
                let bits = self.random.pick(&F32) as u64;
                let low = self.random.pick(&[0, 1, self.random.state & 0xffff_ffff]);
                // The same patterns, stretched to 64 bits.
                let high = bits & 0x8000_0000 | (bits & 0x7fff_ffff) >> 3;
                let filled = if bits & 0x7f80_0000 == 0x7f80_0000 { 0x7000_0000 } else { 0 };
                Literal::F64((high | filled) << 32 | low)
            }
            2..=4 => Literal::F32(self.random.pick(&F32)),
            5 => Literal::F32(self.random.next() as u32),
            6 | 7 => Literal::U32(self.number()),
            8 => Literal::I32(self.number()),
            _ => Literal::Bool(self.random.below(2) as u8),
        }
    }

    fn add_constant(&mut self) {
        let made = match self.random.below(10) {
            0..=2 => Some(self.new_literal()),
            3 => self.new_alias(),
            4..=5 => self.new_zero(),
            6..=7 => self.new_splat(),
            _ => self.new_compose(),
        };
        if let Some((constant, key)) = made {
            self.push_constant(constant, key);
        }
    }

    fn push_constant(&mut self, constant: Constant, key: Key) -> bool {
        let room = self.constants.len() < MAX_CONSTANTS;
        let added = room && self.add(Record::Constant(constant.clone()));
        if added {
            self.constants.push((constant, key));
        }
        added
    }

    fn some_constant(&mut self) -> Option<u16> {
        let count = self.constants.len();
        (count > 0).then(|| self.random.below(count) as u16)
    }

    fn new_literal(&mut self) -> (Constant, Key) {
        let literal = self.literal();
        let key = match literal {
            Literal::F64(_) => Key::Scalar(FLOAT, 8),
            Literal::F32(_) => Key::Scalar(FLOAT, 4),
            Literal::U32(_) => Key::Scalar(UINT, 4),
            Literal::I32(_) => Key::Scalar(SINT, 4),
            Literal::Bool(_) => Key::Scalar(BOOL, 1),
        };
        (Constant::Literal(literal), key)
    }

    fn new_alias(&mut self) -> Option<(Constant, Key)> {
        let of = self.some_constant()?;
        Some((Constant::Alias(of), self.constants[of as usize].1))
    }

    fn new_zero(&mut self) -> Option<(Constant, Key)> {
        let ty = self.some_type()?;
        self.zeroable[ty as usize].then(|| (Constant::Zero(ty), self.key(ty)))
    }

    fn new_splat(&mut self) -> Option<(Constant, Key)> {
        let value = self.some_constant()?;
        let mut at = value;
        while let Constant::Alias(of) = self.constants[at as usize].0 {
            at = of;
        }
        let fits = match self.constants[at as usize].0 {
            Constant::Literal(_) => true,
            Constant::Zero(ty) => {
                matches!(self.types[ty as usize].inner, Inner::Scalar { .. })
            }
            _ => false,
        };
        let size = 2 + self.random.below(3) as u8;
        match self.constants[at as usize].1 {
            Key::Scalar(kind, width) if fits => {
                Some((Constant::Splat { size, value }, Key::Vector(size, kind, width)))
            }
            _ => None,
        }
    }

    /// What a Compose of this entry takes, unless that is far too much.
    fn places(&self, ty: u16) -> Option<Vec<Key>> {
        match self.types[ty as usize].inner {
            Inner::Vector { size, kind, width } => {
                Some(vec![Key::Scalar(kind, width); size as usize])
            }
            Inner::Matrix { columns, rows, width } => {
                Some(vec![Key::Vector(rows, FLOAT, width); columns as usize])
            }
            Inner::Array { base, size, .. } if (1..=256).contains(&size) => {
                Some(vec![self.key(base); size as usize])
            }
            Inner::Struct { ref members, .. } => {
                Some(members.iter().map(|m| self.key(m.ty)).collect())
            }
            _ => None,
        }
    }

    fn new_compose(&mut self) -> Option<(Constant, Key)> {
        let ty = self.some_type()?;
        let places = self.places(ty)?;
        let mut parts = Vec::new();
        for place in places {
            parts.push(self.constant_of(place)?);
        }
        Some((Constant::Compose { ty, parts }, self.key(ty)))
    }

    /// A constant of this type id, made if there is none.
    fn constant_of(&mut self, key: Key) -> Option<u16> {
        let with = |(i, (_, k)): (usize, &(Constant, Key))| (*k == key).then_some(i as u16);
        let there: Vec<u16> = self.constants.iter().enumerate().filter_map(with).collect();
        if !there.is_empty() {
            return Some(self.random.pick(&there));
        }
        let made = match (0..self.types.len() as u16).find(|&t| self.key(t) == key) {
            Some(ty) if self.zeroable[ty as usize] => Constant::Zero(ty),
            _ => match key {
                Key::Scalar(FLOAT, 4) => Constant::Literal(Literal::F32(0)),
                Key::Scalar(FLOAT, 8) => Constant::Literal(Literal::F64(0)),
                Key::Scalar(UINT, 4) => Constant::Literal(Literal::U32(4)),
                Key::Scalar(SINT, 4) => Constant::Literal(Literal::I32(4)),
                _ => return None,
            },
        };
        self.push_constant(made, key).then(|| self.constants.len() as u16 - 1)
    }

    fn add_global(&mut self) {
        let Some(mut ty) = self.some_type() else { return };
        let (mut space, mut access) = self.random.pick(&SPACES);
        // Paper 5: a BindingArray in Storage space, often.
        if self.random.papers >= 5 && self.random.chance(1, 3) {
            let is_array =
                |&t: &u16| matches!(self.types[t as usize].inner, Inner::BindingArray { .. });
            let arrays: Vec<u16> = (0..self.types.len() as u16).filter(is_array).collect();
            if !arrays.is_empty() {
                (ty, space, access) =
                    (self.random.pick(&arrays), STORAGE, self.random.below(4) as u8);
            }
        }
        let inner = &self.types[ty as usize].inner;
        if space == FUNCTION
            || matches!(inner, Inner::Pointer { .. } | Inner::ValuePointer { .. })
            || (matches!(space, PRIVATE | WORKGROUP) && !self.zeroable[ty as usize])
        {
            return;
        }
        let bindable = matches!(space, UNIFORM | STORAGE | HANDLE);
        let bound = bindable && self.random.chance(2, 3);
        let (group, binding) = if bound { self.random.pick(&self.bindings) } else { (0, 0) };
        let init = match space {
            PRIVATE if self.random.chance(1, 2) => self.constant_to_init(ty),
            _ => NO_INIT,
        };
        let bound = bound as u8;
        let name = name(self.random);
        self.add(Record::Global(Global { name, ty, space, access, bound, group, binding, init }));
    }

    fn constant_to_init(&mut self, ty: u16) -> u16 {
        let key = self.key(ty);
        let with = |(i, (_, k)): (usize, &(Constant, Key))| (*k == key).then_some(i as u16);
        let there: Vec<u16> = self.constants.iter().enumerate().filter_map(with).collect();
        if there.is_empty() {
            NO_INIT
        } else {
            self.random.pick(&there)
        }
    }
}

/// A valid sheet, but for capabilities that may be missing.
pub fn valid(random: &mut Random, aim: Aim) -> Sheet {
    if random.papers >= 5 && random.chance(1, 6) {
        return some_blocks(random);
    }
    let start = match random.below(3) {
        0 => random.below(100_000) as u32,
        _ => 0,
    };
    let flags = random.below(4) as u8;
    let mut b = Builder {
        random,
        records: Vec::new(),
        bytes: HEADER,
        types: Vec::new(),
        zeroable: Vec::new(),
        functions: Vec::new(),
        constants: Vec::new(),
        bindings: Vec::new(),
    };
    b.options();
    while b.types.len() < aim.types.min(1) {
        b.add_type();
    }
    for _ in 1..aim.types {
        b.add_type();
    }
    for _ in 0..aim.functions {
        b.add_function();
    }
    for _ in 0..aim.constants {
        b.add_constant();
    }
    for _ in 0..aim.globals {
        b.add_global();
    }
    Sheet { start, flags, records: b.records }
}

/// Mostly small sheets, some as full as they may be.
pub fn aim(random: &mut Random) -> Aim {
    let (types, functions, constants, globals) = match random.below(100) {
        0 => (MAX_TYPES, MAX_FUNCTIONS, MAX_CONSTANTS, MAX_GLOBALS),
        1..=9 => (40, 24, 30, 16),
        10..=39 => (12, 8, 12, 8),
        _ => (6, 5, 5, 4),
    };
    Aim {
        types: random.below(types + 1),
        constants: random.below(constants + 1),
        globals: random.below(globals + 1),
        // The last draw, which sheets before paper 2 do not have.
        functions: if random.papers < 2 { 0 } else { random.below(functions + 1) },
    }
}
