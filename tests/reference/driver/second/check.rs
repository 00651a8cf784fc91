//! One record: its tests 4 to 13 in order, then what the rules make of it.

use super::*;

impl Second {
    /// One record: its tests in order, then what the rules make of it.
    pub(super) fn record<'a>(
        &mut self,
        rest: &'a [u8],
        last_rank: u8,
    ) -> Result<(&'a [u8], u8), Refusal> {
        let Some((&length, rest)) = rest.split_first_chunk::<2>() else { return refusal(4) };
        let length = u16::from_be_bytes(length) as usize;
        if length == 0 || length > rest.len() {
            return refusal(4);
        }
        let (bytes, after) = rest.split_at(length);
        let (tag, body) = (bytes[0], &bytes[1..]);
        let Some(rank) = self.rank_of(tag, last_rank) else { return refusal(5) };
        let again = tag == 1 && self.available.is_some() && !self.has(Fault::AvailableTwice);
        if rank < last_rank || again {
            return refusal(6);
        }
        let full = match tag {
            1 => false,
            2 => self.remaps.len() == MAX_REMAPS,
            16..=28 => self.types.len() == MAX_TYPES,
            48 => self.functions_full(),
            64..=68 => self.constants.len() == MAX_CONSTANTS,
            _ => self.globals.len() == MAX_GLOBALS,
        };
        let late =
            self.has(Fault::CountAfterBody) || tag == 48 && self.has(Fault::FunctionCountAfterBody);
        if full && !(late && decode(tag, body).is_err()) {
            return refusal(7);
        }
        let record = match decode(tag, body) {
            Ok(record) => record,
            Err(Misfit::LiteralForm)
                if body[0] == 5 && body.len() == 3 && self.has(Fault::HalfLiteral) =>
            {
                Record::Constant(Constant::Literal(Literal::F32(0)))
            }
            Err(Misfit::LiteralForm) if !self.has(Fault::FormAsLength) => return refusal(10),
            Err(_) if tag == 48 && self.has(Fault::ParametersBeforeLength) => {
                let over = body.get(2).is_some_and(|&count| count as usize > MAX_PARAMETERS);
                return refusal(if over { 10 } else { 8 });
            }
            Err(_) => return refusal(8),
        };
        if self.has(Fault::ValuesBeforeNames) && !self.values_fit(&record) {
            return refusal(10);
        }
        if !self.names_of(&record).into_iter().all(|name| self.name_fits(name)) {
            return refusal(9);
        }
        let early = self.has(Fault::ReferencesBeforeValues)
            || tag == 48 && self.has(Fault::FunctionReferencesBeforeCount);
        if early && !self.references_fit(&record) {
            return refusal(11);
        }
        if !self.values_fit(&record) {
            let as_length = tag == 48 && self.has(Fault::ParametersAsLength);
            return refusal(if as_length { 8 } else { 10 });
        }
        if !self.references_fit(&record) {
            return refusal(11);
        }
        if self.is_repeated(&record) {
            return refusal(12);
        }
        if !self.fits(&record) {
            return refusal(13);
        }
        self.write(record)?;
        Ok((after, rank))
    }

    fn names_of<'a>(&self, record: &'a Record) -> Vec<&'a Name> {
        if self.has(Fault::NamesTestedUnderFlagOnly) && self.flags & DEBUG == 0 {
            return Vec::new();
        }
        match record {
            Record::Type(Type { name, inner: Inner::Struct { members, .. } }) => {
                std::iter::once(name).chain(members.iter().map(|m| &m.name)).collect()
            }
            Record::Type(Type { name, .. }) | Record::Global(Global { name, .. }) => vec![name],
            _ => Vec::new(),
        }
    }

    fn name_fits(&self, name: &Name) -> bool {
        let Some(bytes) = name else { return true };
        let utf8 = std::str::from_utf8(bytes).is_ok() || self.has(Fault::AnyBytesInNames);
        utf8 && (!bytes.contains(&0) || self.has(Fault::ZeroByteInNames))
    }

    fn references_fit(&self, record: &Record) -> bool {
        let ty = |index: u16| (index as usize) < self.types.len();
        let constant = |index: u16| (index as usize) < self.constants.len();
        match record {
            Record::Available(_) | Record::Remap { .. } => true,
            Record::Type(t) => match &t.inner {
                &Inner::Pointer { base, .. }
                | &Inner::Array { base, .. }
                | &Inner::BindingArray { base, .. } => ty(base),
                Inner::Struct { members, .. } => members.iter().all(|m| ty(m.ty)),
                _ => true,
            },
            Record::Function(f) => self.function_references_fit(f),
            Record::Constant(c) => match c {
                Constant::Literal(_) => true,
                &Constant::Alias(of) => constant(of),
                &Constant::Zero(of) => ty(of),
                Constant::Compose { ty: of, parts } => {
                    ty(*of) && parts.iter().all(|&p| constant(p))
                }
                &Constant::Splat { value, .. } => constant(value),
            },
            Record::Global(g) => ty(g.ty) && (g.init == NO_INIT || constant(g.init)),
        }
    }

    fn is_repeated(&self, record: &Record) -> bool {
        match record {
            Record::Type(t) => self.types.iter().any(|earlier| {
                if self.has(Fault::RepeatsWithoutNames) {
                    earlier.inner == t.inner
                } else {
                    earlier == t
                }
            }),
            Record::Remap { group, binding, size } => self.remaps.iter().any(|(g, b, s)| {
                g == group && b == binding && (s == size || !self.has(Fault::RemapsRepeatBySize))
            }),
            Record::Function(f) => self.is_repeated_function(f),
            _ => false,
        }
    }

    fn scalar_fits(&self, kind: u8, width: u8) -> bool {
        match kind {
            SINT | UINT => {
                matches!(width, 1 | 2 | 4 | 8) || width == 16 && self.has(Fault::IntegerWidth16)
            }
            FLOAT => match (self.fault, width) {
                (Some(Fault::FloatWidth1), 1) | (Some(Fault::FloatWidth16), 16) => true,
                (Some(Fault::HalfRefused), 2) => false,
                _ => float_fits(width),
            },
            BOOL => match (self.fault, width) {
                (Some(Fault::BoolWidth0), 0) | (Some(Fault::BoolWidth2), 2) => true,
                _ => width == 1,
            },
            _ => false,
        }
    }

    /// Test 10, over the whole record.
    fn values_fit(&self, record: &Record) -> bool {
        match record {
            Record::Available(_) => true,
            &Record::Remap { size, .. } => size != 0,
            Record::Type(t) => self.inner_fits(&t.inner),
            Record::Function(f) => self.count_fits(f),
            Record::Constant(c) => match c {
                Constant::Literal(Literal::Bool(value)) => *value <= 1,
                Constant::Splat { size, .. } => size_fits(*size),
                _ => true,
            },
            Record::Global(g) => {
                space_fits(g.space, g.access)
                    && g.bound <= 1
                    && (g.bound == 1 || (g.group == 0 && g.binding == 0))
            }
        }
    }

    fn inner_fits(&self, inner: &Inner) -> bool {
        match *inner {
            Inner::Scalar { kind, width } | Inner::Atomic { kind, width } => {
                self.scalar_fits(kind, width)
            }
            Inner::Vector { size, kind, width } => size_fits(size) && self.scalar_fits(kind, width),
            Inner::Matrix { columns, rows, width } => {
                let width_fits = match (self.fault, width) {
                    (Some(Fault::MatrixWidth16), 16) => true,
                    (Some(Fault::HalfMatrixRefused), 2) => false,
                    _ => float_fits(width),
                };
                size_fits(columns) && size_fits(rows) && width_fits
            }
            Inner::Pointer { space, access, .. } => space_fits(space, access),
            Inner::ValuePointer { size, kind, width, space, access } => {
                (size == 0 || size_fits(size))
                    && self.scalar_fits(kind, width)
                    && space_fits(space, access)
            }
            Inner::Array { .. } | Inner::BindingArray { .. } => true,
            Inner::Struct { ref members, .. } => members.len() <= MAX_MEMBERS,
            Inner::Image { dim, arrayed, class, first, second } => {
                dim <= 3
                    && arrayed <= 1
                    && match class {
                        SAMPLED => first <= 2 && second <= 1,
                        DEPTH => first == 0 && second <= 1,
                        STORED => first <= 39 && second <= 3,
                        _ => false,
                    }
            }
            Inner::Sampler { comparison } => comparison <= 1,
            Inner::AccelerationStructure | Inner::RayQuery => true,
        }
    }
}

fn float_fits(width: u8) -> bool {
    matches!(width, 2 | 4 | 8)
}

fn size_fits(size: u8) -> bool {
    (2..=4).contains(&size)
}

fn space_fits(space: u8, access: u8) -> bool {
    space <= PUSH_CONSTANT && access <= 3 && (access == 0 || space == STORAGE)
}

impl Second {
    pub(super) fn inner(&self, index: u16) -> &Inner {
        &self.types[index as usize].inner
    }

    pub(super) fn zeroable(&self, index: u16) -> bool {
        self.zeroables[index as usize]
    }

    /// Worked out once an entry: 200 structs that each hold the one below twice
    /// would never end otherwise.
    pub(super) fn is_zeroable(&self, inner: &Inner) -> bool {
        match inner {
            Inner::Scalar { .. }
            | Inner::Atomic { .. }
            | Inner::Vector { .. }
            | Inner::Matrix { .. } => true,
            &Inner::Array { base, size, .. } => size != 0 && self.zeroable(base),
            Inner::Struct { members, .. } => members.iter().all(|m| self.zeroable(m.ty)),
            &Inner::BindingArray { base, size } if self.has(Fault::BindingArraysZeroable) => {
                size != 0 && self.zeroable(base)
            }
            _ => false,
        }
    }

    /// The id of a shape that an entry has declared already.
    fn declared(&self, shape: Shape) -> u64 {
        self.shapes.iter().find(|(s, _)| *s == shape).expect("declared with its entry").1
    }

    /// The type ids that a Compose of this entry wants for its parts, or none
    /// where nothing is composed.
    fn places(&self, index: u16, parts: usize) -> Option<Vec<u64>> {
        let (count, one) = match *self.inner(index) {
            Inner::Vector { size, kind, width } => {
                (size as usize, self.declared(Shape::Scalar { kind, width }))
            }
            Inner::Matrix { columns, rows, width } => {
                (columns as usize, self.declared(Shape::Vector { size: rows, kind: FLOAT, width }))
            }
            Inner::Array { base, size, .. } if size != 0 => {
                (size as usize, self.entries[base as usize])
            }
            Inner::Struct { ref members, .. } => {
                return Some(members.iter().map(|m| self.entries[m.ty as usize]).collect());
            }
            _ => return None,
        };
        // An array may ask for 2^32 parts: the counts are compared first.
        (count == parts).then(|| vec![one; count])
    }

    /// The literal or zero that an alias stands for in the end.
    fn resolved(&self, mut index: u16) -> &Constant {
        while let Constant::Alias(of) = self.constants[index as usize].constant {
            index = of;
        }
        &self.constants[index as usize].constant
    }

    /// The scalar that a Splat of this constant repeats.
    pub(super) fn splat_scalar(&self, value: u16) -> Option<(u8, u8)> {
        match *self.resolved(value) {
            Constant::Literal(literal) => Some(literal_scalar(literal)),
            Constant::Zero(ty) => match *self.inner(ty) {
                Inner::Scalar { width: 2, kind: FLOAT } if self.has(Fault::HalfSplatRefused) => {
                    None
                }
                Inner::Scalar { kind, width } => Some((kind, width)),
                Inner::Atomic { kind, width } if self.has(Fault::SplatOfAtomic) => {
                    Some((kind, width))
                }
                _ => None,
            },
            _ => None,
        }
    }

    fn fits(&self, record: &Record) -> bool {
        match record {
            Record::Function(f) => self.function_fits(f),
            Record::Constant(Constant::Zero(ty)) => self.zeroable(*ty),
            Record::Constant(Constant::Compose { ty, parts }) => {
                let given = parts.iter().map(|&p| self.constants[p as usize].type_id);
                self.places(*ty, parts.len()).is_some_and(|places| given.eq(places))
            }
            Record::Constant(Constant::Splat { value, .. }) => self.splat_scalar(*value).is_some(),
            Record::Global(g) => self.global_fits(g),
            _ => true,
        }
    }

    fn global_fits(&self, g: &Global) -> bool {
        let pointer =
            matches!(self.inner(g.ty), Inner::Pointer { .. } | Inner::ValuePointer { .. });
        let bindable = matches!(g.space, UNIFORM | STORAGE | HANDLE);
        let zeroed = match g.space {
            PRIVATE => true,
            WORKGROUP => {
                self.flags & NATIVE_ZERO != 0 || !self.has(Fault::WorkgroupZeroableUnderFlag)
            }
            _ => false,
        };
        g.space != FUNCTION
            && !pointer
            && (g.bound == 0 || bindable)
            && (!zeroed || self.zeroable(g.ty))
            && (g.init == NO_INIT || g.space == PRIVATE && self.init_fits(g))
    }

    fn init_fits(&self, g: &Global) -> bool {
        let known = &self.constants[g.init as usize];
        match known.constant {
            Constant::Zero(ty) if self.has(Fault::InitByEntry) => ty == g.ty,
            _ => known.type_id == self.entries[g.ty as usize],
        }
    }
}
