//! The rules for types, and test 14.

use super::*;

/// Paper 4: bytes from one column of a matrix to the next, a line for 2, 3 and 4 rows, in it a
/// number for the widths 2, 4 and 8.
const STRIDES: [[u64; 3]; 3] = [[4, 8, 16], [8, 16, 32], [8, 16, 32]];

/// The faults of its numbers, in its order.
const WRONG_STRIDES: [Fault; 9] = [
    Fault::Stride2Of2,
    Fault::Stride2Of4,
    Fault::Stride2Of8,
    Fault::Stride3Of2,
    Fault::Stride3Of4,
    Fault::Stride3Of8,
    Fault::Stride4Of2,
    Fault::Stride4Of4,
    Fault::Stride4Of8,
];

impl Second {
    pub(super) fn write_type(&mut self, t: &Type) {
        let id = match self.shape_of(&t.inner) {
            Some(shape) => self.find(shape),
            None => self.declare_entry(t),
        };
        let repeated = self.entries.contains(&id);
        self.entries.push(id);
        if !(repeated && self.has(Fault::SharedTypeUnnamed)) && !self.named_before_members(t) {
            self.label(op::NAME, &[id], &t.name);
        }
    }

    fn named_before_members(&self, t: &Type) -> bool {
        matches!(t.inner, Inner::Struct { .. }) && self.has(Fault::StructNamedFirst)
    }

    /// The shape of an entry that shares; none for aggregates, which never do.
    fn shape_of(&self, inner: &Inner) -> Option<Shape> {
        Some(match *inner {
            Inner::Atomic { kind, width } if self.has(Fault::AtomicsApart) => {
                Shape::Apart(Box::new(Shape::Scalar { kind, width }))
            }
            Inner::Sampler { comparison: 1 } if self.has(Fault::SamplersApart) => {
                Shape::Apart(Box::new(Shape::Sampler))
            }
            Inner::Scalar { kind, width } | Inner::Atomic { kind, width } => {
                Shape::Scalar { kind, width }
            }
            Inner::Vector { size, kind, width } => Shape::Vector { size, kind, width },
            Inner::Matrix { columns, rows, width } => Shape::Matrix { columns, rows, width },
            Inner::Pointer { base, space, .. } => {
                Shape::Pointer { base, class: self.class_of(space) }
            }
            Inner::ValuePointer { size, kind, width, space, .. } => {
                Shape::ValuePointer { size, kind, width, class: self.class_of(space) }
            }
            Inner::Image { dim, arrayed, class, first, second } => {
                let stored = class == STORED;
                let (kind, format) = match class {
                    SAMPLED => (first, 0),
                    DEPTH => (FLOAT, 0),
                    _ => self.format(first),
                };
                Shape::Image {
                    kind,
                    dim,
                    depth: class == DEPTH,
                    arrayed: arrayed == 1,
                    multi: !stored && second == 1,
                    sampled: if stored { 2 } else { 1 },
                    format,
                }
            }
            Inner::Sampler { .. } => Shape::Sampler,
            Inner::AccelerationStructure => Shape::AccelerationStructure,
            Inner::RayQuery => Shape::RayQuery,
            Inner::Array { .. } | Inner::Struct { .. } | Inner::BindingArray { .. } => return None,
        })
    }

    /// A storage format's sampled kind and its number.
    fn format(&self, format: u8) -> (u8, u8) {
        let meant = match format {
            36 | 37 if self.has(Fault::FormatsSwapped) => 36 + 37 - format,
            _ => format,
        };
        let (kind, number, _) = FORMATS[meant as usize];
        (kind, number)
    }

    pub(super) fn class_of(&self, space: u8) -> u8 {
        match space {
            STORAGE if self.has(Fault::StorageAsUniform) => CLASSES[UNIFORM as usize],
            _ => CLASSES[space as usize],
        }
    }

    /// Finding a shape's id, which may declare it.
    pub(super) fn find(&mut self, shape: Shape) -> u64 {
        if let Some(&(_, id)) = self.shapes.iter().find(|(s, _)| self.same(s, &shape)) {
            return id;
        }
        let late = match shape {
            Shape::Vector { .. } => self.has(Fault::VectorIdAfterScalar),
            Shape::Matrix { .. } => self.has(Fault::MatrixIdAfterVector),
            Shape::Image { .. } => self.has(Fault::ImageIdAfterSampledType),
            Shape::RemappedPointer { .. } => self.has(Fault::RemappedPointerIdAfterArray),
            _ => false,
        };
        if late {
            self.find_parts(&shape);
        }
        let id = self.take_id();
        self.shapes.push((shape.clone(), id));
        self.declare_shape(shape, id);
        id
    }

    /// Whether two shapes share. Faults blur the difference.
    fn same(&self, a: &Shape, b: &Shape) -> bool {
        let mut b = b.clone();
        match (a, &mut b) {
            (Shape::Pointer { class, .. }, Shape::Pointer { class: c, .. })
                if self.has(Fault::PointersByBase) =>
            {
                *c = *class;
            }
            (Shape::ValuePointer { class, .. }, Shape::ValuePointer { class: c, .. })
                if self.has(Fault::ValuePointersWithoutClass) =>
            {
                *c = *class;
            }
            (
                Shape::RemappedPointer { access, .. },
                Shape::RemappedPointer { access: other, .. },
            ) if self.has(Fault::RemappedPointersWithoutAccess) => *other = *access,
            (
                Shape::Image { kind, depth, arrayed, multi, format, .. },
                Shape::Image { kind: k, depth: d, arrayed: a, multi: m, format: f, .. },
            ) => match self.fault {
                Some(Fault::ImagesWithoutKind) => *k = *kind,
                Some(Fault::ImagesWithoutDepth) => *d = *depth,
                Some(Fault::ImagesWithoutArrayed) => *a = *arrayed,
                Some(Fault::ImagesWithoutMulti) => *m = *multi,
                Some(Fault::ImagesWithoutFormat) => *f = *format,
                _ => {}
            },
            _ => {}
        }
        *a == b
    }

    /// Only for faults that take an id too late.
    fn find_parts(&mut self, shape: &Shape) {
        match *shape {
            Shape::Vector { kind, width, .. } => self.find(Shape::Scalar { kind, width }),
            Shape::Matrix { rows, width, .. } => {
                self.find(Shape::Vector { size: rows, kind: FLOAT, width })
            }
            Shape::Image { kind, .. } => self.find(Shape::Scalar { kind, width: 4 }),
            Shape::RemappedPointer { base, size, .. } => {
                self.find(Shape::RemappedArray { base, size })
            }
            _ => 0,
        };
    }

    fn declare_shape(&mut self, shape: Shape, id: u64) {
        match shape {
            Shape::Scalar { kind, width } => self.declare_scalar(kind, width, id),
            Shape::Vector { size, kind, width } => {
                let used = self.capabilities.clone();
                let scalar = self.find(Shape::Scalar { kind, width });
                if (kind, width) == HALF && self.has(Fault::Float16OfEntriesAlone) {
                    self.capabilities = used;
                }
                self.declare(op::TYPE_VECTOR, &[id, scalar, size as u64]);
            }
            Shape::Matrix { columns, rows, width } => {
                let column = self.find(Shape::Vector { size: rows, kind: FLOAT, width });
                self.declare(op::TYPE_MATRIX, &[id, column, columns as u64]);
            }
            Shape::Pointer { base, class } => {
                let base = self.entries[base as usize];
                self.declare(op::TYPE_POINTER, &[id, class as u64, base]);
            }
            Shape::ValuePointer { size, kind, width, class } => {
                let value = match size {
                    0 => self.find(Shape::Scalar { kind, width }),
                    _ => self.find(Shape::Vector { size, kind, width }),
                };
                self.declare(op::TYPE_POINTER, &[id, class as u64, value]);
            }
            Shape::Image { kind, dim, depth, arrayed, multi, sampled, format } => {
                // The specification's Rgba16f, Rg16f and R16f.
                let width = match format {
                    2 | 7 | 9 if self.has(Fault::HalfSampled) => 2,
                    _ => 4,
                };
                let kind = self.find(Shape::Scalar { kind, width });
                self.declare(
                    op::TYPE_IMAGE,
                    &[
                        id,
                        kind,
                        dim as u64,
                        depth as u64,
                        arrayed as u64,
                        multi as u64,
                        sampled as u64,
                        format as u64,
                    ],
                );
            }
            Shape::Sampler => self.declare(op::TYPE_SAMPLER, &[id]),
            Shape::AccelerationStructure => self.declare(op::TYPE_ACCELERATION_STRUCTURE, &[id]),
            Shape::RayQuery => self.declare(op::TYPE_RAY_QUERY, &[id]),
            Shape::RemappedPointer { base, size, space, .. } => {
                let array = self.find_remapped_array(base, size);
                self.declare(op::TYPE_POINTER, &[id, self.class_of(space) as u64, array]);
            }
            Shape::RemappedArray { base, size } => {
                let base = self.entries[base as usize];
                let length = self.find_literal(Literal::U32(size));
                self.declare(op::TYPE_ARRAY, &[id, base, length]);
            }
            Shape::Apart(shape) => self.declare_shape(*shape, id),
        }
    }

    fn find_remapped_array(&mut self, base: u16, size: u32) -> u64 {
        if self.has(Fault::RemappedArraySharedWithEntry) {
            let entry = Inner::BindingArray { base, size };
            if let Some(i) = self.types.iter().position(|t| t.inner == entry) {
                return self.entries[i];
            }
        }
        self.find(Shape::RemappedArray { base, size })
    }

    fn declare_scalar(&mut self, kind: u8, width: u8, id: u64) {
        let bits = width as u64 * 8;
        match (kind, width) {
            (SINT | UINT, 1) => self.use_capability(capability::INT8),
            (SINT | UINT, 2) => self.use_capability(capability::INT16),
            (SINT | UINT, 8) if !self.has(Fault::Int64Missing) => {
                self.use_capability(capability::INT64)
            }
            (FLOAT, 2) if !self.has(Fault::Float16Missing) => self.use_float16(),
            (FLOAT, 4) if self.has(Fault::Float16AtWidth4) => self.use_float16(),
            (FLOAT, 8) => self.use_capability(capability::FLOAT64),
            _ => {}
        }
        match kind {
            SINT => self.declare(op::TYPE_INT, &[id, bits, 1]),
            UINT => self.declare(op::TYPE_INT, &[id, bits, 0]),
            FLOAT => self.declare(op::TYPE_FLOAT, &[id, bits]),
            _ => self.declare(op::TYPE_BOOL, &[id]),
        }
    }

    fn use_float16(&mut self) {
        if self.has(Fault::Float16First) && !self.capabilities.contains(&capability::FLOAT16) {
            self.capabilities.insert(0, capability::FLOAT16);
        }
        self.use_capability(match self.has(Fault::Float16AsFloat64) {
            true => capability::FLOAT64,
            false => capability::FLOAT16,
        });
    }

    /// An Array, Struct or BindingArray: always an id of its own.
    fn declare_entry(&mut self, t: &Type) -> u64 {
        if self.has(Fault::ArraysShared) && matches!(t.inner, Inner::Array { .. }) {
            if let Some(i) = self.types.iter().position(|earlier| earlier.inner == t.inner) {
                return self.entries[i];
            }
        }
        match t.inner {
            Inner::Array { base, size, stride } => {
                if self.has(Fault::ArrayIdAfterLength) && size != 0 {
                    self.find_literal(Literal::U32(size));
                }
                let id = self.take_id();
                self.decorate(id, decoration::ARRAY_STRIDE, &[stride as u64]);
                self.declare_array(id, base, size);
                id
            }
            Inner::BindingArray { base, size } => {
                let id = self.take_id();
                if self.has(Fault::BindingArrayStride) {
                    self.decorate(id, decoration::ARRAY_STRIDE, &[4]);
                }
                self.declare_array(id, base, size);
                id
            }
            Inner::Struct { ref members, .. } => {
                let id = self.take_id();
                if self.named_before_members(t) {
                    self.label(op::NAME, &[id], &t.name);
                }
                self.declare_struct(id, members);
                id
            }
            _ => unreachable!("the others have a shape"),
        }
    }

    fn declare_array(&mut self, id: u64, base: u16, size: u32) {
        let base = self.entries[base as usize];
        if size == 0 {
            self.declare(op::TYPE_RUNTIME_ARRAY, &[id, base]);
        } else {
            let length = if self.has(Fault::LengthsApart) {
                self.declare_literal(Literal::U32(size))
            } else {
                self.find_literal(Literal::U32(size))
            };
            self.declare(op::TYPE_ARRAY, &[id, base, length]);
        }
    }

    fn declare_struct(&mut self, id: u64, members: &[Member]) {
        let dynamic = |s: &Self, m: &Member| match *s.inner(m.ty) {
            Inner::Array { size: 0, .. } => true,
            Inner::BindingArray { size: 0, .. } => s.has(Fault::BindingArrayIsDynamic),
            _ => false,
        };
        let mut block = members.iter().any(|m| dynamic(self, m));
        if self.has(Fault::BlockByLastMember) {
            block = members.last().is_some_and(|m| dynamic(self, m));
        }
        if block && self.has(Fault::BlockBeforeMembers) {
            self.decorate(id, decoration::BLOCK, &[]);
        }
        let mut operands = vec![id];
        for (index, member) in members.iter().enumerate() {
            self.member(id, index, member);
            operands.push(self.entries[member.ty as usize]);
        }
        if block && !self.has(Fault::BlockBeforeMembers) {
            self.decorate(id, decoration::BLOCK, &[]);
        }
        self.declare(op::TYPE_STRUCT, &operands);
    }

    /// A member's decorations and name.
    pub(super) fn member(&mut self, id: u64, index: usize, member: &Member) {
        if !(self.has(Fault::OffsetZeroDropped) && member.offset == 0) {
            self.decorate_member(id, index, decoration::OFFSET, &[member.offset as u64]);
        }
        self.label(op::MEMBER_NAME, &[id, index as u64], &member.name);
        let mut ty = member.ty;
        if let Inner::Array { base, .. } = *self.inner(ty) {
            ty = base;
        }
        if self.has(Fault::NestedMatricesDecorated) {
            while let Inner::Array { base, .. } = *self.inner(ty) {
                ty = base;
            }
        }
        if let Some(stride) = self.stride(ty) {
            let early = self.has(Fault::StrideBeforeColMajor);
            if early {
                self.decorate_member(id, index, decoration::MATRIX_STRIDE, &[stride]);
            }
            self.decorate_member(id, index, decoration::COL_MAJOR, &[]);
            if !early {
                self.decorate_member(id, index, decoration::MATRIX_STRIDE, &[stride]);
            }
        }
    }

    /// How far apart the columns are if the type is a matrix, from paper 4's table.
    fn stride(&self, ty: u16) -> Option<u64> {
        let Inner::Matrix { columns, rows, width } = *self.inner(ty) else { return None };
        if rows == 3 && self.has(Fault::StrideOfThree) {
            return Some(3 * width as u64);
        }
        let rows = if self.has(Fault::StrideByColumns) { columns } else { rows };
        let width = if width == 2 && self.has(Fault::HalfStride) { 4 } else { width };
        let line = [2, 3, 4].iter().position(|&r| r == rows)?;
        let place = [2, 4, 8].iter().position(|&w| w == width)?;
        let mut strides = STRIDES;
        if let Some(n) = WRONG_STRIDES.iter().position(|&fault| self.has(fault)) {
            strides[n / 3][n % 3] += 4;
        }
        if self.has(Fault::StridesExchanged) {
            strides[2].swap(1, 2);
        }
        match self.has(Fault::StrideTableByColumns) {
            true => Some(strides[place][line]),
            false => Some(strides[line][place]),
        }
    }

    /// The capabilities of this entry that are checked: test 14.
    pub(super) fn ask(&mut self, inner: &Inner) -> Result<(), Refusal> {
        let mut wanted = Vec::new();
        match *inner {
            Inner::Image { dim, arrayed, class, first, .. } => {
                let stored = class == STORED;
                let bgra = self.has(Fault::Bgra8IsExtended) && first == 21;
                if stored && (FORMATS[first as usize].2 || bgra) {
                    wanted.push(capability::STORAGE_IMAGE_EXTENDED_FORMATS);
                }
                match (dim, arrayed == 1, stored) {
                    (D1, _, false) => wanted.push(capability::SAMPLED_1D),
                    (D1, _, true) => wanted.push(capability::IMAGE_1D),
                    (CUBE, true, false) => wanted.push(capability::SAMPLED_CUBE_ARRAY),
                    (CUBE, true, true) => wanted.push(capability::IMAGE_CUBE_ARRAY),
                    _ => {}
                }
                if class == DEPTH && self.has(Fault::DepthNeedsNothing) {
                    wanted.clear();
                }
            }
            Inner::AccelerationStructure | Inner::RayQuery => wanted.push(capability::RAY_QUERY),
            _ => {}
        }
        if self.has(Fault::DimensionBeforeFormat) {
            wanted.reverse();
        }
        if let (Some(list), false) = (&self.available, self.has(Fault::AvailabilityUnchecked)) {
            let first = if self.has(Fault::OnlyFirstChecked) { 1 } else { wanted.len() };
            if wanted.iter().take(first).any(|c| !list.contains(c)) {
                return refusal(14);
            }
            let asked: &[u32] = match self.fault {
                Some(Fault::ScalarsChecked) => {
                    &[capability::INT8, capability::INT16, capability::INT64]
                }
                Some(Fault::Float16Checked) => &[capability::FLOAT16],
                _ => &[],
            };
            if self.capabilities.iter().any(|c| asked.contains(c) && !list.contains(c)) {
                return refusal(14);
            }
        }
        for number in wanted {
            self.use_capability(number);
        }
        Ok(())
    }
}
