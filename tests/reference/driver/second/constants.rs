//! The rules for constants.

use super::*;

impl Second {
    pub(super) fn write_constant(&mut self, constant: Constant) {
        let (id, type_id) = match constant {
            Constant::Literal(literal) => {
                let id = self.find_literal(literal);
                let (kind, width) = literal_scalar(literal);
                (id, self.find(Shape::Scalar { kind, width }))
            }
            Constant::Alias(of) => {
                let known = &self.constants[of as usize];
                (known.id, known.type_id)
            }
            Constant::Zero(ty) => {
                let type_id = self.entries[ty as usize];
                (self.find_null(type_id, ty), type_id)
            }
            Constant::Compose { ty, ref parts } => {
                let parts = parts.iter().map(|&p| self.constants[p as usize].id).collect();
                self.find_composite(TypeKey::Entry(ty), parts)
            }
            Constant::Splat { size, value } => {
                let (kind, width) = self.splat_scalar(value).expect("tested by 13");
                let parts = vec![self.constants[value as usize].id; size as usize];
                self.find_composite(TypeKey::Shape(Shape::Vector { size, kind, width }), parts)
            }
        };
        self.constants.push(Known { constant, id, type_id });
    }

    fn find_constant(&self, key: &ConstantKey) -> Option<u64> {
        let same = |k: &ConstantKey| match (k, key) {
            (ConstantKey::Literal(a), ConstantKey::Literal(b)) => self.same_literal(*a, *b),
            _ => k == key,
        };
        self.constant_keys.iter().find(|(k, _)| same(k)).map(|&(_, id)| id)
    }

    fn same_literal(&self, a: Literal, b: Literal) -> bool {
        match (a, b) {
            (Literal::F32(a), Literal::F32(b)) if self.has(Fault::FloatsByValue) => {
                f32::from_bits(a) == f32::from_bits(b)
            }
            (Literal::U32(a), Literal::I32(b)) | (Literal::I32(a), Literal::U32(b)) => {
                a == b && self.has(Fault::LiteralsWithoutForm)
            }
            _ => a == b,
        }
    }

    pub(super) fn find_literal(&mut self, literal: Literal) -> u64 {
        let key = ConstantKey::Literal(literal);
        self.find_constant(&key).unwrap_or_else(|| {
            let id = self.declare_literal(literal);
            self.constant_keys.push((key, id));
            id
        })
    }

    pub(super) fn declare_literal(&mut self, literal: Literal) -> u64 {
        let (kind, width) = literal_scalar(literal);
        let scalar = Shape::Scalar { kind, width };
        if self.has(Fault::LiteralIdAfterType) {
            self.find(scalar.clone());
        }
        let id = self.take_id();
        let ty = self.find(scalar);
        match literal {
            // The low-order word of a 64-bit literal comes first.
            Literal::F64(bits) if self.has(Fault::HighWordFirst) => {
                self.declare(op::CONSTANT, &[ty, id, bits >> 32, bits & 0xffff_ffff])
            }
            Literal::F64(bits) => {
                self.declare(op::CONSTANT, &[ty, id, bits & 0xffff_ffff, bits >> 32])
            }
            Literal::F32(bits) if self.has(Fault::NanQuieted) && f32::from_bits(bits).is_nan() => {
                self.declare(op::CONSTANT, &[ty, id, f32::NAN.to_bits() as u64])
            }
            Literal::F32(bits) | Literal::U32(bits) | Literal::I32(bits) => {
                self.declare(op::CONSTANT, &[ty, id, bits as u64])
            }
            Literal::Bool(1) => self.declare(op::CONSTANT_TRUE, &[ty, id]),
            Literal::Bool(_) => self.declare(op::CONSTANT_FALSE, &[ty, id]),
        }
        id
    }

    /// Nulls share by type id; `entry` only serves a fault.
    pub(super) fn find_null(&mut self, type_id: u64, entry: u16) -> u64 {
        let key = match self.fault {
            Some(Fault::NullsByEntry) => ConstantKey::Null(entry as u64),
            _ => ConstantKey::Null(type_id),
        };
        let found = self.find_constant(&key).filter(|_| !self.has(Fault::NullsApart));
        found.unwrap_or_else(|| {
            let id = self.take_id();
            self.declare(op::CONSTANT_NULL, &[type_id, id]);
            self.constant_keys.push((key, id));
            id
        })
    }

    /// A composite's id and its type's.
    fn find_composite(&mut self, key: TypeKey, parts: Vec<u64>) -> (u64, u64) {
        let by_id = self.has(Fault::CompositesByTypeId);
        let cached = match self.known_type(&key) {
            Some(ty) if by_id => TypeKey::Id(ty),
            _ => key.clone(),
        };
        let cached = ConstantKey::Composite(cached, parts.clone());
        let found = self.find_constant(&cached).filter(|_| !self.has(Fault::CompositesApart));
        if let Some(id) = found {
            return (id, self.find_key(&key));
        }
        if self.has(Fault::CompositeIdAfterType) {
            self.find_key(&key);
        }
        let id = self.take_id();
        let ty = self.find_key(&key);
        self.declare(op::CONSTANT_COMPOSITE, &[&[ty, id], &parts[..]].concat());
        let key = if by_id { TypeKey::Id(ty) } else { key };
        self.constant_keys.push((ConstantKey::Composite(key, parts), id));
        (id, ty)
    }

    /// A type key's id, declaring it where nobody has.
    fn find_key(&mut self, key: &TypeKey) -> u64 {
        match key {
            TypeKey::Entry(ty) => self.entries[*ty as usize],
            TypeKey::Shape(shape) => self.find(shape.clone()),
            TypeKey::Id(id) => *id,
        }
    }

    /// A type key's id if it is declared; only a fault asks.
    fn known_type(&self, key: &TypeKey) -> Option<u64> {
        match key {
            TypeKey::Entry(ty) => Some(self.entries[*ty as usize]),
            TypeKey::Shape(shape) => self.shapes.iter().find(|(s, _)| s == shape).map(|s| s.1),
            TypeKey::Id(id) => Some(*id),
        }
    }
}
