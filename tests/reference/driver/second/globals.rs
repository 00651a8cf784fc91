//! The rules for globals.

use super::*;

impl Second {
    pub(super) fn needs_wrapper(&self, g: &Global) -> bool {
        let buffer = matches!(g.space, UNIFORM | STORAGE)
            || g.space == PUSH_CONSTANT && !self.has(Fault::PushConstantsUnwrapped);
        buffer
            && match self.inner(g.ty) {
                Inner::BindingArray { .. } => false,
                Inner::Struct { members, .. } => match members.last() {
                    None => self.has(Fault::EmptyStructWrapped),
                    Some(m) => match self.inner(m.ty) {
                        Inner::Array { size: 0, .. } => self.has(Fault::DynamicEndWrapped),
                        _ => !self.has(Fault::StructsUnwrapped),
                    },
                },
                _ => true,
            }
    }

    /// The size that a remap gives to this global's BindingArray.
    fn remapped(&self, g: &Global) -> Option<u32> {
        if self.has(Fault::RemapIgnored) || g.bound == 0 && !self.has(Fault::RemapUnbound) {
            return None;
        }
        match *self.inner(g.ty) {
            Inner::BindingArray { size, .. } if size != 0 && self.has(Fault::RemapDynamicOnly) => {
                None
            }
            Inner::BindingArray { .. } => self
                .remaps
                .iter()
                .find(|&&(group, binding, _)| {
                    binding == g.binding && (group == g.group || self.has(Fault::RemapByBinding))
                })
                .map(|&(_, _, size)| size),
            _ => None,
        }
    }

    fn access(&self, g: &Global) -> Option<u8> {
        if g.space == STORAGE {
            return Some(g.access);
        }
        let mut ty = g.ty;
        if self.has(Fault::AccessThroughBindingArray) {
            while let Inner::BindingArray { base, .. } = *self.inner(ty) {
                ty = base;
            }
        }
        match *self.inner(ty) {
            Inner::Image { class: STORED, second, .. } if !self.has(Fault::ImageAccessIgnored) => {
                Some(second)
            }
            _ => None,
        }
    }

    pub(super) fn write_global(&mut self, g: &Global) {
        if g.space == STORAGE && self.inner(g.ty).is_half() && self.has(Fault::HalfStorage) {
            self.use_capability(capability::STORAGE_BUFFER_16BIT_ACCESS);
        }
        let class = self.class_of(g.space);
        if self.has(Fault::GlobalIdAfterPointer) && !self.needs_wrapper(g) {
            self.find(Shape::Pointer { base: g.ty, class });
        }
        let id = self.take_id();
        if !self.has(Fault::GlobalUnnamed) {
            self.label(op::NAME, &[id], &g.name);
        }
        self.decorate_global(id, g);
        let null = match g.space {
            PRIVATE => g.init == NO_INIT && !self.has(Fault::PrivateWithoutNull),
            WORKGROUP => self.flags & NATIVE_ZERO != 0 || self.has(Fault::WorkgroupAlwaysNull),
            _ => false,
        };
        let type_id = self.entries[g.ty as usize];
        if null && self.has(Fault::NullBeforePointer) {
            self.find_null(type_id, g.ty);
        }
        let pointer = self.global_pointer(g, class);
        let mut operands = vec![pointer, id, class as u64];
        if null {
            operands.push(self.find_null(type_id, g.ty));
        } else if g.init != NO_INIT {
            operands.push(self.constants[g.init as usize].id);
        }
        self.declare(op::VARIABLE, &operands);
    }

    fn decorate_global(&mut self, id: u64, g: &Global) {
        if let Some(access) = self.access(g) {
            let (load, store) = match self.has(Fault::AccessSwapped) {
                false => (access & 1, access & 2),
                true => (access & 2, access & 1),
            };
            if load == 0 {
                self.decorate(id, decoration::NON_READABLE, &[]);
            }
            if store == 0 {
                self.decorate(id, decoration::NON_WRITABLE, &[]);
            }
        }
        if g.bound == 1 {
            let mut pair =
                [(decoration::DESCRIPTOR_SET, g.group), (decoration::BINDING, g.binding)];
            if self.has(Fault::BindingBeforeSet) {
                pair.reverse();
            }
            for (decoration, number) in pair {
                self.decorate(id, decoration, &[number as u64]);
            }
        }
    }

    /// The base of a global's BindingArray.
    fn base(&self, g: &Global) -> Option<u16> {
        match *self.inner(g.ty) {
            Inner::BindingArray { base, .. } => Some(base),
            _ => None,
        }
    }

    /// Block on the base of a Storage global's BindingArray, unless the base's id carries it.
    /// Paper 5: "no id carries the same decoration twice", and "the first writing stays".
    fn block(&mut self, g: &Global, base: u16) {
        let id = self.entries[base as usize];
        let is_block = |a: &Instruction| {
            a.opcode == op::DECORATE && a.operands[..2] == [id, decoration::BLOCK]
        };
        let first = self.annotations.iter().position(is_block);
        if self.has_block(g, base, first.is_some()) {
            return;
        }
        if let (Some(first), true) = (first, self.has(Fault::LaterBlockStays)) {
            self.annotations.remove(first);
        }
        self.decorate(id, decoration::BLOCK, &[]);
    }

    /// Whether a base, met by this global, is taken to have Block: as it is, but for faults.
    fn has_block(&self, g: &Global, base: u16, there: bool) -> bool {
        let id_of = |entry: u16| self.entries[entry as usize];
        let has_id = |other: &Global| self.base(other).map(id_of) == Some(id_of(base));
        let in_storage =
            || self.globals.iter().filter(|o| o.space == STORAGE && self.base(o).is_some());
        let members = match self.inner(base) {
            Inner::Struct { members, .. } => &members[..],
            _ => &[],
        };
        let dynamic = |m: &Member| matches!(self.inner(m.ty), Inner::Array { size: 0, .. });
        let by_members = members.iter().any(dynamic);
        let by_the_last = members.last().is_some_and(dynamic);
        match self.fault {
            Some(Fault::BlockRepeated | Fault::LaterBlockStays) => false,
            Some(Fault::BlockOnOneBaseAlone) => there || in_storage().next().is_some(),
            Some(Fault::BlockNotBehindWrapper) => {
                there || self.globals.iter().any(|o| self.needs_wrapper(o))
            }
            Some(Fault::BlockByOtherSpaces) => there || self.globals.iter().any(has_id),
            Some(Fault::BlockOfMembersRepeated) => in_storage().any(has_id),
            Some(Fault::BlockOfEarlierMembersRepeated) if by_members => {
                by_the_last || in_storage().any(has_id)
            }
            Some(Fault::BlockOfEachBindingArray) => {
                by_members || in_storage().any(|o| o.ty == g.ty)
            }
            Some(Fault::BlockOfEachEntry) => {
                by_members || in_storage().any(|o| self.base(o) == Some(base))
            }
            Some(Fault::BlockBehindOtherBase) => {
                by_members || in_storage().last().is_some_and(has_id)
            }
            Some(Fault::BlockRepeatedRemapped) => there && self.remapped(g).is_none(),
            _ => there,
        }
    }

    fn global_pointer(&mut self, g: &Global, class: u8) -> u64 {
        if self.needs_wrapper(g) {
            return self.wrapper_pointer(g, class);
        }
        if let (STORAGE, Some(base)) = (g.space, self.base(g)) {
            self.block(g, base);
        }
        match (self.remapped(g), self.inner(g.ty)) {
            (Some(size), &Inner::BindingArray { base, .. }) => {
                let (space, access) = (g.space, g.access);
                self.find(Shape::RemappedPointer { base, size, space, access })
            }
            _ => self.find(Shape::Pointer { base: g.ty, class }),
        }
    }

    fn wrapper_pointer(&mut self, g: &Global, class: u8) -> u64 {
        let (wrapper, pointer) = if self.has(Fault::WrapperIdAfterPointer) {
            let pointer = self.take_id();
            (self.take_id(), pointer)
        } else {
            let wrapper = self.take_id();
            (wrapper, self.take_id())
        };
        let late = self.has(Fault::WrapperBlockLast);
        if !late {
            self.decorate(wrapper, decoration::BLOCK, &[]);
        }
        if !self.has(Fault::WrapperMemberUndecorated) {
            self.member(wrapper, 0, &Member { ty: g.ty, offset: 0, name: None });
        }
        if late {
            self.decorate(wrapper, decoration::BLOCK, &[]);
        }
        let inner = self.entries[g.ty as usize];
        self.declare(op::TYPE_STRUCT, &[wrapper, inner]);
        self.declare(op::TYPE_POINTER, &[pointer, class as u64, wrapper]);
        pointer
    }
}
