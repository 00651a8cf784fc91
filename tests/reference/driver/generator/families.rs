//! Small families, in full.

use super::*;

/// Every space with every access that it may have.
pub(super) const SPACES: [(u8, u8); 10] = [
    (FUNCTION, 0),
    (PRIVATE, 0),
    (WORKGROUP, 0),
    (UNIFORM, 0),
    (STORAGE, 0),
    (STORAGE, 1),
    (STORAGE, 2),
    (STORAGE, 3),
    (HANDLE, 0),
    (PUSH_CONSTANT, 0),
];

fn every_image() -> Vec<Inner> {
    let mut classes: Vec<(u8, u8, u8)> = Vec::new();
    for multi in 0..2 {
        classes.extend((0..3).map(|kind| (SAMPLED, kind, multi)));
        classes.push((DEPTH, 0, multi));
    }
    for format in 0..40 {
        classes.extend((0..4).map(|access| (STORED, format, access)));
    }
    let mut images = Vec::new();
    for dim in 0..4 {
        for arrayed in 0..2 {
            for &(class, first, second) in &classes {
                images.push(Inner::Image { dim, arrayed, class, first, second });
            }
        }
    }
    images
}

/// Every type that is made of these scalars, or is a matrix of these widths.
pub(super) fn every_type_of(scalars: &[(u8, u8)], widths: &[u8]) -> Vec<Inner> {
    let mut types = Vec::new();
    for &(kind, width) in scalars {
        types.push(Inner::Scalar { kind, width });
        types.push(Inner::Atomic { kind, width });
        for size in 2..=4 {
            types.push(Inner::Vector { size, kind, width });
        }
        for size in [0, 2, 3, 4] {
            for (space, access) in SPACES {
                types.push(Inner::ValuePointer { size, kind, width, space, access });
            }
        }
    }
    for columns in 2..=4 {
        for rows in 2..=4 {
            for &width in widths {
                types.push(Inner::Matrix { columns, rows, width });
            }
        }
    }
    types
}

/// Every type without a reference, images apart, that document 01 has.
pub(super) fn every_plain_type() -> Vec<Inner> {
    let mut types = every_type_of(&SCALARS, &[4, 8]);
    types.extend((0..2).map(|comparison| Inner::Sampler { comparison }));
    types.extend([Inner::AccelerationStructure, Inner::RayQuery]);
    types
}

pub(super) fn unnamed(inner: Inner) -> Record {
    Record::Type(Type { name: None, inner })
}

pub(super) fn member(ty: u16, offset: u32) -> Member {
    Member { ty, offset, name: None }
}

/// Unbound, without a name or an init.
pub(super) fn global(ty: u16, space: u8, access: u8) -> Global {
    Global { name: None, ty, space, access, bound: 0, group: 0, binding: 0, init: NO_INIT }
}

pub(super) fn structure(members: &[u16]) -> Inner {
    let members = members.iter().enumerate().map(|(i, &ty)| member(ty, 16 * i as u32)).collect();
    Inner::Struct { span: 64, members }
}

/// A function record.
pub(super) fn function(return_type: u16, parameters: &[u16]) -> Record {
    Record::Function(FunctionType { return_type, parameters: parameters.to_vec() })
}

/// Types that a global can have, each with the entries below it; the last one is
/// meant. One for each way in which rules tell types apart; floats have this width.
pub(super) fn global_types(width: u8) -> Vec<Vec<Inner>> {
    let float = || Inner::Scalar { kind: FLOAT, width };
    let matrix = || Inner::Matrix { columns: 2, rows: 3, width };
    let dynamic = || Inner::Array { base: 0, size: 0, stride: 4 };
    let image = |class, first, second| Inner::Image { dim: 1, arrayed: 0, class, first, second };
    let mut types = vec![
        vec![float()],
        vec![Inner::Atomic { kind: UINT, width: 4 }],
        vec![Inner::Vector { size: 3, kind: FLOAT, width }],
        vec![matrix()],
        vec![float(), Inner::Array { base: 0, size: 5, stride: 16 }],
        vec![float(), dynamic()],
        vec![matrix(), Inner::Array { base: 0, size: 5, stride: 32 }],
        vec![
            matrix(),
            Inner::Array { base: 0, size: 5, stride: 32 },
            Inner::Array { base: 1, size: 2, stride: 160 },
        ],
        vec![structure(&[])],
        vec![float(), structure(&[0, 0])],
        vec![matrix(), structure(&[0])],
        vec![float(), dynamic(), structure(&[0, 1])],
        vec![float(), dynamic(), structure(&[1])],
        vec![float(), dynamic(), structure(&[1, 0])],
        vec![float(), dynamic(), structure(&[0, 1]), structure(&[0, 2])],
        vec![float(), Inner::BindingArray { base: 0, size: 0 }, structure(&[0, 1])],
        vec![float(), Inner::Pointer { base: 0, space: UNIFORM, access: 0 }],
        vec![Inner::ValuePointer { size: 0, kind: FLOAT, width, space: UNIFORM, access: 0 }],
        vec![Inner::Sampler { comparison: 0 }],
        vec![Inner::AccelerationStructure],
        vec![Inner::RayQuery],
        vec![image(SAMPLED, FLOAT, 0)],
        vec![image(DEPTH, 0, 1)],
        vec![image(SAMPLED, UINT, 0), Inner::BindingArray { base: 0, size: 0 }],
        vec![image(STORED, 17, 1), Inner::BindingArray { base: 0, size: 3 }],
        vec![float(), Inner::BindingArray { base: 0, size: 4 }],
        vec![float(), structure(&[0]), Inner::BindingArray { base: 1, size: 0 }],
        vec![float(), dynamic(), structure(&[1]), Inner::BindingArray { base: 2, size: 4 }],
    ];
    types.extend((0..4).map(|access| vec![image(STORED, 11, access)]));
    types
}

/// Whether a Private or WorkGroup global may have one of the types above: the
/// ones without an image, a pointer or anything dynamic in them.
fn is_zeroable(types: &[Inner]) -> bool {
    types.iter().all(|t| match t {
        Inner::Scalar { .. } | Inner::Atomic { .. } | Inner::Vector { .. } => true,
        Inner::Matrix { .. } | Inner::Struct { .. } => true,
        Inner::Array { size, .. } => *size != 0,
        _ => false,
    })
}

/// Every space by type by bound, remapped or not and with each flag; those that
/// are unfit with their 13.
pub(super) fn every_global(all: &[Vec<Inner>]) -> Vec<Case> {
    let mut cases = Vec::new();
    for types in all {
        for (space, access) in SPACES {
            for (bound, remap) in [(0, false), (0, true), (1, false), (1, true)] {
                let last = types.last().expect("a type");
                let pointer = matches!(last, Inner::Pointer { .. } | Inner::ValuePointer { .. });
                let unfit = space == FUNCTION
                    || pointer
                    || (bound == 1 && !matches!(space, UNIFORM | STORAGE | HANDLE))
                    || (matches!(space, PRIVATE | WORKGROUP) && !is_zeroable(types));
                for flags in 0..4 {
                    let ty = types.len() as u16 - 1;
                    let name = Some(b"chute".to_vec());
                    let global = Global { name, bound, ..global(ty, space, access) };
                    let mut records = Vec::new();
                    if remap {
                        records.push(Record::Remap { group: 0, binding: 0, size: 7 });
                    }
                    records.extend(types.iter().cloned().map(unnamed));
                    // Twice, so that what is shared and what is repeated shows.
                    records.push(Record::Global(global.clone()));
                    records.push(Record::Global(global));
                    let sheet = Sheet { start: 0, flags, records };
                    let expect = if unfit { Expect::Refused(13) } else { Expect::Domain };
                    cases.push(Case { sheet: sheet.encode(), expect });
                }
            }
        }
    }
    cases
}

/// Two entries that differ in name alone, with a zero of each where there is
/// one and a global of each.
pub(super) fn twins(all: &[Vec<Inner>]) -> Vec<Case> {
    let mut cases = Vec::new();
    for types in all {
        for flags in [0, DEBUG] {
            let twin = Type { name: Some(b"twin".to_vec()), inner: types[types.len() - 1].clone() };
            let last = types.len() as u16;
            let mut records: Vec<Record> = types.iter().cloned().map(unnamed).collect();
            records.push(Record::Type(twin));
            if is_zeroable(types) {
                for ty in [last - 1, last] {
                    records.push(Record::Constant(Constant::Zero(ty)));
                }
            }
            let pointer = matches!(
                types[types.len() - 1],
                Inner::Pointer { .. } | Inner::ValuePointer { .. }
            );
            if !pointer {
                for ty in [last - 1, last] {
                    records.push(Record::Global(global(ty, HANDLE, 0)));
                }
            }
            cases.push(domain(&Sheet { start: 0, flags, records }));
        }
    }
    cases
}

/// Two globals of one type, each in every space, at one remapped binding.
fn every_pair_of_globals() -> Vec<Case> {
    let mut cases = Vec::new();
    let float = Inner::Scalar { kind: FLOAT, width: 4 };
    let arrays = [
        Inner::BindingArray { base: 0, size: 0 },
        Inner::BindingArray { base: 0, size: 7 },
        Inner::Array { base: 0, size: 7, stride: 4 },
    ];
    let bindable: Vec<_> =
        SPACES.into_iter().filter(|s| matches!(s.0, UNIFORM | STORAGE | HANDLE)).collect();
    for array in arrays {
        for &(space, access) in &bindable {
            for &(other, other_access) in &bindable {
                for bound in 0..2 {
                    let records = vec![
                        Record::Remap { group: 0, binding: 0, size: 7 },
                        unnamed(float.clone()),
                        unnamed(array.clone()),
                        Record::Global(Global { bound: 1, ..global(1, space, access) }),
                        Record::Global(Global { bound, ..global(1, other, other_access) }),
                    ];
                    cases.push(domain(&Sheet { start: 0, flags: 0, records }));
                }
            }
        }
    }
    cases
}

/// Capabilities that document 01's rules know, and Shader.
const CAPABILITIES: [u32; 11] = [1, 10, 11, 22, 34, 39, 43, 44, 45, 49, 4472];

/// The same with those of papers; paper 1 knows Float16.
pub(super) fn capabilities(papers: u8) -> Vec<u32> {
    let mut all = CAPABILITIES.to_vec();
    if papers >= 1 {
        all.push(9);
    }
    all
}

/// Each image and each plain type alone; images also with one capability short.
pub fn families(random: &mut Random) -> Vec<Case> {
    let mut cases = Vec::new();
    let sheet = |records| domain(&Sheet { start: 0, flags: 0, records });
    for inner in every_plain_type() {
        cases.push(sheet(vec![unnamed(inner)]));
    }
    for inner in every_image() {
        let mut records = Vec::new();
        if random.chance(1, 2) {
            let missing = random.pick(&CAPABILITIES);
            let list = CAPABILITIES.iter().copied().filter(|&c| c != missing).collect();
            records.push(Record::Available(list));
        }
        records.push(unnamed(inner));
        cases.push(sheet(records));
    }
    // 256 in one sheet, mixed anew each time, so that every pair may share.
    for _ in 0..8 {
        for mut family in [every_plain_type(), every_image()] {
            random.mix(&mut family);
            for chunk in family.chunks(MAX_TYPES) {
                cases.push(sheet(chunk.iter().cloned().map(unnamed).collect()));
            }
        }
    }
    // Two pointers to one base, each into every space.
    for (space, access) in SPACES {
        for (other, other_access) in SPACES {
            let float = Inner::Scalar { kind: FLOAT, width: 4 };
            let mut pointers = vec![Inner::Pointer { base: 0, space, access }];
            if (space, access) != (other, other_access) {
                pointers.push(Inner::Pointer { base: 0, space: other, access: other_access });
            }
            cases.push(sheet([float].into_iter().chain(pointers).map(unnamed).collect()));
        }
    }
    // Names of every length, on a type, a member and a global.
    for length in 0..=254 {
        let name = Some(text(random, length));
        let part = Member { ty: 0, offset: 4, name: name.clone() };
        let float = Inner::Scalar { kind: FLOAT, width: 4 };
        let inner = Inner::Struct { span: 8, members: vec![member(0, 0), part] };
        let records = vec![
            Record::Type(Type { name: name.clone(), inner: float }),
            Record::Type(Type { name: name.clone(), inner }),
            Record::Global(Global { name, ..global(1, UNIFORM, 0) }),
        ];
        cases.push(domain(&Sheet { start: length as u32, flags: DEBUG, records }));
    }
    cases.extend(twins(&global_types(4)));
    cases.extend(every_global(&global_types(4)));
    cases.extend(every_pair_of_globals());
    cases
}
