//! What paper 5 adds: Storage globals of BindingArrays, whose bases get Block, and may have it
//! before: by another such global, or by a dynamic array among their members.

use super::*;

const NAME: &[u8] = b"lane";

fn float() -> Inner {
    Inner::Scalar { kind: FLOAT, width: 4 }
}

fn named(inner: Inner) -> Type {
    Type { name: Some(NAME.to_vec()), inner }
}

fn plain(inner: Inner) -> Type {
    Type { name: None, inner }
}

fn binding_array(base: u16, size: u32) -> Inner {
    Inner::BindingArray { base, size }
}

/// Unbound in Storage space, with the nth access from both downwards, so that decorations of
/// the globals stand between those of their bases.
fn stored(ty: u16, n: usize) -> Global {
    global(ty, STORAGE, 3 - n as u8 % 4)
}

/// Remaps, those of the types that globals have, with all below them, and the globals.
fn sheet(remaps: &[Record], types: &[Type], globals: Vec<Global>) -> Sheet {
    let mut used = vec![false; types.len()];
    globals.iter().for_each(|g| used[g.ty as usize] = true);
    for (n, ty) in types.iter().enumerate().rev() {
        if used[n] {
            references(&mut ty.inner.clone()).into_iter().for_each(|ty| used[*ty as usize] = true);
        }
    }
    let place = |ty: u16| used[..ty as usize].iter().filter(|used| **used).count() as u16;
    let mut records = remaps.to_vec();
    for (ty, _) in types.iter().zip(&used).filter(|(_, used)| **used) {
        let mut ty = ty.clone();
        references(&mut ty.inner).into_iter().for_each(|ty| *ty = place(*ty));
        records.push(Record::Type(ty));
    }
    records.extend(globals.into_iter().map(|g| Record::Global(Global { ty: place(g.ty), ..g })));
    Sheet { start: 0, flags: 0, records }
}

/// The entries that a type refers to.
fn references(inner: &mut Inner) -> Vec<&mut u16> {
    match inner {
        Inner::Array { base, .. } | Inner::BindingArray { base, .. } => vec![base],
        Inner::Pointer { base, .. } => vec![base],
        Inner::Struct { members, .. } => members.iter_mut().map(|m| &mut m.ty).collect(),
        _ => Vec::new(),
    }
}

fn fits(types: &[Type], globals: Vec<Global>) -> Case {
    domain(&sheet(&[], types, globals))
}

/// Bases with the entries below them; the last one is meant.
fn bases() -> Vec<Vec<Inner>> {
    let dynamic = || Inner::Array { base: 0, size: 0, stride: 4 };
    let matrix = || Inner::Matrix { columns: 2, rows: 3, width: 4 };
    vec![
        vec![float()],
        vec![matrix()],
        vec![float(), Inner::Array { base: 0, size: 5, stride: 16 }],
        // Dynamic itself, which brings no Block.
        vec![float(), dynamic()],
        vec![structure(&[])],
        vec![float(), structure(&[0, 0])],
        vec![matrix(), structure(&[0])],
        // A dynamic array alone, last, first, in between and everywhere: each brings Block.
        vec![float(), dynamic(), structure(&[1])],
        vec![float(), dynamic(), structure(&[0, 1])],
        vec![float(), dynamic(), structure(&[1, 0])],
        vec![float(), dynamic(), structure(&[0, 1, 0])],
        vec![float(), dynamic(), structure(&[1, 1])],
        // In a member's members, or a dynamic BindingArray: these do not.
        vec![float(), dynamic(), structure(&[0, 1]), structure(&[0, 2])],
        vec![float(), binding_array(0, 0), structure(&[0, 1])],
        vec![float(), binding_array(0, 3)],
        vec![Inner::Image { dim: 1, arrayed: 0, class: STORED, first: 11, second: 1 }],
        vec![float(), Inner::Pointer { base: 0, space: UNIFORM, access: 0 }],
    ]
}

/// An entry that stands so many further behind, with all that it refers to.
fn moved(inner: &Inner, by: u16) -> Inner {
    let mut inner = inner.clone();
    references(&mut inner).into_iter().for_each(|ty| *ty += by);
    inner
}

/// A base's entries and BindingArrays of it, whose indexes come beside.
fn with_arrays(base: &[Inner], sizes: &[u32]) -> (Vec<Type>, Vec<u16>) {
    let mut types: Vec<Type> = base.iter().cloned().map(plain).collect();
    let last = types.len() as u16 - 1;
    for &size in sizes {
        // One that is there before is told apart by its name.
        let array = plain(binding_array(last, size));
        types.push(if types.contains(&array) { named(array.inner) } else { array });
    }
    (types, (last + 1..=last + sizes.len() as u16).collect())
}

/// All of it; `bound_of` is the reference's bound.
pub fn blocks(bound_of: &dyn Fn(&[u8]) -> Option<u32>) -> Vec<Case> {
    let mut cases = of_one_array();
    cases.extend(of_two_arrays());
    cases.extend(of_one_id());
    cases.extend(of_two_bases());
    cases.extend(every_sequence());
    cases.extend(every_space());
    cases.extend(every_binding());
    cases.extend(full_sheets(bound_of));
    cases
}

/// One to four Storage globals of one BindingArray, with decorations of their own and without.
fn of_one_array() -> Vec<Case> {
    let mut cases = Vec::new();
    for base in bases() {
        for size in [0, 4] {
            let (types, arrays) = with_arrays(&base, &[size]);
            for count in 1..=4 {
                let bare = vec![stored(arrays[0], 0); count];
                let decorated = (0..count).map(|n| stored(arrays[0], n)).collect();
                let bound = |n: usize| Global { bound: 1, binding: n as u32, ..bare[n].clone() };
                cases.push(fits(&types, (0..count).map(bound).collect()));
                cases.push(fits(&types, bare));
                cases.push(fits(&types, decorated));
            }
        }
    }
    cases
}

/// Two BindingArrays of one base, of one size and of others.
fn of_two_arrays() -> Vec<Case> {
    let mut cases = Vec::new();
    for base in bases() {
        for sizes in [[0, 0], [4, 4], [0, 4], [4, 7]] {
            let (types, arrays) = with_arrays(&base, &sizes);
            for order in [&[0, 1][..], &[1, 0], &[0, 0, 1], &[0, 1, 0, 1]] {
                let globals = order.iter().enumerate().map(|(n, &of)| stored(arrays[of], n));
                cases.push(fits(&types, globals.collect()));
            }
        }
    }
    cases
}

/// Two entries as bases that have one id, and two that are as like and have two. Names are
/// equal where entries tell themselves apart without.
fn of_one_id() -> Vec<Case> {
    let scalar = |kind, width| Inner::Scalar { kind, width };
    let atomic = |kind, width| Inner::Atomic { kind, width };
    let image = |second| Inner::Image { dim: 1, arrayed: 0, class: STORED, first: 11, second };
    let pointer = |access| Inner::Pointer { base: 0, space: STORAGE, access };
    let array = |stride| Inner::Array { base: 0, size: 0, stride };
    let mut pairs = vec![
        [named(scalar(UINT, 4)), named(atomic(UINT, 4))],
        [named(atomic(FLOAT, 4)), named(scalar(FLOAT, 4))],
        [named(image(1)), named(image(2))],
        [named(Inner::Sampler { comparison: 0 }), named(Inner::Sampler { comparison: 1 })],
        [named(pointer(1)), named(pointer(3))],
        // Of two ids.
        [named(scalar(UINT, 4)), named(atomic(SINT, 4))],
        [named(structure(&[0])), named(structure(&[0, 0]))],
    ];
    for inner in [
        float(),
        atomic(UINT, 4),
        Inner::Vector { size: 3, kind: FLOAT, width: 4 },
        Inner::Matrix { columns: 2, rows: 2, width: 4 },
        Inner::AccelerationStructure,
        Inner::RayQuery,
        // Of two ids.
        array(8),
        structure(&[]),
        structure(&[0]),
        structure(&[1, 0]),
    ] {
        pairs.push([plain(inner.clone()), named(inner)]);
    }
    let mut cases = Vec::new();
    for [one, other] in pairs {
        // What they refer to stands before them.
        let types = [
            plain(scalar(FLOAT, 8)),
            plain(array(4)),
            one,
            other,
            named(binding_array(2, 0)),
            named(binding_array(3, 0)),
        ];
        for order in [&[4, 5][..], &[5, 4], &[4, 5, 4, 5]] {
            for flags in 0..4 {
                let globals = order.iter().enumerate();
                let globals = globals
                    .map(|(n, &ty)| Global { name: Some(NAME.to_vec()), ..stored(ty, n) })
                    .collect();
                cases.push(domain(&Sheet { flags, ..sheet(&[], &types, globals) }));
            }
        }
    }
    cases
}

/// Any two bases, each with its own Block.
fn of_two_bases() -> Vec<Case> {
    let mut cases = Vec::new();
    for one in bases() {
        for other in bases() {
            let (mut types, arrays) = with_arrays(&one, &[0]);
            let first = types.len() as u16;
            // Named, as they may be equal to the first.
            types.extend(other.iter().map(|inner| named(moved(inner, first))));
            let second = types.len() as u16;
            types.push(named(binding_array(second - 1, 0)));
            let order = [arrays[0], second, arrays[0], second];
            let globals = |order: &[u16]| {
                order.iter().enumerate().map(|(n, &ty)| stored(ty, n)).collect::<Vec<_>>()
            };
            cases.push(fits(&types, globals(&order[..2])));
            cases.push(fits(&types, globals(&order)));
        }
    }
    cases
}

/// Types of which globals are put into every order below.
fn to_order() -> Vec<Type> {
    [
        float(),
        Inner::Array { base: 0, size: 0, stride: 4 },
        structure(&[0]),
        structure(&[0, 1]),
        binding_array(2, 0),
        binding_array(2, 3),
        binding_array(3, 0),
        Inner::Atomic { kind: FLOAT, width: 4 },
        binding_array(0, 0),
        binding_array(7, 0),
    ]
    .map(plain)
    .to_vec()
}

/// Up to three globals in every order: BindingArrays of three bases in Storage space and
/// beside it, and Storage globals of two bases themselves, one of them in a wrapper.
fn every_sequence() -> Vec<Case> {
    let types = to_order();
    let all = [
        (4, STORAGE),
        (5, STORAGE),
        (6, STORAGE),
        (8, STORAGE),
        (9, STORAGE),
        (2, STORAGE),
        (3, STORAGE),
        (4, UNIFORM),
        (6, HANDLE),
    ];
    let mut rows: Vec<Vec<(u16, u8)>> = vec![Vec::new()];
    let mut cases = Vec::new();
    for _ in 0..3 {
        rows = rows.iter().flat_map(|row| all.map(|next| [&row[..], &[next]].concat())).collect();
        for row in &rows {
            let made = |(n, &(ty, space)): (usize, &(u16, u8))| match space {
                STORAGE => stored(ty, n),
                _ => global(ty, space, 0),
            };
            cases.push(fits(&types, row.iter().enumerate().map(made).collect()));
        }
    }
    cases
}

/// Three globals of one BindingArray, each in every space that it may be in.
fn every_space() -> Vec<Case> {
    let types = to_order();
    let spaces = [UNIFORM, STORAGE, HANDLE, PUSH_CONSTANT];
    let mut cases = Vec::new();
    for ty in [4, 6, 8] {
        for n in 0..64 {
            let three = [spaces[n / 16], spaces[n / 4 % 4], spaces[n % 4]];
            let access = |space| if space == STORAGE { 3 } else { 0 };
            let globals = three.map(|space| global(ty, space, access(space)));
            cases.push(fits(&types, globals.to_vec()));
        }
    }
    cases
}

/// Three Storage globals of BindingArrays of one base, each unbound, at a binding that is
/// remapped, at another that is remapped to the same size, and at one that is not.
fn every_binding() -> Vec<Case> {
    let remap = |binding| Record::Remap { group: 1, binding, size: 7 };
    let remaps = [remap(0), remap(1)];
    let types = to_order();
    let mut cases = Vec::new();
    for arrays in [[4, 5, 4], [6, 6, 6], [8, 9, 8]] {
        for n in 0..64 {
            let places = [n / 16, n / 4 % 4, n % 4];
            let placed = |at: usize| {
                let own = stored(arrays[at], at);
                match places[at] {
                    0 => own,
                    place => Global { bound: 1, group: 1, binding: place - 1, ..own },
                }
            };
            let globals = (0..3).map(placed).collect();
            cases.push(domain(&sheet(&remaps, &types, globals)));
        }
    }
    cases
}

/// As many globals as there may be: of one BindingArray, of as many BindingArrays of one
/// base, of 32 bases in turn, and of as many bases. Each also with its last id at the limit,
/// and one past it.
fn full_sheets(bound_of: &dyn Fn(&[u8]) -> Option<u32>) -> Vec<Case> {
    let most = MAX_GLOBALS as u16;
    let below = || [float(), Inner::Array { base: 0, size: 0, stride: 4 }].map(plain).to_vec();
    let one = |n| Type { name: Some(format!("{n}").into_bytes()), inner: structure(&[0, 1]) };
    let mut sheets = Vec::new();
    for (bases, arrays) in [(1, 1), (1, most), (32, 32), (most, most)] {
        let mut types = below();
        types.extend((0..bases).map(one));
        let first = types.len() as u16;
        let array = |n: u16| plain(binding_array(2 + n % bases, n as u32 / bases as u32));
        types.extend((0..arrays).map(array));
        let globals = (0..most).map(|n| stored(first + n % arrays, n as usize)).collect();
        sheets.push(sheet(&[], &types, globals));
    }
    // The same of structs that bring no Block, and a short one.
    for n in 0..sheets.len() {
        let mut other = sheets[n].clone();
        for record in &mut other.records {
            if let Record::Type(Type { inner: Inner::Struct { members, .. }, .. }) = record {
                members.pop();
            }
        }
        sheets.push(other);
    }
    sheets.push(sheet(&[], &to_order(), vec![stored(6, 0), stored(6, 1), stored(8, 2)]));
    let mut cases = Vec::new();
    for whole in sheets {
        let flags = DEBUG;
        cases.push(domain(&whole));
        let Some(bound) = bound_of(&whole.encode()) else { continue };
        let start = (MAX_BOUND - bound as u64) as u32;
        cases.push(domain(&Sheet { start, flags, ..whole.clone() }));
        let sheet = Sheet { start: start + 1, flags, ..whole }.encode();
        cases.push(Case { sheet, expect: Expect::Refused(15) });
    }
    cases
}

/// A short sheet drawn at random: one or two bases, BindingArrays of them, and globals of these
/// and of the bases, mostly in Storage space.
pub(super) fn some_blocks(random: &mut Random) -> Sheet {
    let (mut types, mut of_globals) = (Vec::new(), Vec::new());
    let add = |types: &mut Vec<Type>, inner: Inner| {
        // One that is there before is told apart by its name.
        let twin = types.contains(&plain(inner.clone()));
        types.push(if twin { named(inner) } else { plain(inner) });
        types.len() as u16 - 1
    };
    for _ in 0..1 + random.below(2) {
        let (first, mut base) = (types.len() as u16, 0);
        for inner in random.pick(&bases()) {
            base = add(&mut types, moved(&inner, first));
        }
        let sizes = random.pick(&[&[0][..], &[2], &[0, 2], &[0, 0]]);
        of_globals.extend(sizes.iter().map(|&size| add(&mut types, binding_array(base, size))));
        if matches!(types[base as usize].inner, Inner::Struct { .. }) && random.chance(1, 4) {
            of_globals.push(base);
        }
    }
    let mut globals = Vec::new();
    for _ in 0..1 + random.below(4) {
        let ty = random.pick(&of_globals);
        let space = random.pick(&[STORAGE, STORAGE, STORAGE, UNIFORM, HANDLE]);
        let access = if space == STORAGE { random.below(4) as u8 } else { 0 };
        let bound = random.below(2) as u8;
        let binding = bound as u32 * random.below(2) as u32;
        let name = random.chance(1, 3).then(|| NAME.to_vec());
        globals.push(Global { name, bound, binding, ..global(ty, space, access) });
    }
    let remap = Record::Remap { group: 0, binding: 0, size: 1 + random.below(3) as u32 };
    let remaps = if random.chance(1, 3) { vec![remap] } else { Vec::new() };
    let start = if random.chance(1, 3) { random.below(100_000) as u32 } else { 0 };
    Sheet { start, flags: random.below(4) as u8, ..sheet(&remaps, &types, globals) }
}
