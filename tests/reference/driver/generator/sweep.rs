//! The sweep: short sheets in which one small field after the other takes every value
//! around its limits. What it may hold comes from the documents' lists (values.rs); the
//! second reading has no part in what is expected.

use super::values::*;
use super::*;

/// Beside the bytes up to a few past a field's largest value: a width counted in bits,
/// the sign bit, and the last ones.
const FAR: [u8; 6] = [16, 64, 127, 128, 254, 255];

/// Numbers of 16 bits around `limit`, and ones that a single byte would confuse.
fn halves(limit: u16) -> Vec<u16> {
    let mut all: Vec<u16> = (0..limit + 2).collect();
    all.extend([127, 128, 255, 256, 257, 512, 65_534, 65_535]);
    all
}

#[derive(Default)]
struct Sweep {
    groups: Vec<(String, Vec<Case>)>,
    /// A sheet stands once.
    seen: std::collections::HashSet<Vec<u8>>,
}

impl Sweep {
    /// What comes now.
    fn group(&mut self, what: String) {
        self.groups.push((what, Vec::new()));
    }

    fn case(&mut self, sheet: Vec<u8>, expect: Expect) {
        if self.seen.insert(sheet.clone()) {
            let group = self.groups.last_mut().expect("a group");
            group.1.push(Case { sheet, expect });
        }
    }

    fn sheet(&mut self, records: &[Record], expect: Expect) {
        let sheet = Sheet { start: 0, flags: 0, records: records.to_vec() };
        self.case(sheet.encode(), expect);
    }

    /// A record of this tag and body behind others.
    fn raw(&mut self, before: &[Record], tag: u8, body: &[u8], expect: Expect) {
        let mut sheet = Sheet { start: 0, flags: 0, records: before.to_vec() }.encode();
        put_record(&mut sheet, &[&[tag], body].concat());
        self.case(sheet, expect);
    }

    /// Fields of a record that stands behind others, one after the other; all where
    /// none is named.
    fn fields(&mut self, before: &[Record], record: &Record, named: &[&str]) {
        let all = small_fields(&mut record.clone(), PAPERS).len();
        for n in 0..all {
            let mut changed = record.clone();
            let Field { what, values, .. } = small_fields(&mut changed, PAPERS).swap_remove(n);
            if !named.is_empty() && !named.contains(&what) {
                continue;
            }
            self.group(format!("{what} of {}", shown(record)));
            // A kind's width is tried with the other kinds' too.
            let top = if what == "width" { 8 } else { *values.iter().max().expect("a value") };
            for byte in (0..=255).filter(|&b| b <= top + 3 || FAR.contains(&b)) {
                let mut changed = record.clone();
                *small_fields(&mut changed, PAPERS).swap_remove(n).byte = byte;
                let expect = match values.contains(&byte) {
                    false => Expect::Refused(10),
                    true => expected_of(&changed),
                };
                self.sheet(&[before, &[changed]].concat(), expect);
            }
        }
    }
}

fn shown(record: &Record) -> String {
    match record {
        Record::Type(t) => format!("{:?}", t.inner),
        Record::Constant(c) => format!("{c:?}"),
        Record::Global(g) => format!("a global in space {}, bound {}", g.space, g.bound),
        other => format!("{other:?}"),
    }
}

/// Of a record whose values all fit, alone but for a float that it refers to: only a
/// global can be unfit.
fn expected_of(record: &Record) -> Expect {
    match record {
        Record::Global(g) if g.space == FUNCTION => Expect::Refused(13),
        Record::Global(g) if g.bound == 1 && !matches!(g.space, UNIFORM | STORAGE | HANDLE) => {
            Expect::Refused(13)
        }
        _ => Expect::Domain,
    }
}

/// Refused with this number unless something holds.
fn unless(fits: bool, number: u8) -> Expect {
    if fits {
        Expect::Domain
    } else {
        Expect::Refused(number)
    }
}

/// All groups, each with what it sweeps over.
pub fn sweep() -> Vec<(String, Vec<Case>)> {
    let mut s = Sweep::default();
    header_bytes(&mut s);
    tags_and_lengths(&mut s);
    names_and_counts(&mut s);
    plain_types(&mut s);
    images(&mut s);
    constants(&mut s);
    globals(&mut s);
    references(&mut s);
    functions(&mut s);
    strides(&mut s);
    blocks(&mut s);
    s.groups.retain(|(_, cases)| !cases.is_empty());
    s.groups
}

fn float() -> Record {
    unnamed(Inner::Scalar { kind: FLOAT, width: 4 })
}

fn literal(value: u32) -> Record {
    Record::Constant(Constant::Literal(Literal::F32(value)))
}

fn header_bytes(s: &mut Sweep) {
    let bytes: Vec<u8> = (0..=8).chain([32]).chain(FAR).collect();
    s.group("version".into());
    for &version in &bytes {
        let mut sheet = header(0, 0);
        sheet[0] = version;
        s.case(sheet, unless(version == 1, 2));
    }
    s.group("flags".into());
    for &flags in &bytes {
        s.case(header(0, flags), unless(flags <= 3, 3));
    }
    s.group("start".into());
    for start in [1, 255, 256, 65_536, 4_194_302, 4_194_303, 4_194_304, 1 << 24, u32::MAX] {
        s.case(header(start, 0), unless(start <= 4_194_302, 15));
    }
}

fn tags_and_lengths(s: &mut Sweep) {
    s.group("tag of a record without a body".into());
    let tags = tags(PAPERS);
    let near = |&t: &u8| tags.iter().any(|&known| t.abs_diff(known) <= 3) || FAR.contains(&t);
    for tag in (0..=255u8).filter(near) {
        // Available alone needs none.
        let expect = if tags.contains(&tag) { unless(tag == 1, 8) } else { Expect::Refused(5) };
        s.raw(&[], tag, &[], expect);
    }
    s.group("length of a record of 4 bytes".into());
    for length in (0..=7).chain([127, 128, 255, 256, 257, 260, 512, 1024, 65_535]) {
        let mut sheet = header(0, 0);
        sheet.extend(u16::to_be_bytes(length));
        sheet.extend(float().encode());
        // The shorter ones end before the fields.
        s.case(sheet, unless(length == 4, if matches!(length, 1..=3) { 8 } else { 4 }));
    }
    s.group("bytes of Available".into());
    for bytes in 0..=9 {
        s.raw(&[], 1, &vec![0; bytes], unless(bytes % 4 == 0, 8));
    }
    let before = [float(), literal(1)];
    let of_each_tag = [
        Record::Remap { group: 0, binding: 0, size: 1 },
        unnamed(Inner::Scalar { kind: UINT, width: 4 }),
        unnamed(Inner::Vector { size: 2, kind: FLOAT, width: 4 }),
        unnamed(Inner::Matrix { columns: 2, rows: 2, width: 4 }),
        unnamed(Inner::Atomic { kind: UINT, width: 4 }),
        unnamed(Inner::Pointer { base: 0, space: PRIVATE, access: 0 }),
        unnamed(Inner::ValuePointer { size: 2, kind: FLOAT, width: 4, space: 0, access: 0 }),
        unnamed(Inner::Array { base: 0, size: 2, stride: 4 }),
        unnamed(structure(&[0])),
        unnamed(Inner::Image { dim: 1, arrayed: 0, class: SAMPLED, first: FLOAT, second: 0 }),
        unnamed(Inner::Sampler { comparison: 0 }),
        unnamed(Inner::AccelerationStructure),
        unnamed(Inner::RayQuery),
        unnamed(Inner::BindingArray { base: 0, size: 2 }),
        Record::Constant(Constant::Alias(0)),
        Record::Constant(Constant::Zero(0)),
        Record::Constant(Constant::Splat { size: 2, value: 0 }),
        Record::Global(global(0, UNIFORM, 0)),
    ];
    s.group("one byte too few and one too many, of each tag".into());
    for record in of_each_tag {
        let before = match record {
            Record::Remap { .. } => &before[..0],
            Record::Type(_) => &before[..1],
            _ => &before[..],
        };
        let bytes = record.encode();
        s.raw(before, bytes[0], &bytes[1..bytes.len() - 1], Expect::Refused(8));
        s.raw(before, bytes[0], &[&bytes[1..], &[0]].concat(), Expect::Refused(8));
    }
}

fn names_and_counts(s: &mut Sweep) {
    s.group("length of a name that is there".into());
    for length in (0..=8).chain([127, 128, 253, 254]) {
        let name = Some(vec![b'n'; length]);
        let records = vec![Record::Type(Type { name, inner: Inner::RayQuery })];
        s.case(Sheet { start: 0, flags: DEBUG, records }.encode(), Expect::Domain);
    }
    s.group("length of a name that is not there".into());
    for length in (0..=4).chain(FAR) {
        s.raw(&[], 26, &[length], unless(matches!(length, 0 | 255), 8));
    }
    s.group("count of a struct's members that are there".into());
    for count in (0..=3).chain(62..=67).chain([127, 128, 254, 255]) {
        let records = [float(), unnamed(structure(&vec![0; count]))];
        s.sheet(&records, unless(count <= MAX_MEMBERS, 10));
    }
    s.group("count of members where one is there".into());
    for count in (0..=3).chain([63, 64, 65]).chain(FAR) {
        let mut body = unnamed(structure(&[0])).encode()[1..].to_vec();
        body[5] = count;
        s.raw(&[float()], 23, &body, unless(count == 1, 8));
    }
    let vector = unnamed(Inner::Vector { size: 3, kind: FLOAT, width: 4 });
    let before = [vector, literal(1)];
    s.group("count of parts of a vec3 that are there".into());
    for count in halves(4).into_iter().filter(|&c| c <= 512) {
        let parts = vec![0; count as usize];
        let compose = Record::Constant(Constant::Compose { ty: 0, parts });
        s.sheet(&[&before[..], &[compose]].concat(), unless(count == 3, 13));
    }
    s.group("count of parts where three are there".into());
    for count in halves(4) {
        let mut body = vec![0, 0];
        body.extend(count.to_be_bytes());
        body.extend([0; 6]);
        s.raw(&before, 67, &body, unless(count == 3, 8));
    }
    s.group("sizes of arrays, byte by byte; 0 is dynamic".into());
    for size in [0, 1, 1 << 8, 1 << 16, 1 << 24, u32::MAX] {
        s.sheet(&[float(), unnamed(Inner::Array { base: 0, size, stride: 4 })], Expect::Domain);
        s.sheet(&[float(), unnamed(Inner::BindingArray { base: 0, size })], Expect::Domain);
    }
    s.group("size of a remap, byte by byte".into());
    for size in [0, 1, 1 << 8, 1 << 16, 1 << 24, u32::MAX] {
        s.sheet(&[Record::Remap { group: 0, binding: 0, size }], unless(size != 0, 10));
    }
}

fn plain_types(s: &mut Sweep) {
    // Every field of a float, the width of the other kinds, and the kind where Bool's
    // width stands, which no other kind's rule would refuse first.
    type Made = fn(u8, u8) -> Inner;
    let made: [Made; 4] = [
        |kind, width| Inner::Scalar { kind, width },
        |kind, width| Inner::Atomic { kind, width },
        |kind, width| Inner::Vector { size: 2, kind, width },
        |kind, width| Inner::ValuePointer { size: 2, kind, width, space: PRIVATE, access: 0 },
    ];
    for make in made {
        s.fields(&[], &unnamed(make(FLOAT, 4)), &[]);
        for (kind, width) in [(SINT, 4), (UINT, 4)] {
            s.fields(&[], &unnamed(make(kind, width)), &["width"]);
        }
        s.fields(&[], &unnamed(make(BOOL, 1)), &["kind", "width"]);
    }
    s.fields(&[], &unnamed(Inner::Matrix { columns: 2, rows: 3, width: 4 }), &[]);
    // Paper 1: each kind and size at width 2, and the strides of its matrices.
    for make in made {
        s.fields(&[], &unnamed(make(FLOAT, HALF.1)), &["kind", "size"]);
    }
    let matrix = |rows| unnamed(Inner::Matrix { columns: 2, rows, width: HALF.1 });
    s.fields(&[], &matrix(3), &[]);
    s.group("rows of a matrix of width 2 that is a member".into());
    for rows in 2..=4 {
        s.sheet(&[matrix(rows), unnamed(structure(&[0]))], Expect::Domain);
    }
    s.group("a scalar of width 2 where no capability is available".into());
    for (kind, width) in [HALF, (SINT, 2), (UINT, 2)] {
        let scalar = unnamed(Inner::Scalar { kind, width });
        s.sheet(&[Record::Available(Vec::new()), scalar], Expect::Domain);
    }
    s.fields(&[], &unnamed(Inner::Sampler { comparison: 0 }), &[]);
    // The access in each space.
    for space in FUNCTION..=PUSH_CONSTANT {
        let pointer = Inner::Pointer { base: 0, space, access: 0 };
        s.fields(&[float()], &unnamed(pointer), if space == 0 { &[] } else { &["access"] });
        let pointer = Inner::ValuePointer { size: 0, kind: FLOAT, width: 4, space, access: 0 };
        s.fields(&[], &unnamed(pointer), &["access"]);
    }
}

fn images(s: &mut Sweep) {
    let image = |dim, arrayed, class, first, second| {
        unnamed(Inner::Image { dim, arrayed, class, first, second })
    };
    for class in [SAMPLED, DEPTH, STORED] {
        s.fields(&[], &image(1, 0, class, 0, 0), &[]);
        for dim in [D1, 2, CUBE] {
            s.fields(&[], &image(dim, 0, class, 0, 0), &["arrayed"]);
        }
    }
    for kind in [UINT, FLOAT] {
        s.fields(&[], &image(1, 0, SAMPLED, kind, 0), &["second class byte"]);
    }
    s.group("access of each storage format".into());
    for format in 0..40 {
        for access in [0, 3, 4] {
            s.sheet(&[image(1, 0, STORED, format, access)], unless(access <= 3, 10));
        }
    }
    // The Rust says which formats miss a capability then.
    s.group("each storage format where no capability is available".into());
    for format in 0..40 {
        s.sheet(&[Record::Available(Vec::new()), image(1, 0, STORED, format, 0)], Expect::Domain);
    }
}

fn constants(s: &mut Sweep) {
    s.group("form of a literal without a value, and with 1 to 9 bytes".into());
    for form in (0..=7).chain(FAR) {
        let lengths: &[usize] = if form <= 4 { &[0, 1, 2, 3, 4, 5, 7, 8, 9] } else { &[0, 4] };
        for &bytes in lengths {
            let expect = match form {
                0 => unless(bytes == 8, 8),
                1..=3 => unless(bytes == 4, 8),
                4 => unless(bytes == 1, 8),
                _ => Expect::Refused(10),
            };
            s.raw(&[], 64, &[&[form][..], &vec![0; bytes]].concat(), expect);
        }
    }
    // Paper 1: "literals keep their forms".
    s.group("form of a literal of two bytes".into());
    for form in 5..=8 {
        s.raw(&[], 64, &[form, 0, 0], Expect::Refused(10));
    }
    s.fields(&[], &Record::Constant(Constant::Literal(Literal::Bool(0))), &[]);
    s.fields(&[literal(1)], &Record::Constant(Constant::Splat { size: 2, value: 0 }), &[]);
}

fn globals(s: &mut Sweep) {
    for space in FUNCTION..=PUSH_CONSTANT {
        let own = Record::Global(global(0, space, 0));
        s.fields(&[float()], &own, if space == UNIFORM { &[] } else { &["bound", "access"] });
    }
    s.group("group and binding, byte by byte, unbound and bound".into());
    for shift in [0, 8, 16, 24] {
        for (group, binding) in [(1 << shift, 0), (0, 1 << shift)] {
            for bound in 0..2 {
                let own = Global { bound, group, binding, ..global(0, UNIFORM, 0) };
                s.sheet(&[float(), Record::Global(own)], unless(bound == 1, 10));
            }
        }
    }
}

/// Two types and two constants are there, a float and its like of each.
fn references(s: &mut Sweep) {
    let vector = unnamed(Inner::Vector { size: 2, kind: FLOAT, width: 4 });
    let types = [float(), vector];
    let all = [&types[..], &[literal(1), literal(2)]].concat();
    let of_types: [(&str, fn(u16) -> Record); 6] = [
        ("base of a pointer", |base| unnamed(Inner::Pointer { base, space: PRIVATE, access: 0 })),
        ("base of an array", |base| unnamed(Inner::Array { base, size: 0, stride: 4 })),
        ("base of a BindingArray", |base| unnamed(Inner::BindingArray { base, size: 0 })),
        ("type of a member", |ty| unnamed(structure(&[ty]))),
        ("type of a zero", |ty| Record::Constant(Constant::Zero(ty))),
        ("type of a global", |ty| Record::Global(global(ty, PRIVATE, 0))),
    ];
    for (what, make) in of_types {
        s.group(what.into());
        for index in halves(2) {
            s.sheet(&[&types[..], &[make(index)]].concat(), unless(index < 2, 11));
        }
    }
    let of_constants: [(&str, fn(u16) -> Constant); 3] = [
        ("constant of an alias", Constant::Alias),
        ("constant of a Splat", |value| Constant::Splat { size: 2, value }),
        ("last part of a Compose", |part| Constant::Compose { ty: 1, parts: vec![0, part] }),
    ];
    for (what, make) in of_constants {
        s.group(what.into());
        for index in halves(2) {
            let own = Record::Constant(make(index));
            s.sheet(&[&all[..], &[own]].concat(), unless(index < 2, 11));
        }
    }
    s.group("type of a Compose".into());
    for ty in halves(2) {
        let own = Record::Constant(Constant::Compose { ty, parts: vec![0, 1] });
        // A float is not composed.
        let expect = if ty == 0 { Expect::Refused(13) } else { unless(ty < 2, 11) };
        s.sheet(&[&all[..], &[own]].concat(), expect);
    }
    s.group("init of a global; 65,535 is none".into());
    for init in halves(2) {
        let own = Record::Global(Global { init, ..global(0, PRIVATE, 0) });
        s.sheet(&[&all[..], &[own]].concat(), unless(init < 2 || init == 65_535, 11));
    }
}

/// Paper 2. Two types are there, a float and a vector of two.
fn functions(s: &mut Sweep) {
    let vector = unnamed(Inner::Vector { size: 2, kind: FLOAT, width: 4 });
    let types = [float(), vector];
    let behind = |record: Record| [&types[..], &[record]].concat();
    let body = |record: Record| record.encode()[1..].to_vec();
    s.group("bytes of a function record".into());
    for bytes in 0..=9 {
        s.raw(&types, 48, &vec![0; bytes], unless(bytes == 3, 8));
    }
    s.group("one byte too few and one too many, of a function record".into());
    for parameters in [1, MAX_PARAMETERS, MAX_PARAMETERS + 1] {
        let whole = body(function(VOID, &vec![1; parameters]));
        s.raw(&types, 48, &whole[..whole.len() - 1], Expect::Refused(8));
        s.raw(&types, 48, &[&whole[..], &[0]].concat(), Expect::Refused(8));
    }
    s.group("count of parameters that are there".into());
    for count in (0..=20).chain([31, 32, 33, 63, 64, 65, 127, 128, 254, 255]) {
        for return_type in [VOID, 1] {
            let record = function(return_type, &vec![0; count]);
            s.sheet(&behind(record), unless(count <= MAX_PARAMETERS, 10));
        }
    }
    // 8 before 10.
    s.group("count of parameters where one is there, and where 17 are".into());
    for there in [1, MAX_PARAMETERS + 1] {
        for count in (0..=3).chain(14..=20).chain(FAR) {
            let mut body = body(function(0, &vec![1; there]));
            body[2] = count;
            let sound = count as usize == there;
            let number = if sound { 10 } else { 8 };
            s.raw(&types, 48, &body, unless(sound && there <= MAX_PARAMETERS, number));
        }
    }
    s.group("return type of a function record; 65,535 is void".into());
    for index in halves(2) {
        s.sheet(&behind(function(index, &[1])), unless(index < 2 || index == 65_535, 11));
    }
    let places: [(&str, fn(u16) -> Vec<u16>); 3] = [
        ("only parameter", |index| vec![index]),
        ("first of two parameters", |index| vec![index, 1]),
        ("last of 16 parameters", |index| [&[0; 15][..], &[index]].concat()),
    ];
    for (what, make) in places {
        s.group(format!("{what}; 65,535 is none"));
        for index in halves(2) {
            s.sheet(&behind(function(VOID, &make(index))), unless(index < 2, 11));
        }
    }
    // 10 before 11.
    s.group("17 parameters, and one of the types was not read".into());
    for index in [1, 2, 65_534, 65_535] {
        let parameters = [&[0; 16][..], &[index]].concat();
        s.sheet(&behind(function(VOID, &parameters)), Expect::Refused(10));
        s.sheet(&behind(function(index, &[0; 17])), Expect::Refused(10));
    }
    ranks_of_functions(s, &types);
}

/// A function record before and behind one of each rank: "its rank lies between types and
/// constants".
fn ranks_of_functions(s: &mut Sweep, types: &[Record]) {
    let function = function(VOID, &[]);
    let of_each_rank = [
        ("Available", Record::Available(Vec::new())),
        ("a remap", Record::Remap { group: 0, binding: 0, size: 1 }),
        ("a type", unnamed(Inner::Scalar { kind: UINT, width: 4 })),
        ("a function record", function.clone()),
        ("a constant", literal(1)),
        ("a global", Record::Global(global(0, UNIFORM, 0))),
    ];
    for (rank, (what, other)) in of_each_rank.into_iter().enumerate() {
        // What has a lower rank than types stands in front of them.
        let before = |record: &Record| match record {
            Record::Available(_) | Record::Remap { .. } => Vec::new(),
            _ => types.to_vec(),
        };
        s.group(format!("{what} before a function record, and behind one"));
        s.sheet(
            &[before(&other), vec![other.clone(), function.clone()]].concat(),
            unless(rank <= 3, 6),
        );
        s.sheet(&[before(&other), vec![function.clone(), other]].concat(), unless(rank >= 3, 6));
    }
}

/// Paper 4: each number of the table of strides, in a struct and in a wrapper, and what is at
/// its edges.
fn strides(s: &mut Sweep) {
    let matrix = |rows, width| unnamed(Inner::Matrix { columns: 3, rows, width });
    s.group("rows and width of a matrix that is a member".into());
    for width in 1..=9 {
        for rows in 1..=5 {
            let fits = (2..=4).contains(&rows) && [2, 4, 8].contains(&width);
            s.sheet(&[matrix(rows, width), unnamed(structure(&[0]))], unless(fits, 10));
        }
    }
    s.group("rows and width of a matrix, alone and under an array, in a wrapper".into());
    for width in [2, 4, 8] {
        for rows in 2..=4 {
            let array = unnamed(Inner::Array { base: 0, size: 5, stride: 96 });
            let [alone, under] = [0, 1].map(|ty| Record::Global(global(ty, UNIFORM, 0)));
            s.sheet(&[matrix(rows, width), array, alone, under], Expect::Domain);
        }
    }
}

/// Paper 5: the shortest sheets in which a base gets Block, and would get it again.
fn blocks(s: &mut Sweep) {
    let own = |ty, space, access| Record::Global(global(ty, space, access));
    let stored = |ty| own(ty, STORAGE, 3);
    let array = |base, size| unnamed(Inner::BindingArray { base, size });
    let dynamic = || unnamed(Inner::Array { base: 0, size: 0, stride: 4 });
    let atomic = || unnamed(Inner::Atomic { kind: FLOAT, width: 4 });
    let holds = |members: &[u16]| unnamed(structure(members));
    let uint = || unnamed(Inner::Scalar { kind: UINT, width: 4 });
    s.group("how many Storage globals of one BindingArray".into());
    for count in 1..=3 {
        let globals = vec![stored(1); count];
        s.sheet(&[&[float(), array(0, 0)], &globals[..]].concat(), Expect::Domain);
    }
    s.group("accesses of two Storage globals of one BindingArray".into());
    for (one, other) in [(3, 0), (3, 1), (3, 2), (0, 3), (0, 0), (1, 2)] {
        let globals = [own(1, STORAGE, one), own(1, STORAGE, other)];
        s.sheet(&[&[float(), array(0, 0)], &globals[..]].concat(), Expect::Domain);
    }
    s.group("spaces of two globals of one BindingArray".into());
    for one in [UNIFORM, STORAGE, HANDLE, PUSH_CONSTANT] {
        for other in [UNIFORM, STORAGE, HANDLE, PUSH_CONSTANT] {
            let globals = [own(1, one, 0), own(1, other, 0)];
            s.sheet(&[&[float(), array(0, 0)], &globals[..]].concat(), Expect::Domain);
        }
    }
    s.group("Storage globals of two BindingArrays of one base".into());
    for (one, other) in [(0, 1), (1, 0), (1, 2)] {
        let types = [float(), array(0, one), array(0, other)];
        s.sheet(&[&types[..], &[stored(1), stored(2)]].concat(), Expect::Domain);
        s.sheet(&[&types[..], &[stored(2), stored(1), stored(2)]].concat(), Expect::Domain);
    }
    s.group("Storage globals of BindingArrays of two entries, of one id and of two".into());
    for pair in [[float(), atomic()], [atomic(), float()], [float(), uint()]] {
        for order in [&[2, 3][..], &[3, 2], &[2, 3, 2]] {
            let globals: Vec<Record> = order.iter().map(|&ty| stored(ty)).collect();
            let arrays = [array(0, 0), array(1, 0)];
            s.sheet(&[&pair[..], &arrays, &globals].concat(), Expect::Domain);
        }
    }
    s.group("Storage globals of a BindingArray of a struct: a float, or a dynamic array".into());
    for members in [&[][..], &[0], &[1], &[0, 1], &[1, 0], &[0, 1, 0], &[1, 1], &[0, 0, 0]] {
        let types = [float(), dynamic(), holds(members), array(2, 0)];
        for count in 1..=2 {
            let globals = vec![stored(3); count];
            s.sheet(&[&types[..], &globals].concat(), Expect::Domain);
        }
    }
    s.group("Storage globals of a BindingArray of an array, which has ArrayStride".into());
    for size in [0, 2] {
        let types = [float(), unnamed(Inner::Array { base: 0, size, stride: 4 }), array(1, 0)];
        for count in 1..=2 {
            let globals = vec![stored(2); count];
            s.sheet(&[&types[..], &globals].concat(), Expect::Domain);
        }
    }
    s.group("a Storage global of a base itself, before its BindingArray's and behind it".into());
    for members in [&[0][..], &[1], &[0, 1], &[1, 0]] {
        let types = [float(), dynamic(), holds(members), array(2, 0)];
        s.sheet(&[&types[..], &[stored(2), stored(3)]].concat(), Expect::Domain);
        s.sheet(&[&types[..], &[stored(3), stored(2)]].concat(), Expect::Domain);
    }
    s.group("Storage globals of BindingArrays of two bases, a struct each, in turn".into());
    for members in [&[0][..], &[1]] {
        let inner = structure(members);
        let twin = Record::Type(Type { name: Some(Vec::new()), inner: inner.clone() });
        let types = [float(), dynamic(), unnamed(inner), twin, array(2, 0), array(3, 0)];
        for order in [&[4, 5][..], &[4, 5, 4], &[4, 5, 5]] {
            let globals: Vec<Record> = order.iter().map(|&ty| stored(ty)).collect();
            s.sheet(&[&types[..], &globals].concat(), Expect::Domain);
        }
    }
    s.group("remapped, or bound elsewhere, or unbound, of two Storage globals".into());
    let placed = |place| match place {
        None => stored(1),
        Some(binding) => Record::Global(Global { bound: 1, binding, ..global(1, STORAGE, 3) }),
    };
    let remap = Record::Remap { group: 0, binding: 0, size: 7 };
    for one in [Some(0), Some(1), None] {
        for other in [Some(0), Some(1), None] {
            let types = [float(), array(0, 0)];
            let globals = [placed(one), placed(other)];
            s.sheet(&[&[remap.clone()], &types[..], &globals].concat(), Expect::Domain);
        }
    }
    s.group("equal names of one id and of two, and of Storage globals".into());
    let named =
        |name: &str, inner| Record::Type(Type { name: Some(name.as_bytes().to_vec()), inner });
    let lane = Global { name: Some(b"lane".to_vec()), ..global(2, STORAGE, 3) };
    for (kind, name) in [(FLOAT, "lane"), (FLOAT, "belt"), (UINT, "lane")] {
        let first = named("lane", Inner::Scalar { kind: FLOAT, width: 4 });
        let second = named(name, Inner::Atomic { kind, width: 4 });
        for globals in [&[][..], &[2, 2], &[2, 3]] {
            let arrays = [array(0, 0), array(1, 0)];
            let named = |&ty: &u16| Record::Global(Global { ty, ..lane.clone() });
            let globals: Vec<Record> = globals.iter().map(named).collect();
            let records = [&[first.clone(), second.clone()], &arrays[..], &globals].concat();
            for flags in [0, DEBUG] {
                let sheet = Sheet { start: 0, flags, records: records.clone() };
                s.case(sheet.encode(), Expect::Domain);
            }
        }
    }
    s.group("start of two Storage globals of one BindingArray".into());
    for start in [1, 4_194_296, 4_194_297, 4_194_298, u32::MAX] {
        let records = vec![float(), array(0, 0), stored(1), stored(1)];
        let sheet = Sheet { start, flags: 0, records };
        s.case(sheet.encode(), unless(start <= 4_194_297, 15));
    }
}
