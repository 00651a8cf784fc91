//! The benchmark's sheets: a small, a middle and a full one, one mix in five sizes,
//! and every kind of sheet that could take long.

use crate::sheet::*;

const F32: u16 = 0;
const U32: u16 = 1;
const VECTOR: u16 = 2;
const MATRIX: u16 = 3;
const STRUCT: u16 = 4;
const ARRAY: u16 = 5;
const IMAGE: u16 = 6;
const SAMPLER: u16 = 7;
const IMAGES: u16 = 8;
/// How many types a mix begins with, those above.
const FIRST: usize = 9;

fn scalar(kind: u8) -> Inner {
    Inner::Scalar { kind, width: 4 }
}

fn unnamed(inner: Inner) -> Record {
    Record::Type(Type { name: None, inner })
}

fn named(name: String, inner: Inner) -> Record {
    Record::Type(Type { name: Some(name.into_bytes()), inner })
}

fn float(n: usize) -> Record {
    Record::Constant(Constant::Literal(Literal::F32(n as u32)))
}

fn compose(ty: u16, parts: Vec<u16>) -> Record {
    Record::Constant(Constant::Compose { ty, parts })
}

fn structure(span: u32, members: &[u16]) -> Inner {
    let member = |(n, &ty): (usize, &u16)| Member { ty, offset: 16 * n as u32, name: None };
    Inner::Struct { span, members: members.iter().enumerate().map(member).collect() }
}

fn global(ty: u16, space: u8) -> Global {
    let access = if space == STORAGE { 3 } else { 0 };
    Global { name: None, ty, space, access, bound: 0, group: 0, binding: 0, init: NO_INIT }
}

fn sheet(records: Vec<Record>) -> Vec<u8> {
    sheet_from(0, records)
}

fn sheet_from(start: u32, records: Vec<Record>) -> Vec<u8> {
    let bytes = Sheet { start, flags: DEBUG | NATIVE_ZERO, records }.encode();
    assert!(bytes.len() <= MAX_SHEET, "{} bytes", bytes.len());
    bytes
}

/// As many of a record as a sheet has room for behind others, but not more than `most`.
fn fill(mut records: Vec<Record>, most: usize, make: impl Fn(usize) -> Record) -> Vec<Record> {
    let size = |r: &Record| r.encode().len() + 2;
    let mut bytes = HEADER + records.iter().map(size).sum::<usize>();
    for n in 0..most {
        let record = make(n);
        bytes += size(&record);
        if bytes > MAX_SHEET {
            break;
        }
        records.push(record);
    }
    records
}

/// A sheet of document 01: a vec3 and an array of four of those.
pub fn p3() -> Vec<u8> {
    let vector = Inner::Vector { size: 3, kind: FLOAT, width: 4 };
    let array = Inner::Array { base: 0, size: 4, stride: 16 };
    let records = vec![unnamed(vector), unnamed(array)];
    Sheet { start: 0, flags: 0, records }.encode()
}

/// The sheet with the largest module: structs whose members are matrices, each with an empty name.
pub fn largest() -> Vec<u8> {
    let mut records = vec![unnamed(Inner::Matrix { columns: 2, rows: 2, width: 4 })];
    for span in 0.. {
        let bytes: usize = records.iter().map(|r| r.encode().len() + 2).sum();
        let left = MAX_SHEET - HEADER - bytes;
        // A struct takes 10 bytes, a member 7.
        if left < 10 {
            break;
        }
        let member = Member { ty: 0, offset: 0, name: Some(Vec::new()) };
        let members = vec![member; MAX_MEMBERS.min((left - 10) / 7)];
        records.push(named(String::new(), Inner::Struct { span, members }));
    }
    sheet(records)
}

fn mix_type(n: usize, name: &dyn Fn(&str, usize) -> String) -> Record {
    let kind = [FLOAT, UINT, SINT][n % 3];
    let size = 2 + (n / 3 % 3) as u8;
    let members = || {
        let list = [(F32, "exposure"), (VECTOR, "position"), (MATRIX, "view"), (ARRAY, "lanes")];
        let member = |(at, (ty, text)): (usize, (u16, &str))| Member {
            ty,
            offset: 64 * at as u32,
            name: Some(text.into()),
        };
        list.into_iter().enumerate().map(member).collect()
    };
    let inner = match n {
        0 => scalar(FLOAT),
        1 => scalar(UINT),
        2 => Inner::Vector { size: 4, kind: FLOAT, width: 4 },
        3 => Inner::Matrix { columns: 4, rows: 4, width: 4 },
        4 => structure(128, &[F32, VECTOR, MATRIX]),
        5 => Inner::Array { base: VECTOR, size: 4, stride: 16 },
        6 => Inner::Image { dim: 1, arrayed: 0, class: SAMPLED, first: FLOAT, second: 0 },
        7 => Inner::Sampler { comparison: 0 },
        8 => Inner::BindingArray { base: IMAGE, size: 8 },
        _ => match n % 12 {
            0 => Inner::Scalar { kind, width: 4 },
            1 => Inner::Vector { size, kind, width: 4 },
            2 => Inner::Matrix { columns: size, rows: 2 + (n % 3) as u8, width: 4 },
            3 => Inner::Atomic { kind: UINT, width: 4 },
            4 => Inner::Pointer { base: (n - 1) as u16, space: [1, 3, 6][n % 3], access: 0 },
            5 => Inner::ValuePointer { size, kind, width: 4, space: UNIFORM, access: 0 },
            6 => Inner::Array { base: VECTOR, size: n as u32, stride: 16 },
            7 => Inner::Struct { span: 256, members: members() },
            8 => {
                let first = [13, 17, 30, 33][n / 12 % 4];
                Inner::Image { dim: 1, arrayed: 0, class: STORED, first, second: 3 }
            }
            9 => Inner::Image { dim: 1, arrayed: 1, class: SAMPLED, first: kind, second: 0 },
            10 => Inner::BindingArray { base: IMAGE, size: n as u32 },
            _ => structure(64, &[F32, U32, VECTOR]),
        },
    };
    named(name("type", n), inner)
}

fn mix_constant(n: usize) -> Record {
    // Every eighth constant is a float of its own.
    let float_of = |n: usize| (n - n % 8) as u16;
    Record::Constant(match n % 8 {
        0 => Constant::Literal(Literal::F32(0x3f80_0000 + n as u32)),
        1 => Constant::Literal(Literal::U32(n as u32)),
        2 => Constant::Literal(Literal::I32(n as u32)),
        3 => Constant::Alias(float_of(n)),
        4 => Constant::Zero([VECTOR, STRUCT, ARRAY][n / 8 % 3]),
        5 => {
            let part = float_of(n);
            Constant::Compose { ty: VECTOR, parts: vec![0, part, 0, part] }
        }
        6 => Constant::Splat { size: 4, value: float_of(n) },
        _ => Constant::Literal(Literal::U32(1_000 + n as u32)),
    })
}

fn mix_global(n: usize, name: &dyn Fn(&str, usize) -> String) -> Record {
    let (ty, space) = match n % 6 {
        0 => (STRUCT, UNIFORM),
        1 => (ARRAY, STORAGE),
        2 => (IMAGE, HANDLE),
        3 => (SAMPLER, HANDLE),
        4 => (IMAGES, HANDLE),
        _ => (VECTOR, [PRIVATE, WORKGROUP][n / 6 % 2]),
    };
    let bound = (n % 6 != 5) as u8;
    Record::Global(Global {
        name: Some(name("global", n).into_bytes()),
        bound,
        group: (bound * 2) as u32,
        binding: bound as u32 * n as u32,
        ..global(ty, space)
    })
}

/// Types, constants and globals of every family, with names of one length.
pub fn mix(types: usize, constants: usize, globals: usize, length: usize) -> Vec<u8> {
    mix_with(&[], types, constants, globals, length)
}

/// The same with function records.
fn mix_with(
    functions: &[Record],
    types: usize,
    constants: usize,
    globals: usize,
    length: usize,
) -> Vec<u8> {
    assert!(types >= FIRST);
    let name = |what: &str, n: usize| format!("{:_<length$}", format!("{n}_{what}"));
    let mut records: Vec<Record> = (0..types).map(|n| mix_type(n, &name)).collect();
    records.extend(functions.iter().cloned());
    records.extend((0..constants).map(mix_constant));
    records.extend((0..globals).map(|n| mix_global(n, &name)));
    Sheet { start: 0, flags: DEBUG | NATIVE_ZERO, records }.encode()
}

/// A mix with all that a sheet may have, its names as long as they can be.
fn full_with(functions: &[Record]) -> Vec<u8> {
    let made = |length| mix_with(functions, 256, 256, 64, length);
    (12..200).map(made).take_while(|sheet| sheet.len() <= MAX_SHEET).last().expect("room")
}

/// How long the names of a full mix can be.
pub fn full_length() -> usize {
    (12..200)
        .take_while(|&length| mix(256, 256, 64, length).len() <= MAX_SHEET)
        .last()
        .expect("room")
}

/// One of up to 64 function records over 256 types, of as many parameters as there may be: the
/// last type at every place but one, where each has a type of its own.
fn function_but_for(place: usize, n: usize) -> Record {
    let mut parameters = vec![255; MAX_PARAMETERS];
    parameters[place] = (MAX_TYPES - MAX_FUNCTIONS + n) as u16;
    Record::Function(FunctionType { return_type: 254, parameters })
}

/// The factor of the hash by which types are told apart, `crates/sheet/src/hash.rt`: a hash is the
/// sum of a record's tag and the big-endian words of its body, each times the factor once for each
/// word behind it.
const FACTOR: u32 = 2_654_435_761;

/// Eight bytes for each of so many names, of which no two are the same. Where they are two words of a
/// body, the hash is the same: what the first word adds, the second takes away.
fn eights_of_one_hash(count: usize) -> Vec<[u8; 8]> {
    let sum = |first: u32, second: u32| first.wrapping_mul(FACTOR).wrapping_add(second);
    let all = sum(u32::from_be_bytes(*b"nnnn"), u32::from_be_bytes(*b"nnnn"));
    let graphic = |word: u32| word.to_be_bytes().iter().all(u8::is_ascii_graphic);
    let words =
        (u32::from_be_bytes(*b"aaaa")..).filter(|&first| graphic(first)).filter_map(|first| {
            let second = all.wrapping_sub(sum(first, 0));
            graphic(second).then(|| (first as u64) << 32 | second as u64)
        });
    words.map(u64::to_be_bytes).take(count).collect()
}

/// The first seven bytes for each of so many names of one length, of which no two are the same. With
/// the length byte they are the first two words of a body, and its hash is the same.
fn sevens_of_one_hash(length: u8, count: usize) -> Vec<[u8; 7]> {
    let sum = |first: u32, second: u32| first.wrapping_mul(FACTOR).wrapping_add(second);
    let most = |three: u32| u32::from(length) << 24 | three;
    let all = sum(most(0x6e_6e6e), u32::from_be_bytes(*b"nnnn"));
    let graphic = |bytes: &[u8; 8]| bytes[1..].iter().all(u8::is_ascii_graphic);
    let words = (0x61_6161..0x7f_7f7f).map(|three| {
        let second = all.wrapping_sub(sum(most(three), 0));
        (u64::from(most(three)) << 32 | u64::from(second)).to_be_bytes()
    });
    let seven = |bytes: [u8; 8]| bytes[1..].try_into().expect("seven");
    words.filter(graphic).map(seven).take(count).collect()
}

/// Scalars with names, as many and as long as make a sheet of so many bytes.
pub fn of_length(bytes: usize) -> Vec<u8> {
    let mut records = Vec::new();
    let mut left = bytes - HEADER;
    // A record has six bytes and its name.
    while left > 0 {
        let size = if left <= 60 { left } else { 30 };
        let name = format!("{:_<1$}", records.len(), size - 6);
        records.push(named(name, scalar(FLOAT)));
        left -= size;
    }
    let made = sheet(records);
    assert!(made.len() == bytes);
    made
}

/// A type whose name holds those eight bytes. The length byte and three bytes of a name are the
/// first word of the body, so that the next two words are bytes 3 to 10 of the name.
fn with_eight(eight: [u8; 8], length: usize, inner: Inner) -> Record {
    let mut name = vec![b'n'; length];
    name[3..11].copy_from_slice(&eight);
    Record::Type(Type { name: Some(name), inner })
}

/// What could take long, each with what it is.
pub fn worst() -> Vec<(&'static str, Vec<u8>)> {
    let mut out: Vec<(&'static str, Vec<u8>)> = Vec::new();
    let mut add = |what, records| out.push((what, sheet(records)));
    let thirty =
        || vec![unnamed(scalar(FLOAT)), unnamed(Inner::Array { base: 0, size: 30, stride: 4 })];
    let with = |mut records: Vec<Record>, more: Vec<Record>| {
        records.extend(more);
        records
    };
    let text = |n: usize, length: usize| format!("{n:0length$}");

    // Composites.
    let literals = |count: usize| with(thirty(), (0..count).map(float).collect());
    // Of 30 parts, all equal but for one, and but for two that stand side by side. The last part is compared first, then the
    // others from the front.
    let but_one = |place: usize| {
        move |n: usize| {
            let mut parts = vec![0; 30];
            parts[place] = n as u16;
            compose(1, parts)
        }
    };
    let but_two = |place: usize| {
        move |n: usize| {
            let mut parts = vec![0; 30];
            (parts[place], parts[place + 1]) = (n as u16 / 16, n as u16 % 16);
            compose(1, parts)
        }
    };
    add("128 composites of 30 parts, equal but for the last", fill(literals(128), 128, but_one(29)));
    add("128 composites of 30 parts, equal but for the first", fill(literals(128), 128, but_one(0)));
    add(
        "about 240 composites of 30 parts, equal but for the last two",
        fill(literals(16), 240, but_two(28)),
    );
    add(
        "about 240 composites of 30 parts, equal but for the two before the last",
        fill(literals(16), 240, but_two(27)),
    );
    add(
        "about 240 equal composites of 30 parts",
        fill(literals(1), 255, |_| compose(1, vec![0; 30])),
    );
    let pair =
        vec![unnamed(scalar(FLOAT)), unnamed(Inner::Vector { size: 2, kind: FLOAT, width: 4 })];
    let of_two = |n: usize| compose(1, vec![n as u16 / 16, n as u16 % 16]);
    add(
        "240 different composites of 2 parts",
        fill(with(pair, (0..16).map(float).collect()), 240, of_two),
    );
    let long = 8_000;
    let big = Inner::Array { base: 0, size: long, stride: 4 };
    let records =
        vec![unnamed(scalar(FLOAT)), unnamed(big), float(1), compose(1, vec![0; long as usize])];
    add("one Compose of 8,000 parts", records);
    let half = Inner::Array { base: 0, size: 2_000, stride: 4 };
    let parts = |n: usize| {
        let mut parts = vec![0; 2_000];
        parts[1_999] = n as u16;
        compose(1, parts)
    };
    let records = with(vec![unnamed(scalar(FLOAT)), unnamed(half)], (0..4).map(float).collect());
    add("4 Composes of 2,000 parts, equal but for the last", fill(records, 4, parts));

    // Other constants.
    add("256 different literals", fill(vec![], 256, float));
    let sized = |n: usize| unnamed(Inner::Array { base: 0, size: 7_000 + n as u32, stride: 4 });
    let word = |n: usize| Record::Constant(Constant::Literal(Literal::U32(n as u32)));
    let arrays = fill(vec![unnamed(scalar(FLOAT))], 255, sized);
    add("255 arrays of different lengths, 256 other U32 literals", fill(arrays.clone(), 256, word));
    let zero = |n: usize| Record::Constant(Constant::Zero(n as u16));
    add("255 arrays, a zero of each", fill(arrays, 255, zero));
    let mut records = vec![float(1)];
    records.extend((0..127).map(|n| Record::Constant(Constant::Alias(n))));
    let splat = |n: usize| Record::Constant(Constant::Splat { size: 2 + n as u8 % 3, value: 127 });
    add("127 aliases, each of the one before, 128 Splats of the last", fill(records, 128, splat));

    // Types.
    let alike = |first: bool| {
        move |n: usize| {
            let mut name = vec![b'n'; 54];
            let at = if first { 0 } else { 52 };
            name[at..at + 2].copy_from_slice(&[b'a' + (n / 16) as u8, b'a' + (n % 16) as u8]);
            Record::Type(Type { name: Some(name), inner: scalar(FLOAT) })
        }
    };
    add("256 scalars alike but for the first bytes of long names", fill(vec![], 256, alike(true)));
    add("256 scalars alike but for the last bytes of long names", fill(vec![], 256, alike(false)));
    // Types of one hash are told apart byte by byte.
    let eights = eights_of_one_hash(256);
    let scalars = |n: usize| with_eight(eights[n], 54, scalar(FLOAT));
    add("256 scalars of one hash, alike but for eight bytes of names", fill(vec![], 256, scalars));
    let sevens = sevens_of_one_hash(54, 256);
    let in_front = |n: usize| {
        let mut name = vec![b'n'; 54];
        name[..7].copy_from_slice(&sevens[n]);
        Record::Type(Type { name: Some(name), inner: scalar(FLOAT) })
    };
    add(
        "256 scalars of one hash, alike but for the first seven bytes of names",
        fill(vec![], 256, in_front),
    );
    // The offsets of the first, the fifth and the ninth member are words of the body, seven apart.
    let two_of = |first: usize, count: usize| {
        move |n: usize| {
            let take_away = (n as u32).wrapping_mul(FACTOR.wrapping_pow(7)).wrapping_neg();
            let offset = |at: usize| match at {
                _ if at == first => n as u32,
                _ if at == first + 4 => take_away,
                _ => 0,
            };
            let member = |at: usize| Member { ty: 0, offset: offset(at), name: None };
            unnamed(Inner::Struct { span: 0, members: (0..count).map(member).collect() })
        }
    };
    add(
        "about 220 structs of one hash, alike but for the fifth and ninth member",
        fill(vec![unnamed(scalar(FLOAT))], 255, two_of(4, 9)),
    );
    add(
        "about 250 structs of one hash, alike but for the first and fifth member",
        fill(vec![unnamed(scalar(FLOAT))], 255, two_of(0, 8)),
    );
    for (what, character, count) in [
        ("about 60 names of 254 bytes, all ASCII", "n", 252),
        ("about 60 names of 254 bytes, three bytes a character", "\u{20ac}", 84),
        ("about 60 names of 254 bytes, four bytes a character", "\u{10348}", 63),
    ] {
        let long = |n: usize| named(character.repeat(count) + &text(n, 2), scalar(FLOAT));
        add(what, fill(vec![], 256, long));
    }
    let matrix = |n: usize| {
        let (columns, rows) = (2 + (n % 3) as u8, 2 + (n / 3 % 3) as u8);
        named(text(n, 3), Inner::Matrix { columns, rows, width: [4, 8][n / 9 % 2] })
    };
    add("256 matrices", fill(vec![], 256, matrix));
    let by_value = |n: usize| {
        let (kind, width) = SCALARS[n % SCALARS.len()];
        let size = [0, 2, 3, 4][n / 11 % 4];
        let space = [FUNCTION, PRIVATE, WORKGROUP, UNIFORM, STORAGE, PUSH_CONSTANT][n / 44];
        let access = if space == STORAGE { 3 } else { 0 };
        unnamed(Inner::ValuePointer { size, kind, width, space, access })
    };
    add("256 value pointers, no two alike", fill(vec![], 256, by_value));
    // Function types are searched in order, and their types are the last of 256 to be found.
    let pointers = || fill(vec![], 256, by_value);
    for (what, place) in [
        ("64 function types of 16 parameters, equal but for the last", 15),
        ("64 function types of 16 parameters, equal but for the last but one", 14),
        ("64 function types of 16 parameters, equal but for the first", 0),
    ] {
        add(what, fill(pointers(), MAX_FUNCTIONS, |n| function_but_for(place, n)));
    }
    add(
        "64 equal function types of 16 parameters",
        fill(pointers(), MAX_FUNCTIONS, |_| function_but_for(15, 0)),
    );
    let image = |n: usize| {
        let (first, second) = ((n / 2 % 40) as u8, (n / 80) as u8);
        let dim = if n % 2 == 0 { D1 } else { 2 };
        unnamed(Inner::Image { dim, arrayed: 0, class: STORED, first, second })
    };
    add("256 storage images, no two alike", fill(vec![], 256, image));
    // Each needs two capabilities, the last of a long list: StorageImageExtendedFormats
    // and Image1D.
    let extended =
        [1, 2, 3, 4, 5, 6, 7, 8, 9, 10, 14, 15, 16, 22, 23, 24, 25, 26, 27, 34, 35, 36, 37, 38, 39];
    let two = |n: usize| {
        let (arrayed, second) = ((n / 25 % 2) as u8, (n / 50 % 4) as u8);
        let inner =
            Inner::Image { dim: D1, arrayed, class: STORED, first: extended[n % 25], second };
        if n < 200 {
            unnamed(inner)
        } else {
            named(String::new(), inner)
        }
    };
    let available = |count: usize| {
        let mut list = vec![1_000_000; count];
        list.extend([49, 44]);
        vec![Record::Available(list)]
    };
    add(
        "256 storage images, each needs the last two of 3,482 capabilities",
        fill(available(3_480), 256, two),
    );
    // Both at once: a long list, and types of one hash.
    let one_shape = Inner::Image { dim: D1, arrayed: 0, class: STORED, first: 1, second: 3 };
    let images = |n: usize| with_eight(eights[n], 39, one_shape.clone());
    add(
        "256 images of one hash, alike but for eight bytes of names, 1,002 capabilities",
        fill(available(1_000), 256, images),
    );
    let front = |n: usize, length: usize, inner: Inner| {
        let mut name = vec![b'n'; length];
        (name[0], name[1]) = (b'a' + (n / 16) as u8, b'a' + (n % 16) as u8);
        Record::Type(Type { name: Some(name), inner })
    };
    let six = |n: usize| front(n, 10, structure(0, &[0; 6]));
    add(
        "255 structs of 6 members alike but for the first bytes of names",
        fill(vec![unnamed(scalar(FLOAT))], 255, six),
    );
    let seven = |n: usize| {
        let member =
            |at: usize| Member { ty: 0, offset: if at == 5 { n as u32 } else { 0 }, name: None };
        unnamed(Inner::Struct { span: 0, members: (0..7).map(member).collect() })
    };
    add(
        "255 structs of 7 members alike but for the last but one",
        fill(vec![unnamed(scalar(FLOAT))], 255, seven),
    );
    let pointer = |n: usize| unnamed(Inner::Pointer { base: n as u16, space: PRIVATE, access: 0 });
    add("255 pointers, each to the one before", fill(vec![unnamed(scalar(FLOAT))], 255, pointer));
    let nested = |n: usize| unnamed(Inner::Array { base: n as u16, size: 2, stride: 4 });
    add("255 arrays, each of the one before", fill(vec![unnamed(scalar(FLOAT))], 255, nested));

    // Structs.
    let base =
        || vec![unnamed(scalar(FLOAT)), unnamed(Inner::Matrix { columns: 4, rows: 3, width: 4 })];
    let many = |ty: u16| {
        move |n: usize| {
            let mut members = vec![ty; 64];
            members[63] = 0;
            let mut inner = structure(0, &members);
            if let Inner::Struct { members, .. } = &mut inner {
                members[63].offset = n as u32;
            }
            unnamed(inner)
        }
    };
    add("35 structs of 64 floats, equal but for the last member", fill(base(), 254, many(0)));
    add("35 structs of 64 matrices, equal but for the last member", fill(base(), 254, many(1)));
    let empty_names = |n: usize| {
        let member = Member { ty: 1, offset: 0, name: Some(vec![]) };
        let inner = Inner::Struct { span: n as u32, members: vec![member; 64] };
        Record::Type(Type { name: Some(vec![]), inner })
    };
    add("structs of 64 matrices with empty names, 43,000 words", fill(base(), 254, empty_names));
    let small = |n: usize| unnamed(structure(n as u32, &[0, 1]));
    add("254 structs of two members, alike but for the span", fill(base(), 254, small));
    let twice = |n: usize| unnamed(structure(0, &[n as u16, n as u16]));
    let mut records = fill(vec![unnamed(scalar(FLOAT))], 200, twice);
    records.extend((0..200).map(|n| Record::Constant(Constant::Zero(200 - n))));
    records.extend(
        (0..64).map(|n| Record::Global(global(200 - n, [PRIVATE, UNIFORM][n as usize % 2]))),
    );
    add("200 nested structs, a zero of each, 64 globals", records);
    let below = |n: usize| unnamed(structure(0, &[n as u16; 64]));
    let mut records = fill(vec![unnamed(scalar(FLOAT))], 32, below);
    records.extend((0..60).map(|_| Record::Constant(Constant::Zero(32))));
    records.extend((0..24).map(|_| Record::Global(global(32, PRIVATE))));
    add("32 nested structs that hold the one below 64 times", records);

    // Globals.
    let remap = |n: usize| Record::Remap { group: 1, binding: n as u32, size: 1 + n as u32 };
    let mut records: Vec<Record> = (0..64).map(remap).collect();
    let sampled = Inner::Image { dim: 1, arrayed: 0, class: SAMPLED, first: FLOAT, second: 0 };
    records.extend([unnamed(sampled), unnamed(Inner::BindingArray { base: 0, size: 0 })]);
    records.extend((0..64).map(|n| {
        Record::Global(Global { bound: 1, group: 1, binding: 63 - n, ..global(1, HANDLE) })
    }));
    add("64 remapped globals, the last remap first", records);
    let mut records = fill(base(), 190, small);
    records.extend((0..64).map(|n| Record::Global(global(190 - n, UNIFORM))));
    add("64 wrapped globals of 190 structs", records);
    // Block on bases: written once among 2,000 annotations, and looked for among 230 ids.
    let stored = |ty: u16| (0..64).map(move |_| Record::Global(global(ty, STORAGE)));
    let lane = |n: usize| unnamed(structure(n as u32, &[0; 64]));
    let mut records = fill(vec![unnamed(scalar(FLOAT))], 31, lane);
    records.push(unnamed(Inner::BindingArray { base: 1, size: 1 }));
    records.extend(stored(32));
    add("64 Storage globals of one base, 31 structs of 64 members", records);
    let dynamic = Inner::Array { base: 0, size: 0, stride: 4 };
    let log = |n: usize| unnamed(structure(n as u32, &[1]));
    let mut records = fill(vec![unnamed(scalar(FLOAT)), unnamed(dynamic)], 230, log);
    records.push(unnamed(Inner::BindingArray { base: 231, size: 1 }));
    records.extend(stored(232));
    add("64 Storage globals of the last of 230 structs with Block", records);
    // Just above each class of scratch, which is cleared whole.
    out.push(("a byte over the first class of scratch", of_length(33)));
    out.push(("a byte over the second class of scratch", of_length(129)));
    out.push(("a byte over the third class of scratch", of_length(513)));
    out.push(("a byte over the fourth class of scratch", of_length(1_281)));
    out.push(("a byte over the fifth class of scratch", of_length(4_097)));
    let length = full_length();
    out.push(("the full sheet", mix(256, 256, 64, length)));
    let functions: Vec<Record> = (0..MAX_FUNCTIONS).map(|n| function_but_for(15, n)).collect();
    out.push(("the full sheet with 64 function records of 16 parameters", full_with(&functions)));
    out
}

/// Refused sheets that take long, each with its number.
pub fn refused() -> Vec<(&'static str, Vec<u8>, u64)> {
    let mut full = mix(256, 256, 64, full_length());
    full[1..5].copy_from_slice(&4_194_302u32.to_be_bytes());
    let small = |n: usize| unnamed(structure(n as u32, &[0; 4]));
    let mut records = fill(vec![unnamed(scalar(FLOAT))], 254, small);
    records.push(small(253));
    let repeated = sheet(records);
    let mut eights = eights_of_one_hash(255);
    eights.push(eights[0]);
    let one_hash = sheet(fill(vec![], 256, |n| with_eight(eights[n], 54, scalar(FLOAT))));
    let image = |n: usize| {
        unnamed(Inner::Image { dim: 2, arrayed: 0, class: STORED, first: n as u8, second: 0 })
    };
    let mut list = vec![1_000_000; 3_480];
    list.push(49);
    let mut records = fill(vec![Record::Available(list)], 40, image);
    records.push(unnamed(Inner::Image {
        dim: D1,
        arrayed: 0,
        class: SAMPLED,
        first: FLOAT,
        second: 0,
    }));
    vec![
        ("the full sheet with start 4,194,302", full, 15),
        ("256 types, the last as the one before", repeated, 12),
        ("256 types of one hash, the last as the first", one_hash, 12),
        ("3,481 capabilities, the last image's missing", sheet(records), 14),
        ("the full sheet with a 65th function record", one_too_many(), 7),
    ]
}

fn one_too_many() -> Vec<u8> {
    let mut functions: Vec<Record> = (0..MAX_FUNCTIONS).map(|n| function_but_for(15, n)).collect();
    functions.push(function_but_for(0, 0));
    full_with(&functions)
}
