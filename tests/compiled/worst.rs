//! Sheets that take long, or much stack, for their bytes. All of them fit.

const FLOAT: [u8; 2] = [2, 4];
const NO_INIT: u16 = 65_535;
const VOID: u16 = 65_535;

/// A sheet in the making.
struct Sheet(Vec<u8>);

impl Sheet {
    fn new(flags: u8) -> Sheet {
        Sheet(vec![1, 0, 0, 0, 0, flags])
    }

    fn record(&mut self, tag: u8, parts: &[&[u8]]) {
        let length: usize = 1 + parts.iter().map(|p| p.len()).sum::<usize>();
        self.0.extend((length as u16).to_be_bytes());
        self.0.push(tag);
        parts.iter().for_each(|p| self.0.extend(*p));
    }

    /// A type without a name.
    fn kind(&mut self, tag: u8, parts: &[&[u8]]) {
        self.record(tag, &[&[&[255], parts.concat().as_slice()].concat()]);
    }

    fn named(&mut self, tag: u8, name: &[u8], parts: &[&[u8]]) {
        self.record(tag, &[&[name.len() as u8], name, &parts.concat()]);
    }

    fn array(&mut self, base: u16, size: u32) {
        self.kind(22, &[&base.to_be_bytes(), &size.to_be_bytes(), &16u32.to_be_bytes()]);
    }

    fn zero(&mut self, ty: u16) {
        self.record(66, &[&ty.to_be_bytes()]);
    }

    fn function(&mut self, returned: u16, parameters: &[u16]) {
        let count = parameters.len() as u8;
        let parameters: Vec<u8> = parameters.iter().flat_map(|p| p.to_be_bytes()).collect();
        self.record(48, &[&returned.to_be_bytes(), &[count], &parameters]);
    }

    fn float(&mut self, bits: u32) {
        self.record(64, &[&[1], &bits.to_be_bytes()]);
    }

    fn compose(&mut self, ty: u16, parts: &[u16]) {
        let parts: Vec<u8> = parts.iter().flat_map(|p| p.to_be_bytes()).collect();
        let count = (parts.len() / 2) as u16;
        self.record(67, &[&ty.to_be_bytes(), &count.to_be_bytes(), &parts]);
    }

    /// A global without a name; bound where a group and binding are given.
    fn global(&mut self, ty: u16, space: u8, place: Option<(u32, u32)>) {
        let (group, binding) = place.unwrap_or((0, 0));
        let access = if space == 4 { 3 } else { 0 };
        self.record(
            96,
            &[
                &[255],
                &ty.to_be_bytes(),
                &[space, access, place.is_some() as u8],
                &group.to_be_bytes(),
                &binding.to_be_bytes(),
                &NO_INIT.to_be_bytes(),
            ],
        );
    }
}

/// A name of so many bytes that says a number in two of them, the first or the last.
fn name_of(number: u8, bytes: usize, front: bool) -> Vec<u8> {
    let mut name = vec![b'a'; bytes];
    let at = if front { 0 } else { bytes - 2 };
    name[at] += number / 16;
    name[at + 1] += number % 16;
    name
}

/// Each type is compared with all before it, perhaps nearly whole.
fn alike_types(front: bool) -> Sheet {
    let mut sheet = Sheet::new(0);
    for n in 0..=255 {
        sheet.named(16, &name_of(n, 55, front), &[&FLOAT]);
    }
    sheet
}

/// The factor of the hash by which types are told apart, `crates/sheet/src/hash.rt`.
const FACTOR: u32 = 2_654_435_761;

/// Types of one hash, which are compared from the last byte to the first: their names differ in
/// their first seven bytes. Those and the length before them are two words of the body; what the
/// first adds to the hash, the second takes away.
fn types_of_one_hash() -> Sheet {
    let mut sheet = Sheet::new(0);
    let length = 55;
    let sum = |first: u32, second: u32| first.wrapping_mul(FACTOR).wrapping_add(second);
    let word = |three: u32| (length as u32) << 24 | three;
    let all = sum(word(0x61_6161), u32::from_be_bytes(*b"aaaa"));
    let fronts = (0x61_6161..0x7f_7f7f).map(|three| {
        let second = all.wrapping_sub(sum(word(three), 0));
        [three.to_be_bytes(), second.to_be_bytes()].concat()
    });
    let graphic = |front: &Vec<u8>| front[1..].iter().all(u8::is_ascii_graphic);
    for front in fronts.filter(graphic).take(256) {
        let mut name = vec![b'a'; length];
        name[..7].copy_from_slice(&front[1..]);
        sheet.named(16, &name, &[&FLOAT]);
    }
    sheet
}

/// Types with names, as many and as long as make a sheet of so many bytes.
fn of_length(bytes: usize) -> Sheet {
    let mut sheet = Sheet::new(1);
    let mut number = 0;
    // A record has six bytes and its name.
    while sheet.0.len() < bytes {
        let left = bytes - sheet.0.len();
        let size = if left <= 60 { left } else { 30 };
        sheet.named(16, &name_of(number, size - 6, true), &[&FLOAT]);
        number += 1;
    }
    sheet
}

fn nested_structs() -> Sheet {
    let mut sheet = Sheet::new(0);
    sheet.kind(16, &[&FLOAT]);
    for below in 0..200u8 {
        let members = [0, below, 0, 0, 0, 0, 255, 0, below, 0, 0, 0, 4, 255];
        sheet.kind(23, &[&[0, 0, 0, 8, 2], &members]);
    }
    for ty in 0..=200 {
        sheet.zero(ty);
    }
    sheet.global(200, 1, None);
    sheet.global(200, 2, None);
    sheet
}

fn nested_arrays(count: u16) -> Sheet {
    let mut sheet = Sheet::new(2);
    sheet.kind(16, &[&FLOAT]);
    for below in 0..count {
        sheet.array(below, 2);
    }
    for ty in 0..=count {
        sheet.zero(ty);
    }
    sheet.global(count, 1, None);
    sheet.global(count, 2, None);
    sheet
}

/// Composites of 30 parts that differ in two of them, from the first of these on.
fn alike_composites(differ: usize) -> Sheet {
    let mut sheet = Sheet::new(0);
    sheet.kind(16, &[&FLOAT]);
    sheet.array(0, 30);
    for bits in 0..16 {
        sheet.float(bits);
    }
    for n in 0..240 {
        let mut parts = [0u16; 30];
        parts[differ] = n / 16;
        parts[differ + 1] = n % 16;
        sheet.compose(1, &parts);
    }
    sheet
}

fn composites_but_for_the_first() -> Sheet {
    let mut sheet = Sheet::new(0);
    sheet.kind(16, &[&FLOAT]);
    sheet.array(0, 30);
    for bits in 0..128 {
        sheet.float(bits);
    }
    for n in 0..128 {
        let mut parts = [0u16; 30];
        parts[0] = n;
        sheet.compose(1, &parts);
    }
    sheet
}

fn alike_structs() -> Sheet {
    let mut sheet = Sheet::new(0);
    sheet.kind(16, &[&FLOAT]);
    for n in 0..35u8 {
        let mut members = [0, 0, 0, 0, 0, 0, 255].repeat(64);
        members[63 * 7 + 5] = n;
        sheet.kind(23, &[&[0, 0, 0, 8, 64], &members]);
    }
    sheet
}

/// Matrices as members, each with its decorations.
fn structs_of_matrices() -> Sheet {
    let mut sheet = Sheet::new(1);
    sheet.kind(18, &[&[4, 4, 4]]);
    sheet.array(0, 3);
    for n in 0..35u8 {
        let mut members = [0, n % 2, 0, 0, 0, n, 0].repeat(64);
        members[63 * 7 + 4] = 1;
        sheet.kind(23, &[&[0, 0, 0, 8, 64], &members]);
    }
    sheet
}

fn long_compose() -> Sheet {
    let mut sheet = Sheet::new(0);
    sheet.kind(16, &[&FLOAT]);
    sheet.array(0, 8_000);
    for bits in 0..2 {
        sheet.float(bits);
    }
    let parts: Vec<u16> = (0..8_000).map(|n| n % 2).collect();
    sheet.compose(1, &parts);
    sheet
}

/// Types of which no two share an id; those after them are found last.
fn many_types(sheet: &mut Sheet, count: usize) {
    let scalars = [[0, 1], [0, 2], [0, 4], [0, 8], [1, 1], [1, 2], [1, 4], [1, 8], [2, 8], [3, 1]];
    let spaces = [[0, 0], [1, 0], [2, 0], [3, 0], [4, 3], [5, 0], [6, 0]];
    for n in 0..count {
        let size = [0, 2, 3, 4][n % 4];
        sheet.kind(21, &[&[size], &scalars[n / 4 % 10], &spaces[n / 40]]);
    }
}

/// The parts' type is the last that is found.
fn long_compose_of_the_last_type() -> Sheet {
    let mut sheet = Sheet::new(0);
    many_types(&mut sheet, 252);
    sheet.kind(16, &[&FLOAT]);
    sheet.array(252, 6_900);
    for bits in 0..2 {
        sheet.float(bits);
    }
    let parts: Vec<u16> = (0..6_900).map(|n| n % 2).collect();
    sheet.compose(253, &parts);
    sheet
}

fn long_compose_of_aliases() -> Sheet {
    let mut sheet = Sheet::new(0);
    sheet.kind(16, &[&FLOAT]);
    sheet.array(0, 7_500);
    sheet.float(0);
    for below in 0..254u16 {
        sheet.record(65, &[&below.to_be_bytes()]);
    }
    sheet.compose(1, &[254; 7_500]);
    sheet
}

fn composed_structs() -> Sheet {
    let mut sheet = Sheet::new(0);
    sheet.kind(16, &[&FLOAT]);
    sheet.kind(23, &[&[0, 0, 0, 8, 64], &[0, 0, 0, 0, 0, 0, 255].repeat(64)]);
    for bits in 0..16 {
        sheet.float(bits);
    }
    for n in 0..115 {
        let mut parts = [0u16; 64];
        parts[62] = n / 16;
        parts[63] = n % 16;
        sheet.compose(1, &parts);
    }
    sheet
}

fn structs_of_the_last_type() -> Sheet {
    let mut sheet = Sheet::new(0);
    many_types(&mut sheet, 220);
    sheet.kind(16, &[&FLOAT]);
    for n in 0..31u8 {
        let mut members = [0, 220, 0, 0, 0, 0, 255].repeat(64);
        members[63 * 7 + 5] = n;
        sheet.kind(23, &[&[0, 0, 0, 8, 64], &members]);
    }
    sheet
}

fn matrices() -> Sheet {
    let mut sheet = Sheet::new(1);
    for n in 0..=255u8 {
        let shape = [2 + n % 3, 2 + n / 3 % 3, 4 + n / 9 % 2 * 4];
        sheet.named(18, &name_of(n, 54, false), &[&shape]);
    }
    sheet
}

fn pointers() -> Sheet {
    let mut sheet = Sheet::new(0);
    sheet.kind(16, &[&FLOAT]);
    for below in 0..255u16 {
        let space = (below % 7) as u8;
        let access = if space == 4 { 3 } else { 0 };
        sheet.kind(20, &[&below.to_be_bytes(), &[space, access]]);
    }
    sheet
}

fn value_pointers() -> Sheet {
    let mut sheet = Sheet::new(0);
    many_types(&mut sheet, 256);
    sheet
}

/// Function types of 16 parameters, each but one the last of 256 types that are found in order;
/// so many constants behind them.
fn function_types(place: usize, constants: u32) -> Sheet {
    let mut sheet = Sheet::new(0);
    many_types(&mut sheet, 256);
    for n in 0..64 {
        let mut parameters = [255; 16];
        parameters[place] = 192 + n;
        sheet.function(254, &parameters);
    }
    for bits in 0..constants {
        sheet.float(bits);
    }
    sheet
}

fn function_types_without_types() -> Sheet {
    let mut sheet = Sheet::new(0);
    for _ in 0..64 {
        sheet.function(VOID, &[]);
    }
    sheet
}

/// Storage images that need two capabilities each, of which some differ in their access alone.
/// So many other numbers stand before those that are needed.
fn images(available: usize) -> Sheet {
    let mut sheet = Sheet::new(0);
    if available > 0 {
        let mut numbers = vec![0xff; 4 * available];
        for n in [34u32, 44, 49] {
            numbers.extend(n.to_be_bytes());
        }
        sheet.record(1, &[&numbers]);
    }
    // the formats that need StorageImageExtendedFormats
    let formats = (0..11).chain(14..17).chain(22..28).chain(34..40);
    // those that need Image1D, and the one that needs ImageCubeArray
    let dims = [[0, 0], [0, 1], [3, 1]];
    let shapes = formats.flat_map(|format| dims.map(|dim| (format, dim)));
    let accessed = shapes.flat_map(|shape| [0, 1, 2, 3].map(|access| (shape, access)));
    for ((format, dim), access) in accessed.take(256) {
        sheet.kind(24, &[&dim, &[2, format, access]]);
    }
    sheet
}

fn literals() -> Sheet {
    let mut sheet = Sheet::new(0);
    for n in 0..256u64 {
        sheet.record(64, &[&[0], &n.to_be_bytes()]);
    }
    sheet
}

fn arrays_and_zeros() -> Sheet {
    let mut sheet = Sheet::new(0);
    sheet.kind(16, &[&FLOAT]);
    for size in 1..=255 {
        sheet.array(0, size);
    }
    for ty in 0..=255 {
        sheet.zero(ty);
    }
    sheet
}

fn aliases_and_splats() -> Sheet {
    let mut sheet = Sheet::new(0);
    sheet.float(1);
    for below in 0..128u16 {
        sheet.record(65, &[&below.to_be_bytes()]);
    }
    for n in 0..127 {
        sheet.record(68, &[&[2 + n % 3], &128u16.to_be_bytes()]);
    }
    sheet
}

fn remapped() -> Sheet {
    let mut sheet = Sheet::new(0);
    for n in 0..64u32 {
        sheet.record(2, &[&7u32.to_be_bytes(), &n.to_be_bytes(), &(n + 1).to_be_bytes()]);
    }
    sheet.kind(16, &[&FLOAT]);
    for size in 0..64u32 {
        sheet.kind(28, &[&[0, 0], &size.to_be_bytes()]);
    }
    for n in 0..64 {
        sheet.global(1 + n, 4, Some((7, 63 - n as u32)));
    }
    sheet
}

fn names() -> Sheet {
    let mut sheet = Sheet::new(1);
    for n in 0..62 {
        sheet.named(16, &name_of(n, 254, false), &[&FLOAT]);
    }
    sheet
}

fn full() -> Sheet {
    let mut sheet = Sheet::new(3);
    for n in 0..128 {
        sheet.named(16, &name_of(n, 24, false), &[&FLOAT]);
    }
    for n in 0..128 {
        sheet.array(n, 1 + n as u32);
    }
    for bits in 0..128 {
        sheet.float(bits);
    }
    for ty in 128..256 {
        sheet.zero(ty);
    }
    for n in 0..64 {
        sheet.global(128 + n, 3 + (n % 2) as u8, Some((1, n as u32)));
    }
    sheet
}

pub fn sheets() -> Vec<(&'static str, Vec<u8>)> {
    let made = [
        ("256 types, alike but for the first bytes of their names", alike_types(true)),
        ("256 types, alike but for the last bytes of their names", alike_types(false)),
        ("256 types of one hash, alike but for the first bytes of names", types_of_one_hash()),
        ("200 structs, each of the one before twice, and zeros", nested_structs()),
        ("255 arrays, each of the one before, and zeros", nested_arrays(255)),
        ("50 such arrays", nested_arrays(50)),
        ("3 such arrays", nested_arrays(3)),
        ("240 composites of 30 parts, alike but for the last two", alike_composites(28)),
        ("240 such, alike but for the two before the last", alike_composites(27)),
        ("128 composites of 30 parts, alike but for the first", composites_but_for_the_first()),
        ("35 structs of 64 members, alike but for the last", alike_structs()),
        ("35 structs of 64 members, matrices and named", structs_of_matrices()),
        ("31 structs of 64 members of the last of 221 types", structs_of_the_last_type()),
        ("115 composites of structs of 64 members", composed_structs()),
        ("a Compose of 8,000 parts", long_compose()),
        ("a Compose of 6,900 parts of the last of 253 types", long_compose_of_the_last_type()),
        ("a Compose of 7,500 parts, the last of 254 aliases", long_compose_of_aliases()),
        ("256 matrices of 18 shapes, named", matrices()),
        ("255 pointers, each to the one before", pointers()),
        ("256 value pointers", value_pointers()),
        ("64 function types of 16 parameters, alike but for the last", function_types(15, 0)),
        ("64 such, alike but for the last but one", function_types(14, 0)),
        ("64 such, alike but for the first, and 256 literals", function_types(0, 256)),
        ("64 function types that return void", function_types_without_types()),
        ("256 storage images", images(0)),
        ("256 storage images behind 3,500 other capabilities", images(3_500)),
        ("256 literals", literals()),
        ("255 arrays of one base, and their zeros", arrays_and_zeros()),
        ("128 aliases in a row, 127 Splats of the last", aliases_and_splats()),
        ("64 remapped globals", remapped()),
        ("62 types with names of 254 bytes", names()),
        ("256 types, 256 constants, 64 globals", full()),
        ("a byte over the first class of scratch", of_length(33)),
        ("a byte over the second class of scratch", of_length(129)),
        ("a byte over the third class of scratch", of_length(513)),
        ("a byte over the fourth class of scratch", of_length(1_281)),
        ("a byte over the fifth class of scratch", of_length(4_097)),
    ];
    made.map(|(what, sheet)| (what, sheet.0)).into()
}
