//! What paper 3 adds: words to list. Modules of sheets, and words with one thing changed, of
//! which is known what has to become of them.

use super::*;
use std::collections::BTreeSet;
use std::ops::RangeInclusive;

/// What is known of words before anyone lists them.
#[derive(Clone, Copy, Debug, PartialEq, Eq)]
pub enum Listing {
    /// They are listed: each instruction is one that Declare writes.
    Listed,
    Refused(u8),
    /// Changed so that other words are taken for instructions: the second reading says.
    Unknown,
}

#[derive(Clone, Debug)]
pub struct Words {
    pub words: Vec<u32>,
    pub expect: Listing,
}
use Listing::*;

/// How many more words than the fewest an instruction may have.
#[derive(Clone, Copy, Debug, PartialEq, Eq)]
pub enum Longer {
    Not,
    ByOne,
    ByAny,
}
use Longer::*;

/// The opcodes that Declare writes, with the fewest words that it writes for each, counted off
/// document 01 and papers 1 and 2.
pub const OPCODES: [(u32, usize, Longer); 26] = [
    (5, 3, ByAny),  // OpName
    (6, 4, ByAny),  // OpMemberName
    (17, 2, Not),   // OpCapability
    (19, 2, Not),   // OpTypeVoid
    (20, 2, Not),   // OpTypeBool
    (21, 4, Not),   // OpTypeInt
    (22, 3, Not),   // OpTypeFloat
    (23, 4, Not),   // OpTypeVector
    (24, 4, Not),   // OpTypeMatrix
    (25, 9, Not),   // OpTypeImage
    (26, 2, Not),   // OpTypeSampler
    (28, 4, Not),   // OpTypeArray
    (29, 3, Not),   // OpTypeRuntimeArray
    (30, 2, ByAny), // OpTypeStruct
    (32, 4, Not),   // OpTypePointer
    (33, 3, ByAny), // OpTypeFunction
    (41, 3, Not),   // OpConstantTrue
    (42, 3, Not),   // OpConstantFalse
    (43, 4, ByOne), // OpConstant
    (44, 3, ByAny), // OpConstantComposite
    (46, 3, Not),   // OpConstantNull
    (59, 4, ByOne), // OpVariable
    (71, 3, ByOne), // OpDecorate
    (72, 4, ByOne), // OpMemberDecorate
    (4472, 2, Not), // OpTypeRayQueryKHR
    (5341, 2, Not), // OpTypeAccelerationStructureKHR
];

fn is_written(opcode: u32, count: usize) -> bool {
    OPCODES.iter().any(|&(known, least, longer)| {
        let fits = match longer {
            Not => count == least,
            ByOne => count == least || count == least + 1,
            ByAny => count >= least,
        };
        known == opcode && fits
    })
}

/// What has to become of an instruction that has all its words.
fn expect_of(opcode: u32, count: usize) -> Listing {
    match is_written(opcode, count) {
        true => Listed,
        false => Refused(20),
    }
}

const FRONT: usize = 5;

/// The list of words that are listed, by the registry's grammar alone.
pub fn list_by_registry(words: &[u32]) -> Vec<u32> {
    let mut list = words[..FRONT].to_vec();
    for at in starts(words) {
        let (opcode, count) = (words[at] & 0xffff, (words[at] >> 16) as usize);
        let (typed, declares) = spirv::results_of(opcode);
        let mut others = words[at + 1..at + count].to_vec();
        let result = if declares { others.remove(typed as usize) } else { 0 };
        list.extend([opcode, result, others.len() as u32]);
        list.extend(others);
    }
    list
}

/// Where the instructions of a module begin.
fn starts(words: &[u32]) -> Vec<usize> {
    let (mut at, mut starts) = (FRONT, Vec::new());
    while at < words.len() {
        starts.push(at);
        // No module has a count of 0; words that have one are for others to report.
        at += ((words[at] >> 16) as usize).max(1);
    }
    starts
}

/// Opcode and count of each of a module's instructions.
pub fn instructions(words: &[u32]) -> Vec<(u32, usize)> {
    let of = |at: usize| (words[at] & 0xffff, (words[at] >> 16) as usize);
    starts(words).into_iter().map(of).collect()
}

/// In how many classes opcodes fall by their counts, the fewest words and where there may be
/// more, one more or any longer; and which of them are not among instructions, or which are
/// that are none of Declare's.
pub fn counts_missing(seen: &BTreeSet<(u32, usize)>) -> (usize, Vec<String>) {
    let mut classes = Vec::new();
    for (opcode, least, longer) in OPCODES {
        classes.push((opcode, least..=least));
        match longer {
            Not => {}
            ByOne => classes.push((opcode, least + 1..=least + 1)),
            ByAny => classes.push((opcode, least + 1..=usize::MAX)),
        }
    }
    let unseen = classes.iter().filter(|(opcode, counts)| {
        !seen.iter().any(|(other, count)| other == opcode && counts.contains(count))
    });
    let shown = |(opcode, counts): &(u32, RangeInclusive<usize>)| {
        let more = if counts.start() == counts.end() { "" } else { " or more" };
        format!("no opcode {opcode} with {}{more} words", counts.start())
    };
    let mut missing: Vec<String> = unseen.map(shown).collect();
    let others = seen.iter().filter(|(opcode, count)| !is_written(*opcode, *count));
    missing.extend(others.map(|(opcode, count)| format!("opcode {opcode} with {count} words")));
    (classes.len(), missing)
}

fn first_word(opcode: u32, count: usize) -> u32 {
    (count as u32) << 16 | opcode
}

fn front() -> Vec<u32> {
    vec![0x0723_0203, 0x0001_0300, 28, 100, 0]
}

/// Words behind a header, each told apart from the others.
fn behind(front: &[u32], instructions: &[(u32, usize, usize)]) -> Vec<u32> {
    let mut words = front.to_vec();
    for &(opcode, count, there) in instructions {
        words.push(first_word(opcode, count));
        words.extend((1..there).map(|n| 90 + n as u32));
    }
    words
}

/// One instruction behind a header, with so many of its words there.
fn alone(opcode: u32, count: usize, there: usize) -> Vec<u32> {
    behind(&front(), &[(opcode, count, there)])
}

/// Sheets whose modules are listed and changed: none, a small one, one that has every opcode
/// with each of its counts, and some drawn at random.
pub fn sheets_to_list(random: &mut Random) -> Vec<Vec<u8>> {
    let sheet = |flags, records| Sheet { start: 0, flags, records }.encode();
    let vector = Inner::Vector { size: 3, kind: FLOAT, width: 4 };
    let array = Inner::Array { base: 0, size: 4, stride: 16 };
    let mut sheets = vec![
        sheet(0, Vec::new()),
        sheet(0, vec![unnamed(vector), unnamed(array)]),
        sheet(DEBUG, every_opcode()),
    ];
    while sheets.len() < 12 {
        let aim = aim(random);
        let sheet = valid(random, aim).encode();
        if (200..=600).contains(&sheet.len()) {
            sheets.push(sheet);
        }
    }
    sheets
}

fn every_opcode() -> Vec<Record> {
    let named =
        |name: &str, inner| Record::Type(Type { name: Some(name.as_bytes().to_vec()), inner });
    let scalar = |kind, width| unnamed(Inner::Scalar { kind, width });
    let literal = |literal| Record::Constant(Constant::Literal(literal));
    let members = vec![
        Member { ty: 3, offset: 0, name: Some(b"view".to_vec()) },
        Member { ty: 0, offset: 64, name: Some(Vec::new()) },
    ];
    let image = Inner::Image { dim: 1, arrayed: 0, class: SAMPLED, first: FLOAT, second: 0 };
    let bound = Global { bound: 1, group: 1, binding: 2, ..global(8, HANDLE, 0) };
    vec![
        scalar(FLOAT, 4),
        scalar(UINT, 4),
        scalar(BOOL, 1),
        unnamed(Inner::Matrix { columns: 2, rows: 2, width: 4 }),
        named("", Inner::Struct { span: 80, members }),
        unnamed(structure(&[])),
        unnamed(Inner::Array { base: 0, size: 2, stride: 4 }),
        unnamed(Inner::Array { base: 0, size: 0, stride: 4 }),
        named("lane", image),
        unnamed(Inner::Sampler { comparison: 0 }),
        unnamed(Inner::AccelerationStructure),
        unnamed(Inner::RayQuery),
        unnamed(Inner::Pointer { base: 0, space: PRIVATE, access: 0 }),
        function(VOID, &[]),
        function(0, &[1, 0]),
        literal(Literal::Bool(0)),
        literal(Literal::Bool(1)),
        literal(Literal::F32(1)),
        literal(Literal::F64(1 << 40)),
        Record::Constant(Constant::Compose { ty: 5, parts: Vec::new() }),
        Record::Constant(Constant::Splat { size: 2, value: 2 }),
        Record::Constant(Constant::Zero(1)),
        Record::Global(global(4, STORAGE, 1)),
        Record::Global(Global { init: 2, ..global(0, PRIVATE, 0) }),
        Record::Global(bound),
    ]
}

/// Words to list, of these modules and of single instructions, by what they are.
pub fn words_to_list(random: &mut Random, modules: &[Vec<u32>]) -> Vec<(&'static str, Vec<Words>)> {
    let whole = |words: &Vec<u32>| Words { words: words.clone(), expect: Listed };
    let mut changed = Vec::new();
    for (n, module) in modules.iter().enumerate() {
        changed.extend(cut_off(module));
        changed.extend(instructions_changed(random, module, n < 3));
        changed.extend(ids_changed(random, module));
    }
    vec![
        ("up to eight words", short_words()),
        ("headers", fronts(&modules[1])),
        ("one instruction", every_count()),
        ("long instructions", long_ones()),
        ("two faults in one", pairs()),
        ("modules", modules.iter().map(whole).collect()),
        ("modules with one thing changed", changed),
    ]
}

/// Every length up to eight words.
fn short_words() -> Vec<Words> {
    let whole = behind(&front(), &[(20, 2, 2), (20, 2, 2)]);
    let case = |length: usize| Words {
        words: whole[..length].to_vec(),
        expect: match length {
            0..=4 => Refused(18),
            5 | 7 => Listed,
            _ => Refused(19),
        },
    };
    let mut cases: Vec<Words> = (0..=8).map(case).collect();
    // Nothing but zeros, which are no header either.
    cases.extend((0..=8).map(|n| Words { words: vec![0; n], expect: Refused(18) }));
    cases
}

/// Each header word with other values; the generator's and the bound are free.
fn fronts(module: &[u32]) -> Vec<Words> {
    let mut cases = Vec::new();
    for place in 0..FRONT {
        let right = module[place];
        let mut values = vec![0, 1, right ^ 1, right ^ 1 << 31, !right, right.swap_bytes()];
        values.extend([right.wrapping_add(1), right.wrapping_sub(1), u32::MAX, 0x7fff_ffff]);
        // Versions 1.0 to 1.6, and a bound at the limit and past it.
        values.extend((0..=6).map(|minor| 0x0001_0000 | minor << 8));
        values.extend([0x0003_0100, 28, 4_194_303, 4_194_304]);
        values.extend([MAGIC_BYTES, 0x0723_0203]);
        values.sort();
        values.dedup();
        for value in values.into_iter().filter(|&value| value != right) {
            let expect = if matches!(place, 2 | 3) { Listed } else { Refused(18) };
            for length in [FRONT, module.len()] {
                let mut words = module[..length].to_vec();
                words[place] = value;
                cases.push(Words { words, expect });
            }
        }
    }
    cases
}

/// The magic number in the other order of bytes.
const MAGIC_BYTES: u32 = 0x0302_2307;

/// Numbers that are no opcode of Declare's: all up to 100, and some above.
fn other_opcodes() -> Vec<u32> {
    let known = |opcode: &u32| OPCODES.iter().any(|(known, ..)| known == opcode);
    let above = [127, 255, 256, 261, 275, 277, 4471, 4473, 5340, 5342, 32_767, 65_534, 65_535];
    (0..=100).chain(above).filter(|opcode| !known(opcode)).collect()
}

/// Every opcode with every count up to twelve: all its words there, and one too few.
fn every_count() -> Vec<Words> {
    let known = OPCODES.iter().map(|&(opcode, ..)| opcode);
    let mut cases = Vec::new();
    for opcode in known.chain(other_opcodes()) {
        cases.push(Words { words: alone(opcode, 0, 1), expect: Refused(19) });
        for count in 1..=12 {
            let words = alone(opcode, count, count);
            cases.push(Words { words, expect: expect_of(opcode, count) });
            if count > 1 {
                let words = alone(opcode, count, count - 1);
                cases.push(Words { words, expect: Refused(19) });
            }
        }
    }
    cases
}

/// Names, members, parts and parameters of any length, and the counts around those that a
/// sheet can bring.
fn long_ones() -> Vec<Words> {
    let mut cases = Vec::new();
    for (opcode, least, longer) in OPCODES {
        for count in [least + 16, least + 17, least + 63, least + 64, least + 65, 256, 1_000] {
            let words = alone(opcode, count, count);
            cases.push(Words { words, expect: expect_of(opcode, count) });
        }
        if longer == ByAny {
            let words = alone(opcode, 65_535, 65_535);
            cases.push(Words { words, expect: Listed });
            let words = alone(opcode, 65_535, 65_534);
            cases.push(Words { words, expect: Refused(19) });
        }
    }
    cases
}

/// Two faults in one: the header's comes first, then the first instruction's, and within one
/// 19 before 20.
fn pairs() -> Vec<Words> {
    // An instruction by opcode, count and how many of its words are there, and its number.
    let cut = [(20, 3, 2), (27, 3, 2), (71, 9, 2), (30, 9, 3), (0, 65_535, 2)];
    let none = [(20, 0, 1), (27, 0, 1), (0, 0, 1)];
    let unwritten = [(27, 3, 3), (20, 3, 3), (20, 1, 1), (71, 5, 5), (0, 1, 1), (14, 3, 3)];
    let fit = [(20, 2, 2), (71, 3, 3), (30, 2, 2)];
    let mut cases = Vec::new();
    let mut add = |front: &[u32], instructions: &[(u32, usize, usize)], expect| {
        cases.push(Words { words: behind(front, instructions), expect });
    };
    let right = front();
    for first in none.into_iter().chain(unwritten).chain(fit) {
        for second in none.into_iter().chain(unwritten).chain(fit).chain(cut) {
            let number = |one: &(u32, usize, usize)| match one {
                one if none.contains(one) || cut.contains(one) => Refused(19),
                one if unwritten.contains(one) => Refused(20),
                _ => Listed,
            };
            let expect = match number(&first) {
                Listed => number(&second),
                refused => refused,
            };
            add(&right, &[first, second], expect);
        }
    }
    for bad in none.into_iter().chain(unwritten).chain(cut) {
        for place in [0, 1, 4] {
            let mut wrong = front();
            wrong[place] ^= 1 << 8;
            add(&wrong, &[bad], Refused(18));
        }
        for place in [2, 3] {
            let mut free = front();
            free[place] = 0;
            add(&free, &[bad], if unwritten.contains(&bad) { Refused(20) } else { Refused(19) });
        }
    }
    cases
}

/// A module cut off at each word, and with words behind it.
fn cut_off(module: &[u32]) -> Vec<Words> {
    let starts = starts(module);
    let case = |length: usize| Words {
        words: module[..length].to_vec(),
        expect: match length {
            0..=4 => Refused(18),
            _ if starts.contains(&length) => Listed,
            _ => Refused(19),
        },
    };
    let mut cases: Vec<Words> = (0..module.len()).map(case).collect();
    for behind in [&[0][..], &[0, 0], &[0; 8], &[20], &[2 << 16 | 20], &[u32::MAX, 0]] {
        cases.push(Words { words: [module, behind].concat(), expect: Refused(19) });
    }
    cases.push(Words { words: [module, &[1 << 16]].concat(), expect: Refused(20) });
    cases
}

/// One instruction after the other, or one drawn: its count and its opcode changed; left out,
/// there twice, and a word of it taken out.
fn instructions_changed(random: &mut Random, module: &[u32], each: bool) -> Vec<Words> {
    let mut cases = Vec::new();
    let starts = starts(module);
    let chosen = match each || starts.is_empty() {
        true => starts,
        false => vec![random.pick(&starts), random.pick(&starts)],
    };
    for at in chosen {
        cases.extend((0..COUNT_CHANGES).map(|n| count_changed(module, at, n)));
        let (_, count) = opcode_and_count(module, at);
        let known = OPCODES.iter().map(|&(opcode, ..)| opcode);
        // Each once; of a long module's instructions some with each.
        let (few, first) = if module.len() > 100 { (9, random.below(9)) } else { (1, 0) };
        for opcode in known.chain(other_opcodes()).skip(first).step_by(few) {
            let mut words = module.to_vec();
            words[at] = first_word(opcode, count);
            cases.push(Words { words, expect: expect_of(opcode, count) });
        }
        let (before, behind) = (&module[..at], &module[at + count..]);
        cases.push(Words { words: [before, behind].concat(), expect: Listed });
        let one = &module[at..at + count];
        cases.push(Words { words: [before, one, one, behind].concat(), expect: Listed });
        cases.extend((1..count).map(|place| word_lost(module, at, place)));
    }
    cases
}

fn opcode_and_count(words: &[u32], at: usize) -> (u32, usize) {
    (words[at] & 0xffff, (words[at] >> 16) as usize)
}

/// In how many ways a count is changed.
const COUNT_CHANGES: usize = 7;

/// An instruction's count changed: 0, one less, one more, 65,535, up to the end, one less and
/// one past.
fn count_changed(module: &[u32], at: usize, way: usize) -> Words {
    let (opcode, count) = opcode_and_count(module, at);
    let left = module.len() - at;
    let changed = [0, count - 1, count + 1, 65_535, left, left - 1, left + 1][way].min(65_535);
    let mut words = module.to_vec();
    words[at] = first_word(opcode, changed);
    let expect = match changed {
        0 => Refused(19),
        _ if changed == count => Listed,
        _ if changed > left => Refused(19),
        _ if changed == left || !is_written(opcode, changed) => expect_of(opcode, changed),
        _ => Unknown,
    };
    Words { words, expect }
}

/// An instruction that lacks one of its words: where it is the last, it passes the end, and
/// else it takes in the next one's first word.
fn word_lost(module: &[u32], at: usize, place: usize) -> Words {
    let (_, count) = opcode_and_count(module, at);
    let mut words = module.to_vec();
    words.remove(at + place);
    let expect = if at + count == module.len() { Refused(19) } else { Unknown };
    Words { words, expect }
}

/// Every word but the first of each instruction is any number: ids are not judged, and neither
/// are operands.
fn ids_changed(random: &mut Random, module: &[u32]) -> Vec<Words> {
    let starts = starts(module);
    let with = |make: &mut dyn FnMut(u32) -> u32| {
        let mut words = module.to_vec();
        for at in FRONT..words.len() {
            if !starts.contains(&at) {
                words[at] = make(words[at]);
            }
        }
        Words { words, expect: Listed }
    };
    vec![
        with(&mut |_| 0),
        with(&mut |_| u32::MAX),
        with(&mut |_| 7),
        with(&mut |word| word.wrapping_add(4_194_303)),
        with(&mut |_| random.next() as u32),
        with(&mut |word| word ^ 1),
    ]
}

/// A module with one thing changed, drawn at random.
pub fn changed_words(random: &mut Random, module: &[u32]) -> Words {
    let starts = starts(module);
    let mut words = module.to_vec();
    if starts.is_empty() || random.chance(1, 8) {
        let place = random.below(FRONT);
        words[place] ^= 1 << random.below(32);
        return Words { words, expect: if matches!(place, 2 | 3) { Listed } else { Refused(18) } };
    }
    let at = random.pick(&starts);
    let (opcode, count) = opcode_and_count(module, at);
    match random.below(7) {
        0 => {
            let length = random.below(module.len());
            words.truncate(length);
            let expect = match length {
                0..=4 => Refused(18),
                _ if starts.contains(&length) => Listed,
                _ => Refused(19),
            };
            Words { words, expect }
        }
        1 => {
            let opcode = random.below(120) as u32;
            words[at] = first_word(opcode, count);
            Words { words, expect: expect_of(opcode, count) }
        }
        2 => word_lost(module, at, 1 + random.below(count - 1)),
        3 => {
            // Any count, often a small one.
            let below = if random.chance(1, 4) { 65_536 } else { 16 };
            let other = random.below(below);
            words[at] = first_word(opcode, other);
            let expect = match other {
                0 => Refused(19),
                _ if other > module.len() - at => Refused(19),
                _ if !is_written(opcode, other) => Refused(20),
                _ => Unknown,
            };
            Words { words, expect }
        }
        4 => {
            let place = FRONT + random.below(module.len() - FRONT);
            words[place] = random.next() as u32;
            let expect = if starts.contains(&place) { Unknown } else { Listed };
            Words { words, expect }
        }
        _ => count_changed(module, at, random.below(COUNT_CHANGES)),
    }
}
