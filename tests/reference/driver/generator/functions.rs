//! What paper 2 adds: function records, what they share, and where they may stand.

use super::*;

fn scalar(kind: u8) -> Record {
    unnamed(Inner::Scalar { kind, width: 4 })
}

fn literal(bits: u32) -> Record {
    Record::Constant(Constant::Literal(Literal::F32(bits)))
}

fn fits(records: Vec<Record>) -> Case {
    domain(&Sheet { start: 0, flags: 0, records })
}

fn refused(records: Vec<Record>, number: u8) -> Case {
    let sheet = Sheet { start: 0, flags: 0, records }.encode();
    Case { sheet, expect: Expect::Refused(number) }
}

/// Four entries: 0 to 2 have one id, 3 has another.
fn of_two_ids() -> Vec<Record> {
    let inner = Inner::Scalar { kind: FLOAT, width: 4 };
    let twin = Record::Type(Type { name: Some(b"twin".to_vec()), inner });
    vec![scalar(FLOAT), unnamed(Inner::Atomic { kind: FLOAT, width: 4 }), twin, scalar(UINT)]
}

fn behind_two_ids(functions: &[Record]) -> Vec<Record> {
    [&of_two_ids()[..], functions].concat()
}

pub fn functions(random: &mut Random) -> Vec<Case> {
    let mut cases = every_count();
    cases.extend(every_type());
    cases.extend(every_pair());
    cases.extend(but_for_one_thing());
    cases.extend(voids());
    cases.extend(sixty_four());
    cases.extend(last_ids());
    cases.extend(full_sheets(random));
    cases.extend(bodies());
    cases.extend(references());
    cases.extend(ranks());
    cases
}

/// Counts one by one, and all in one sheet, rising, and falling twice.
fn every_count() -> Vec<Case> {
    let mut cases = Vec::new();
    for return_type in [VOID, 3] {
        let of = |count: usize| function(return_type, &vec![0; count]);
        for count in 0..=255 {
            let records = behind_two_ids(&[of(count)]);
            cases.push(match count <= MAX_PARAMETERS {
                true => fits(records),
                false => refused(records, 10),
            });
        }
        let mut all: Vec<Record> = (0..=MAX_PARAMETERS).map(of).collect();
        cases.push(fits(behind_two_ids(&all)));
        all.reverse();
        let twice = [&all[..], &all[..]].concat();
        cases.push(fits(behind_two_ids(&twice)));
    }
    cases
}

/// Every type as what is returned and as parameters: an entry's own id, of handles too.
fn every_type() -> Vec<Case> {
    let alone = every_plain_type().into_iter().map(|inner| vec![inner]);
    let halves = every_type_of(&[HALF], &[HALF.1]).into_iter().map(|inner| vec![inner]);
    let all = alone.chain(halves).chain(global_types(4));
    let sheet = |types: Vec<Inner>| {
        let last = types.len() as u16 - 1;
        let mut records: Vec<Record> = types.into_iter().map(unnamed).collect();
        records.extend([function(last, &[]), function(VOID, &[last]), function(last, &[0, last])]);
        fits(records)
    };
    all.map(sheet).collect()
}

/// Any two function records of up to two parameters, over types of two ids.
fn every_pair() -> Vec<Case> {
    let types = [0, 1, 3];
    let mut parameters = vec![Vec::new()];
    parameters.extend(types.map(|ty| vec![ty]));
    parameters.extend(types.iter().flat_map(|&a| types.map(|b| vec![a, b])));
    let mut all = Vec::new();
    for return_type in [VOID, 0, 1, 3] {
        all.extend(parameters.iter().map(|parameters| function(return_type, parameters)));
    }
    let mut cases = Vec::new();
    for first in &all {
        for second in &all {
            cases.push(fits(behind_two_ids(&[first.clone(), second.clone()])));
        }
    }
    cases
}

/// 16 parameters, each place in turn with another type, and with another entry of its id.
fn but_for_one_thing() -> Vec<Case> {
    let mut cases = Vec::new();
    for return_type in [VOID, 0] {
        let whole = vec![0; MAX_PARAMETERS];
        let mut all = Vec::new();
        for place in 0..MAX_PARAMETERS {
            let with = |ty: u16| {
                let mut parameters = whole.clone();
                parameters[place] = ty;
                function(return_type, &parameters)
            };
            let three = [function(return_type, &whole), with(2), with(3)];
            cases.push(fits(behind_two_ids(&three)));
            all.extend(three);
        }
        cases.push(fits(behind_two_ids(&all)));
    }
    cases
}

/// Void returned by no record, by one of them at each place, and by all from there on; with
/// names, constants and globals behind.
fn voids() -> Vec<Case> {
    let mut cases = Vec::new();
    let global = |space| {
        let name = Some(b"tray".to_vec());
        Record::Global(Global { name, ..global(3, space, 0) })
    };
    let rest = [literal(1), literal(2), global(PRIVATE), global(UNIFORM)];
    for count in 1..=4 {
        for first in 0..=count {
            for until in [first + 1, count] {
                let returned = |n| if (first..until).contains(&n) { VOID } else { 3 };
                for parameters in [&[][..], &[0, 3]] {
                    let functions: Vec<Record> =
                        (0..count).map(|n| function(returned(n), parameters)).collect();
                    cases.push(fits(behind_two_ids(&functions)));
                    let records = behind_two_ids(&[&functions[..], &rest].concat());
                    cases.extend(
                        (0..4).map(|flags| {
                            domain(&Sheet { start: 0, flags, records: records.clone() })
                        }),
                    );
                }
            }
        }
    }
    cases
}

/// 64 records and a 65th, behind 256 types and before 256 constants.
fn sixty_four() -> Vec<Case> {
    let array = |size: usize| unnamed(Inner::Array { base: 0, size: size as u32, stride: 4 });
    let types: Vec<Record> = [scalar(FLOAT)].into_iter().chain((1..MAX_TYPES).map(array)).collect();
    let constants: Vec<Record> = (0..MAX_CONSTANTS as u32).map(literal).collect();
    // All different in their only parameter, all different in the last of 16, and all the same.
    let short = |n: usize| function(VOID, &[n as u16]);
    let long = |n: usize| function(0, &[&[0; MAX_PARAMETERS - 1][..], &[n as u16]].concat());
    let same = |_| function(0, &[0, 1]);
    let makers: [&dyn Fn(usize) -> Record; 3] = [&short, &long, &same];
    let mut cases = Vec::new();
    for make in makers {
        let behind =
            |count: usize| [&types[..], &(0..count).map(make).collect::<Vec<_>>()].concat();
        cases.push(fits(behind(MAX_FUNCTIONS)));
        cases.push(fits([behind(MAX_FUNCTIONS), constants.clone()].concat()));
        cases.push(refused(behind(MAX_FUNCTIONS + 1), 7));
    }
    // A 65th is 7 whatever its body, unless it is 6.
    for body in [vec![], vec![0], vec![0, 0, 1], vec![0, 9, 0], vec![255, 255, 17]] {
        for (last, number) in [(None, 7), (Some(literal(1)), 6)] {
            let full = vec![function(VOID, &[]); MAX_FUNCTIONS];
            let mut case = refused(full.into_iter().chain(last).collect(), number);
            put_record(&mut case.sheet, &[&[48], &body[..]].concat());
            cases.push(case);
        }
    }
    cases
}

/// The last id at the limit and past it: void and a function type take an id each, and a
/// record that shares takes none.
fn last_ids() -> Vec<Case> {
    let three = [function(VOID, &[3]), function(3, &[]), function(VOID, &[3])];
    let sheets = [
        (vec![function(VOID, &[]); MAX_FUNCTIONS], 2),
        // With the two of its types.
        (behind_two_ids(&three), 2 + 3),
    ];
    let mut cases = Vec::new();
    for (records, ids) in sheets {
        let last = MAX_BOUND as u32 - 1 - ids;
        let sheet = |start| Sheet { start, flags: 0, records: records.clone() };
        cases.push(domain(&sheet(last)));
        for start in [last + 1, MAX_BOUND as u32, u32::MAX - 1, u32::MAX] {
            cases.push(Case { sheet: sheet(start).encode(), expect: Expect::Refused(15) });
        }
    }
    cases
}

/// As many records as there may be, over 256 types of every kind.
fn full_sheets(random: &mut Random) -> Vec<Case> {
    let mut cases = Vec::new();
    for _ in 0..8 {
        let mut family = every_plain_type();
        random.mix(&mut family);
        let mut records: Vec<Record> = family.into_iter().take(MAX_TYPES).map(unnamed).collect();
        let mut some_type = || random.below(MAX_TYPES) as u16;
        for n in 0..MAX_FUNCTIONS {
            let count = n % (MAX_PARAMETERS + 1);
            let parameters: Vec<u16> = (0..count).map(|_| some_type()).collect();
            records.push(function(some_type(), &parameters));
        }
        cases.push(fits(records));
    }
    cases
}

/// Bodies cut off and too long; 8 comes before 10, whatever the count.
fn bodies() -> Vec<Case> {
    let mut cases = Vec::new();
    let case = |body: &[u8]| {
        let mut case = refused(of_two_ids(), 8);
        put_record(&mut case.sheet, &[&[48], body].concat());
        case
    };
    for count in [0, 1, 2, MAX_PARAMETERS, MAX_PARAMETERS + 1, 255] {
        let whole = function(VOID, &vec![3; count]).encode();
        let whole = &whole[1..];
        let cut = (0..whole.len()).map(|length| case(&whole[..length]));
        cases.extend(cut);
        cases.extend((1..=4).map(|more| case(&[whole, &vec![0; more]].concat())));
    }
    cases
}

/// Indexes that were not read, of a return type and of each parameter; nothing refers to a
/// function record, and it has no index.
fn references() -> Vec<Case> {
    let mut cases = Vec::new();
    let mut add = |functions: &[Record], number| {
        cases.push(refused(behind_two_ids(functions), number));
    };
    for index in [4, 5, 255, 256, 1_024, 65_534, 65_535] {
        if index != VOID {
            add(&[function(index, &[])], 11);
            add(&[function(index, &[0])], 11);
        }
        for place in 0..MAX_PARAMETERS {
            let mut parameters = [3; MAX_PARAMETERS];
            parameters[place] = index;
            add(&[function(VOID, &parameters)], 11);
            add(&[function(0, &parameters[..=place])], 11);
        }
        // 10 before 11.
        add(&[function(VOID, &[index; MAX_PARAMETERS + 1])], 10);
    }
    let first = function(VOID, &[]);
    add(&[first.clone(), function(VOID, &[4])], 11);
    add(&[first.clone(), function(4, &[])], 11);
    add(&[first.clone(), Record::Constant(Constant::Zero(4))], 11);
    add(&[first.clone(), Record::Constant(Constant::Alias(0))], 11);
    add(&[first, Record::Global(global(4, UNIFORM, 0))], 11);
    cases.push(refused(vec![function(0, &[])], 11));
    cases.push(refused(vec![function(VOID, &[0])], 11));
    cases
}

/// Function records before and behind others; what misses a capability is refused before
/// them as ever.
fn ranks() -> Vec<Case> {
    let mut cases = Vec::new();
    let remap = || Record::Remap { group: 0, binding: 0, size: 1 };
    let available = |list: &[u32]| Record::Available(list.to_vec());
    let global = || Record::Global(global(0, UNIFORM, 0));
    for one in [function(VOID, &[]), function(0, &[0]), function(VOID, &[0; MAX_PARAMETERS])] {
        let behind = |others: &[Record]| [&[scalar(FLOAT), one.clone()], others].concat();
        cases.push(fits(
            [&[available(&[]), remap()], &behind(&[literal(1), global()])[..]].concat(),
        ));
        for others in [vec![], vec![one.clone()], vec![literal(1)], vec![global()]] {
            cases.push(fits(behind(&others)));
        }
        for lower in [available(&[]), remap(), scalar(UINT), scalar(FLOAT)] {
            cases.push(refused(behind(&[lower.clone()]), 6));
            cases.push(refused(behind(&[one.clone(), lower]), 6));
        }
        for higher in [literal(1), global()] {
            cases.push(refused(vec![scalar(FLOAT), higher.clone(), one.clone()], 6));
            cases.push(refused(behind(&[higher, one.clone()]), 6));
        }
        let image = Inner::Image { dim: D1, arrayed: 0, class: SAMPLED, first: FLOAT, second: 0 };
        for list in [&[][..], &[43]] {
            let records = vec![available(list), scalar(FLOAT), unnamed(image.clone()), one.clone()];
            cases.push(fits(records));
        }
    }
    cases
}
