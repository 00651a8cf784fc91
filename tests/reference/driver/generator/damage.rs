//! Valid sheets with one thing wrong, or with bytes changed.

use super::values::*;
use super::*;

/// Refusals that a single record or the header brings about; 14 needs a list of
/// capabilities, and 15 a high start.
pub const DAMAGES: std::ops::RangeInclusive<u8> = 1..=13;

/// A valid sheet with one thing wrong in it that must get this number.
pub fn damaged_as(random: &mut Random, number: u8) -> Case {
    loop {
        // Not every sheet can be damaged in every way.
        if let Some(sheet) = damage(random, number) {
            // A Float of width 2 is damage without paper 1 and let in by it, and so is tag 48
            // without paper 2.
            let let_in = match number {
                5 => random.papers < 2 && has_functions(&sheet),
                10 => random.papers < 1 && has_halves(&sheet),
                _ => false,
            };
            let expect = if let_in { Expect::Unknown } else { Expect::Refused(number) };
            return Case { sheet, expect };
        }
    }
}

pub fn damaged(random: &mut Random) -> Case {
    let number = DAMAGES.start() + random.below(DAMAGES.count()) as u8;
    damaged_as(random, number)
}

/// The bytes of a sheet with all capabilities, cut into header and records.
fn sound(random: &mut Random) -> (Vec<u8>, Vec<Record>) {
    let mut aimed = aim(random);
    // Damage is found in small sheets as well as in large ones.
    aimed.types = aimed.types.min(40);
    let sheet = valid(random, aimed);
    let mut records = sheet.records;
    records.retain(|r| !matches!(r, Record::Available(_)));
    (header(sheet.start, sheet.flags), records)
}

fn joined(mut header: Vec<u8>, records: &[Vec<u8>]) -> Vec<u8> {
    for record in records {
        put_record(&mut header, record);
    }
    header
}

fn damage(random: &mut Random, number: u8) -> Option<Vec<u8>> {
    let (mut head, mut records) = sound(random);
    if number >= 4 && random.chance(1, 4) {
        // Past the limit, which is only tested after all records.
        head[1..5].copy_from_slice(&u32::MAX.to_be_bytes());
    }
    let encode = |records: &[Record]| records.iter().map(Record::encode).collect::<Vec<_>>();
    let at = random.below(records.len().max(1));
    match number {
        1 => {
            let whole = joined(head, &encode(&records));
            let length = random.pick(&[random.state as usize % 6, MAX_SHEET + 1, MAX_SHEET + 300]);
            let mut cut = whole;
            cut.resize(length, 0);
            return Some(cut);
        }
        2 => head[0] = byte_outside(random, &[1]),
        3 => head[5] = byte_outside(random, &[0, 1, 2, 3]),
        4 => {
            let mut whole = joined(head, &encode(&records));
            // Past the end: by one, or by any number.
            let past = 5 + random.pick(&[0, random.state as u16 % (u16::MAX - 4)]);
            whole.extend(match random.below(4) {
                0 => vec![random.next() as u8],
                1 => vec![0, 0, 16, 255, 2, 4],
                2 => [&past.to_be_bytes(), &[16, 255, 2, 4][..]].concat(),
                _ => vec![255, 255],
            });
            return Some(whole);
        }
        5 => {
            let mut encoded = encode(&records);
            let tags = tags(random.papers);
            encoded.insert(at, vec![byte_outside(random, &tags), 0, 0]);
            return Some(joined(head, &encoded));
        }
        6 => {
            // A record goes behind one of a higher rank; document 01's is the first of the
            // lowest, paper 2's any, so that function records do too.
            let last = rank(records.last()?.tag());
            let mut lower = records.clone();
            lower.retain(|r| rank(r.tag()) < last);
            let first = lower.first()?.clone();
            records.push(if random.papers < 2 { first } else { random.pick(&lower) });
            if random.chance(1, 4) {
                records.insert(0, Record::Available(vec![1]));
                records.insert(1, Record::Available(vec![]));
            }
        }
        7 => {
            let kinds = if random.papers < 2 { 2 } else { 3 };
            let fill: fn(usize) -> Record = match random.below(kinds) {
                0 => |n| Record::Remap { group: 7, binding: n as u32, size: 1 },
                1 => |n| Record::Constant(Constant::Literal(Literal::F32(n as u32))),
                _ => |_| function(VOID, &[]),
            };
            let most = match fill(0) {
                Record::Remap { .. } => MAX_REMAPS,
                Record::Function(_) => MAX_FUNCTIONS,
                _ => MAX_CONSTANTS,
            };
            let mut encoded: Vec<_> = (0..=most).map(|n| fill(n).encode()).collect();
            // What the last one holds does not matter any more.
            encoded[most].truncate(1 + random.below(3));
            return Some(joined(head, &encoded));
        }
        8 => {
            let mut encoded = encode(&records);
            let record = encoded.get_mut(at)?;
            if random.chance(1, 2) && record.len() > 1 {
                record.pop();
            } else {
                record.push(random.next() as u8);
            }
            return Some(joined(head, &encoded));
        }
        // 9 and 10 cover the whole record before the next number: what else is wrong
        // in it does not show.
        9 => {
            let record = records.get_mut(at)?;
            spoil_name(random, record)?;
            if random.chance(1, 2) {
                spoil_value(random, record);
            }
        }
        10 => {
            let mut encoded = encode(&records);
            let record = records.get_mut(at)?;
            if random.chance(1, 2) {
                spoil_reference(random, record, 300, 300);
            }
            if let Record::Constant(Constant::Literal(literal)) = record {
                if !matches!(literal, Literal::Bool(_)) || random.chance(1, 2) {
                    // An unknown form is 10 whatever follows it.
                    encoded[at][1] = byte_outside(random, &[0, 1, 2, 3, 4]);
                    encoded[at].truncate(2 + random.below(4));
                    return Some(joined(head, &encoded));
                }
            }
            spoil_value(random, record)?;
        }
        11 => {
            let types = records[..at].iter().filter(|r| matches!(r, Record::Type(_))).count();
            let constants =
                records[..at].iter().filter(|r| matches!(r, Record::Constant(_))).count();
            spoil_reference(random, records.get_mut(at)?, types as u16, constants as u16)?;
        }
        12 => {
            let record = records.get(at)?.clone();
            match record {
                Record::Type(_) => {}
                Record::Remap { .. } if random.chance(1, 2) => {}
                Record::Remap { group, binding, .. } => {
                    records.insert(at + 1, Record::Remap { group, binding, size: 77 });
                    return Some(joined(head, &encode(&records)));
                }
                _ => return None,
            }
            // Behind it, as far off as its kind goes on.
            let mut to = at + 1;
            while to < records.len()
                && rank(records[to].tag()) == rank(record.tag())
                && random.chance(2, 3)
            {
                to += 1;
            }
            records.insert(to, record);
        }
        _ => unfit(random, &mut records)?,
    }
    let sheet = joined(head, &encode(&records));
    (sheet.len() <= MAX_SHEET).then_some(sheet)
}

fn spoil_name(random: &mut Random, record: &mut Record) -> Option<()> {
    let mut names: Vec<&mut Name> = match record {
        Record::Type(Type { name, inner: Inner::Struct { members, .. } }) => {
            std::iter::once(name).chain(members.iter_mut().map(|m| &mut m.name)).collect()
        }
        Record::Type(t) => vec![&mut t.name],
        Record::Global(g) => vec![&mut g.name],
        _ => return None,
    };
    const BAD: [&[u8]; 12] = [
        b"\0",
        b"\x80",
        b"\xbf",
        b"\xc0\x80",
        b"\xc1\xbf",
        b"\xc3",
        b"\xe0\x9f\xbf",
        b"\xed\xa0\x80",
        b"\xe2\x82",
        b"\xf0\x8f\xbf\xbf",
        b"\xf4\x90\x80\x80",
        b"\xff",
    ];
    let which = random.below(names.len());
    let length = random.below(5);
    let mut bytes = text(random, length);
    bytes.extend(random.pick(&BAD));
    if random.chance(1, 2) {
        bytes.push(b'z');
    }
    *names[which] = Some(bytes);
    Some(())
}

/// Any byte that is none of the values, half of the time one right beside them.
fn byte_outside(random: &mut Random, values: &[u8]) -> u8 {
    loop {
        let near = random.pick(values);
        let byte = match random.below(6) {
            0 => near.wrapping_add(1),
            1 => near.wrapping_sub(1),
            2 => near ^ (1 << random.below(8)),
            _ => random.next() as u8,
        };
        if !values.contains(&byte) {
            return byte;
        }
    }
}

/// Gives one field a value, of all that its bytes hold, that the record may not have.
fn spoil_value(random: &mut Random, record: &mut Record) -> Option<()> {
    match record {
        Record::Remap { size, .. } => *size = 0,
        Record::Type(Type { inner: Inner::Struct { members, .. }, .. }) => {
            let count =
                MAX_MEMBERS + 1 + random.pick(&[0, random.state as usize % (255 - MAX_MEMBERS)]);
            members.resize(count, member(0, 0));
        }
        Record::Function(f) => {
            let past = random.state as usize % (255 - MAX_PARAMETERS);
            f.parameters.resize(MAX_PARAMETERS + 1 + random.pick(&[0, past]), 0);
        }
        Record::Global(g) if g.bound == 0 && random.chance(1, 2) => {
            let one = (1 + random.below(255) as u32) << (8 * random.below(4));
            match random.below(2) {
                0 => g.group = one,
                _ => g.binding = one,
            }
        }
        _ => {
            let mut fields = small_fields(record, random.papers);
            if fields.is_empty() {
                return None;
            }
            let field = fields.swap_remove(random.below(fields.len()));
            *field.byte = byte_outside(random, &field.values);
        }
    }
    Some(())
}

fn spoil_reference(
    random: &mut Random,
    record: &mut Record,
    types: u16,
    constants: u16,
) -> Option<()> {
    let far = |random: &mut Random, count: u16| {
        let any = count + random.below((65_535 - count) as usize) as u16;
        random.pick(&[count, count + 1, 65_534, any, any])
    };
    let ty = far(random, types);
    let constant = far(random, constants);
    match record {
        Record::Type(t) => match &mut t.inner {
            Inner::Pointer { base, .. }
            | Inner::Array { base, .. }
            | Inner::BindingArray { base, .. } => *base = ty,
            Inner::Struct { members, .. } if !members.is_empty() => {
                let which = random.below(members.len());
                members[which].ty = ty;
            }
            _ => return None,
        },
        Record::Function(f) => match f.parameters.len() {
            0 => f.return_type = ty,
            count => match random.below(count + 1) {
                0 => f.return_type = ty,
                which => f.parameters[which - 1] = random.pick(&[ty, VOID]),
            },
        },
        Record::Constant(c) => match c {
            Constant::Literal(_) => return None,
            Constant::Alias(of) => *of = constant,
            Constant::Zero(of) => *of = ty,
            Constant::Compose { ty: of, parts } => match random.below(2) {
                0 => *of = ty,
                _ => *parts.last_mut()? = constant,
            },
            Constant::Splat { value, .. } => *value = constant,
        },
        Record::Global(g) => match random.below(2) {
            0 => g.ty = ty,
            _ => g.init = constant,
        },
        _ => return None,
    }
    Some(())
}

/// Appends a record that 13 refuses.
pub(super) fn unfit(random: &mut Random, records: &mut Vec<Record>) -> Option<()> {
    let globals = records.iter().position(|r| matches!(r, Record::Global(_)));
    records.truncate(globals.unwrap_or(records.len()));
    let constants = records.iter().filter(|r| matches!(r, Record::Constant(_))).count() as u16;
    let types: Vec<Inner> = records
        .iter()
        .filter_map(|r| match r {
            Record::Type(t) => Some(t.inner.clone()),
            _ => None,
        })
        .collect();
    let find = |wanted: fn(&Inner) -> bool| types.iter().position(wanted).map(|i| i as u16);
    let opaque = |t: &Inner| matches!(t, Inner::Image { .. } | Inner::Sampler { .. });
    let dynamic = |t: &Inner| matches!(t, Inner::Array { size: 0, .. });
    let bindings = |t: &Inner| matches!(t, Inner::BindingArray { .. });
    let pointer = |t: &Inner| matches!(t, Inner::Pointer { .. } | Inner::ValuePointer { .. });
    let vector = |t: &Inner| matches!(t, Inner::Vector { .. } | Inner::Matrix { .. });
    let scalar = |t: &Inner| matches!(t, Inner::Scalar { .. } | Inner::Atomic { .. });
    let dark: fn(&Inner) -> bool = random.pick(&[opaque, dynamic, bindings, pointer]);
    let global = |ty, space| global(ty, space, 0);
    let record = match random.below(12) {
        0 => Record::Constant(Constant::Zero(find(dark)?)),
        1 => Record::Global(global(find(dark)?, random.pick(&[PRIVATE, WORKGROUP]))),
        2 => {
            let ty = find(random.pick(&[opaque, dynamic, bindings, pointer, scalar]))?;
            Record::Constant(Constant::Compose { ty, parts: Vec::new() })
        }
        3 => {
            let count = random.pick(&[0, 1, 5]);
            let parts = vec![constants.checked_sub(1)?; count];
            Record::Constant(Constant::Compose { ty: find(vector)?, parts })
        }
        4 => {
            // Parts of the vector's or matrix's own type, never of the place's.
            let ty = find(vector)?;
            let count = match types[ty as usize] {
                Inner::Vector { size, .. } => size,
                Inner::Matrix { columns, .. } => columns,
                _ => unreachable!(),
            };
            records.push(Record::Constant(Constant::Zero(ty)));
            let parts = vec![constants; count as usize];
            Record::Constant(Constant::Compose { ty, parts })
        }
        5 => {
            records.push(Record::Constant(Constant::Zero(find(vector)?)));
            Record::Constant(Constant::Splat { size: 2, value: constants })
        }
        6 => Record::Global(global(find(scalar)?, FUNCTION)),
        7 => Record::Global(global(find(pointer)?, random.pick(&[UNIFORM, STORAGE, HANDLE]))),
        8 => {
            let space = random.pick(&[PRIVATE, WORKGROUP, PUSH_CONSTANT]);
            Record::Global(Global { bound: 1, ..global(find(scalar)?, space) })
        }
        9 => {
            let space = random.pick(&[WORKGROUP, UNIFORM, STORAGE, HANDLE, PUSH_CONSTANT]);
            let ty = find(scalar)?;
            records.push(Record::Constant(Constant::Zero(ty)));
            Record::Global(Global { init: constants, ..global(ty, space) })
        }
        10 => {
            records.push(Record::Constant(Constant::Zero(find(scalar)?)));
            Record::Global(Global { init: constants, ..global(find(vector)?, PRIVATE) })
        }
        _ => {
            let ty = types.iter().position(|t| matches!(t, Inner::Atomic { .. }))? as u16;
            records.push(Record::Constant(Constant::Zero(ty)));
            Record::Constant(Constant::Splat { size: 3, value: constants })
        }
    };
    records.push(record);
    // 256 constants may be there already.
    (constants + 2 <= MAX_CONSTANTS as u16).then_some(())
}

/// A valid sheet with a few bytes changed.
pub fn changed(random: &mut Random) -> Case {
    let aimed = aim(random);
    let mut sheet = valid(random, aimed).encode();
    for _ in 0..1 + random.below(3) {
        let at = random.below(sheet.len());
        sheet[at] = match random.below(4) {
            0 | 1 => random.next() as u8,
            2 => sheet[at] ^ (1 << random.below(8)),
            _ => random.below(6) as u8,
        };
    }
    Case { sheet, expect: Expect::Unknown }
}
