//! Sheets at and just over each limit.

use super::*;

/// Sheets at and just over each limit. `bound_of` is the reference's bound.
pub fn edges(random: &mut Random, bound_of: &dyn Fn(&[u8]) -> Option<u32>) -> Vec<Case> {
    let mut cases = Vec::new();
    let float = || Inner::Scalar { kind: FLOAT, width: 4 };
    let refused = |records: Vec<Record>, number| Case {
        sheet: Sheet { start: 0, flags: 0, records }.encode(),
        expect: Expect::Refused(number),
    };
    let fits = |records: Vec<Record>| domain(&Sheet { start: 0, flags: DEBUG, records });

    // 256 types and 257; constants, globals, remaps and members likewise.
    let named =
        |n: usize| Record::Type(Type { name: Some(format!("{n}").into_bytes()), inner: float() });
    let literal = |n: usize| Record::Constant(Constant::Literal(Literal::U32(n as u32)));
    let remap = |n: usize| Record::Remap { group: 1, binding: n as u32, size: 1 };
    let bound =
        |n: usize| Record::Global(Global { bound: 1, binding: n as u32, ..global(0, UNIFORM, 0) });
    let makers: [(&dyn Fn(usize) -> Record, usize); 4] = [
        (&named, MAX_TYPES),
        (&literal, MAX_CONSTANTS),
        (&remap, MAX_REMAPS),
        (&bound, MAX_GLOBALS),
    ];
    for (make, most) in makers {
        let first = matches!(make(0), Record::Global(_)).then(|| unnamed(float()));
        let records = |count| first.iter().cloned().chain((0..count).map(make)).collect();
        cases.push(fits(records(most)));
        cases.push(refused(records(most + 1), 7));
    }
    let members = |count| vec![unnamed(float()), unnamed(structure(&vec![0; count]))];
    cases.push(fits(members(MAX_MEMBERS)));
    cases.push(refused(members(MAX_MEMBERS + 1), 10));

    // 16,384 bytes and 16,385: a list of capabilities and a name fill a sheet up.
    for (bytes, expect) in [(MAX_SHEET, Expect::Domain), (MAX_SHEET + 1, Expect::Refused(1))] {
        let rest = bytes - HEADER - 9;
        let list = vec![1; (rest - 3) / 4];
        let name = Some(vec![b'n'; rest - 3 - 4 * list.len() + 3]);
        let records = vec![Record::Available(list), Record::Type(Type { name, inner: float() })];
        let sheet = Sheet { start: 0, flags: DEBUG, records }.encode();
        assert_eq!(sheet.len(), bytes);
        cases.push(Case { sheet, expect });
    }

    // 200 structs, each holding the one below twice, with a zero and globals.
    let mut records = vec![unnamed(float())];
    records.extend((0..200).map(|n| unnamed(structure(&[n, n]))));
    records.push(Record::Constant(Constant::Zero(200)));
    for space in [PRIVATE, UNIFORM] {
        records.push(Record::Global(global(200, space, 0)));
    }
    cases.push(fits(records));

    // The largest module: members that are matrices, each with an empty name.
    let mut records = vec![unnamed(Inner::Matrix { columns: 2, rows: 2, width: 4 })];
    let bytes =
        |records: &[Record]| HEADER + records.iter().map(|r| r.encode().len() + 2).sum::<usize>();
    for n in 0.. {
        let member = Member { ty: 0, offset: 0, name: Some(Vec::new()) };
        let left = MAX_SHEET - bytes(&records);
        // A struct takes 10 bytes, a member 7.
        if left < 10 {
            break;
        }
        let members = vec![member; MAX_MEMBERS.min((left - 10) / 7)];
        let inner = Inner::Struct { span: n, members };
        records.push(Record::Type(Type { name: Some(Vec::new()), inner }));
    }
    cases.push(fits(records));

    // A Compose with as many parts as a sheet can hold.
    let parts = 8_160;
    cases.push(fits(vec![
        unnamed(float()),
        unnamed(Inner::Array { base: 0, size: parts as u32, stride: 4 }),
        Record::Constant(Constant::Literal(Literal::F32(1))),
        Record::Constant(Constant::Compose { ty: 1, parts: vec![0; parts] }),
    ]));

    // The last id at the limit, and one past it.
    for _ in 0..40 {
        let aimed = aim(random);
        let mut sheet = valid(random, aimed);
        sheet.start = 0;
        let Some(bound) = bound_of(&sheet.encode()) else { continue };
        sheet.start = (MAX_BOUND - bound as u64) as u32;
        cases.push(domain(&sheet));
        for start in [sheet.start + 1, MAX_BOUND as u32 + 1, u32::MAX - bound / 2, u32::MAX] {
            let sheet = Sheet { start, ..sheet.clone() }.encode();
            cases.push(Case { sheet, expect: Expect::Refused(15) });
        }
    }
    cases
}
