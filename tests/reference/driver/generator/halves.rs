//! What paper 1 adds: types of 16-bit floats, and what is made of them.

use super::*;

fn half() -> Inner {
    Inner::Scalar { kind: HALF.0, width: HALF.1 }
}

fn vector(size: u8) -> Inner {
    Inner::Vector { size, kind: HALF.0, width: HALF.1 }
}

fn constant(constant: Constant) -> Record {
    Record::Constant(constant)
}

fn compose(ty: u16, parts: &[u16]) -> Record {
    constant(Constant::Compose { ty, parts: parts.to_vec() })
}

/// Every type of width 2 alone and among the others, globals and constants of them.
pub fn halves(random: &mut Random) -> Vec<Case> {
    let sheet = |records| domain(&Sheet { start: 0, flags: 0, records });
    let every_half = || every_type_of(&[HALF], &[HALF.1]);
    let mut cases = Vec::new();
    // Alone, with nothing available and with all but Float16: it goes unchecked.
    for inner in every_half() {
        cases.push(sheet(vec![unnamed(inner.clone())]));
        for list in [Vec::new(), capabilities(0)] {
            cases.push(sheet(vec![Record::Available(list), unnamed(inner.clone())]));
        }
    }
    // Before and behind each other scalar, and images whose formats are 16-bit floats or
    // whose dimension brings in a capability: the order of capabilities, and what is shared.
    let image = |dim, first| Inner::Image { dim, arrayed: 0, class: STORED, first, second: 3 };
    let scalars = SCALARS.map(|(kind, width)| Inner::Scalar { kind, width });
    let images = [image(1, 6), image(1, 16), image(1, 30), image(D1, 30)];
    for other in scalars.into_iter().chain(images) {
        for inner in [half(), vector(3), Inner::Matrix { columns: 3, rows: 2, width: HALF.1 }] {
            let (other, inner) = (unnamed(other.clone()), unnamed(inner));
            cases.push(sheet(vec![other.clone(), inner.clone()]));
            cases.push(sheet(vec![inner, other]));
        }
    }
    for _ in 0..4 {
        let mut family = every_plain_type();
        family.extend(every_half());
        random.mix(&mut family);
        for chunk in family.chunks(MAX_TYPES) {
            cases.push(sheet(chunk.iter().cloned().map(unnamed).collect()));
        }
    }
    cases.extend(strides::members(HALF.1));
    let mut globals = global_types(HALF.1);
    globals.retain(|types| types.iter().any(Inner::is_half));
    cases.extend(twins(&globals));
    cases.extend(every_global(&globals));
    cases.extend(constants());
    cases
}

/// Zeros are the only constants of width 2, with what is composed of them; a literal is
/// never one's part.
fn constants() -> Vec<Case> {
    let atomic = Inner::Atomic { kind: HALF.0, width: HALF.1 };
    let matrix = Inner::Matrix { columns: 2, rows: 2, width: HALF.1 };
    let zero = |ty| constant(Constant::Zero(ty));
    let splat = |size, value| constant(Constant::Splat { size, value });
    let literal = constant(Constant::Literal(Literal::F32(0)));
    let private = |init| Record::Global(Global { init, ..global(0, PRIVATE, 0) });
    let half = || unnamed(half());
    let sheets: Vec<(Vec<Record>, Option<u8>)> = vec![
        (vec![half(), zero(0), splat(2, 0), splat(3, 0), splat(4, 0)], None),
        (vec![half(), zero(0), constant(Constant::Alias(0)), splat(2, 1), splat(2, 0)], None),
        (vec![half(), unnamed(vector(3)), zero(0), compose(1, &[0, 0, 0]), splat(3, 0)], None),
        (vec![unnamed(vector(2)), unnamed(matrix), zero(0), compose(1, &[0, 0]), zero(1)], None),
        (vec![half(), unnamed(atomic.clone()), zero(1), private(0)], None),
        (vec![half(), zero(0), private(0)], None),
        (vec![unnamed(atomic), zero(0), splat(2, 0)], Some(13)),
        (vec![unnamed(vector(2)), literal.clone(), compose(0, &[0, 0])], Some(13)),
        (vec![half(), literal, private(0)], Some(13)),
    ];
    let case = |(records, refused): (Vec<Record>, Option<u8>)| Case {
        sheet: Sheet { start: 0, flags: 0, records }.encode(),
        expect: refused.map_or(Expect::Domain, Expect::Refused),
    };
    sheets.into_iter().map(case).collect()
}
