//! The values of the small fields, as the documents' lists have them: written out
//! apart from the second reading's tests, so that a slip in either shows.

use super::*;

/// Every tag of document 01.
const TAGS: [u8; 21] =
    [1, 2, 16, 17, 18, 19, 20, 21, 22, 23, 24, 25, 26, 27, 28, 64, 65, 66, 67, 68, 96];

/// The same with those of papers; paper 2: "a record with tag 48".
pub(super) fn tags(papers: u8) -> Vec<u8> {
    let mut all = TAGS.to_vec();
    if papers >= 2 {
        all.push(48);
    }
    all
}

/// "Widths in bytes: integers 1, 2, 4, 8; Float and matrices 4, 8; Bool 1." Paper 1:
/// "Float and matrix width 2 become allowed values in types".
fn float_widths(papers: u8) -> &'static [u8] {
    match papers {
        0 => &[4, 8],
        _ => &[2, 4, 8],
    }
}

fn widths(papers: u8) -> [(u8, &'static [u8]); 4] {
    let integers = &[1, 2, 4, 8];
    [(SINT, integers), (UINT, integers), (FLOAT, float_widths(papers)), (BOOL, &[1])]
}

/// "Vector sizes 2 to 4", and "0 for none".
const SIZES: &[u8] = &[2, 3, 4];
const SIZES_OR_NONE: &[u8] = &[0, 2, 3, 4];
const NO_OR_YES: &[u8] = &[0, 1];

/// Of each image class the values of its two bytes.
const CLASSES: [(u8, std::ops::RangeInclusive<u8>, std::ops::RangeInclusive<u8>); 3] =
    [(SAMPLED, 0..=2, 0..=1), (DEPTH, 0..=0, 0..=1), (STORED, 0..=39, 0..=3)];

/// A field of one byte, with the values that it may have while the record's other
/// fields stay as they are.
pub(super) struct Field<'a> {
    pub what: &'static str,
    pub byte: &'a mut u8,
    pub values: Vec<u8>,
}

fn field<'a>(what: &'static str, byte: &'a mut u8, values: &[u8]) -> Field<'a> {
    Field { what, byte, values: values.to_vec() }
}

fn scalar<'a>(kind: &'a mut u8, width: &'a mut u8, papers: u8) -> [Field<'a>; 2] {
    let all = widths(papers);
    let kinds = all.iter().filter(|(_, widths)| widths.contains(width)).map(|w| w.0);
    let kinds = kinds.collect::<Vec<u8>>();
    let widths = all.iter().find(|w| w.0 == *kind).map_or(&[] as &[u8], |w| w.1);
    [field("kind", kind, &kinds), field("width", width, widths)]
}

fn space<'a>(space: &'a mut u8, access: &'a mut u8) -> [Field<'a>; 2] {
    let spaces: &[u8] = if *access == 0 { &[0, 1, 2, 3, 4, 5, 6] } else { &[STORAGE] };
    let accesses: &[u8] = if *space == STORAGE { &[0, 1, 2, 3] } else { &[0] };
    [field("space", space, spaces), field("access", access, accesses)]
}

fn image<'a>(class: &'a mut u8, first: &'a mut u8, second: &'a mut u8) -> [Field<'a>; 3] {
    let fits = CLASSES.iter().filter(|(_, a, b)| a.contains(first) && b.contains(second));
    let classes = fits.map(|c| c.0).collect::<Vec<u8>>();
    let own = CLASSES.iter().find(|c| c.0 == *class).expect("a class");
    let (firsts, seconds) =
        (own.1.clone().collect::<Vec<u8>>(), own.2.clone().collect::<Vec<u8>>());
    [
        field("class", class, &classes),
        field("first class byte", first, &firsts),
        field("second class byte", second, &seconds),
    ]
}

/// The fields of one byte of a record whose values all fit, but for its tag, names,
/// counts and a literal's form, with the values that they may have up to a paper.
pub(super) fn small_fields(record: &mut Record, papers: u8) -> Vec<Field<'_>> {
    match record {
        Record::Type(t) => match &mut t.inner {
            Inner::Scalar { kind, width } | Inner::Atomic { kind, width } => {
                scalar(kind, width, papers).into()
            }
            Inner::Vector { size, kind, width } => {
                let mut fields = vec![field("size", size, SIZES)];
                fields.extend(scalar(kind, width, papers));
                fields
            }
            Inner::Matrix { columns, rows, width } => vec![
                field("columns", columns, SIZES),
                field("rows", rows, SIZES),
                field("width", width, float_widths(papers)),
            ],
            Inner::Pointer { space: s, access, .. } => space(s, access).into(),
            Inner::ValuePointer { size, kind, width, space: s, access } => {
                let mut fields = vec![field("size", size, SIZES_OR_NONE)];
                fields.extend(scalar(kind, width, papers));
                fields.extend(space(s, access));
                fields
            }
            Inner::Image { dim, arrayed, class, first, second } => {
                let mut fields =
                    vec![field("dim", dim, &[0, 1, 2, 3]), field("arrayed", arrayed, NO_OR_YES)];
                fields.extend(image(class, first, second));
                fields
            }
            Inner::Sampler { comparison } => vec![field("comparison", comparison, NO_OR_YES)],
            _ => Vec::new(),
        },
        Record::Constant(Constant::Literal(Literal::Bool(value))) => {
            vec![field("value", value, NO_OR_YES)]
        }
        Record::Constant(Constant::Splat { size, .. }) => vec![field("size", size, SIZES)],
        Record::Global(g) => {
            let bounds: &[u8] = if (g.group, g.binding) == (0, 0) { NO_OR_YES } else { &[1] };
            let mut fields = vec![field("bound", &mut g.bound, bounds)];
            fields.extend(space(&mut g.space, &mut g.access));
            fields
        }
        _ => Vec::new(),
    }
}
