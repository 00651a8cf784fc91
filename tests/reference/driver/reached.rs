//! What a run has reached: how often each tag stood in an accepted sheet, which
//! values its small fields had, and how often each refusal was due.

use crate::sheet::*;
use std::collections::{BTreeMap, BTreeSet};

/// For each tag, how many combinations its small fields have. Of a field with many
/// values a few classes are told apart: see `combination`.
const COMBINATIONS: [(u8, usize); 22] = [
    (1, 2),
    (2, 1),
    (16, 12),
    (17, 36),
    (18, 27),
    (19, 12),
    (20, 10),
    (21, 480),
    (22, 2),
    (23, 4),
    (24, 1344),
    (25, 2),
    (26, 1),
    (27, 1),
    (28, 2),
    (48, 34),
    (64, 6),
    (65, 1),
    (66, 1),
    (67, 1),
    (68, 3),
    (96, 16),
];

/// Names: none, empty, full, and each length modulo 4.
const NAMES: usize = 7;

fn combination(record: &Record) -> String {
    match record {
        Record::Available(list) => format!("{}", list.is_empty()),
        Record::Remap { .. } => String::new(),
        Record::Type(t) => match &t.inner {
            Inner::Pointer { space, access, .. } => format!("{space} {access}"),
            Inner::Array { size, .. } | Inner::BindingArray { size, .. } => {
                format!("{}", *size == 0)
            }
            Inner::Struct { members, .. } => match members.len() {
                few @ (0 | 1 | MAX_MEMBERS) => format!("{few}"),
                _ => String::from("some"),
            },
            all_small => format!("{all_small:?}"),
        },
        Record::Function(f) => format!("{} {}", f.return_type == VOID, f.parameters.len()),
        Record::Constant(c) => match c {
            Constant::Literal(literal @ Literal::Bool(_)) => format!("{literal:?}"),
            Constant::Literal(Literal::F64(_)) => String::from("F64"),
            Constant::Literal(Literal::F32(_)) => String::from("F32"),
            Constant::Literal(Literal::U32(_)) => String::from("U32"),
            Constant::Literal(Literal::I32(_)) => String::from("I32"),
            Constant::Splat { size, .. } => format!("{size}"),
            Constant::Alias(_) | Constant::Zero(_) | Constant::Compose { .. } => String::new(),
        },
        Record::Global(g) => {
            format!("{} {} {} {}", g.space, g.access, g.bound, g.init == NO_INIT)
        }
    }
}

#[derive(Default)]
pub struct Reached {
    tags: BTreeMap<u8, usize>,
    combinations: BTreeSet<(u8, String)>,
    names: BTreeSet<String>,
    refusals: BTreeMap<u8, usize>,
}

impl Reached {
    pub fn refusal(&mut self, number: u8) {
        *self.refusals.entry(number).or_default() += 1;
    }

    pub fn accepted(&mut self, sheet: &[u8]) {
        let mut rest = &sheet[HEADER..];
        while let Some((record, after)) = next_record(rest) {
            rest = after;
            *self.tags.entry(record.tag()).or_default() += 1;
            self.combinations.insert((record.tag(), combination(&record)));
            let name = match &record {
                Record::Type(t) => &t.name,
                Record::Global(g) => &g.name,
                _ => continue,
            };
            self.names.insert(match name {
                None => String::from("none"),
                Some(bytes) if matches!(bytes.len(), 0 | 254) => format!("{}", bytes.len()),
                Some(bytes) => format!("4n + {}", bytes.len() % 4),
            });
        }
    }

    /// Prints the counts.
    pub fn show(&self) {
        let show = |counts: &BTreeMap<u8, usize>| {
            counts.iter().map(|(k, n)| format!("{k}: {n}")).collect::<Vec<_>>().join(", ")
        };
        println!("tags in accepted sheets: {}", show(&self.tags));
        println!("refusals: {}", show(&self.refusals));
    }

    /// Prints the counts; false where something was never reached.
    pub fn report(&self) -> bool {
        self.show();
        let mut missing = Vec::new();
        for (tag, all) in COMBINATIONS {
            let reached = self.combinations.iter().filter(|(t, _)| *t == tag).count();
            if reached != all {
                missing.push(format!("tag {tag} in {reached} of {all} combinations of values"));
            }
        }
        if self.names.len() != NAMES {
            missing.push(format!("names of kinds {:?} only", self.names));
        }
        for number in (1..=20).filter(|n| !self.refusals.contains_key(n)) {
            missing.push(format!("refusal {number} never"));
        }
        let (tags, combinations) =
            (COMBINATIONS.len(), COMBINATIONS.iter().map(|c| c.1).sum::<usize>());
        match missing.is_empty() {
            true => {
                println!("reached: all {tags} tags in all {combinations} combinations of values")
            }
            false => println!("not reached: {}", missing.join("; ")),
        }
        missing.is_empty()
    }
}
