//! Damage to a case: a change to any one field of any one record, to the order of things, or to
//! the bytes.

use crate::builder::{CaseFile, Step};
use crate::checker::{ABSENT, MOST_BYTES};
use crate::random::{damage, Random};

/// All fields of one name, over all records that have it.
type Fields = fn(&mut CaseFile) -> Vec<&mut u16>;

const FIELDS: [(&str, Fields); 18] = [
    ("agent", |case| vec![&mut case.agent]),
    ("action", |case| vec![&mut case.action]),
    ("audit hour", |case| vec![&mut case.hour]),
    ("formula field", |case| case.formulas.iter_mut().flat_map(|row| &mut row.fields).collect()),
    ("row action", |case| case.rows.iter_mut().map(|row| &mut row.action).collect()),
    ("observer", |case| case.rows.iter_mut().flat_map(|row| &mut row.observers).collect()),
    ("condition", |case| case.conditions.iter_mut().collect()),
    ("obligation mark", |case| case.obligations.iter_mut().map(|duty| &mut duty.mark).collect()),
    ("obligation action", |case| {
        case.obligations.iter_mut().map(|duty| &mut duty.action).collect()
    }),
    ("due hour", |case| case.obligations.iter_mut().map(|duty| &mut duty.due).collect()),
    ("obligation row", |case| case.obligations.iter_mut().map(|duty| &mut duty.row).collect()),
    ("label mark", |case| case.labels.iter_mut().map(|entry| &mut entry.0).collect()),
    ("label formula", |case| case.labels.iter_mut().map(|entry| &mut entry.1).collect()),
    ("rule", |case| case.steps.iter_mut().map(|step| &mut step.rule).collect()),
    ("step formula", |case| case.steps.iter_mut().map(|step| &mut step.formula).collect()),
    ("argument", |case| case.steps.iter_mut().map(|step| &mut step.argument).collect()),
    ("premise", |case| case.steps.iter_mut().flat_map(|step| &mut step.premises).collect()),
    ("span", spans),
];

/// The offsets and counts of log rows and steps, as they stand in the file.
fn spans(case: &mut CaseFile) -> Vec<&mut u16> {
    let (mut observers, mut premises) = (0, 0);
    for row in &mut case.rows {
        row.span = Some(next_span(&mut observers, row.observers.len()));
    }
    for step in &mut case.steps {
        step.span = Some(next_span(&mut premises, step.premises.len()));
    }
    let rows = case.rows.iter_mut().map(|row| &mut row.span);
    let steps = case.steps.iter_mut().map(|step| &mut step.span);
    rows.chain(steps).flatten().flat_map(|(offset, count)| [offset, count]).collect()
}

fn next_span(due: &mut u16, count: usize) -> (u16, u16) {
    let offset = *due;
    *due += count as u16;
    (offset, count as u16)
}

/// A change to the order or number of records.
type Change = fn(&mut CaseFile, &mut Random);

const CHANGES: [(&str, Change); 13] = [
    ("formula kind", |case, random| {
        let at = random.below(case.formulas.len());
        case.formulas[at].kind = random.below(12) as u8;
    }),
    ("formula code", |case, random| {
        let at = random.below(case.formulas.len());
        case.formulas[at].code = case.formulas[at].code.wrapping_add(random.pick(&[1, 255]));
    }),
    ("formula again", |case, random| {
        let again = case.formulas[random.below(case.formulas.len())].clone();
        case.formulas.push(again);
    }),
    ("formulas dropped", |case, random| {
        case.formulas.truncate(random.below(case.formulas.len()));
    }),
    ("premises in another order", |case, random| {
        let step = some_step(case, random);
        let shift = random.below(step.premises.len());
        step.premises.rotate_left(shift);
    }),
    ("premise more or less", |case, random| {
        let extra = random.below(4) as u16;
        let step = some_step(case, random);
        if random.one_in(2) {
            step.premises.push(extra);
        } else {
            step.premises.pop();
        }
    }),
    ("steps swapped", |case, random| {
        let last = case.steps.len();
        case.steps.swap(random.below(last), random.below(last));
    }),
    ("step dropped", |case, random| {
        case.steps.remove(random.below(case.steps.len()));
    }),
    ("step again", |case, random| insert_step(case, random)),
    ("last steps dropped", |case, random| {
        case.steps.truncate(random.below(case.steps.len()));
    }),
    ("no steps, of some agent", |case, random| {
        case.agent = random.below(4) as u16;
        case.steps.clear();
    }),
    ("entries dropped", |case, random| match random.below(4) {
        0 => case.rows.truncate(random.below(case.rows.len() + 1)),
        1 => case.conditions.truncate(random.below(case.conditions.len() + 1)),
        2 => case.obligations.truncate(random.below(case.obligations.len() + 1)),
        _ => case.labels.truncate(random.below(case.labels.len() + 1)),
    }),
    ("header", |case, random| {
        let pairs = case.pairs();
        let part = random.below(8);
        let (mut offset, mut length) = pairs[part];
        match random.below(4) {
            0 => offset = other(random, offset, &[length]),
            1 => length = other(random, length, &[offset]),
            2 => length = length.wrapping_add(random.pick(&[2, 4, 6, 8, 10])),
            _ => (offset, length) = pairs[random.below(8)],
        }
        case.header[part] = Some((offset, length));
    }),
];

fn some_step<'a>(case: &'a mut CaseFile, random: &mut Random) -> &'a mut Step {
    let at = random.below(case.steps.len());
    &mut case.steps[at]
}

/// A step without premises stands there twice, the second time used by none; premises after it
/// are counted on.
fn insert_step(case: &mut CaseFile, random: &mut Random) {
    let leaves = (0..case.steps.len()).filter(|at| case.steps[*at].premises.is_empty());
    let at = random.pick(&leaves.collect::<Vec<usize>>());
    let again = case.steps[at].clone();
    for premise in case.steps.iter_mut().flat_map(|step| &mut step.premises) {
        *premise += u16::from(*premise as usize > at);
    }
    case.steps.insert(at + 1, again);
}

/// Another number: a neighbour, one of the same field elsewhere, or one of the telling ones.
fn other(random: &mut Random, value: u16, like: &[u16]) -> u16 {
    match random.below(8) {
        0 => value.wrapping_add(1),
        1 => value.wrapping_sub(1),
        2 => random.pick(&[0, ABSENT, ABSENT - 1]),
        3 => random.below(20) as u16,
        4 => random.pick(&[16_383, 16_384, 32_767, 32_768, 32_800, 32_831, 40_960, 40_968]),
        _ => random.pick(like),
    }
}

fn damage_field(case: &mut CaseFile, random: &mut Random) -> &'static str {
    let (name, fields) = random.pick(&FIELDS);
    let mut found = fields(case);
    if !found.is_empty() {
        let like: Vec<u16> = found.iter().map(|field| **field).collect();
        let at = random.below(found.len());
        *found[at] = other(random, like[at], &like);
    }
    name
}

/// Damages a field, seldom two, or changes the records. Tells what.
pub fn damage_case(case: &mut CaseFile, random: &mut Random) -> &'static str {
    match random.below(8) {
        0..=3 => damage_field(case, random),
        4 => {
            damage_field(case, random);
            damage_field(case, random)
        }
        _ => {
            let (name, change) = random.pick(&CHANGES);
            change(case, random);
            name
        }
    }
}

/// How many ways of damage there are: those of `damage_case`, and three to the bytes.
pub const WAYS: usize = FIELDS.len() + CHANGES.len() + 3;

/// A file of the case, damaged. Tells how.
pub fn damaged(case: &CaseFile, random: &mut Random) -> (&'static str, Vec<u8>) {
    let mut case = case.clone();
    match random.below(64) {
        0..=3 => ("bytes", damage(&case.to_bytes(), random)),
        4 => {
            let mut file = case.to_bytes();
            file.resize(random.below(file.len() + 40), 0);
            ("length", file)
        }
        5 if random.one_in(8) => {
            let mut file = case.to_bytes();
            file.resize(MOST_BYTES + random.below(9), 0);
            ("near the most bytes", file)
        }
        _ => {
            let name = damage_case(&mut case, random);
            (name, case.to_bytes())
        }
    }
}
