//! Duties that are expired or share a row, found by the records of a file: what 31 and 32 have to
//! tell.

use crate::builder::{CaseFile, Obligation};
use crate::checker::{Verdict, ABSENT, EACH_USE};
use crate::desk::reading::read;

/// Whether the agent sees the duty's action in the row that the duty names. No log has a row 65,535.
fn is_done(case: &CaseFile, duty: &Obligation) -> bool {
    let row = case.rows.get(duty.row as usize);
    row.is_some_and(|row| row.action == duty.action && row.observers.contains(&case.agent))
}

/// The lowest obligation for which this holds.
fn lowest(case: &CaseFile, holds: impl Fn(usize) -> bool) -> Option<u16> {
    (0..case.obligations.len()).find(|number| holds(*number)).map(|number| number as u16)
}

/// The place of 31.
pub fn lowest_not_done(case: &CaseFile) -> Option<u16> {
    lowest(case, |number| {
        let duty = &case.obligations[number];
        duty.due < case.hour && !is_done(case, duty)
    })
}

/// The place of 32.
pub fn lowest_of_one_row(case: &CaseFile) -> Option<u16> {
    lowest(case, |number| {
        let duty = &case.obligations[number];
        let mut earlier = case.obligations[..number].iter();
        let named = earlier.any(|other| other.mark == EACH_USE && other.row == duty.row);
        duty.mark == EACH_USE && duty.row != ABSENT && named
    })
}

/// Whether a verdict tells 31 or 32 where it is due. A pass, none owed and 23 come after both.
pub fn is_right_about_duties(file: &[u8], verdict: Verdict) -> bool {
    let case = || read(file).expect("its header is sound").case;
    let both = |case: CaseFile| (lowest_not_done(&case), lowest_of_one_row(&case));
    match verdict {
        Verdict::Refused { number: 31, place } => lowest_not_done(&case()) == Some(place),
        Verdict::Refused { number: 32, place } => both(case()) == (None, Some(place)),
        Verdict::Passed { .. } | Verdict::NoneOwed | Verdict::Refused { number: 23, .. } => {
            both(case()) == (None, None)
        }
        _ => true,
    }
}
