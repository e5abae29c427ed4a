//! Duties with a due hour: checks 31 and 32. Words in quotes are document 02's.

use std::collections::BTreeSet;

use super::formulas::EACH_USE;
use super::records::Obligation;
use super::{ensure, Case, Refusal};

/// 31: "expired and not done", "cited or not"; the lowest such obligation.
pub(super) fn check_31(case: &Case) -> Result<(), Refusal> {
    for (place, obligation) in case.obligations.iter().enumerate() {
        ensure(!is_expired(case, obligation) || is_done(case, obligation), 31, place)?;
    }
    Ok(())
}

/// "Due before the audit hour."
fn is_expired(case: &Case, obligation: &Obligation) -> bool {
    obligation.due < case.hour
}

/// It names "a row seen by the agent that carries its action". A row that is struck out carries
/// none. "An unseen row counts as not done", so nothing else of it is looked at.
fn is_done(case: &Case, obligation: &Obligation) -> bool {
    let Some(row) = obligation.row.map(|row| &case.log[row as usize]) else { return false };
    row.is_seen_by(case.agent) && row.action.as_ref() == Some(&obligation.duty.formula)
}

/// 32: "each-use and naming the row of an earlier each-use one", "expired or not"; the lowest such
/// obligation. Rows are compared by number, whatever they hold.
pub(super) fn check_32(case: &Case) -> Result<(), Refusal> {
    let mut named = BTreeSet::new();
    let each_use = |obligation: &Obligation| obligation.duty.mark == EACH_USE;
    for (place, obligation) in case.obligations.iter().enumerate() {
        let row = obligation.row.filter(|_| each_use(obligation));
        ensure(row.is_none_or(|row| named.insert(row)), 32, place)?;
    }
    Ok(())
}
