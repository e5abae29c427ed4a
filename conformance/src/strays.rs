//! Data variables under owner steps, found by the rows of a file: what 27 has to tell.

use crate::builder::{CaseFile, OWNER};
use crate::checker::Term;
use crate::desk::reading::read;
use crate::interned::children;

/// The formula of an owner step, and the rows in it that themselves hold a data variable, as a walk
/// from the left meets them.
pub struct Strays {
    pub formula: u16,
    pub rows: Vec<u16>,
}

/// Those of the first owner step that has any, for a file that all checks before that step let pass.
pub fn strays(file: &[u8]) -> Option<Strays> {
    let case = read(file)?.case;
    let owners = case.steps.iter().filter(|step| step.rule == OWNER);
    let mut found =
        owners.map(|step| Strays { formula: step.formula, rows: rows_under(&case, step.formula) });
    found.find(|strays| !strays.rows.is_empty())
}

fn rows_under(case: &CaseFile, formula: u16) -> Vec<u16> {
    let row = &case.formulas[formula as usize];
    let own = row.fields.iter().any(|field| Term::DATA_VARIABLES.contains(field));
    let below = children(row).flat_map(|child| rows_under(case, child));
    own.then_some(formula).into_iter().chain(below).collect()
}

/// The place of 27 in this file.
pub fn lowest_stray(file: &[u8]) -> Option<u16> {
    strays(file)?.rows.into_iter().min()
}
