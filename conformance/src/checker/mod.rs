//! The plain checker of one case: document 01 from top to bottom, with change requests 1 to 7 of
//! document 02, one small function for each check and each rule. Here are the answers and the order
//! of the checks. The checks themselves are in `case_file`, `terms`, `formulas`, `records`, `steps`,
//! `misfits`, `rules`, `end` and `duties`, to be read in this order; `index`, `night` and `striking`
//! are apart from them.
//!
//! Formulas are read into trees and trees are compared, so nothing here rests on one meaning
//! having one row number. Words in quotes are document 01's, and those about 24 to 33, hours, the
//! column of sizes, the index and a night's cases document 02's.

mod case_file;
mod duties;
mod end;
mod formulas;
mod index;
mod misfits;
mod night;
mod records;
mod rules;
mod steps;
mod striking;
mod terms;

use std::fmt;
use std::ops::Range;

pub use case_file::{number_at, pair_at};
pub use case_file::{ABSENT, ACTION_AT, AGENT_AT, HEADER_BYTES, HOUR_AT, MOST_BYTES, PARTS};
pub use formulas::{admit_book, size_column, EACH_USE};
pub use index::build_index;
pub use night::{check_night, Table, NIGHT};
pub use striking::strike_unseen;

pub(crate) use case_file::{check_2, fields, numbers, pairs};
pub(crate) use records::owed;
pub(crate) use terms::{Shape, Sort, Term};

use case_file::check_1;
use duties::{check_31, check_32};
use end::{check_20, check_21, check_22, check_23};
use formulas::Tree;
use index::check_30;
use records::{check_10, check_11, check_5, check_6, check_7, check_8, check_9};
use records::{read_steps, LogRow, Marked, Obligation, Step};
use steps::{take_step, Proof};

// ---- Answers ----

#[derive(Clone, Copy, Debug, PartialEq, Eq)]
pub enum Verdict {
    Passed { obligations: u16, rows: u16 },
    NoneOwed,
    Refused { number: u16, place: u16 },
}

impl fmt::Display for Verdict {
    fn fmt(&self, out: &mut fmt::Formatter) -> fmt::Result {
        match self {
            Verdict::Passed { obligations, rows } => write!(out, "passed {obligations} {rows}"),
            Verdict::NoneOwed => write!(out, "none owed"),
            Verdict::Refused { number, place } => write!(out, "refused {number} {place}"),
        }
    }
}

/// The number of the check that refuses, and its place.
#[derive(Clone, Copy, Debug, PartialEq, Eq)]
pub struct Refusal {
    pub number: u16,
    pub place: u16,
}

/// A place is a part, a record, a step or a count of entries, so 16 bits hold it.
fn refusal(number: u16, place: usize) -> Refusal {
    let place = place as u16;
    Refusal { number, place }
}

fn ensure(holds: bool, number: u16, place: usize) -> Result<(), Refusal> {
    match holds {
        true => Ok(()),
        false => Err(refusal(number, place)),
    }
}

// ---- The order of the checks ----

/// The verdict on a case file. On a pass "the room's first entries hold the obligations, the part
/// after them the log rows"; every other entry, and the room of any other verdict, is unchanged.
pub fn check(file: &[u8], room: &mut [u16]) -> Verdict {
    let judged = admit(file).and_then(|case| judge(&case, room.len()));
    tell(judged, room)
}

/// The verdict of "a check through" an index: 30 comes "after 9", and then all is as without it.
pub fn check_indexed(file: &[u8], index: &[u16], room: &mut [u16]) -> Verdict {
    let judged = admit(file).and_then(|case| {
        check_30(&case.log, index)?;
        judge(&case, room.len())
    });
    tell(judged, room)
}

/// The verdict, and what a pass writes to the room. No proof means none owed.
fn tell(judged: Result<Option<Proof>, Refusal>, room: &mut [u16]) -> Verdict {
    match judged {
        Err(Refusal { number, place }) => Verdict::Refused { number, place },
        Ok(None) => Verdict::NoneOwed,
        Ok(Some(proof)) => {
            let cited = proof.obligations.iter().chain(&proof.rows);
            for (entry, number) in room.iter_mut().zip(cited) {
                *entry = *number;
            }
            let obligations = proof.obligations.len() as u16;
            let rows = proof.rows.len() as u16;
            Verdict::Passed { obligations, rows }
        }
    }
}

/// "Order: 1 to 11 by number, lowest place first; then steps in order, each through 12 to 19 by
/// number; then 20 to 23." Here are those from 10 on. In a step 27 and then 24 to 26 come just
/// before 18, and 28 after 19. 31 and then 32 come "between 22 and 23, or directly before 'none
/// owed'".
fn judge(case: &Case, room: usize) -> Result<Option<Proof>, Refusal> {
    let owed = owed(&case.action, case.agent);
    check_10(case, &owed)?;
    check_11(case, &owed)?;
    let Some(owed) = owed else {
        check_31(case)?;
        check_32(case)?;
        return Ok(None);
    };
    let mut proof = Proof::default();
    for _ in &case.steps {
        take_step(case, &mut proof)?;
    }
    check_20(&proof)?;
    check_21(&proof)?;
    check_22(&proof, &owed)?;
    check_31(case)?;
    check_32(case)?;
    check_23(&proof, room)?;
    Ok(Some(proof))
}

/// A file that has passed checks 1 to 9.
pub struct Case {
    pub(crate) agent: Term,
    pub(crate) action: Tree,
    /// The audit hour.
    hour: u16,
    pub book: Vec<Tree>,
    log: Vec<LogRow>,
    conditions: Vec<Option<Tree>>,
    obligations: Vec<Obligation>,
    labels: Vec<Marked>,
    steps: Vec<Step>,
    premises: Vec<u16>,
}

/// Checks 1 to 9.
pub fn admit(file: &[u8]) -> Result<Case, Refusal> {
    let (parts, book, log) = admit_log(file)?;
    let part = |place: usize| &file[parts[place].clone()];
    let conditions = check_6(part(3), &book)?;
    let obligations = check_7(part(4), &book, &log)?;
    let labels = check_8(part(5), &book)?;
    let (agent, action, hour) = check_9(file, &book)?;
    let steps = read_steps(part(6));
    let premises = numbers(part(7));
    Ok(Case { agent, action, hour, book, log, conditions, obligations, labels, steps, premises })
}

/// The bytes of each part, the book, and the log.
type Log = (Vec<Range<usize>>, Vec<Tree>, Vec<LogRow>);

/// Checks 1 to 5.
fn admit_log(file: &[u8]) -> Result<Log, Refusal> {
    check_1(file)?;
    let parts = check_2(file)?;
    let part = |place: usize| &file[parts[place].clone()];
    let book = admit_book(part(0))?;
    let log = check_5(part(1), part(2), &book)?;
    Ok((parts, book, log))
}
