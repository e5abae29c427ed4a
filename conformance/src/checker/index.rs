//! The index by observer: building it, with check 29, and check 30 of one that is lent. Words in
//! quotes are document 02's.

use std::collections::BTreeMap;

use super::records::LogRow;
use super::{admit_log, ensure, Refusal};

/// "Building gives 1 to 5, then 29." It "tells the entries written"; "later entries", and all of
/// them in a refusal, are unchanged.
pub fn build_index(file: &[u8], index: &mut [u16]) -> Result<u16, Refusal> {
    let (_, _, log) = admit_log(file)?;
    let due = index_of(&log);
    check_29(&due, index.len())?;
    index[..due.len()].copy_from_slice(&due);
    Ok(due.len() as u16)
}

/// 29: "index room too short, place entries needed".
fn check_29(due: &[u16], room: usize) -> Result<(), Refusal> {
    ensure(due.len() <= room, 29, due.len())
}

/// 30: "not as built from this log, place 0". Entries behind the index are not looked at.
pub(super) fn check_30(log: &[LogRow], index: &[u16]) -> Result<(), Refusal> {
    ensure(index.starts_with(&index_of(log)), 30, 0)
}

/// "The number of agents that observe any row, then for each, ascending, its number and the offset
/// (from the room's start) and length of its list, then the lists end to end."
fn index_of(log: &[LogRow]) -> Vec<u16> {
    let lists = lists_of(log);
    let mut index = vec![lists.len() as u16];
    let mut offset = 1 + 3 * lists.len();
    for (agent, rows) in &lists {
        index.extend([*agent, offset as u16, rows.len() as u16]);
        offset += rows.len();
    }
    index.extend(lists.values().flatten());
    index
}

/// For each agent the rows that it observes: "rows ascending, struck ones too".
fn lists_of(log: &[LogRow]) -> BTreeMap<u16, Vec<u16>> {
    let mut lists: BTreeMap<u16, Vec<u16>> = BTreeMap::new();
    for (number, row) in (0..).zip(log) {
        for agent in &row.observers {
            lists.entry(*agent).or_default().push(number);
        }
    }
    lists
}
