//! Indexes by observer, in rooms whose content is known: building them, and checks through them.
//! Every answer is the separate checker's, and where the proved library is linked, its answer is
//! the same.

use std::collections::BTreeSet;
use std::hint::black_box;

#[cfg(feature = "proved")]
use crate::proved;

use crate::builder::CaseFile;
use crate::cases::ROOM;
use crate::checker::{self, Refusal, Verdict};
use crate::rooms::{self, room_too_short, PATTERN};

pub type Builder = fn(&[u8], &mut [u16]) -> Result<u16, Refusal>;

pub type IndexedChecker = fn(&[u8], &[u16], &mut [u16]) -> Verdict;

/// The most entries of an index: 4,096 agents with a row each.
pub const MOST_ENTRIES: usize = 16_385;

/// 30: the index is not as built from this log.
pub const NOT_AS_BUILT: Verdict = Verdict::Refused { number: 30, place: 0 };

/// 29: the index room is too short, and so many entries are needed.
pub fn too_short(needed: usize) -> Refusal {
    Refusal { number: 29, place: needed as u16 }
}

// ---- What is due ----

/// The index of the file's log, unless checks 1 to 5 refuse it.
pub fn due(file: &[u8]) -> Result<Vec<u16>, Refusal> {
    let mut index = vec![0; MOST_ENTRIES];
    let entries = checker::build_index(file, &mut index)?;
    index.truncate(entries as usize);
    Ok(index)
}

/// Agents, each with rows.
pub type Lists = Vec<(u16, Vec<u16>)>;

/// Every observer of a row with the rows that it observes, one agent after the other.
pub fn lists(case: &CaseFile) -> Lists {
    let rows_of = |agent: u16| {
        let rows = (0..).zip(&case.rows);
        let observed = rows.filter(|(_, row)| row.observers.contains(&agent));
        (agent, observed.map(|(number, _)| number).collect())
    };
    let agents: BTreeSet<u16> = case.rows.iter().flat_map(|row| row.observers.clone()).collect();
    agents.into_iter().map(rows_of).collect()
}

/// These lists as an index: the table, and the lists in the same order.
pub fn laid_out(lists: &Lists) -> Vec<u16> {
    let order: Vec<usize> = (0..lists.len()).collect();
    laid_out_from(lists, 1 + 3 * lists.len(), &order)
}

/// The table with offsets from this number on, and the lists in this order.
pub fn laid_out_from(lists: &Lists, first: usize, order: &[usize]) -> Vec<u16> {
    let mut offsets = vec![0; lists.len()];
    let mut rows: Vec<u16> = Vec::new();
    for at in order {
        offsets[*at] = (first + rows.len()) as u16;
        rows.extend(&lists[*at].1);
    }
    let entry =
        |((agent, rows), offset): (&(u16, Vec<u16>), u16)| [*agent, offset, rows.len() as u16];
    let table = lists.iter().zip(offsets).flat_map(entry);
    [lists.len() as u16].into_iter().chain(table).chain(rows).collect()
}

// ---- Building ----

/// An index room starts full of these: none is an entry of an index, and neighbours differ, so that
/// an entry written shows.
pub fn lent(entries: usize) -> Vec<u16> {
    (0..entries).map(|place| 40_000 + (place % 151) as u16).collect()
}

/// The answer of building, and the whole index room after it. The file is as before.
pub fn building(build: Builder, file: &[u8], entries: usize) -> (Result<u16, Refusal>, Vec<u16>) {
    let (given, mut index) = (file.to_vec(), lent(entries));
    let answer = build(black_box(&given), &mut index);
    assert!(*black_box(&given) == file, "the file is changed: {file:?}");
    (answer, index)
}

/// The one answer of building in a room of so many entries, and the room.
pub fn built(file: &[u8], entries: usize) -> (Result<u16, Refusal>, Vec<u16>) {
    let expected = building(checker::build_index, file, entries);
    #[cfg(feature = "proved")]
    assert_eq!(building(proved::build_index, file, entries), expected, "{entries}, {file:?}");
    expected
}

/// Building in rooms of no entries, one too few, just enough and more, which has to write the index
/// that is due and nothing else. Gives that index.
pub fn built_in_all_rooms(file: &[u8]) -> Result<Vec<u16>, Refusal> {
    let due = due(file);
    let needed = due.as_ref().map_or(0, Vec::len);
    for entries in [0, needed.saturating_sub(1), needed, needed + 5] {
        let mut room = lent(entries);
        let answer = match &due {
            Err(refusal) => Err(*refusal),
            Ok(_) if entries < needed => Err(too_short(needed)),
            Ok(index) => {
                room[..needed].copy_from_slice(index);
                Ok(needed as u16)
            }
        };
        assert_eq!(built(file, entries), (answer, room), "{entries}, {file:?}");
    }
    due
}

// ---- Checks through an index ----

/// The verdict and the whole room after it. The file and the index are as before.
pub fn through(
    check: IndexedChecker,
    file: &[u8],
    index: &[u16],
    entries: usize,
) -> (Verdict, Vec<u16>) {
    let (given, lent) = (file.to_vec(), index.to_vec());
    let mut room = vec![PATTERN; entries];
    let verdict = check(black_box(&given), black_box(&lent), &mut room);
    assert!(*black_box(&given) == file, "the file is changed: {file:?}");
    assert!(*black_box(&lent) == index, "the index is changed: {index:?}, {file:?}");
    (verdict, room)
}

/// What a check through this index has to give, by the check without: 30 if the file is admitted
/// and the index is not as built or has more entries behind.
fn by_the_plain_check(file: &[u8], index: &[u16], entries: usize) -> (Verdict, Vec<u16>) {
    let as_built = due(file).is_ok_and(|due| index.starts_with(&due));
    match as_built || checker::admit(file).is_err() {
        true => rooms::answer(checker::check, file, entries),
        false => (NOT_AS_BUILT, vec![PATTERN; entries]),
    }
}

/// The one answer of a check through an index, in a room of so many entries, and the room.
pub fn checked(file: &[u8], index: &[u16], entries: usize) -> (Verdict, Vec<u16>) {
    let expected = by_the_plain_check(file, index, entries);
    let found = through(checker::check_indexed, file, index, entries);
    assert_eq!(found, expected, "{entries}, {index:?}, {file:?}");
    #[cfg(feature = "proved")]
    {
        let found = through(proved::check_indexed, file, index, entries);
        assert_eq!(found, expected, "{entries}, {index:?}, {file:?}");
    }
    expected
}

/// The same in a long room, one of no entries, one that is one too short and one that is just long
/// enough. The verdict is the one in the long room.
pub fn checked_in_all_rooms(file: &[u8], index: &[u16]) -> Verdict {
    let (verdict, _) = checked(file, index, ROOM);
    checked(file, index, 0);
    if let Verdict::Passed { obligations, rows } = verdict {
        let needed = obligations as usize + rows as usize;
        assert_eq!(checked(file, index, needed).0, verdict);
        if needed > 0 {
            let refused = Verdict::Refused { number: room_too_short(), place: needed as u16 };
            assert_eq!(checked(file, index, needed - 1).0, refused);
        }
    }
    verdict
}

/// Building in all rooms, and checks in all rooms through the index that is built, or through none
/// where there is none; with entries behind it the verdict is the same. It is that of the check
/// without.
pub fn as_built(file: &[u8]) -> Verdict {
    let index = built_in_all_rooms(file).unwrap_or_default();
    let verdict = checked_in_all_rooms(file, &index);
    assert_eq!(verdict, rooms::answer(checker::check, file, ROOM).0, "{file:?}");
    let longer = [index, lent(3)].concat();
    assert_eq!(checked_in_all_rooms(file, &longer), verdict, "{file:?}");
    verdict
}
