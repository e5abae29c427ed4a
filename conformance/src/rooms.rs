//! A check in a room whose content is known.

#[cfg(feature = "proved")]
use crate::{cases::ROOM, checker, columns, proved};

use crate::checker::Verdict;
use crate::desk::words::number_of;

/// A room starts full of this, so that an entry written shows.
pub const PATTERN: u16 = 0xA5A5;

pub type Checker = fn(&[u8], &mut [u16]) -> Verdict;

/// The number of the refusal of a room that is too short.
pub fn room_too_short() -> u16 {
    number_of("ROOM_TOO_SHORT")
}

/// The entries that a check with this verdict writes.
pub fn entries_of(verdict: Verdict) -> usize {
    match verdict {
        Verdict::Passed { obligations, rows } => obligations as usize + rows as usize,
        _ => 0,
    }
}

/// The verdict and the whole room after it.
pub fn answer(check: Checker, file: &[u8], entries: usize) -> (Verdict, Vec<u16>) {
    let mut room = vec![PATTERN; entries];
    let verdict = check(file, &mut room);
    (verdict, room)
}

/// The answer of the proved checker, which has to be that of the separate one.
#[cfg(feature = "proved")]
pub fn agreed(file: &[u8], entries: usize) -> (Verdict, Vec<u16>) {
    let expected = answer(checker::check, file, entries);
    assert_eq!(answer(proved::check, file, entries), expected, "{entries} entries, {file:?}");
    expected
}

/// The same in a long room, one of no entries, one that is one too short and one that is just
/// long enough; the admission; and the sizes of the file's formulas. The verdict is the one in the
/// long room.
#[cfg(feature = "proved")]
pub fn agreed_in_all_rooms(file: &[u8]) -> Verdict {
    let (verdict, _) = agreed(file, ROOM);
    agreed(file, 0);
    assert_eq!(proved::admit(file), checker::admit(file).map(|_| ()), "{file:?}");
    _ = columns::agreed(columns::book_of(file));
    if let Verdict::Passed { obligations, rows } = verdict {
        let needed = obligations as usize + rows as usize;
        assert_eq!(agreed(file, needed).0, verdict);
        if needed > 0 {
            let refused = Verdict::Refused { number: room_too_short(), place: needed as u16 };
            assert_eq!(agreed(file, needed - 1).0, refused);
        }
    }
    verdict
}
