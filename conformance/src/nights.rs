//! A night's cases, in a table and a room whose content is known. Every answer is the separate
//! checker's, which has to be that of plain checks, one file after the other; and where the proved
//! library is linked, its answer is the same.

use std::array;
use std::hint::black_box;

use crate::cases::ROOM;
use crate::checker::{self, Refusal, Table, Verdict, NIGHT};
use crate::hidden::{pair_with_duties, random_case};
use crate::justifications::passing;
use crate::pack;
use crate::random::Random;
use crate::rooms::{self, entries_of, room_too_short};

pub type NightChecker = fn(&[u8], &[u8], &mut Table, &mut [u16]) -> Result<u16, Refusal>;

/// The separate checker, and the proved library where it is linked.
pub const CHECKERS: &[(&str, NightChecker)] = &[
    ("separate", checker::check_night),
    #[cfg(feature = "proved")]
    ("proved", crate::proved::check_night),
];

/// 33: this pair is not as it should be.
pub fn bad_pair(place: usize) -> Refusal {
    Refusal { number: 33, place: place as u16 }
}

// ---- What is lent ----

/// The files in one buffer, and the bytes of the list.
#[derive(Clone, PartialEq)]
pub struct Night {
    pub files: Vec<u8>,
    pub list: Vec<u8>,
}

/// An offset and a length.
pub type Pair = (u32, u32);

/// The list of these pairs.
pub fn list_of(pairs: &[Pair]) -> Vec<u8> {
    let numbers = pairs.iter().flat_map(|(offset, length)| [*offset, *length]);
    numbers.flat_map(u32::to_le_bytes).collect()
}

impl Night {
    /// These files, with a gap before each and behind the last one.
    pub fn of<F: AsRef<[u8]>>(files: &[F], mut gap: impl FnMut() -> Vec<u8>) -> Night {
        let (mut buffer, mut pairs) = (Vec::new(), Vec::new());
        for file in files.iter().map(F::as_ref) {
            buffer.extend(gap());
            pairs.push((buffer.len() as u32, file.len() as u32));
            buffer.extend(file);
        }
        buffer.extend(gap());
        Night { files: buffer, list: list_of(&pairs) }
    }

    /// The pairs that are not cut short.
    pub fn pairs(&self) -> Vec<Pair> {
        let number = |bytes: &[u8]| u32::from_le_bytes([bytes[0], bytes[1], bytes[2], bytes[3]]);
        let pairs = self.list.chunks_exact(8);
        pairs.map(|pair| (number(&pair[..4]), number(&pair[4..]))).collect()
    }

    /// The entries that passes write in a room that is long enough; none where a pair is at fault.
    pub fn needed(&self) -> usize {
        let alone = each_alone(&self.files, &self.list).unwrap_or_default();
        alone.iter().map(|(_, written)| written.len()).sum()
    }
}

/// The table starts full of these: none is of a verdict, and no two are equal, so that a number
/// written shows.
pub fn lent_table() -> Table {
    array::from_fn(|row| array::from_fn(|column| (50_000 + 3 * row + column) as u16))
}

/// The room starts full of these: none is the number of an obligation or of a log row, and equal
/// ones are far apart.
pub fn lent_room(entries: usize) -> Vec<u16> {
    (0..entries).map(|place| 2_000 + (place % 60_000) as u16).collect()
}

// ---- What comes of it ----

/// The answer, the whole table and the whole room.
#[derive(Clone, Debug, PartialEq)]
pub struct Outcome {
    pub answer: Result<u16, Refusal>,
    pub table: Table,
    pub room: Vec<u16>,
}

impl Outcome {
    /// The one of these verdicts and entries, and of nothing else written.
    pub fn of(
        answer: Result<u16, Refusal>,
        verdicts: &[Verdict],
        written: &[u16],
        entries: usize,
    ) -> Outcome {
        let (mut table, mut room) = (lent_table(), lent_room(entries));
        for (row, verdict) in table.iter_mut().zip(verdicts) {
            *row = match *verdict {
                Verdict::Passed { obligations, rows } => [0, obligations, rows],
                Verdict::NoneOwed => [1, 0, 0],
                Verdict::Refused { number, place } => [2, number, place],
            };
        }
        room[..written.len()].copy_from_slice(written);
        Outcome { answer, table, room }
    }

    /// The verdict on each file that was checked.
    pub fn verdicts(&self) -> Vec<Verdict> {
        let rows = self.table[..self.answer.unwrap_or(0) as usize].iter();
        let verdict = |row: &[u16; 3]| match *row {
            [0, obligations, rows] => Verdict::Passed { obligations, rows },
            [1, 0, 0] => Verdict::NoneOwed,
            [2, number, place] => Verdict::Refused { number, place },
            numbers => panic!("a verdict of {numbers:?}"),
        };
        rows.map(verdict).collect()
    }

    /// The verdict on each file, with the entries that were written for it.
    pub fn by_file(&self) -> Vec<(Verdict, &[u16])> {
        let mut rest = &self.room[..];
        let part = |verdict: Verdict| {
            let (written, behind) = rest.split_at(entries_of(verdict));
            rest = behind;
            (verdict, written)
        };
        self.verdicts().into_iter().map(part).collect()
    }
}

/// The outcome in a room of so many entries. Nothing of what is lent for reading is copied.
pub fn outcome(check: NightChecker, files: &[u8], list: &[u8], entries: usize) -> Outcome {
    let (mut table, mut room) = (lent_table(), lent_room(entries));
    let answer = check(black_box(files), black_box(list), &mut table, &mut room);
    Outcome { answer, table, room }
}

// ---- What is due ----

/// Where each file begins, and its length; or the lowest pair that is at fault. A pair is there if
/// any byte of it is.
fn pairs_in_order(files: &[u8], list: &[u8]) -> Result<Vec<(usize, usize)>, usize> {
    let number = |at: usize| (0..4).map(|byte| (list[at + byte] as usize) << (8 * byte)).sum();
    let pair = |place: usize| (number(8 * place), number(8 * place + 4));
    let end = |place: usize| pair(place).0 + pair(place).1;
    let is_bad = |place: &usize| match *place {
        NIGHT => true,
        place if list.len() < 8 * (place + 1) => true,
        place if end(place) > files.len() => true,
        0 => false,
        place => pair(place).0 < end(place - 1),
    };
    let pairs = list.len().div_ceil(8);
    match (0..pairs).find(is_bad) {
        Some(place) => Err(place),
        None => Ok((0..pairs).map(pair).collect()),
    }
}

/// A verdict, and the entries written.
type Plain = (Verdict, Vec<u16>);

/// What the plain check says of each file in a room that is long enough; or the lowest pair that is
/// at fault.
fn each_alone(files: &[u8], list: &[u8]) -> Result<Vec<Plain>, usize> {
    let alone = |(offset, length): (usize, usize)| {
        let (verdict, mut room) = rooms::answer(checker::check, &files[offset..][..length], ROOM);
        room.truncate(entries_of(verdict));
        (verdict, room)
    };
    Ok(pairs_in_order(files, list)?.into_iter().map(alone).collect())
}

/// What has to come of a night, by plain checks: each file's own verdict, or 23 where what is left
/// of the one room is too short for a pass.
fn by_plain_checks(files: &[u8], list: &[u8], entries: usize) -> Outcome {
    let alone = match each_alone(files, list) {
        Err(place) => return Outcome::of(Err(bad_pair(place)), &[], &[], entries),
        Ok(alone) => alone,
    };
    let (mut verdicts, mut written) = (Vec::new(), Vec::new());
    for (verdict, cited) in alone {
        if written.len() + cited.len() <= entries {
            verdicts.push(verdict);
            written.extend(cited);
        } else {
            let (number, place) = (room_too_short(), cited.len() as u16);
            verdicts.push(Verdict::Refused { number, place });
        }
    }
    Outcome::of(Ok(verdicts.len() as u16), &verdicts, &written, entries)
}

// ---- Checks ----

/// The one outcome in a room of so many entries. Nothing of what is lent for reading is copied.
pub fn checked_in_place(files: &[u8], list: &[u8], entries: usize) -> Outcome {
    let expected = by_plain_checks(files, list, entries);
    for (name, check) in CHECKERS {
        let found = outcome(*check, files, list, entries);
        let shown = &files[..files.len().min(100_000)];
        assert!(found == expected, "{name}: {found:?}, {expected:?}, {list:?}, {shown:?}");
    }
    expected
}

/// The same; and the files and the list are as before.
pub fn checked(night: &Night, entries: usize) -> Outcome {
    let given = night.clone();
    let outcome = checked_in_place(&given.files, &given.list, entries);
    assert!(*black_box(&given) == *night, "the files or the list are changed: {:?}", night.list);
    outcome
}

/// The same in rooms of no entries, one too few, just enough and more. The outcome is the one in the
/// longest.
pub fn checked_in_all_rooms(night: &Night) -> Outcome {
    let needed = night.needed();
    for entries in [0, needed.saturating_sub(1), needed] {
        checked(night, entries);
    }
    checked(night, needed + 5)
}

// ---- Random nights ----

/// Files from which nights are made. One is replaced for each night.
pub struct Files(Vec<Vec<u8>>);

impl Files {
    pub fn new(random: &mut Random) -> Files {
        Files((0..500).map(|_| random_file(random)).collect())
    }

    /// A night of so many files, with gaps. Some files are empty, and in a long night most are.
    pub fn night(&mut self, count: usize, random: &mut Random) -> Night {
        let new = random.below(self.0.len());
        self.0[new] = random_file(random);
        let mut file = || match random.below(12) {
            0 => Vec::new(),
            1..=8 if count > 8 => Vec::new(),
            _ => self.0[random.below(self.0.len())].clone(),
        };
        let files: Vec<Vec<u8>> = (0..count).map(|_| file()).collect();
        Night::of(&files, || random_gap(random))
    }
}

/// A case that passes, one with hidden rows, with duties that name them or with a slip, many of them
/// damaged; or any bytes.
fn random_file(random: &mut Random) -> Vec<u8> {
    match random.below(6) {
        0 | 1 => passing(random).to_bytes(),
        2 => {
            let turn = random.below(18);
            random_case(turn, random).to_bytes()
        }
        3 => pair_with_duties(random)[0].to_bytes(),
        _ => pack::random_file(random),
    }
}

/// Bytes that are of no file. Every second gap has none.
pub fn random_gap(random: &mut Random) -> Vec<u8> {
    let bytes = if random.one_in(2) { 0 } else { 1 + random.below(9) };
    (0..bytes).map(|_| random.below(256) as u8).collect()
}

/// Up to six files in most nights, up to 64 in some, and in a few more than a night may have.
pub fn random_count(random: &mut Random) -> usize {
    match random.below(64) {
        0 => NIGHT,
        1 => NIGHT + 1 + random.below(3),
        2 | 3 => random.below(NIGHT + 1),
        _ => random.below(7),
    }
}

/// A room of no entries, too short, just long enough or longer.
pub fn random_room(night: &Night, random: &mut Random) -> usize {
    let needed = night.needed();
    let (fewer, more) = (random.below(needed + 1), 1 + random.below(9));
    random.pick(&[0, fewer, needed.saturating_sub(1), needed, needed + more, needed + ROOM])
}
