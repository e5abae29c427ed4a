//! A night's cases in one call. The separate checker by itself, and with the feature `proved` the
//! proved library beside it: every answer, every verdict of the table, and every entry of the room.

use std::collections::{BTreeMap, BTreeSet};
use std::fs;
use std::hint::black_box;
#[cfg(feature = "proved")]
use std::thread;

use conformance::cases::{examples, grant, night_vectors, visit, ROOM};
use conformance::checker::{strike_unseen, Refusal, Verdict, NIGHT};
use conformance::desk::words::check_refusals;
use conformance::full_size::full_size;
use conformance::hidden::{is_left_out, pair_with_duties, random_pair};
use conformance::nights::*;
#[cfg(feature = "proved")]
use conformance::proved;
use conformance::random::Random;
use conformance::rooms::room_too_short;
use conformance::tallies::{count, count_verdict, Answers, Times, NONE_OWED};
use conformance::vectors::read_nights;
use conformance::wrong_lists::{change_list, WAYS};

const PASSED: Verdict = Verdict::Passed { obligations: 0, rows: 1 };

const EMPTY: Verdict = Verdict::Refused { number: 1, place: 0 };

// ---- Vectors ----

#[test]
fn vectors_of_nights() {
    let all = night_vectors();
    assert!(all.len() >= 120, "{}", all.len());
    for vector in all {
        let night = Night { files: vector.files, list: vector.list };
        let expected = Outcome::of(vector.answer, &vector.verdicts, &vector.written, vector.room);
        assert!(checked(&night, vector.room) == expected, "{}", vector.name);
        checked_in_all_rooms(&night);
    }
}

/// What the reader does not take, column by column.
const NO_COLUMNS: [&[&str]; 7] = [
    &[],
    &["", "-", "-1", "x"],
    &["", "0", "zz", "00 ff"],
    &["", "0", "zz", "00 ff"],
    &["", "-", "3", "checked", "checked 1", "checked 4", "checked x", "checked -1", "built 3"],
    &["", "none", "none owed", "none owed;", "passed 1 1;none owed", "checked 3", "; none owed"],
    &["", "7", "7 8 9", "7  8", "7,8", "65536 8", "x"],
];

/// A line that is not as the reader wants it is refused.
#[test]
fn lines_that_are_no_nights() {
    let checked = "name\t9\t00ff\t-\tchecked 3\tpassed 1 1; none owed; refused 1 0\t7 8";
    let none = "name\t0\t-\t-\tchecked 0\t-\t-";
    let refused = "name\t9\t-\t00\trefused 33 0\t-\t-";
    let is_read = |line: &str| read_nights(line).is_some();
    assert!(is_read("# a remark"));
    for line in [checked, none, refused] {
        assert!(is_read(line), "{line}");
        assert!(!is_read(&format!("{line}\n\n{line}")), "{line}");
        let columns: Vec<&str> = line.split('\t').collect();
        for at in 0..7 {
            let (before, behind) = (&columns[..at], &columns[at + 1..]);
            assert!(!is_read(&[before, behind].concat().join("\t")), "{line}, {at}");
            assert!(!is_read(&[before, &columns[at..=at], &columns[at..]].concat().join("\t")));
            for wrong in NO_COLUMNS[at] {
                assert!(!is_read(&[before, &[wrong], behind].concat().join("\t")), "{wrong}");
            }
        }
    }
    for answer in ["refused 1 0", "refused 32 0", "refused 33", "refused 33 x", "none owed"] {
        assert!(!is_read(&refused.replace("refused 33 0", answer)), "{answer}");
    }
    assert!(!is_read(&checked.replace("checked 3", "refused 33 0")));
    assert!(!is_read(&none.replace("checked 0\t-", "checked 1\tpassed 0 1")));
}

// ---- Small nights ----

/// The file of an example.
fn example(name: &str) -> Vec<u8> {
    let all = examples();
    let found = all.into_iter().find(|example| example.name == name);
    found.unwrap_or_else(|| panic!("no example is called {name}")).file
}

/// Grant, Visit and three gaps: two bytes, five and three.
fn grant_and_visit() -> Night {
    let mut gaps = [2, 5, 3].into_iter();
    let files = [grant().to_bytes(), visit().to_bytes()];
    Night::of(&files, || vec![7; gaps.next().expect("there are three gaps")])
}

/// Every kind of verdict: a pass, a refusal, an empty file, none owed, any bytes, and a pass again.
fn mixed() -> Night {
    let [grant, visit] = [grant(), visit()].map(|case| case.to_bytes());
    let files = [
        grant,
        example("row 22: Grant, seen step alone"),
        Vec::new(),
        example("Creator"),
        vec![9; 50],
        example("Twice, a second obligation"),
        visit,
    ];
    Night::of(&files, || vec![1])
}

fn small_nights() -> Vec<Night> {
    let grant = grant().to_bytes();
    let two = [grant.clone(), grant.clone()];
    vec![
        Night { files: Vec::new(), list: Vec::new() },
        Night { files: grant.clone(), list: Vec::new() },
        Night::of(&[grant], Vec::new),
        Night::of(&two, Vec::new),
        Night::of(&[[0_u8; 0]; 3], || vec![1]),
        grant_and_visit(),
        mixed(),
    ]
}

/// What the document says of a night, by hand.
#[test]
fn nights_by_hand() {
    let both = checked_in_all_rooms(&grant_and_visit());
    assert_eq!(both.by_file(), [(PASSED, &[0][..]), (PASSED, &[0])]);
    let refused = |number, place| (Verdict::Refused { number, place }, &[][..]);
    let duties = Verdict::Passed { obligations: 2, rows: 1 };
    let due = |twice, visit| {
        let none_owed = (Verdict::NoneOwed, &[][..]);
        let grant = (PASSED, &[0][..]);
        [grant, refused(22, 0), (EMPTY, &[]), none_owed, refused(2, 0), twice, visit]
    };
    let passed = due((duties, &[0, 1, 0]), (PASSED, &[0]));
    assert_eq!(checked_in_all_rooms(&mixed()).by_file(), passed);
    assert_eq!(checked(&mixed(), 5).by_file(), passed);
    // Too short for the sixth file, and long enough for the last one.
    for entries in [2, 3] {
        let short = due(refused(23, 3), (PASSED, &[0]));
        assert_eq!(checked(&mixed(), entries).by_file(), short);
    }
    assert_eq!(checked(&mixed(), 4).by_file(), due((duties, &[0, 1, 0]), refused(23, 1)));
    assert_eq!(checked(&mixed(), 1).by_file(), due(refused(23, 3), refused(23, 1)));
    let none = checked_in_all_rooms(&Night { files: vec![1], list: Vec::new() });
    assert_eq!((none.answer, none.table), (Ok(0), lent_table()));
}

/// The small nights and the vectors.
fn known_nights() -> impl Iterator<Item = Night> {
    let vectors = night_vectors().into_iter();
    let nights = vectors.map(|vector| Night { files: vector.files, list: vector.list });
    nights.chain(small_nights())
}

/// Nothing rests on what was in the table and in the room, and what is not written keeps it.
#[test]
fn whatever_was_lent() {
    for night in known_nights() {
        let written = night.needed();
        let expected = checked(&night, written + 2);
        let files = expected.verdicts().len();
        let lent = |check| [0, 1, u16::MAX].map(|held| (check, held));
        for ((name, check), held) in CHECKERS.iter().flat_map(lent) {
            let (mut table, mut room) = ([[held; 3]; NIGHT], vec![held; written + 2]);
            let answer = check(&night.files, &night.list, &mut table, &mut room);
            assert_eq!(answer, expected.answer, "{name}");
            assert_eq!(table[..files], expected.table[..files]);
            assert_eq!(table[files..], vec![[held; 3]; NIGHT - files]);
            assert_eq!(room[..written], expected.room[..written]);
            assert_eq!(room[written..], [held; 2]);
        }
    }
}

// ---- 33 ----

/// The number of files, or the place of 33, which leaves all that is lent as it was.
fn told(files: &[u8], list: Vec<u8>) -> Result<u16, u16> {
    let outcome = checked_in_all_rooms(&Night { files: files.to_vec(), list });
    outcome.answer.map_err(|Refusal { number, place }| {
        assert_eq!((number, outcome.table), (33, lent_table()));
        assert_eq!(outcome.room, lent_room(outcome.room.len()));
        place
    })
}

/// Where Grant and Visit lie in the 262 bytes of `grant_and_visit`.
const GRANT: Pair = (2, 108);
const VISIT: Pair = (115, 144);

const MOST: u32 = u32::MAX;

/// Pairs in these 262 bytes, and the number of files or the place of 33: each way to 33, and what
/// comes near.
const EDGES: [(&[Pair], Result<u16, u16>); 35] = [
    (&[], Ok(0)),
    (&[VISIT], Ok(1)),
    (&[GRANT, VISIT], Ok(2)),
    // From the first byte, and from the end of the last one.
    (&[(0, 0)], Ok(1)),
    (&[(0, 262)], Ok(1)),
    (&[GRANT, (110, 0), (110, 0), (110, 5), VISIT, (259, 3), (262, 0), (262, 0)], Ok(8)),
    // Before the last one's end, empty or not.
    (&[GRANT, (109, 5)], Err(1)),
    (&[GRANT, (109, 0)], Err(1)),
    (&[GRANT, (0, 0)], Err(1)),
    (&[GRANT, GRANT], Err(1)),
    (&[VISIT, GRANT], Err(1)),
    (&[GRANT, VISIT, (258, 1)], Err(2)),
    (&[GRANT, (110, 0), (109, 1)], Err(2)),
    (&[(262, 0), (261, 1)], Err(1)),
    (&[(1, 0), (0, 0)], Err(1)),
    // Up to the end of the files, and beyond.
    (&[(261, 1)], Ok(1)),
    (&[(261, 2)], Err(0)),
    (&[(262, 1)], Err(0)),
    (&[(263, 0)], Err(0)),
    (&[(0, 263)], Err(0)),
    (&[GRANT, (115, 147)], Ok(2)),
    (&[GRANT, (115, 148)], Err(1)),
    (&[GRANT, VISIT, (263, 0)], Err(2)),
    // Numbers near 2^32, and sums that 32 bits do not hold.
    (&[(MOST, 0)], Err(0)),
    (&[(0, MOST)], Err(0)),
    (&[(MOST, 1)], Err(0)),
    (&[(1, MOST)], Err(0)),
    (&[(2, MOST)], Err(0)),
    (&[(MOST, MOST)], Err(0)),
    (&[GRANT, (115, MOST - 114)], Err(1)),
    (&[GRANT, (115, MOST - 14)], Err(1)),
    (&[GRANT, (MOST - 107, 108)], Err(1)),
    (&[GRANT, (MOST - 1, 2), VISIT], Err(1)),
    (&[GRANT, (115, MOST), VISIT], Err(1)),
    (&[GRANT, VISIT, (MOST, 3), (2, 0)], Err(2)),
];

/// As they are, and with one more pair that is cut short.
#[test]
fn each_pair_at_its_edges() {
    let night = grant_and_visit();
    assert_eq!((night.pairs(), night.files.len()), (vec![GRANT, VISIT], 262));
    for (pairs, due) in EDGES {
        let list = list_of(pairs);
        assert_eq!(told(&night.files, list.clone()), due, "{pairs:?}");
        for bytes in 1..8 {
            let cut = [&list[..], &vec![0; bytes]].concat();
            let due = due.and(Err(pairs.len() as u16));
            assert_eq!(told(&night.files, cut), due, "{pairs:?}, {bytes}");
        }
    }
}

/// 64 pairs are allowed; the 65th is refused, whole or cut short, sound or not, unless one before it
/// is at fault.
#[test]
fn the_65th_pair() {
    let files = grant().to_bytes();
    let list = |pairs: usize| list_of(&vec![(108, 0); pairs]);
    assert_eq!(told(&files, list(63)), Ok(63));
    assert_eq!(told(&files, list(64)), Ok(64));
    for pairs in [65, 66, 67, 128, 129, 1_000, 65_536 + 64] {
        assert_eq!(told(&files, list(pairs)), Err(64), "{pairs}");
        for fault in [0, 1, 62, 63] {
            let mut list = list(pairs);
            list[8 * fault + 4] = 1;
            assert_eq!(told(&files, list), Err(fault as u16), "{pairs}");
        }
        for fault in 64..pairs.min(67) {
            let mut list = list(pairs);
            list[8 * fault + 4] = 1;
            assert_eq!(told(&files, list), Err(64), "{pairs}");
        }
    }
    for bytes in 1..8 {
        assert_eq!(told(&files, [list(64), vec![0; bytes]].concat()), Err(64));
        assert_eq!(told(&files, [list(65), vec![0; bytes]].concat()), Err(64));
        assert_eq!(told(&files, [list(63), vec![0; bytes]].concat()), Err(63));
    }
    let of_grants = Night::of(&vec![&files; 65], Vec::new);
    assert_eq!(told(&of_grants.files, of_grants.list[..8 * 64].to_vec()), Ok(64));
    assert_eq!(told(&of_grants.files, of_grants.list.clone()), Err(64));
}

/// A change to a pair that makes it faulty, by the end of the one before it and the bytes of all
/// files.
type Fault = fn(&mut Pair, u32, u32);

const FAULTS: [Fault; 5] = [
    |pair, last, _| pair.0 = last - 1,
    |pair, _, bytes| pair.1 = bytes - pair.0 + 1,
    |pair, _, bytes| *pair = (bytes + 1, 0),
    |pair, _, _| pair.1 = u32::MAX - pair.0 + 1,
    |pair, _, _| pair.0 = u32::MAX - pair.1 + 1,
];

/// Five pairs, each sound or faulty in one way, and a sixth that is cut short or missing: the lowest
/// that is at fault is told.
#[test]
fn every_set_of_faults() {
    let night = Night::of(&vec![grant().to_bytes(); 5], || vec![1, 2]);
    let (pairs, bytes) = (night.pairs(), night.files.len() as u32);
    let ways = FAULTS.len() + 1;
    let mut refused = 0;
    for set in 0..ways.pow(5) {
        let mut changed = pairs.clone();
        let mut first = None;
        for (place, pair) in changed.iter_mut().enumerate() {
            let way = set / ways.pow(place as u32) % ways;
            // Nothing comes before pair 0.
            let Some(last) = place.checked_sub(1).or((way > 0).then_some(0)) else { continue };
            let Some(fault) = FAULTS.get(way) else { continue };
            fault(pair, pairs[last].0 + pairs[last].1, bytes);
            first = first.or(Some(place as u16));
        }
        let due = first.map_or(Ok(5), Err);
        assert_eq!(told(&night.files, list_of(&changed)), due, "{changed:?}");
        refused += usize::from(due.is_err());
        let cut = [&list_of(&changed)[..], &[0; 3]].concat();
        assert_eq!(told(&night.files, cut), Err(first.unwrap_or(5)), "{changed:?}");
    }
    assert!(refused > 7_000, "{refused}");
}

/// The list of every small night and of every vector, cut at each length.
#[test]
fn each_length() {
    let (mut sound, mut refused) = (0, 0);
    for night in known_nights() {
        let whole = checked(&night, 4).answer.map(|_| ());
        for length in 0..night.list.len() {
            let cut = Night { files: night.files.clone(), list: night.list[..length].to_vec() };
            let place = length / 8;
            let due = match whole {
                Err(refusal) if (refusal.place as usize) < place => Err(refusal),
                _ if length % 8 > 0 => Err(bad_pair(place)),
                _ => Ok(place as u16),
            };
            assert_eq!(checked(&cut, 4).answer, due);
            *(if due.is_ok() { &mut sound } else { &mut refused }) += 1;
        }
    }
    println!("{sound} sound, {refused} refused");
    assert!(sound > 300 && refused > 2_000, "{sound}, {refused}");
}

/// The files cut at each length: a pair that ends beyond them is told.
#[test]
fn each_length_of_the_files() {
    for night in small_nights() {
        let ends = night.pairs().into_iter().map(|(offset, length)| (offset + length) as usize);
        let ends: Vec<usize> = ends.collect();
        for length in 0..night.files.len() {
            let beyond = ends.iter().position(|end| *end > length);
            let due = beyond.map_or(Ok(ends.len() as u16), |place| Err(place as u16));
            assert_eq!(told(&night.files[..length], night.list.clone()), due, "{length}");
        }
    }
}

/// What a number of a pair is set to: its own value, the ends of pairs and of the files, powers of
/// two, and what makes the sum with the other number of the pair one of these; and their neighbours.
fn limits(night: &Night, pair: Pair) -> BTreeSet<u32> {
    let ends = night.pairs().into_iter().flat_map(|(offset, length)| [offset, offset + length]);
    let known: Vec<u32> = ends.chain([0, night.files.len() as u32]).collect();
    let powers = [8, 16, 24, 31].map(|power| 1 << power);
    let sums = [pair.0, pair.1].map(|number| {
        let sums = known.iter().map(move |end| end.wrapping_sub(number));
        sums.chain(powers.map(|power| number.wrapping_add(power)))
    });
    let all = known.iter().copied().chain(powers).chain(sums.into_iter().flatten());
    all.chain([pair.0, pair.1])
        .flat_map(|value| [value.wrapping_sub(1), value, value.wrapping_add(1)])
        .collect()
}

/// Each number of small lists at its limits, and each two numbers of a list of two pairs.
#[test]
fn each_number_at_its_limits() {
    let (mut sound, mut refused) = (0, 0);
    let mut count = |answer: Result<u16, u16>| match answer {
        Ok(_) => sound += 1,
        Err(_) => refused += 1,
    };
    for night in small_nights() {
        for at in (0..night.list.len()).step_by(4) {
            for value in limits(&night, night.pairs()[at / 8]) {
                let mut list = night.list.clone();
                list[at..at + 4].copy_from_slice(&value.to_le_bytes());
                count(told(&night.files, list));
            }
        }
    }
    let night = grant_and_visit();
    for (one, other) in [(0, 4), (0, 8), (0, 12), (4, 8), (4, 12), (8, 12)] {
        for first in limits(&night, night.pairs()[one / 8]) {
            for second in limits(&night, night.pairs()[other / 8]) {
                let mut list = night.list.clone();
                list[one..one + 4].copy_from_slice(&first.to_le_bytes());
                list[other..other + 4].copy_from_slice(&second.to_le_bytes());
                count(told(&night.files, list));
            }
        }
    }
    println!("{sound} sound, {refused} refused");
    assert!(sound > 1_000 && refused > 10_000, "{sound}, {refused}");
}

// ---- Random nights ----

fn is_pass(verdict: &Verdict) -> bool {
    matches!(verdict, Verdict::Passed { .. })
}

fn is_too_short(verdict: &Verdict) -> bool {
    matches!(verdict, Verdict::Refused { number, .. } if *number == room_too_short())
}

/// What was seen in all nights.
#[derive(Default, Debug)]
struct Seen {
    verdicts: Answers,
    /// Nights by the number of their files, and those with 33 by its place.
    files: Times<u16>,
    places: Times<u16>,
    /// Nights in which a file passes that comes behind a 23.
    behind_23: usize,
    /// Nights by what was changed, and those with 33 among them.
    ways: BTreeMap<&'static str, [usize; 2]>,
}

impl Seen {
    fn add(&mut self, way: &'static str, outcome: &Outcome) {
        let verdicts = outcome.verdicts();
        let mut behind = verdicts.iter().skip_while(|verdict| !is_too_short(verdict));
        self.behind_23 += usize::from(behind.any(is_pass));
        verdicts.into_iter().for_each(|verdict| count_verdict(&mut self.verdicts, verdict));
        let (times, key) = match outcome.answer {
            Ok(files) => (&mut self.files, files),
            Err(refusal) => (&mut self.places, refusal.place),
        };
        count(times, key);
        let way = self.ways.entry(way).or_insert([0, 0]);
        way[0] += 1;
        way[1] += usize::from(outcome.answer.is_err());
    }
}

/// 100,000 nights in rooms of all lengths, every second with a list that is changed in one way or in
/// two. Each way is met often, each number of files, each place of 33, and each verdict.
#[test]
fn random_nights() {
    let mut random = Random(0x510E_527F_ADE6_82D1);
    let mut files = Files::new(&mut random);
    let mut seen = Seen::default();
    for turn in 0..100_000 {
        let count = random_count(&mut random);
        let mut night = files.night(count, &mut random);
        let way = match turn % 2 {
            0 => "none",
            _ => change_list(&mut night, &mut random),
        };
        let entries = random_room(&night, &mut random);
        seen.add(way, &checked(&night, entries));
    }
    println!("{seen:?}");
    let Seen { verdicts, files, places, behind_23, ways } = seen;
    assert!(files.len() == NIGHT + 1 && places.len() == NIGHT + 1, "{files:?}, {places:?}");
    assert!(files.values().sum::<usize>() > 50_000 && places.values().sum::<usize>() > 20_000);
    assert!((0..6).chain([64]).all(|place| places[&place] >= 1_000), "{places:?}");
    assert_eq!(ways.len(), WAYS + 1, "{ways:?}");
    assert!(ways.values().all(|[nights, _]| *nights >= 1_000), "{ways:?}");
    assert!(verdicts[&0] > 50_000 && behind_23 > 1_000, "{verdicts:?}, {behind_23}");
    let mut due = check_refusals().map(|refusal| refusal.number).chain([NONE_OWED]);
    assert!(due.all(|number| verdicts.get(&number) > Some(&20)), "{verdicts:?}");
}

/// The night without the pairs of some files, whose bytes lie in gaps then.
fn without(night: &Night, is_out: impl Fn(usize) -> bool) -> Night {
    let pairs = night.pairs().into_iter().enumerate();
    let left: Vec<Pair> =
        pairs.filter(|(place, _)| !is_out(*place)).map(|(_, pair)| pair).collect();
    Night { files: night.files.clone(), list: list_of(&left) }
}

/// A file that is refused, or owes nothing, changes no entry and stops no other: without it, and
/// without all of them, the room and the other verdicts are the same.
#[test]
fn files_that_do_not_pass() {
    let mut random = Random(0x9B05_688C_2B3E_6C1F);
    let mut files = Files::new(&mut random);
    let (mut nights, mut out) = (0, Answers::new());
    while nights < 10_000 {
        let count = 2 + random.below(7);
        let night = files.night(count, &mut random);
        let entries = random_room(&night, &mut random);
        let outcome = checked(&night, entries);
        let verdicts = outcome.verdicts();
        let idle: Vec<usize> = (0..count).filter(|place| !is_pass(&verdicts[*place])).collect();
        if idle.is_empty() || idle.len() == count {
            continue;
        }
        nights += 1;
        let one = random.pick(&idle);
        count_verdict(&mut out, verdicts[one]);
        let is_out: [&dyn Fn(usize) -> bool; 2] =
            [&|place| place == one, &|place| idle.contains(&place)];
        for is_out in is_out {
            let left = checked(&without(&night, is_out), entries);
            let others = (0..count).filter(|place| !is_out(*place)).map(|place| verdicts[place]);
            assert_eq!(left.verdicts(), others.collect::<Vec<Verdict>>());
            assert!(left.room == outcome.room);
        }
    }
    println!("{out:?}");
    assert!(out[&room_too_short()] > 500 && out[&1] > 500 && out[&NONE_OWED] > 100, "{out:?}");
}

// ---- Long rooms ----

/// The entries that a night never needs more of.
const LONGEST: usize = NIGHT * ROOM;

/// The largest pass, 64 times, fills a room of 69,632 entries. A room that is an entry shorter is too
/// short for the last one alone.
#[test]
fn a_night_of_the_largest_passes() {
    let file = full_size().to_bytes();
    assert_eq!(file.len(), 47_908);
    let night = Night::of(&vec![&file; NIGHT], Vec::new);
    let passed = Verdict::Passed { obligations: 64, rows: 1_024 };
    let cited: Vec<u16> = (0..64).chain(0..1_024).collect();
    let outcome = checked(&night, LONGEST);
    assert_eq!(outcome.answer, Ok(64));
    assert!(outcome.by_file() == vec![(passed, &cited[..]); NIGHT]);
    let shorter = checked(&night, LONGEST - 1);
    let refused = Verdict::Refused { number: room_too_short(), place: ROOM as u16 };
    assert!(shorter.verdicts() == [&vec![passed; NIGHT - 1][..], &[refused]].concat());
}

/// No file is refused by 23 in a room of 69,632 entries.
#[test]
fn a_room_that_is_always_long_enough() {
    let mut random = Random(0x5BE0_CD19_137E_2179);
    let mut files = Files::new(&mut random);
    let mut answers = Answers::new();
    for _ in 0..3_000 {
        let count = random_count(&mut random);
        let night = files.night(count, &mut random);
        let outcome = checked(&night, LONGEST);
        outcome.verdicts().into_iter().for_each(|verdict| count_verdict(&mut answers, verdict));
    }
    println!("{answers:?}");
    assert!(answers[&0] > 3_000 && !answers.contains_key(&room_too_short()), "{answers:?}");
}

/// All that is kept for a night of the largest files fits a stack of 64 KiB, with the thread's own
/// frames.
#[cfg(feature = "proved")]
#[test]
fn stack_of_64_kib() {
    let largest = [full_size().to_bytes(), conformance::full_size::largest().to_bytes()];
    let loads = conformance::loads::loads().into_iter().map(|load| load.case.to_bytes());
    let files: Vec<Vec<u8>> = largest.into_iter().chain(loads).take(NIGHT).collect();
    let night = Night::of(&files, || vec![1, 2, 3]);
    let expected = checked(&night, LONGEST);
    let run = move || outcome(proved::check_night, &night.files, &night.list, LONGEST);
    let thread = thread::Builder::new().stack_size(64 * 1024).spawn(run).expect("a thread starts");
    assert!(thread.join().expect("the thread ends") == expected);
}

// ---- Hidden rows ----

/// How many files of two nights have equal answers and entries, from the first on. Only a file that
/// is left out in either night may be the first to differ.
fn compared(one: &Outcome, other: &Outcome) -> usize {
    let (ones, others) = (one.by_file(), other.by_file());
    assert!(one.answer.is_ok() && one.answer == other.answer);
    let differ = ones.iter().zip(&others).position(|(one, other)| one != other);
    if let Some(place) = differ {
        let [one, other] = [&ones, &others].map(|files| files[place].0);
        assert!(is_left_out(one) || is_left_out(other), "{one}, {other}");
    }
    differ.unwrap_or(ones.len())
}

/// Files that are alike to their agents, two and two.
fn random_pairs(random: &mut Random) -> Vec<[Vec<u8>; 2]> {
    let count = 1 + random.below(5);
    let pair = |_| match random.below(3) {
        0 => pair_with_duties(random).map(|case| case.to_bytes()),
        _ => {
            let turn = random.below(18);
            random_pair(turn, random)
        }
    };
    (0..count).map(pair).collect()
}

/// 10,000 pairs of nights compared to the last file, and with both of them struck out. Their files
/// are alike to the agents and lie in other places.
#[test]
fn nights_alike_to_the_agents() {
    let mut random = Random(0xCBBB_9D5D_C105_9ED8);
    let (mut turn, mut whole, mut differ) = (0, 0, 0);
    let mut answers = Answers::new();
    while whole < 10_000 {
        turn += 1;
        let pairs = random_pairs(&mut random);
        let mut laid = |at: usize, change: fn(&[u8]) -> Vec<u8>| {
            let files: Vec<Vec<u8>> = pairs.iter().map(|pair| change(&pair[at])).collect();
            Night::of(&files, || random_gap(&mut random))
        };
        let nights = [laid(0, <[u8]>::to_vec), laid(1, <[u8]>::to_vec)];
        let struck = [laid(0, strike_unseen), laid(1, strike_unseen)];
        let entries = random_room(&nights[0], &mut random);
        let [one, other] = nights.each_ref().map(|night| checked(night, entries));
        let equal = compared(&one, &other);
        for struck in struck.iter().map(|night| checked(night, entries)) {
            compared(&one, &struck);
            compared(&other, &struck);
        }
        if equal == pairs.len() {
            assert!(one.room == other.room);
            whole += 1;
            differ += usize::from(
                nights[0].list != nights[1].list && pairs.iter().any(|pair| pair[0] != pair[1]),
            );
            one.verdicts().into_iter().for_each(|verdict| count_verdict(&mut answers, verdict));
        }
    }
    println!("{turn} pairs of nights, {differ} differ, {answers:?}");
    assert!(turn < 13_000 && differ > 8_000, "{turn}, {differ}");
    assert!(answers[&0] > 5_000 && answers[&16] > 2_000, "{answers:?}");
}

// ---- Huge buffers ----

/// The first byte that an offset of 32 bits does not reach.
const BEYOND: usize = 1 << 32;

/// The end of the longest file at the highest offset.
const FURTHEST: usize = 2 * (BEYOND - 1);

/// As many zeros as can be had, up to what the furthest pair needs. The system gives them as pages
/// that take no memory until they are written to.
fn zeros() -> Vec<u8> {
    let sizes = (0..64).map(|half| (BEYOND + 200) >> half);
    let can_be_had = |bytes: &usize| {
        let mut room: Vec<u8> = Vec::new();
        room.try_reserve_exact(*bytes).is_ok() && black_box(&room).capacity() >= *bytes
    };
    let bytes = [FURTHEST].into_iter().chain(sizes).find(can_be_had);
    vec![0; bytes.expect("no bytes can always be had")]
}

/// The most memory that this process has had so far, where the system tells it.
fn most_memory() -> Option<usize> {
    let status = fs::read_to_string("/proc/self/status").ok()?;
    let kilobytes = status.lines().find_map(|line| line.strip_prefix("VmHWM:"))?;
    Some(1_024 * kilobytes.trim().strip_suffix(" kB")?.parse::<usize>().ok()?)
}

/// A buffer in which files lie for one night.
struct Huge(Vec<u8>);

impl Huge {
    /// The verdicts, or the place of 33, for files that lie in the first so many bytes, in a room of
    /// four entries. The files are not changed, and go when the night is over. Nothing else of the
    /// buffer is read here, and nothing of it copied. None if it is not so long.
    fn told(
        &mut self,
        bytes: usize,
        files: &[(u32, &[u8])],
        pairs: &[Pair],
    ) -> Option<Result<Vec<Verdict>, u16>> {
        if bytes > self.0.len() {
            println!("left out, for want of {bytes} bytes: {pairs:?}");
            return None;
        }
        for (at, file) in files {
            self.0[*at as usize..][..file.len()].copy_from_slice(file);
        }
        let outcome = checked_in_place(&self.0[..bytes], &list_of(pairs), 4);
        for (at, file) in files {
            let place = &mut black_box(&mut self.0)[*at as usize..][..file.len()];
            assert!(place == *file, "{at}, {pairs:?}");
            place.fill(0);
        }
        Some(outcome.answer.map(|_| outcome.verdicts()).map_err(|refusal| refusal.place))
    }

    /// These verdicts are due if the buffer has so many bytes.
    fn gives(
        &mut self,
        bytes: usize,
        files: &[(u32, &[u8])],
        pairs: &[Pair],
        verdicts: &[Verdict],
    ) {
        let told = self.told(bytes, files, pairs);
        let due = Ok(verdicts.to_vec());
        assert!(told.as_ref().is_none_or(|told| *told == due), "{told:?}, {bytes}, {pairs:?}");
    }

    /// 33 at this place is due if the buffer has so many bytes.
    fn refuses(&mut self, bytes: usize, pairs: &[Pair], place: u16) {
        let told = self.told(bytes, &[], pairs);
        assert!(
            told.as_ref().is_none_or(|told| *told == Err(place)),
            "{told:?}, {bytes}, {pairs:?}"
        );
    }

    /// The buffer was never copied, nor filled with zeros.
    fn takes_no_memory(&self) {
        let memory = most_memory();
        println!("{} bytes, and memory of {memory:?} bytes", self.0.len());
        assert!(memory.is_none_or(|memory| memory < 1 << 30), "{memory:?}");
    }
}

/// A file that begins below 2^32 and ends there or beyond. What would be in order by an end that is
/// cut down to 32 bits is refused.
#[test]
fn files_across_2_to_the_32() {
    let mut huge = Huge(zeros());
    let [grant, visit] = [grant(), visit()].map(|case| case.to_bytes());
    let across = (MOST - 49, 108);
    huge.gives(BEYOND + 58, &[(across.0, &grant)], &[across], &[PASSED]);
    huge.refuses(BEYOND + 57, &[across], 0);
    let files: [(u32, &[u8]); 2] = [(10, &visit), (across.0, &grant)];
    let pairs = [(10, 144), (3_000_000_000, 0), across];
    huge.gives(FURTHEST, &files, &pairs, &[PASSED, EMPTY, PASSED]);
    for next in [(0, 0), (58, 0), (100, 10), across, (MOST, 0)] {
        huge.refuses(FURTHEST, &[across, next], 1);
    }
    let up_to = (MOST - 107, 108);
    huge.gives(BEYOND, &[(up_to.0, &grant)], &[up_to], &[PASSED]);
    huge.refuses(BEYOND - 1, &[up_to], 0);
    for next in [(0, 0), (1, 1), (MOST, 0), (MOST, 1)] {
        huge.refuses(FURTHEST, &[up_to, next], 1);
    }
    huge.takes_no_memory();
}

/// A file at the highest offset; and one at the end of what can be had, which may be less.
#[test]
fn files_at_the_highest_offset() {
    let mut huge = Huge(zeros());
    let grant = grant().to_bytes();
    huge.gives(BEYOND + 107, &[(MOST, &grant)], &[(MOST, 108)], &[PASSED]);
    huge.refuses(BEYOND + 106, &[(MOST, 108)], 0);
    huge.gives(BEYOND, &[], &[(MOST, 1)], &[EMPTY]);
    huge.refuses(BEYOND - 1, &[(MOST, 1)], 0);
    huge.gives(BEYOND - 1, &[], &[(MOST, 0)], &[EMPTY]);
    huge.refuses(BEYOND - 2, &[(MOST, 0)], 0);
    let end = huge.0.len().min(BEYOND);
    let at = (end - 108) as u32;
    huge.gives(end, &[(at, &grant)], &[(at, 108)], &[PASSED]);
    huge.refuses(end - 1, &[(at, 108)], 0);
    huge.takes_no_memory();
}

/// The greatest length is too long for a file, which is then not read, and stops no other.
#[test]
fn files_of_the_greatest_length() {
    let mut huge = Huge(zeros());
    let grant = grant().to_bytes();
    huge.gives(BEYOND - 1, &[(0, &grant)], &[(0, MOST)], &[EMPTY]);
    huge.refuses(BEYOND - 2, &[(0, MOST)], 0);
    huge.gives(BEYOND, &[], &[(1, MOST)], &[EMPTY]);
    huge.refuses(BEYOND - 1, &[(1, MOST)], 0);
    huge.refuses(FURTHEST, &[(1, MOST), (0, 0)], 1);
    let before = [(0, 108), (108, MOST)];
    huge.gives(BEYOND + 107, &[(0, &grant)], &before, &[PASSED, EMPTY]);
    huge.refuses(BEYOND + 106, &before, 1);
    let behind = [(0, MOST), (MOST, 108)];
    huge.gives(BEYOND + 107, &[(MOST, &grant)], &behind, &[EMPTY, PASSED]);
    let both = [(0, MOST), (MOST, MOST)];
    huge.gives(FURTHEST, &[], &both, &[EMPTY, EMPTY]);
    huge.refuses(FURTHEST - 1, &both, 1);
    huge.refuses(FURTHEST, &[(0, MOST), (MOST - 1, 0)], 1);
    huge.takes_no_memory();
}
