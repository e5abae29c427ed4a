//! The index by observer: building it, and checks through it. The separate checker by itself, and
//! with the feature `proved` the proved library beside it: every answer, and every entry of all that
//! is lent.

use std::collections::{BTreeMap, BTreeSet};
#[cfg(feature = "proved")]
use std::thread;

use conformance::builder::*;
use conformance::cases::{building_vectors, examples_and_vectors, grant, through_vectors};
use conformance::cases::{twice, visit, ROOM};
use conformance::checker::{admit, strike_unseen, Refusal, Verdict, ABSENT};
use conformance::damages::damaged;
use conformance::desk::reading::read;
use conformance::desk::words::{check_refusals, number_of};
use conformance::examples;
use conformance::full_size::full_size;
use conformance::hidden::{is_left_out, random_case, random_pair};
use conformance::indexes::*;
use conformance::justifications::{failing_duties, passing, slipping};
use conformance::loads::{index_loads, observed};
use conformance::random::{damage, Random};
use conformance::rooms::{room_too_short, PATTERN};
use conformance::tallies::{count, count_verdict, Answers, NONE_OWED};
use conformance::vectors;
use conformance::wrong_indexes::{random_index, WAYS};
#[cfg(feature = "proved")]
use conformance::{checker, loads::loads, proved};

// ---- Vectors and examples ----

#[test]
fn vectors_of_building() {
    let all = building_vectors();
    assert!(all.len() >= 160, "{}", all.len());
    for vector in all {
        let mut room = lent(vector.room);
        room[..vector.written.len()].copy_from_slice(&vector.written);
        let expected = (vector.answer, room);
        assert_eq!(built(&vector.file, vector.room), expected, "{}", vector.name);
        as_built(&vector.file);
    }
}

#[test]
fn vectors_of_checks_through() {
    let all = through_vectors();
    assert!(all.len() >= 160, "{}", all.len());
    for vectors::Through { vector, index } in all {
        let mut room = vec![PATTERN; vector.room];
        room[..vector.written.len()].copy_from_slice(&vector.written);
        let expected = (vector.verdict, room);
        assert_eq!(checked(&vector.file, &index, vector.room), expected, "{}", vector.name);
        checked_in_all_rooms(&vector.file, &index);
        as_built(&vector.file);
    }
}

/// A line that is not as the readers want it is refused, also one of another kind of vectors.
#[test]
fn lines_that_are_no_vectors() {
    let plain = "name\t1088\t00ff\trefused 1 0\t-";
    let building = "name\t9\t-\tbuilt 2\t7 8";
    let through = "name\t3\t-\t1 2\tnone owed\t-";
    let read = |text: &str| {
        let plain = vectors::read(text).is_some();
        (plain, vectors::read_buildings(text).is_some(), vectors::read_throughs(text).is_some())
    };
    assert_eq!(read(plain), (true, true, false));
    assert_eq!(read(building), (false, true, false));
    assert_eq!(read(through), (false, false, true));
    assert_eq!(read("# a remark"), (true, true, true));
    let changes = [("name\t", ""), ("\t-", ""), ("\t-", "\t0"), ("\t-", "\tzz"), ("\t-", "\t")];
    for line in [building, through] {
        for (from, to) in changes {
            let faulty = line.replacen(from, to, 1);
            assert_eq!(read(&faulty), (false, false, false), "{faulty}");
        }
        assert_eq!(read(&format!("{line}\n\n{line}")), (false, false, false));
    }
    for index in ["", " ", "1 ", "1,2", "65536", "-1"] {
        let faulty = through.replace("1 2", index);
        assert!(vectors::read_throughs(&faulty).is_none(), "{faulty}");
    }
    for answer in ["built", "built 1", "built 3", "built two", "passed 1 1", "none owed", "30 0"] {
        let faulty = building.replace("built 2", answer);
        assert!(vectors::read_buildings(&faulty).is_none(), "{faulty}");
    }
}

#[test]
fn every_example_and_vector() {
    for vector in examples_and_vectors().into_iter().chain(examples::all()) {
        let verdict = as_built(&vector.file);
        if vector.room == ROOM {
            assert_eq!(verdict, vector.verdict, "{}", vector.name);
        }
        let index = due(&vector.file).unwrap_or_default();
        let (verdict, room) = checked(&vector.file, &index, vector.room);
        assert_eq!(verdict, vector.verdict, "{}", vector.name);
        assert_eq!(room[..vector.written.len()], vector.written, "{}", vector.name);
    }
}

// ---- Small cases ----

/// The agent grants what it created, as the one row tells that it cites.
fn granting(agent: u16, observers: &[u16]) -> CaseFile {
    CaseFile::new(agent)
        .formula("creates", creates(agent, data(0)))
        .formula("owns", owns(agent, data(0)))
        .formula("use", predicate(7, &[1, data(0)]))
        .formula("says", says(agent, "use", 1))
        .formula("communicates", communicates(agent, "use", 1))
        .audits("communicates")
        .row("creates", observers)
        .step(SEEN, "owns", 0, &[])
        .step(OWNER, "says", ABSENT, &[0])
}

fn strike(case: CaseFile, row: usize) -> CaseFile {
    case.change(|case| case.rows[row].action = ABSENT)
}

/// Grant with two more rows, of which agent 0 sees one.
fn three_rows() -> CaseFile {
    grant().row("0 creates", &[0, 2, 3]).row("0 creates", &[2, 16_383])
}

/// Cases of few rows that checks 1 to 9 admit.
fn small_cases() -> Vec<CaseFile> {
    vec![
        grant(),
        visit(),
        twice(),
        three_rows(),
        strike(three_rows(), 1),
        strike(strike(three_rows(), 0), 2),
        grant().change(|case| case.rows.clear()),
        grant().change(|case| case.rows[0].observers.clear()),
        grant().row("0 creates", &[]).row("0 creates", &[]),
        granting(16_383, &[0, 1, 16_382, 16_383]),
    ]
}

/// The file and the index of an admitted case, which is the one laid out agent by agent.
fn file_and_index(case: &CaseFile) -> (Vec<u8>, Vec<u16>) {
    let file = case.to_bytes();
    assert!(admit(&file).is_ok());
    let index = due(&file).expect("an admitted file has an index");
    assert_eq!(index, laid_out(&lists(case)));
    (file, index)
}

/// The check through this index has to give 30, unless it begins with the one that is due. Tells
/// whether it gave 30.
fn is_refused(case: &CaseFile, index: &[u16]) -> bool {
    let (file, due) = file_and_index(case);
    let refused = checked_in_all_rooms(&file, index) == NOT_AS_BUILT;
    assert_eq!(refused, !index.starts_with(&due), "{index:?}");
    refused
}

/// What the document says of the index, by hand.
#[test]
fn indexes_by_hand() {
    let index = |case: &CaseFile| file_and_index(case).1;
    assert_eq!(index(&grant()), [1, 0, 4, 1, 0]);
    assert_eq!(index(&visit()), [2, 0, 7, 1, 1, 8, 1, 0, 0]);
    let three = [4, 0, 13, 2, 2, 15, 2, 3, 17, 1, 16_383, 18, 1, 0, 1, 1, 2, 1, 2];
    assert_eq!(index(&three_rows()), three);
    assert_eq!(index(&strike(strike(three_rows(), 0), 2)), three);
    assert_eq!(index(&grant().change(|case| case.rows.clear())), [0]);
    assert_eq!(index(&grant().change(|case| case.rows[0].observers.clear())), [0]);
    assert_eq!(index(&grant().row("0 creates", &[]).row("0 creates", &[0])), [1, 0, 4, 2, 0, 2]);
    for case in small_cases() {
        as_built(&case.to_bytes());
    }
}

/// An agent that observes nothing, the first agent and the last one.
#[test]
fn agents_at_their_limits() {
    for agent in [0, 1, 8_191, 16_382, 16_383] {
        for observers in [vec![], vec![0], vec![16_383], vec![0, 16_383], vec![0, 8_191, 16_383]] {
            let case = granting(agent, &observers);
            file_and_index(&case);
            let due = match observers.contains(&agent) {
                true => Verdict::Passed { obligations: 0, rows: 1 },
                false => Verdict::Refused { number: 16, place: 0 },
            };
            assert_eq!(as_built(&case.to_bytes()), due, "{agent}, {observers:?}");
            let struck = strike(case, 0).to_bytes();
            let number = if observers.contains(&agent) { 14 } else { 16 };
            assert_eq!(as_built(&struck), Verdict::Refused { number, place: 0 });
        }
    }
}

// ---- Wrong indexes ----

/// Each entry at the limits of each field, at its neighbours, and at every other entry.
#[test]
fn each_entry_changed() {
    let mut refused = 0;
    for case in small_cases() {
        let (_, index) = file_and_index(&case);
        let limits = [0, 1, index[0], 16_383, 16_384, 65_534, 65_535];
        for at in 0..index.len() {
            let near = [index[at].wrapping_sub(1), index[at].wrapping_add(1)];
            let values: BTreeSet<u16> = [&limits[..], &near, &index].concat().into_iter().collect();
            for value in values {
                let mut changed = index.clone();
                changed[at] = value;
                refused += usize::from(is_refused(&case, &changed));
            }
        }
    }
    assert!(refused > 800, "{refused}");
}

/// Cut at each length it is refused; with any entry behind it, it is not.
#[test]
fn each_length() {
    for case in small_cases() {
        let (_, index) = file_and_index(&case);
        for length in 0..index.len() {
            assert!(is_refused(&case, &index[..length]));
        }
        for value in [0, 1, index[0], 16_383, 16_384, 65_534, 65_535] {
            for behind in [vec![value], vec![value; 9], vec![value; MOST_ENTRIES]] {
                assert!(!is_refused(&case, &[&index[..], &behind].concat()));
            }
        }
    }
}

/// One row more in a list, or one less; the agent of an empty list stays or goes.
#[test]
fn a_row_more_or_less() {
    let (mut more, mut less) = (0, 0);
    for case in small_cases() {
        let right = lists(&case);
        for at in 0..right.len() {
            for row in 0..=case.rows.len() as u16 {
                let mut changed = right.clone();
                let rows = &mut changed[at].1;
                match rows.iter().position(|known| *known == row) {
                    Some(known) => {
                        rows.remove(known);
                        less += 1;
                    }
                    None => {
                        rows.push(row);
                        rows.sort();
                        more += 1;
                    }
                }
                assert!(is_refused(&case, &laid_out(&changed)));
                changed.retain(|(_, rows)| !rows.is_empty());
                assert!(is_refused(&case, &laid_out(&changed)));
            }
        }
    }
    assert!(more > 20 && less > 20, "{more}, {less}");
}

/// An agent more in the table, with every list that it may have, or one less.
#[test]
fn an_agent_more_or_less() {
    for case in small_cases() {
        let right = lists(&case);
        for at in 0..right.len() {
            let mut changed = right.clone();
            changed.remove(at);
            assert!(is_refused(&case, &laid_out(&changed)));
        }
        for agent in [0, 1, 2, 5, 16_383, 16_384, ABSENT] {
            let rows = case.rows.len() as u16;
            for list in [vec![], vec![0], (0..rows).collect()] {
                let mut changed = right.clone();
                changed.push((agent, list));
                assert!(is_refused(&case, &laid_out(&changed)));
                changed.sort();
                assert!(is_refused(&case, &laid_out(&changed)));
            }
        }
    }
}

/// Struck rows stand in the lists: without one of them, or without all, the index is refused.
#[test]
fn struck_rows_left_out() {
    let mut refused = 0;
    for struck in [vec![0], vec![1], vec![2], vec![0, 2], vec![0, 1, 2]] {
        let case = struck.iter().fold(three_rows(), |case, row| strike(case, *row as usize));
        let left_out = struck.iter().map(|row| vec![*row]).chain([struck.clone()]);
        for left_out in left_out {
            let mut changed = lists(&case);
            changed.iter_mut().for_each(|(_, rows)| rows.retain(|row| !left_out.contains(row)));
            refused += usize::from(is_refused(&case, &laid_out(&changed)));
            changed.retain(|(_, rows)| !rows.is_empty());
            refused += usize::from(is_refused(&case, &laid_out(&changed)));
        }
    }
    assert_eq!(refused, 2 * 13);
}

/// Offsets counted from another entry than the first, and every other order of lists, of agents and
/// of the rows of a list.
#[test]
fn other_layouts() {
    let mut refused = 0;
    for case in small_cases() {
        let right = lists(&case);
        let table = 1 + 3 * right.len();
        let orders = orders(right.len());
        for first in [0, 1, table - 1, table + 1, 2 * table, 65_535] {
            let index = laid_out_from(&right, first, &orders[0]);
            assert_eq!(is_refused(&case, &index), !right.is_empty());
        }
        for order in &orders {
            let index = laid_out_from(&right, table, order);
            refused += usize::from(is_refused(&case, &index));
            let agents: Lists = order.iter().map(|at| right[*at].clone()).collect();
            refused += usize::from(is_refused(&case, &laid_out(&agents)));
        }
        for at in 0..right.len() {
            let mut changed = right.clone();
            changed[at].1.reverse();
            refused += usize::from(is_refused(&case, &laid_out(&changed)));
        }
    }
    assert!(refused > 100, "{refused}");
}

/// All orders of so many things, the given one first.
fn orders(count: usize) -> Vec<Vec<usize>> {
    let mut all = vec![Vec::new()];
    for _ in 0..count {
        let longer = |order: Vec<usize>| {
            let left = (0..count).filter(|at| !order.contains(at)).collect::<Vec<usize>>();
            left.into_iter().map(move |at| [&order[..], &[at]].concat()).collect::<Vec<_>>()
        };
        all = all.into_iter().flat_map(longer).collect();
    }
    all
}

/// The index of another log is refused; that of the same log in another file is not, whoever is the
/// agent, and whatever is struck.
#[test]
fn the_index_of_another_file() {
    for case in small_cases() {
        for other in small_cases() {
            let (_, index) = file_and_index(&other);
            assert_eq!(is_refused(&case, &index), lists(&case) != lists(&other));
        }
        let (file, index) = file_and_index(&case);
        let struck = strike_unseen(&file);
        assert_eq!(due(&struck), Ok(index.clone()));
        assert_ne!(checked_in_all_rooms(&struck, &index), NOT_AS_BUILT);
        let all = (0..case.rows.len()).fold(case.clone(), strike);
        assert!(!is_refused(&all, &index));
        let other_agent = case.change(|case| case.agent = 5);
        assert!(!is_refused(&other_agent, &index));
    }
}

// ---- Large logs ----

/// Logs of 1,024 rows, and the entries of their indexes. Agent 0 does not observe row 0 in the last
/// four.
fn large_cases() -> Vec<(CaseFile, usize)> {
    let loads = index_loads().into_iter().map(|load| load.case);
    let mut cases: Vec<(CaseFile, usize)> = loads.zip([4_289, 1_028, MOST_ENTRIES]).collect();
    cases.push((full_size(), 1 + 3 * 1_027 + 4_096));
    cases.push((observed(|row| vec![0, 1 + row % 3, 4 + row % 2, 7]), 1 + 3 * 7 + 4_096));
    cases.push((observed(|row| if row == 1_023 { vec![0] } else { vec![] }), 5));
    cases.push((observed(|_| vec![]), 1));
    cases.push((observed(|_| vec![16_383]), 1_028));
    cases.push((observed(descending), MOST_ENTRIES));
    cases
}

/// No two rows share an observer, and each has lower ones than the row before.
fn descending(row: u16) -> Vec<u16> {
    (0..4).map(|k| 16_383 - 4 * (4 * row + 3 - k)).collect()
}

#[test]
fn large_logs() {
    for (case, entries) in large_cases() {
        let (file, index) = file_and_index(&case);
        assert_eq!(index.len(), entries);
        let seen = case.rows[0].observers.contains(&0);
        let verdict = as_built(&file);
        assert_eq!(matches!(verdict, Verdict::Passed { .. }), seen, "{verdict}");
        assert_eq!(verdict == Verdict::Refused { number: 16, place: 0 }, !seen);
    }
}

/// Entries all over large indexes, each changed to its neighbours and to limits, and the index cut
/// there.
#[test]
fn large_indexes_changed() {
    for (case, _) in large_cases() {
        let (file, index) = file_and_index(&case);
        let last = index.len() - 1;
        let table = 1 + 3 * index[0] as usize;
        let places = (0..index.len()).step_by(997);
        let places = places.chain([1, 2, 3, table - 1, table, last].map(|at| at.min(last)));
        for at in places {
            let value = index[at];
            for value in [value.wrapping_sub(1), value.wrapping_add(1), 0, 16_383, ABSENT] {
                let mut changed = index.clone();
                changed[at] = value;
                let refused = checked(&file, &changed, 4).0 == NOT_AS_BUILT;
                assert_eq!(refused, changed != index, "{at}");
            }
            assert_eq!(checked(&file, &index[..at], 4).0, NOT_AS_BUILT);
        }
    }
}

/// The loads of full size, with their own observers and with 4,096 different ones.
#[cfg(feature = "proved")]
fn loads_with_many_observers() -> impl Iterator<Item = CaseFile> {
    let cases = loads().into_iter().map(|load| load.case).filter(|case| case.rows.len() == 1_024);
    let spread = index_loads().remove(2).case.rows;
    cases.flat_map(move |case| {
        let other = case.clone().change(|case| {
            let rows = case.rows.iter_mut().zip(&spread);
            rows.for_each(|(row, other)| row.observers = other.observers.clone());
        });
        [case, other]
    })
}

/// All that is kept for the largest files fits a stack of 64 KiB, with the thread's own frames:
/// building, and checks through the index, as built and refused by its last entry.
#[cfg(feature = "proved")]
#[test]
fn stack_of_64_kib() {
    let cases = large_cases().into_iter().map(|(case, _)| case);
    let mut largest = 0;
    for case in cases.chain(loads_with_many_observers()) {
        let file = case.to_bytes();
        let index = due(&file).expect("checks 1 to 5 admit it");
        let mut wrong = index.clone();
        *wrong.last_mut().expect("it has an entry") += 1;
        largest += usize::from(index.len() == MOST_ENTRIES);
        let run = move |build: Builder, check: IndexedChecker| {
            let checks = [&index, &wrong].map(|index| through(check, &file, index, ROOM));
            (building(build, &file, MOST_ENTRIES + 3), checks)
        };
        let expected = run(checker::build_index, checker::check_indexed);
        let found = thread::Builder::new()
            .stack_size(64 * 1024)
            .spawn(move || run(proved::build_index, proved::check_indexed))
            .expect("a thread starts")
            .join();
        assert!(found.expect("the thread ends") == expected);
    }
    assert!(largest > 20, "{largest}");
}

// ---- Random cases ----

/// The case with up to 24 more rows: seen or not, struck or not, of few agents or of any.
fn with_more_rows(case: CaseFile, random: &mut Random) -> CaseFile {
    let action = case.rows.first().map_or(ABSENT, |row| row.action);
    let (rows, few) = (random.below(25), random.one_in(2));
    case.change(|case| {
        for _ in 0..rows {
            let mut agent = || match few {
                true => random.below(4) as u16,
                false => random.pick(&[0, 1, 2, 3, 5, 100, 8_191, 8_192, 16_382, 16_383]),
            };
            let observers: BTreeSet<u16> = [agent(), agent(), agent()].into_iter().collect();
            let observers = observers.into_iter().skip(random.below(4)).collect();
            let action = if random.one_in(3) { ABSENT } else { action };
            case.rows.push(LogRow { action, observers, span: None });
        }
    })
}

/// Cases that pass, with few rows and many, with slips, of hidden rows, with duties not done, and
/// damaged.
fn random_file(turn: usize, random: &mut Random) -> Vec<u8> {
    match turn % 9 {
        0 => passing(random).to_bytes(),
        1..=3 => {
            let case = passing(random);
            with_more_rows(case, random).to_bytes()
        }
        4 => {
            let case = slipping(random);
            with_more_rows(case, random).to_bytes()
        }
        5 => random_case(turn, random).to_bytes(),
        6 => damaged(&slipping(random), random).1,
        7 => failing_duties(random).to_bytes(),
        _ => damaged(&passing(random), random).1,
    }
}

/// Building in a room of no entries, one too few, just enough or more.
fn build_somewhere(file: &[u8], random: &mut Random) -> Result<u16, Refusal> {
    let Ok(index) = due(file) else { return built(file, random.below(9)).0 };
    assert_eq!(index, laid_out(&lists(&read(file).expect("it has a header").case)));
    let (needed, more) = (index.len(), 1 + random.below(9));
    let entries = random.pick(&[0, needed - 1, needed, needed + more]);
    built(file, entries).0
}

/// 100,000 cases: an index is built in rooms of all lengths, and a check made through an index that
/// is as built or wrong in one way. Each way is met often, and so are 29 to 32 and a pass.
#[test]
fn random_cases() {
    let mut random = Random(0x0123_4567_89AB_CDEF);
    let (mut building, mut checking) = (Answers::new(), Answers::new());
    let mut wrong = BTreeMap::new();
    for turn in 0..100_000 {
        let file = random_file(turn, &mut random);
        let answer = build_somewhere(&file, &mut random);
        let number = answer.map_or_else(|refusal| refusal.number, |_| 0);
        count(&mut building, number);
        let (way, index) = random_index(&file, &mut random);
        let index = if random.one_in(2) { due(&file).unwrap_or(index) } else { index };
        let verdict = checked_in_all_rooms(&file, &index);
        count_verdict(&mut checking, verdict);
        *wrong.entry(way).or_insert(0) += usize::from(verdict == NOT_AS_BUILT);
    }
    println!("building {building:?}\nchecking {checking:?}\nwrong {wrong:?}");
    assert!(building[&0] > 20_000 && building[&29] > 10_000, "{building:?}");
    assert!((1..=5).all(|number| building.get(&number) > Some(&20)), "{building:?}");
    assert!(checking[&0] > 20_000 && checking[&30] > 10_000, "{checking:?}");
    let duties = ["DUTY_NOT_DONE", "ROW_NAMED_TWICE"].map(number_of);
    assert!(duties.iter().all(|number| checking[number] >= 1_000), "{checking:?}");
    let due = check_refusals().map(|refusal| refusal.number);
    let due = due.filter(|number| *number != room_too_short()).chain([NONE_OWED]);
    assert!(due.clone().all(|number| checking.get(&number) > Some(&20)), "{checking:?}");
    assert_eq!((wrong.remove("as built"), wrong.remove("any entries")), (Some(0), Some(0)));
    assert_eq!(wrong.len(), WAYS, "{wrong:?}");
    assert!(wrong.values().all(|times| *times >= 300), "{wrong:?}");
}

// ---- Hidden rows ----

/// The index as built, or none where there is none.
fn own_index(file: &[u8]) -> Vec<u16> {
    built_in_all_rooms(file).unwrap_or_default()
}

/// The one answer to both files, each through its own index, and to both struck out, whose indexes
/// are the same; none if either file is left out. The index of the other file is refused where it
/// differs.
fn one_answer(pair: [&[u8]; 2], entries: usize) -> Option<Verdict> {
    let indexes = pair.map(own_index);
    let answer = |at: usize| checked(pair[at], &indexes[at], entries);
    let (first, second) = (answer(0), answer(1));
    if is_left_out(first.0) || is_left_out(second.0) {
        return None;
    }
    assert_eq!(first, second, "{pair:?}");
    for (file, index) in pair.iter().zip(&indexes) {
        let struck = strike_unseen(file);
        assert_eq!(own_index(&struck), *index, "{struck:?}");
        assert_eq!(checked(&struck, index, entries), first, "{struck:?}");
    }
    let admitted = admit(pair[0]).is_ok() && !indexes[1].starts_with(&indexes[0]);
    let other = checked(pair[0], &indexes[1], entries).0;
    assert_eq!(other, if admitted { NOT_AS_BUILT } else { first.0 }, "{pair:?}");
    Some(first.0)
}

/// 10,000 pairs compared, each with a file that differs in what the agent cannot see.
#[test]
fn pairs_alike_to_the_agent() {
    let mut random = Random(0xBB67_AE85_84CA_A73B);
    let (mut turn, mut compared, mut differ) = (0, 0, 0);
    let mut answers = Answers::new();
    while compared < 10_000 {
        turn += 1;
        let pair = random_pair(turn, &mut random);
        let entries = random.pick(&[0, 1, 3, 40]);
        let Some(verdict) = one_answer([&pair[0], &pair[1]], entries) else { continue };
        compared += 1;
        differ += usize::from(due(&pair[0]) != due(&pair[1]));
        count_verdict(&mut answers, verdict);
    }
    println!("{turn} pairs, {differ} indexes differ, {answers:?}");
    assert!(turn < 13_000 && differ > 8_000, "{turn}, {differ}");
    assert!(answers[&0] > 1_500 && answers[&16] > 1_500, "{answers:?}");
}

// ---- Damaged files ----

/// Both functions on any bytes, with the index of another file and with the one due.
fn assert_any_bytes(bytes: &[u8], index: &[u16]) -> Verdict {
    built_in_all_rooms(bytes).ok();
    let verdict = checked_in_all_rooms(bytes, index);
    let own = due(bytes).unwrap_or_default();
    checked_in_all_rooms(bytes, &own);
    verdict
}

#[test]
fn every_truncation() {
    let large = index_loads().remove(1).case;
    for case in [grant(), visit(), three_rows(), large] {
        let (file, index) = file_and_index(&case);
        for length in 0..file.len() {
            let verdict = assert_any_bytes(&file[..length], &index);
            assert!(matches!(verdict, Verdict::Refused { number: 1 | 2, .. }), "{verdict}");
        }
        let longer = [&file[..], &[0]].concat();
        assert_eq!(assert_any_bytes(&longer, &index), Verdict::Refused { number: 2, place: 7 });
    }
}

/// Each number of a file at its limits: the header, the log and all others.
#[test]
fn each_number_at_its_limits() {
    let mut answers = Answers::new();
    for case in [grant(), visit(), three_rows(), strike(three_rows(), 0)] {
        let (file, index) = file_and_index(&case);
        for at in (0..file.len()).step_by(2) {
            for value in [0, 1, index[0], 16_383, 16_384, 65_534, 65_535_u16] {
                let mut changed = file.clone();
                changed[at..at + 2].copy_from_slice(&value.to_le_bytes());
                count_verdict(&mut answers, assert_any_bytes(&changed, &index));
            }
        }
    }
    println!("{answers:?}");
    assert!([0, 2, 3, 5, 9, 30].iter().all(|number| answers[number] > 20), "{answers:?}");
}

/// The file with small numbers strewn over its log.
fn any_log(file: &[u8], random: &mut Random) -> Vec<u8> {
    let mut file = file.to_vec();
    if let Some(reading) = read(&file).filter(|reading| reading.sound == 8) {
        let (log, behind) = (reading.header[1].0 as usize, reading.header[3].0 as usize);
        let bytes = file[log..behind].iter_mut().filter(|_| random.one_in(8));
        let bytes: Vec<&mut u8> = bytes.collect();
        bytes.into_iter().for_each(|byte| *byte = random.below(6) as u8);
    }
    file
}

/// Random bytes, random logs, and damaged files.
#[test]
fn damaged_files() {
    let all = examples_and_vectors();
    let mut random = Random(0x3C6E_F372_FE94_F82B);
    let mut answers = Answers::new();
    for turn in 0..40_000 {
        let file = &all[turn / 4 % all.len()].file;
        let bytes = match turn % 4 {
            0 => (0..turn % 200).map(|_| random.below(256) as u8).collect(),
            1 => any_log(file, &mut random),
            _ => damage(file, &mut random),
        };
        let (_, index) = random_index(file, &mut random);
        let index = if random.one_in(2) { due(file).unwrap_or(index) } else { index };
        count_verdict(&mut answers, assert_any_bytes(&bytes, &index));
    }
    println!("{answers:?}");
    assert!((1..=9).all(|number| answers[&number] > 50), "{answers:?}");
    assert!(answers[&0] > 50 && answers[&30] > 1_000, "{answers:?}");
}
