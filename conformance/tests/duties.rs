//! Duties with a due hour: 31 and 32 at their edges, and their place among the checks; without an
//! index and through one. With the feature `proved` the proved checker has to say the same.

use std::collections::{BTreeMap, BTreeSet};

use conformance::builder::*;
use conformance::cases::{examples, grant, visit, ROOM};
use conformance::checker::{check, Verdict, ABSENT, HEADER_BYTES, PARTS};
use conformance::damages::damaged;
use conformance::desk::reading::read;
use conformance::duties::{is_right_about_duties, lowest_not_done, lowest_of_one_row};
use conformance::full_size::full_size;
use conformance::indexes::{as_built, checked, due};
use conformance::justifications::{failing_duties, passing, slipping};
use conformance::loads::loads;
use conformance::random::Random;
use conformance::rooms::{answer, PATTERN};

/// The last hour that is not absent.
const LAST: u16 = ABSENT - 1;

/// The one verdict on a file, in rooms of all lengths.
fn told(file: &[u8]) -> Verdict {
    #[cfg(feature = "proved")]
    conformance::rooms::agreed_in_all_rooms(file);
    let verdict = as_built(file);
    assert!(is_right_about_duties(file, verdict), "{verdict}");
    verdict
}

fn verdict(case: &CaseFile) -> Verdict {
    told(&case.to_bytes())
}

/// The one verdict in a room of so many entries, through the index due and without. Only a pass
/// writes to the room.
fn verdict_in(case: &CaseFile, entries: usize) -> Verdict {
    let file = case.to_bytes();
    let (verdict, room) = answer(check, &file, entries);
    let passed = matches!(verdict, Verdict::Passed { .. });
    assert!(passed || room == vec![PATTERN; entries], "{verdict}");
    #[cfg(feature = "proved")]
    assert_eq!(conformance::rooms::agreed(&file, entries).0, verdict);
    let index = due(&file).expect("checks 1 to 5 admit it");
    assert_eq!(checked(&file, &index, entries), (verdict, room));
    verdict
}

const PASSED: Verdict = Verdict::Passed { obligations: 0, rows: 1 };

fn refused(number: u16, place: u16) -> Verdict {
    Verdict::Refused { number, place }
}

/// Visit, in which agent 1 is audited and row 0 is cited, and more rows in which agent 1 reports:
/// two that it sees, one that it does not see, and such rows struck out; in the last one agent 0
/// reports.
fn scene() -> CaseFile {
    visit()
        .formula("1 reports", user_action(3, &[1]))
        .formula("0 reports", user_action(3, &[0]))
        .row("1 reports", &[0, 1])
        .row("1 reports", &[1, 2])
        .row("1 reports", &[0, 2])
        .row("1 reports", &[1])
        .row("1 reports", &[])
        .row("0 reports", &[0, 1])
        .change(|case| {
            case.rows[STRUCK as usize].action = ABSENT;
            case.rows[HIDDEN_STRUCK as usize].action = ABSENT;
        })
}

const SEEN_ROW: u16 = 1;
const OTHER_SEEN: u16 = 2;
const HIDDEN: u16 = 3;
const STRUCK: u16 = 4;
const HIDDEN_STRUCK: u16 = 5;
const OF_ANOTHER: u16 = 6;

/// The scene with reports due, each of a mark, at an hour, and done by a row.
fn owing(duties: &[(u16, u16, u16)]) -> CaseFile {
    scene().change(|case| {
        let action = case.number("1 reports");
        let duty = |&(mark, due, row): &(u16, u16, u16)| Obligation { mark, action, due, row };
        case.obligations = duties.iter().map(duty).collect();
    })
}

// ---- Hours and rows ----

/// "Due before the audit hour": at that hour it is not expired yet.
#[test]
fn hours() {
    let hours = [0, 1, 2, HOUR, LAST - 1, LAST];
    for hour in hours {
        for due in hours {
            for mark in [1, 2] {
                let at = |row| verdict(&owing(&[(mark, due, row)]).change(|case| case.hour = hour));
                let not_done = if due < hour { refused(31, 0) } else { PASSED };
                assert_eq!(at(ABSENT), not_done, "due {due}, audit {hour}");
                assert_eq!(at(SEEN_ROW), PASSED);
            }
        }
    }
}

/// Only a row that the agent sees with the duty's action has done it; what is not due may name any.
#[test]
fn rows() {
    for mark in [1, 2] {
        let done = |row| verdict(&owing(&[(mark, HOUR - 1, row)])) == PASSED;
        assert!(done(SEEN_ROW) && done(OTHER_SEEN));
        for row in [0, HIDDEN, STRUCK, HIDDEN_STRUCK, OF_ANOTHER, ABSENT] {
            assert_eq!(verdict(&owing(&[(mark, HOUR - 1, row)])), refused(31, 0), "row {row}");
            assert_eq!(verdict(&owing(&[(mark, HOUR, row)])), PASSED, "row {row}");
        }
    }
}

/// What row 0 has done is not done where no row is named.
#[test]
fn absent_is_not_row_0() {
    let told = |row| verdict(&visit().expired(1, "0 communicates", row));
    assert_eq!(told(0), PASSED);
    assert_eq!(told(ABSENT), refused(31, 0));
    let twins = visit().obligation(1, "0 communicates").obligation(1, "0 communicates");
    assert_eq!(verdict(&twins), PASSED);
    assert_eq!(verdict(&twins.change(|case| case.obligations[0].row = 0)), PASSED);
}

/// The lowest obligation is told; a good one before it, and one that is not due, are passed over.
#[test]
fn places_of_31() {
    let good = (1, HOUR - 1, SEEN_ROW);
    let not_due = (1, HOUR, ABSENT);
    let bad = (2, 0, HIDDEN);
    assert_eq!(verdict(&owing(&[good, not_due])), PASSED);
    assert_eq!(verdict(&owing(&[good, not_due, bad])), refused(31, 2));
    assert_eq!(verdict(&owing(&[good, bad, not_due, bad])), refused(31, 1));
    let many = |at: usize| {
        let mut duties = vec![not_due; 64];
        duties[at] = bad;
        verdict(&owing(&duties))
    };
    assert_eq!([many(0), many(63)], [refused(31, 0), refused(31, 63)]);
}

/// Two each-use duties may not name one row, whatever it holds, and whether they are due or not. Two
/// rows of one action are two.
#[test]
fn one_row_for_two() {
    let twins = |marks: [u16; 2], dues: [u16; 2], rows: [u16; 2]| {
        verdict(&owing(&[(marks[0], dues[0], rows[0]), (marks[1], dues[1], rows[1])]))
    };
    for dues in [[HOUR - 1, HOUR - 1], [HOUR - 1, HOUR], [HOUR, HOUR - 1], [HOUR, LAST]] {
        assert_eq!(twins([1, 1], dues, [SEEN_ROW, SEEN_ROW]), refused(32, 1));
        assert_eq!(twins([1, 1], dues, [SEEN_ROW, OTHER_SEEN]), PASSED);
        for marks in [[1, 2], [2, 1], [2, 2]] {
            assert_eq!(twins(marks, dues, [SEEN_ROW, SEEN_ROW]), PASSED, "{marks:?}");
        }
    }
    for row in [0, HIDDEN, STRUCK, HIDDEN_STRUCK, OF_ANOTHER] {
        assert_eq!(twins([1, 1], [HOUR, HOUR], [row, row]), refused(32, 1), "row {row}");
    }
    assert_eq!(twins([1, 1], [HOUR, HOUR], [ABSENT, ABSENT]), PASSED);
}

/// The two need not be neighbours, nor of one action; the lowest later one is told.
#[test]
fn places_of_32() {
    let each = |row| (1, HOUR, row);
    let once = (2, HOUR, SEEN_ROW);
    let apart = owing(&[each(SEEN_ROW), once, each(ABSENT), each(HIDDEN), each(SEEN_ROW)]);
    assert_eq!(verdict(&apart), refused(32, 4));
    let more = owing(&[each(HIDDEN), each(0), each(HIDDEN), each(0), each(HIDDEN)]);
    assert_eq!(verdict(&more), refused(32, 2));
    let between = owing(&[once, each(SEEN_ROW), once, each(SEEN_ROW)]);
    assert_eq!(verdict(&between), refused(32, 3));
    let other = between.change(|case| case.obligations[3].action = case.number("0 reports"));
    assert_eq!(verdict(&other), refused(32, 3));
    let last = owing(&[each(STRUCK); 64]).change(|case| {
        case.obligations[1..63].iter_mut().for_each(|duty| duty.row = ABSENT);
    });
    assert_eq!(verdict(&last), refused(32, 63));
}

// ---- The order of the checks ----

/// 31 over all obligations, and then 32.
#[test]
fn all_of_31_before_32() {
    let each = (1, HOUR, SEEN_ROW);
    let case = owing(&[each, each, (1, HOUR - 1, ABSENT)]);
    assert_eq!(verdict(&case), refused(31, 2));
    assert_eq!(verdict(&case.change(|case| case.obligations[2].due = HOUR)), refused(32, 1));
}

/// A number, and a change to the scene for which it is due.
type Fault = (u16, fn(&mut CaseFile));

/// The faults of duties: one is expired and not done, and two share a row.
const DUTIES: [Fault; 2] = [
    (31, |case| owe(case, HOUR - 1, ABSENT)),
    (32, |case| {
        owe(case, HOUR, SEEN_ROW);
        owe(case, HOUR, SEEN_ROW);
    }),
];

/// One more each-use report is due.
fn owe(case: &mut CaseFile, due: u16, row: u16) {
    let action = case.number("1 reports");
    case.obligations.push(Obligation { mark: 1, action, due, row });
}

/// The case with those of these faults whose bit is set, and the number of the first of them.
fn with_faults(mut case: CaseFile, faults: &[Fault], chosen: usize) -> (CaseFile, Option<u16>) {
    let mut first = None;
    for (bit, (number, change)) in faults.iter().enumerate() {
        if chosen & (1 << bit) != 0 {
            change(&mut case);
            first = first.or(Some(*number));
        }
    }
    (case, first)
}

/// The number of a refusal.
fn number(verdict: Verdict) -> Option<u16> {
    match verdict {
        Verdict::Refused { number, .. } => Some(number),
        _ => None,
    }
}

/// Every set of faults that come after the steps, with a room that is long enough and with one that
/// is too short: the first in the order 20, 21, 22, 31, 32, 23 is told.
#[test]
fn order_after_the_steps() {
    let steps: [Fault; 3] = [
        (20, |case| {
            case.steps.insert(0, case.steps[0].clone());
            case.steps.iter_mut().flat_map(|step| &mut step.premises).for_each(|step| *step += 1);
        }),
        (21, |case| {
            case.labels = vec![(0, case.number("open"))];
            let step = case.steps.iter_mut().find(|step| step.rule == CONDITION);
            let step = step.expect("one step is by a condition");
            (step.rule, step.argument) = (SUPPOSE, 0);
        }),
        (22, |case| case.action = case.number("1 reports")),
    ];
    let faults = [&steps[..], &DUTIES].concat();
    for chosen in 0..1 << faults.len() {
        let (case, first) = with_faults(scene(), &faults, chosen);
        assert_eq!(number(verdict_in(&case, ROOM)), first, "{chosen:b}");
        assert_eq!(number(verdict_in(&case, 0)), first.or(Some(23)), "{chosen:b}");
    }
}

/// Every set of faults where there are no steps or nothing is owed: the first in the order 10, 11,
/// 31, 32 is told, and with no fault none owed. 10 and 11 never come together.
#[test]
fn order_before_none_owed() {
    let owed: Fault = (10, |case| case.action = case.number("1 uses"));
    let steps: Fault = (11, |case| case.steps = scene().steps);
    let none_owed = scene().change(|case| {
        case.action = case.number("0 reports");
        case.steps.clear();
    });
    for fault in [owed, steps] {
        let faults = [&[fault][..], &DUTIES].concat();
        for chosen in 0..1 << faults.len() {
            let (case, first) = with_faults(none_owed.clone(), &faults, chosen);
            for entries in [0, ROOM] {
                let verdict = verdict_in(&case, entries);
                assert_eq!(number(verdict), first, "{chosen:b}");
                assert_eq!(verdict == Verdict::NoneOwed, chosen == 0, "{chosen:b}");
            }
        }
    }
}

/// Every check of a step comes first.
#[test]
fn after_each_step() {
    let changes: [(u16, u16, fn(&mut CaseFile)); 3] = [
        (12, 0, |case| case.steps[0].rule = 16),
        (15, 0, |case| case.steps[0].argument = 99),
        (18, 3, |case| case.steps[3].formula = case.number("open")),
    ];
    for (_, case) in both() {
        for (number, place, change) in changes {
            assert_eq!(verdict(&case.clone().change(change)), refused(number, place));
        }
    }
}

/// Refused by 31, and by 32.
fn both() -> [(u16, CaseFile); 2] {
    DUTIES.map(|(number, change)| (number, scene().change(change)))
}

/// An absent hour, and a bad hour or row, are told before the index is looked at, and before 10.
#[test]
fn admission_first() {
    let case = grant().change(|case| case.steps.clear());
    let no_hour = case.clone().change(|case| case.hour = ABSENT);
    let no_row = case.obligation(1, "0 creates").change(|case| case.obligations[0].row = 1);
    for (case, number) in [(no_hour, 9), (no_row, 7)] {
        assert_eq!(verdict(&case), refused(number, 0));
        assert_eq!(checked(&case.to_bytes(), &[], 1).0, refused(number, 0));
    }
}

/// Through an index that is not as built 30 comes first, through the one due it is the same.
#[test]
fn through_an_index() {
    for (number, case) in both() {
        let file = case.to_bytes();
        let index = due(&file).expect("it has an index");
        let plain = check(&file, &mut [0; ROOM]);
        assert!(matches!(plain, Verdict::Refused { number: found, .. } if found == number));
        assert_eq!(checked(&file, &index, ROOM).0, plain);
        assert_eq!(checked(&file, &index[1..], ROOM).0, refused(30, 0));
    }
}

// ---- Damage ----

/// Small files with duties: some examples, and a scene of its own.
fn small_files() -> Vec<CaseFile> {
    let names = [
        "Twice, a report for each use",
        "31: Twice, a report unseen",
        "32: Twice, one report for two uses",
        "Twice, one report for two duties owed once",
        "Creator, a report made",
        "7: Grant, a duty done beyond the log",
    ];
    let all = examples();
    let file = |name: &str| {
        let found = all.iter().find(|example| example.name == name);
        &found.unwrap_or_else(|| panic!("no example is {name}")).file
    };
    let of_examples = names.iter().map(|name| read(file(name)).expect("it has a header").case);
    let duties = [(1, HOUR, STRUCK), (2, HOUR - 1, SEEN_ROW), (1, HOUR, HIDDEN)];
    of_examples.chain([owing(&duties)]).collect()
}

/// The verdict on a case by its records: the checks of duties in their order, and else this one.
fn by_records(case: &CaseFile, otherwise: Verdict) -> Verdict {
    let rows = case.rows.len() as u16;
    let is_bad = |duty: &Obligation| duty.due == ABSENT || (rows..ABSENT).contains(&duty.row);
    let place = case.obligations.iter().position(is_bad);
    match (place, lowest_not_done(case), lowest_of_one_row(case)) {
        (Some(place), _, _) => refused(7, place as u16),
        _ if case.hour == ABSENT => refused(9, 0),
        (_, Some(place), _) => refused(31, place),
        (_, _, Some(place)) => refused(32, place),
        _ => otherwise,
    }
}

/// The due hour and the row of each duty, and the audit hour, together at their limits and at each
/// other's. Numbers on both sides of 256 tell the two bytes apart.
#[test]
fn new_fields_at_their_limits() {
    let mut answers = BTreeMap::new();
    for case in small_files() {
        let (hour, rows) = (case.hour, case.rows.len() as u16);
        let near = [hour - 1, hour, hour + 1, rows - 1, rows];
        let values = || near.into_iter().chain([0, 1, 255, 256, LAST, ABSENT]);
        let harmless = case.clone().change(|case| {
            case.obligations.iter_mut().for_each(|duty| (duty.due, duty.row) = (LAST, ABSENT));
        });
        let otherwise = verdict(&harmless);
        for at in 0..case.obligations.len() {
            for (hour, due) in values().flat_map(|hour| values().map(move |due| (hour, due))) {
                for row in values() {
                    let mut changed = case.clone();
                    changed.hour = hour;
                    (changed.obligations[at].due, changed.obligations[at].row) = (due, row);
                    let verdict = verdict(&changed);
                    assert_eq!(verdict, by_records(&changed, otherwise));
                    *answers.entry(number(verdict)).or_insert(0) += 1;
                }
            }
        }
    }
    println!("{answers:?}");
    let often = [None, Some(7), Some(9), Some(31), Some(32)];
    assert_eq!(answers.keys().copied().collect::<Vec<_>>(), often);
    assert!(answers.values().all(|times| *times >= 100), "{answers:?}");
}

/// Files with duties cut at each length, and with bytes behind them.
#[test]
fn every_truncation() {
    for case in small_files() {
        let file = case.to_bytes();
        for length in 0..file.len() {
            let number = number(told(&file[..length]));
            assert_eq!(number, Some(if length < HEADER_BYTES { 1 } else { 2 }), "{length}");
        }
        for count in 1..=PARTS[OBLIGATIONS].0 {
            assert_eq!(told(&[&file[..], &vec![0; count]].concat()), refused(2, 7));
        }
    }
}

/// The part of obligations with each length up to its own: only whole records will do, and then the
/// next part is not where it has to be.
#[test]
fn part_of_obligations_cut() {
    for case in small_files() {
        let (offset, length) = case.pairs()[OBLIGATIONS];
        for cut in 0..length {
            let changed =
                case.clone().change(|case| case.header[OBLIGATIONS] = Some((offset, cut)));
            let whole = (cut as usize).is_multiple_of(PARTS[OBLIGATIONS].0);
            let place = OBLIGATIONS as u16 + u16::from(whole);
            assert_eq!(verdict(&changed), refused(2, place), "{cut} of {length}");
        }
    }
}

/// The place of the part.
const OBLIGATIONS: usize = 4;

// ---- Large files ----

/// The largest file has 64 duties that are expired, and a row of its own for each. Each is told
/// where it names none, the row of another action, or the row of another duty for the same.
#[test]
fn full_size_duties() {
    let full = full_size();
    assert_eq!(verdict(&full), Verdict::Passed { obligations: 64, rows: 1_024 });
    assert!(full.obligations.iter().all(|duty| duty.mark == 1 && duty.due < full.hour));
    let naming = |at: usize, row: u16| {
        let case = full.clone().change(|case| case.obligations[at].row = row);
        check(&case.to_bytes(), &mut [0; ROOM])
    };
    for at in 0..64 {
        let place = at as u16;
        let (next, same) = ((at + 1) % 64, (at + 16) % 64);
        assert_eq!(naming(at, ABSENT), refused(31, place));
        assert_eq!(naming(at, full.obligations[next].row), refused(31, place));
        let later = place.max(same as u16);
        assert_eq!(naming(at, full.obligations[same].row), refused(32, later));
    }
}

/// The load of this name.
fn load(name: &str) -> CaseFile {
    loads().into_iter().find(|load| load.name == name).expect("it is there").case
}

/// The load of 31: all 64 duties are expired and name one row, and of its 4,096 observers the agent is
/// the last.
#[test]
fn load_of_31() {
    let case = load("check 31, 4,096 observers");
    let named = |duty: &Obligation| &case.rows[duty.row as usize].observers;
    let is_worst = |duty: &Obligation| {
        duty.due < case.hour
            && named(duty).len() == 4_096
            && named(duty).last() == Some(&case.agent)
    };
    assert_eq!(case.obligations.iter().filter(|duty| is_worst(duty)).count(), 64);
    assert_eq!(verdict(&case), Verdict::NoneOwed);
    let last = case.change(|case| case.obligations[63].row = ABSENT);
    assert_eq!(verdict(&last), refused(31, 63));
}

/// The load of 32: all 64 duties are expired, done, for each use, and name 64 rows. Where the last
/// names the row of the first, it is told.
#[test]
fn load_of_32() {
    let case = load("check 32, 64 rows");
    let named: BTreeSet<u16> = case.obligations.iter().map(|duty| duty.row).collect();
    let is_worst = |duty: &&Obligation| duty.due < case.hour && duty.mark == 1;
    assert_eq!((case.obligations.iter().filter(is_worst).count(), named.len()), (64, 64));
    assert_eq!(verdict(&case), Verdict::NoneOwed);
    let last = case.change(|case| case.obligations[63].row = case.obligations[0].row);
    assert_eq!(verdict(&last), refused(32, 63));
}

// ---- By the records ----

/// Every example of 31 and 32 is told by the records of its file.
#[test]
fn examples_by_their_records() {
    let mut found = BTreeSet::new();
    for example in examples() {
        assert!(is_right_about_duties(&example.file, example.verdict), "{}", example.name);
        if let Verdict::Refused { number: number @ (31 | 32), .. } = example.verdict {
            found.insert(number);
        }
    }
    assert_eq!(found, BTreeSet::from([31, 32]));
}

/// How an expired duty is not done: no row is named, it is not seen, struck out, or of another
/// action.
fn why(case: &CaseFile, place: u16) -> &'static str {
    let duty = case.obligations[place as usize];
    let Some(row) = case.rows.get(duty.row as usize) else { return "no row" };
    match (row.observers.contains(&case.agent), row.action) {
        (false, ABSENT) => "hidden and struck",
        (false, _) if row.action == duty.action => "hidden, with the action",
        (false, _) => "hidden",
        (true, ABSENT) => "struck",
        (true, _) => "another action",
    }
}

/// 100,000 random cases: those that pass, those whose duties fail, with other slips, and damaged.
/// Passes with expired duties are among them, and each way to fail is met often.
#[test]
fn random_cases() {
    let mut random = Random(0x510E_527F_ADE6_82D1);
    let (mut refused, mut ways, mut done, mut none_owed) = (BTreeMap::new(), BTreeMap::new(), 0, 0);
    for turn in 0..100_000 {
        let file = match turn % 8 {
            0 | 1 => passing(&mut random).to_bytes(),
            2 | 3 => failing_duties(&mut random).to_bytes(),
            4 => slipping(&mut random).to_bytes(),
            5 => damaged(&failing_duties(&mut random), &mut random).1,
            _ => damaged(&passing(&mut random), &mut random).1,
        };
        let verdict = check(&file, &mut [0; ROOM]);
        assert!(is_right_about_duties(&file, verdict), "{verdict}, {file:?}");
        let case = || read(&file).expect("it has a header").case;
        match verdict {
            Verdict::Refused { number: 31, place } => {
                *ways.entry(why(&case(), place)).or_insert(0) += 1;
                none_owed += usize::from(case().steps.is_empty());
            }
            Verdict::Passed { .. } => {
                let case = case();
                let expired = |duty: &Obligation| duty.due < case.hour;
                done += usize::from(case.obligations.iter().any(expired));
            }
            _ => (),
        }
        if let Verdict::Refused { number, .. } = verdict {
            *refused.entry(number).or_insert(0) += 1;
        }
    }
    println!("{done} passed with duties done, 31 {ways:?}, {none_owed} of them without steps, refused {refused:?}");
    assert!(done >= 5_000 && none_owed >= 20, "{done}, {none_owed}");
    assert!(refused[&31] >= 5_000 && refused[&32] >= 1_000, "{refused:?}");
    assert!(ways.len() == 6 && ways.values().all(|times| *times >= 300), "{ways:?}");
}

/// Both places in one case, and in a case without duties.
#[test]
fn records_by_hand() {
    let each = (1, HOUR, SEEN_ROW);
    let case = owing(&[each, each, (1, HOUR - 1, ABSENT), each]);
    assert_eq!((lowest_not_done(&case), lowest_of_one_row(&case)), (Some(2), Some(1)));
    let none = owing(&[]);
    assert_eq!((lowest_not_done(&none), lowest_of_one_row(&none)), (None, None));
}
