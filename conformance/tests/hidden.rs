//! Demand 3: a log row that the agent does not see never shows through.

use std::collections::{BTreeMap, BTreeSet};

use conformance::builder::LogRow;
use conformance::cases::grant;
use conformance::checker::{check, strike_unseen, Verdict, ABSENT};
use conformance::columns::{agreed, book_of};
use conformance::desk::words::{check_refusals, number_of};
use conformance::hidden::{is_left_out, random_pair};
use conformance::proved;
use conformance::random::Random;
use conformance::rooms::{answer, PATTERN};

/// The proved checker's one answer to both files and to both struck out, which is the separate
/// checker's to the first struck out, and one column of sizes for all four; none if either file is
/// left out.
fn one_answer(pair: [&[u8]; 2], entries: usize) -> Option<Verdict> {
    let [first, second] = pair.map(|file| answer(proved::check, file, entries));
    if is_left_out(first.0) || is_left_out(second.0) {
        return None;
    }
    assert_eq!(first, second, "{pair:?}");
    let sizes = agreed(book_of(pair[0]));
    assert_eq!(agreed(book_of(pair[1])), sizes, "{pair:?}");
    for struck in pair.map(strike_unseen) {
        assert_eq!(agreed(book_of(&struck)), sizes, "{struck:?}");
        assert_eq!(answer(proved::check, &struck, entries), first, "{struck:?}");
    }
    assert_eq!(answer(check, &strike_unseen(pair[0]), entries), first, "{pair:?}");
    Some(first.0)
}

/// Numbers that have to come often among the pairs.
const OFTEN: [&str; 7] = [
    "DATA_VARIABLE",
    "WRONG_PREMISE_KIND",
    "WRONG_PARTY",
    "WRONG_INSTANCE",
    "NO_TAUTOLOGY",
    "DUTY_NOT_DONE",
    "ROW_NAMED_TWICE",
];

/// 20,000 pairs compared, each with a file that differs in what the agent cannot see.
#[test]
fn pairs_alike_to_the_agent() {
    let mut random = Random(0x6A09_E667_F3BC_C908);
    let (mut turn, mut compared, mut differ, mut passed) = (0, 0, 0, 0);
    let mut refused = BTreeMap::new();
    while compared < 20_000 {
        turn += 1;
        let pair = random_pair(turn, &mut random);
        let entries = random.pick(&[0, 1, 3, 40]);
        let Some(verdict) = one_answer([&pair[0], &pair[1]], entries) else { continue };
        compared += 1;
        differ += usize::from(pair[0] != pair[1] && strike_unseen(&pair[0]) != pair[0]);
        match verdict {
            Verdict::Passed { .. } => passed += 1,
            Verdict::NoneOwed => (),
            Verdict::Refused { number, .. } => *refused.entry(number).or_insert(0) += 1,
        }
    }
    println!("{turn} pairs, {differ} differ, {passed} passed, refused {refused:?}");
    assert!(turn < 25_000 && differ > 15_000, "{turn}, {differ}");
    assert!(passed > 3_000 && refused[&16] > 3_000, "{passed}, {refused:?}");
    assert!(OFTEN.map(number_of).iter().all(|number| refused[number] >= 100), "{refused:?}");
    let listed: BTreeSet<u16> = check_refusals().map(|refusal| refusal.number).collect();
    let due = listed.difference(&BTreeSet::from([1, 2, 5])).copied().collect();
    assert_eq!(refused.into_keys().collect::<BTreeSet<u16>>(), due);
}

/// An expired duty that names a hidden row is refused by 31, whatever the row holds, struck or not,
/// and whoever else sees it.
#[test]
fn a_hidden_row_named_by_a_duty() {
    for action in [0, 4, ABSENT] {
        for observers in [vec![], vec![1], vec![1, 2, 3]] {
            let hidden = LogRow { action, observers, span: None };
            let case = grant().expired(1, "0 creates", 1).change(|case| case.rows.push(hidden));
            let refused = Verdict::Refused { number: 31, place: 0 };
            let expected = (refused, vec![PATTERN; 4]);
            assert_eq!(answer(proved::check, &case.to_bytes(), 4), expected);
        }
    }
}

/// A step that cites a hidden row is refused by 16, whatever the row holds, struck or not, and
/// whoever else sees it.
#[test]
fn a_hidden_row_cited() {
    for action in [0, 4, ABSENT] {
        for observers in [vec![], vec![1], vec![1, 2, 3]] {
            let hidden = LogRow { action, observers, span: None };
            let case = grant().change(|case| {
                case.rows.push(hidden);
                case.steps[0].argument = 1;
            });
            let refused = Verdict::Refused { number: 16, place: 0 };
            let expected = (refused, vec![PATTERN; 4]);
            assert_eq!(answer(proved::check, &case.to_bytes(), 4), expected);
        }
    }
}
