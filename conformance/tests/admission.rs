//! Checks 1 to 11 at their edges, and the sizes of formulas.

use conformance::builder::*;
use conformance::cases::{examples_and_vectors, grant};
use conformance::checker::{admit, admit_book, check, number_at, size_column};
use conformance::checker::{Refusal, Verdict, ABSENT, HEADER_BYTES, MOST_BYTES, PARTS};
use conformance::checker::{ACTION_AT, AGENT_AT, HOUR_AT};
use conformance::columns;
use conformance::mutator::mutated;
use conformance::random::Random;

const NO: u16 = ABSENT;

/// Kind, code, X, Y, Z.
type Row = (u8, u8, u16, u16, u16);

/// A predicate, "agent 0 owns data 0" and a user action of agent 0, as rows 0 to 2.
const P: Row = (0, 1, NO, NO, NO);
const OWNS: Row = (1, 0, 0, 16_384, NO);
const ACTS: Row = (10, 1, 0, NO, NO);

fn answer<T>(result: Result<T, Refusal>) -> Option<(u16, u16)> {
    result.err().map(|refusal| (refusal.number, refusal.place))
}

/// The bytes of a book of these rows.
fn book_bytes(rows: &[Row]) -> Vec<u8> {
    let mut case = CaseFile::new(0);
    for &(kind, code, x, y, z) in rows {
        case.formulas.push(FormulaRow { kind, code, fields: [x, y, z] });
    }
    case.formula_part()
}

/// What a book of these rows is refused with, if it is.
fn book(rows: &[Row]) -> Option<(u16, u16)> {
    answer(admit_book(&book_bytes(rows)))
}

/// Whether this row stands well after the three above.
fn row_3(row: Row) -> bool {
    let refused = book(&[P, OWNS, ACTS, row]);
    assert!(matches!(refused, None | Some((3, 3))));
    refused.is_none()
}

/// What Grant, so changed, is refused with by checks 1 to 9, if it is.
fn changed(change: impl FnOnce(&mut CaseFile)) -> Option<(u16, u16)> {
    answer(admit(&grant().change(change).to_bytes()))
}

/// The documents' figures: a header of 38 bytes, and "the largest file has 47,910".
#[test]
fn file_lengths() {
    assert_eq!((HEADER_BYTES, MOST_BYTES), (38, 47_910));
    let parts = PARTS.map(|(record, most)| record * most);
    assert_eq!(HEADER_BYTES + parts.iter().sum::<usize>(), MOST_BYTES);
    assert_eq!(answer(admit(&[0; HEADER_BYTES - 1])), Some((1, 0)));
    assert_eq!(answer(admit(&[0; HEADER_BYTES])), Some((2, 0)));
    assert_eq!(answer(admit(&[0; MOST_BYTES])), Some((2, 0)));
    assert_eq!(answer(admit(&[0; MOST_BYTES + 1])), Some((1, 0)));
}

#[test]
fn parts() {
    let laid_out = |place: usize, offset: u16, length: u16| {
        let due = grant().pairs()[place].0;
        changed(|case| case.header[place] = Some((due + offset, length)))
    };
    assert_eq!(changed(|_| ()), None);
    assert_eq!(laid_out(0, 0, 40), None);
    assert_eq!(laid_out(0, 0, 39), Some((2, 0)));
    assert_eq!(laid_out(4, 1, 0), Some((2, 4)));
    assert_eq!(laid_out(6, 0, 30), Some((2, 6)));
    assert_eq!(laid_out(7, 0, 0), Some((2, 7)));
    assert_eq!(laid_out(7, 0, 4), Some((2, 7)));
    assert_eq!(changed(|case| case.conditions = vec![ABSENT; 64]), None);
    assert_eq!(changed(|case| case.conditions = vec![ABSENT; 65]), Some((2, 3)));
}

#[test]
fn observers_need_rows_and_premises_steps() {
    let as_entries = |place: usize| {
        changed(|case| {
            let [(offset, records), (_, entries)] = [case.pairs()[place], case.pairs()[place + 1]];
            case.header[place] = Some((offset, 0));
            case.header[place + 1] = Some((offset, records + entries));
        })
    };
    assert_eq!(as_entries(1), Some((2, 2)));
    assert_eq!(as_entries(6), Some((2, 7)));
}

/// What the fuzzer's changes make of a file that checks 1 and 2 let pass, they let pass again, but
/// for entries whose records have gone; other agents, actions and hours are among them.
#[test]
fn changes_that_keep_the_layout() {
    let mut random = Random(0x1F83_D9AB_FB41_BD6B);
    let is_laid_out = |file: &[u8]| !matches!(answer(admit(file)), Some((1 | 2, _)));
    let mut other = [0; 3];
    for vector in examples_and_vectors().iter().filter(|vector| is_laid_out(&vector.file)) {
        for _ in 0..20 {
            let file = mutated(&vector.file, &mut random).expect("its parts adjoin");
            let refused = answer(admit(&file));
            assert!(matches!(refused, Some((2, 2 | 7))) || is_laid_out(&file), "{refused:?}");
            for (count, at) in other.iter_mut().zip([AGENT_AT, ACTION_AT, HOUR_AT]) {
                *count += usize::from(number_at(&file, at) != number_at(&vector.file, at));
            }
        }
    }
    assert!(other.iter().all(|times| *times >= 300), "{other:?}");
}

/// The first and last term of each range, and the numbers next to them.
#[test]
fn terms() {
    let agents = [0, 16_383, 32_768, 32_799, 40_960, 40_967];
    let data = [16_384, 32_767, 32_800, 32_831, 40_968, 40_975];
    let no_terms = [32_832, 40_959, 40_976, 65_534];
    for term in agents {
        assert!(row_3((1, 0, term, 16_385, NO)) && !row_3((1, 0, 1, term, NO)));
    }
    for term in data {
        assert!(row_3((1, 0, 1, term, NO)) && !row_3((1, 0, term, 16_385, NO)));
    }
    for number in no_terms {
        assert!(!row_3((0, 0, number, NO, NO)));
    }
}

#[test]
fn kinds_codes_and_fields() {
    assert!(row_3((0, 255, 0, 16_384, 32_768)));
    assert!(!row_3((0, 0, 0, NO, 0)));
    assert!(!row_3((0, 0, 32_832, NO, NO)));
    assert!(row_3((1, 0, 40_960, 40_968, NO)));
    assert!(!row_3((1, 0, 40_968, 40_968, NO)));
    assert!(!row_3((1, 0, 0, 0, NO)));
    assert!(!row_3((1, 0, 0, 16_384, 0)));
    assert!(!row_3((3, 1, 0, 1, NO)));
    assert!(!row_3((3, 0, 0, NO, NO)));
    assert!(row_3((4, 1, 0, NO, NO)));
    assert!(!row_3((4, 2, 0, NO, NO)));
    assert!(row_3((10, 255, 32_768, 16_384, 0)));
    assert!(!row_3((10, 0, NO, NO, NO)));
    assert!(!row_3((10, 0, 16_384, NO, NO)));
    assert!(!row_3((10, 0, 0, NO, 0)));
    assert!(!row_3((11, 0, NO, NO, NO)));
}

#[test]
fn children() {
    assert!(row_3((5, 0, 0, 1, NO)));
    assert!(!row_3((5, 0, 0, 2, NO)));
    assert!(!row_3((5, 0, 0, 3, NO)));
    assert!(row_3((6, 0, 2, 0, NO)));
    assert!(!row_3((6, 0, 0, 0, NO)));
    assert!(!row_3((7, 0, 2, 2, NO)));
    assert!(row_3((8, 0, 0, 1, 0)));
    assert!(!row_3((8, 0, 0, 2, 0)));
}

/// 1, 3, 7, 15, 31 and 63 nodes, then 64, then 65.
#[test]
fn nodes() {
    let mut rows = vec![P];
    rows.extend((0..5).map(|row| (3, 0, row, row, NO)));
    rows.push((4, 0, 5, NO, NO));
    assert_eq!(book(&rows), None);
    rows.push((4, 0, 6, NO, NO));
    assert_eq!(book(&rows), Some((3, 7)));
}

/// The bound variable is number 0 in the body, and 1 under one more for-all of either sort.
#[test]
fn sorts_of_bound_variables() {
    let of_data_variable_0 = (0, 0, 40_968, NO, NO);
    let of_data_variable_1 = (0, 0, 40_969, NO, NO);
    assert_eq!(book(&[of_data_variable_0, (4, 0, 0, NO, NO)]), Some((3, 1)));
    assert_eq!(book(&[of_data_variable_1, (4, 0, 0, NO, NO)]), None);
    for inner in [0, 1] {
        let under =
            |outer| book(&[of_data_variable_1, (4, inner, 0, NO, NO), (4, outer, 1, NO, NO)]);
        assert_eq!(under(0), Some((3, 2)));
        assert_eq!(under(1), None);
    }
}

#[test]
fn bad_rows_come_before_repeats() {
    assert_eq!(book(&[P, P]), Some((4, 1)));
    assert_eq!(book(&[P, P, (11, 0, NO, NO, NO)]), Some((3, 2)));
}

/// Holds a book to the answer due and its column to these sizes, with every byte behind them as it
/// was lent.
fn assert_column(part: &[u8], refused: Option<(u16, u16)>, sizes: &[u8]) {
    let mut due = columns::lent();
    due[..sizes.len()].copy_from_slice(sizes);
    let (found, column) = columns::answer(size_column, part, columns::lent());
    assert_eq!((answer(found), column), (refused, due));
    assert_eq!(answer(admit_book(part)), refused);
}

/// Terms are not counted, the action in a duty is, and a row is counted each time it stands in the
/// tree.
#[test]
fn sizes_of_all_kinds() {
    let sized: [(Row, u8); 19] = [
        ((0, 1, NO, NO, NO), 1),
        ((0, 7, 1, 16_384, 2), 1),
        ((1, 0, 0, 16_384, NO), 1),
        ((9, 0, 0, 16_384, NO), 1),
        ((10, 1, 0, NO, NO), 1),
        ((10, 7, 0, 16_384, 2), 1),
        ((2, 0, 0, 1, 2), 2),
        ((3, 0, 2, 6, NO), 4),
        ((3, 0, 1, 1, NO), 3),
        ((4, 0, 7, NO, NO), 5),
        ((4, 1, 8, NO, NO), 4),
        ((5, 0, 7, 6, NO), 7),
        ((6, 0, 3, 0, NO), 3),
        ((7, 0, 5, 11, NO), 9),
        ((8, 0, 0, 11, 2), 8),
        ((6, 0, 14, 6, NO), 11),
        ((7, 0, 14, 15, NO), 20),
        ((8, 0, 0, 16, 0), 21),
        ((7, 0, 17, 16, NO), 42),
    ];
    let (rows, sizes): (Vec<Row>, Vec<u8>) = sized.into_iter().unzip();
    assert_column(&book_bytes(&rows), None, &sizes);
}

/// Rows of 64 nodes; then one of 65 or more, and a good row behind it that gets no size.
#[test]
fn sizes_up_to_64() {
    let mut rows = vec![P];
    rows.extend((0..5).map(|row| (3, 0, row, row, NO)));
    rows.extend([(4, 0, 5, NO, NO), (2, 0, 0, 4, 0), (8, 0, 0, 4, 0), (6, 0, 8, 4, NO)]);
    let sizes = [1, 3, 7, 15, 31, 63, 64, 32, 32, 64];
    assert_column(&book_bytes(&rows), None, &sizes);
    let of_65 = [
        (2, 0, 0, 6, 0),
        (3, 0, 7, 7, NO),
        (4, 1, 9, NO, NO),
        (5, 0, 5, 0, NO),
        (6, 0, 8, 7, NO),
        (7, 0, 8, 7, NO),
        (8, 0, 0, 9, 0),
    ];
    let of_129 = (5, 0, 6, 9, NO);
    for large in of_65.into_iter().chain([of_129]) {
        let rows = [&rows[..], &[large, OWNS]].concat();
        assert_column(&book_bytes(&rows), Some((3, 10)), &sizes);
    }
}

/// Where 3 refuses, the rows below its place are sized; where 4 does, all are, and 3 comes first.
#[test]
fn sizes_of_refused_books() {
    let bad = (11, 0, NO, NO, NO);
    let both = (3, 0, 0, 1, NO);
    let column = |rows: &[Row], refused, sizes: &[u8]| {
        assert_column(&book_bytes(rows), Some(refused), sizes);
    };
    column(&[bad], (3, 0), &[]);
    column(&[bad, P, OWNS], (3, 0), &[]);
    column(&[P, OWNS, both, bad, ACTS, bad], (3, 3), &[1, 1, 3]);
    column(&[P, P], (4, 1), &[1, 1]);
    column(&[P, P, both, OWNS, both, (2, 0, 0, 4, 0)], (4, 1), &[1, 1, 3, 1, 3, 4]);
    column(&[P, P, both, bad, OWNS], (3, 3), &[1, 1, 3]);
    column(&[P, OWNS, bad, P, both], (3, 2), &[1, 1]);
}

/// No row, 1,024 rows and 1,025; and bytes that are no whole number of rows.
#[test]
fn sizes_by_the_length_of_the_book() {
    assert_column(&[], None, &[]);
    let mut rows: Vec<Row> = (0..1_023).map(|agent| (0, 0, agent, NO, NO)).collect();
    rows.push((3, 0, 0, 1_022, NO));
    let sizes = [vec![1; 1_023], vec![3]].concat();
    let part = book_bytes(&rows);
    assert_column(&part, None, &sizes);
    assert_column(&part[..8], None, &sizes[..1]);
    for length in [1, 7, 9, 15, 8_191] {
        assert_column(&part[..length], Some((2, 0)), &[]);
    }
    rows.push(OWNS);
    assert_column(&book_bytes(&rows), Some((2, 0)), &[]);
}

#[test]
fn log_rows() {
    let observed =
        |observers: &'static [u16]| changed(|case| case.rows[0].observers = observers.to_vec());
    assert_eq!(observed(&[]), None);
    assert_eq!(observed(&[0, 16_383]), None);
    assert_eq!(observed(&[0, 16_384]), Some((5, 0)));
    assert_eq!(observed(&[1, 0]), Some((5, 0)));
    assert_eq!(changed(|case| case.rows[0].action = ABSENT), None);
    assert_eq!(changed(|case| case.rows[0].action = 1), Some((5, 0)));
    assert_eq!(changed(|case| case.rows[0].action = 5), Some((5, 0)));
    let two_rows = |spans: [(u16, u16); 2]| {
        changed(|case| {
            case.rows.push(case.rows[0].clone());
            case.rows[0].span = Some(spans[0]);
            case.rows[1].span = Some(spans[1]);
        })
    };
    assert_eq!(two_rows([(0, 0), (0, 1)]), Some((5, 1)));
    assert_eq!(two_rows([(0, 0), (1, 1)]), Some((5, 1)));
    assert_eq!(two_rows([(0, 3), (3, 0)]), Some((5, 0)));
    assert_eq!(two_rows([(1, 1), (2, 0)]), Some((5, 0)));
    assert_eq!(two_rows([(0, 1), (1, 1)]), None);
}

/// Grant and formulas 5 to 9: with a parameter, a variable, and closed without being ground.
fn with_terms(case: &mut CaseFile) {
    *case = case
        .clone()
        .formula("of parameter", predicate(1, &[agent_parameter(0)]))
        .formula("of variable", predicate(1, &[agent_variable(0)]))
        .formula("of all", for_all_agents("of variable"))
        .formula("acts on parameter", user_action(1, &[0, data_parameter(0)]))
        .formula("acts on variable", user_action(1, &[0, data_variable(0)]));
}

#[test]
fn conditions_obligations_and_labels() {
    let condition = |number| {
        changed(|case| {
            with_terms(case);
            case.conditions = vec![ABSENT, number];
        })
    };
    assert_eq!(condition(2), None);
    for number in [0, 1, 5, 6, 7, 10] {
        assert_eq!(condition(number), Some((6, 1)));
    }
    let obligation = |(mark, action)| {
        changed(|case| {
            with_terms(case);
            case.obligations = vec![Obligation::new(2, 0), Obligation::new(mark, action)];
        })
    };
    assert_eq!(obligation((1, 0)), None);
    for record in [(0, 0), (1, 1), (1, 8), (1, 9), (1, ABSENT)] {
        assert_eq!(obligation(record), Some((7, 1)));
    }
    let label = |record| {
        changed(|case| {
            with_terms(case);
            case.labels = vec![record];
        })
    };
    for record in [(0, 5), (0, 7), (1, 8), (2, 8)] {
        assert_eq!(label(record), None);
    }
    for record in [(0, 6), (0, 8), (1, 5), (1, 9), (3, 0), (0, ABSENT)] {
        assert_eq!(label(record), Some((8, 0)));
    }
}

/// Every hour but the absent one, and every row of the log, of none, one and two rows. What is not
/// due may name any of them.
#[test]
fn due_hours_and_rows() {
    let duty = |due: u16, row: u16, rows: usize| {
        changed(|case| {
            case.rows = vec![case.rows[0].clone(); rows];
            case.obligations =
                vec![Obligation::new(2, 0), Obligation { mark: 1, action: 0, due, row }];
        })
    };
    for due in [0, 1, HOUR, ABSENT - 1] {
        assert_eq!(duty(due, ABSENT, 1), None);
    }
    assert_eq!(duty(ABSENT, ABSENT, 1), Some((7, 1)));
    assert_eq!(duty(ABSENT, 0, 1), Some((7, 1)));
    for rows in [0, 1, 2] {
        for row in [0, 1, 2, 3, ABSENT - 1] {
            let due = if (row as usize) < rows { None } else { Some((7, 1)) };
            assert_eq!(duty(HOUR, row, rows), due, "row {row} of {rows}");
        }
        assert_eq!(duty(HOUR, ABSENT, rows), None);
    }
}

#[test]
fn agent_action_and_hour() {
    assert_eq!(changed(|case| case.agent = 16_383), None);
    assert_eq!(changed(|case| case.agent = 16_384), Some((9, 0)));
    assert_eq!(changed(|case| case.action = ABSENT), Some((9, 0)));
    for hour in [0, 1, ABSENT - 1] {
        assert_eq!(changed(|case| case.hour = hour), None);
    }
    assert_eq!(changed(|case| case.hour = ABSENT), Some((9, 0)));
    let with_parameter = |case: &mut CaseFile| {
        with_terms(case);
        case.action = 8;
    };
    assert_eq!(changed(with_parameter), Some((9, 0)));
}

/// A user action of another agent owes this one nothing.
#[test]
fn owed_or_not() {
    let case = |agent| {
        CaseFile::new(agent).formula("1 acts", user_action(1, &[1])).audits("1 acts").to_bytes()
    };
    assert_eq!(check(&case(0), &mut []), Verdict::NoneOwed);
    assert_eq!(check(&case(1), &mut []), Verdict::Refused { number: 10, place: 0 });
}
