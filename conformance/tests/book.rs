//! The proved admission of formula books, with the column of sizes, against the separate checker.

use std::collections::BTreeSet;

use conformance::builder::{agent_variable, data, data_variable};
use conformance::checker::{Refusal, ABSENT};
use conformance::columns::{agreed, lent, Column};
use conformance::random::{fitting_book, row, Random, Row};

/// Admitted, or refused at a place: by 2 for its length, by 3 for a bad row, by 4 for a repeat.
type Answer = Result<(), Refusal>;

const ADMITTED: Answer = Ok(());
const MISSHAPEN: Answer = Err(Refusal { number: 2, place: 0 });

fn bad_row(row: usize) -> Answer {
    Err(Refusal { number: 3, place: row as u16 })
}

fn repeats(row: usize) -> Answer {
    Err(Refusal { number: 4, place: row as u16 })
}

/// The nodes of a row's tree, from the bytes alone: the kind, and the rows that the fields name.
fn nodes_at(book: &[u8], row: usize) -> u8 {
    let number = |at| u16::from_le_bytes([book[8 * row + at], book[8 * row + at + 1]]) as usize;
    let (x, y) = (|| nodes_at(book, number(2)), || nodes_at(book, number(4)));
    match book[8 * row] {
        2 | 8 => 1 + y(),
        4 => 1 + x(),
        3 | 5 | 6 | 7 => 1 + x() + y(),
        _ => 1,
    }
}

/// How many rows an answer tells the sizes of.
fn sized(book: &[u8], answer: Answer) -> usize {
    match answer {
        Err(Refusal { number: 2, .. }) => 0,
        Err(Refusal { number: 3, place }) => place as usize,
        _ => book.len() / 8,
    }
}

/// The column due with an answer: counted from the bytes, and as lent behind that.
fn column_due(book: &[u8], answer: Answer) -> Column {
    let mut column = lent();
    for row in 0..sized(book, answer) {
        column[row] = nodes_at(book, row);
    }
    column
}

fn agree(book: &[u8]) -> Answer {
    let (answer, column) = agreed(book);
    assert_eq!(column, column_due(book, answer), "{book:?}");
    answer
}

/// p(), p() and p(), .., one node each.
fn leaves(count: usize) -> Vec<Row> {
    (0..count).map(|code| row(0, code as u8, [ABSENT; 3])).collect()
}

/// A book whose last row has so many nodes, for 2 to 64 and a little more.
fn nodes(count: usize) -> Vec<Row> {
    let mut book = leaves(1);
    for depth in 1..count {
        book.push(row(4, (depth % 2) as u8, [depth as u16 - 1, ABSENT, ABSENT]));
    }
    book
}

/// Row 3 of a small book, which is asked to be bad.
fn bad_third(third: Row) {
    let book =
        [row(0, 1, [0, ABSENT, ABSENT]), row(10, 1, [0, ABSENT, ABSENT]), row(0, 2, [ABSENT; 3])];
    let bytes = [&book[..], &[third]].concat().concat();
    assert_eq!(agree(&bytes), bad_row(3), "{third:?}");
}

/// Damages that document 01 and the list of open points name, each on a small book.
#[test]
fn named_damages() {
    let policy = 0;
    let action = 1;
    bad_third(row(11, 0, [ABSENT; 3]));
    bad_third(row(255, 0, [ABSENT; 3]));
    for child in [3, 4, 1_024, ABSENT, action] {
        bad_third(row(3, 0, [child, policy, ABSENT]));
        bad_third(row(3, 0, [policy, child, ABSENT]));
        bad_third(row(5, 0, [child, policy, ABSENT]));
        bad_third(row(4, 0, [child, ABSENT, ABSENT]));
        bad_third(row(2, 0, [0, child, 0]));
        bad_third(row(8, 0, [0, child, 0]));
        bad_third(row(6, 0, [action, child, ABSENT]));
        bad_third(row(7, 0, [action, child, ABSENT]));
    }
    for child in [3, 4, ABSENT, policy] {
        bad_third(row(6, 0, [child, policy, ABSENT]));
        bad_third(row(7, 0, [child, policy, ABSENT]));
    }
    for kind in [1, 2, 3, 5, 6, 7, 8, 9] {
        let [x, y, z] = match kind {
            1 | 9 => [0, data(0), ABSENT],
            2 | 8 => [0, policy, 0],
            3 | 5 => [policy, policy, ABSENT],
            _ => [action, policy, ABSENT],
        };
        bad_third(row(kind, 1, [x, y, z]));
        if z == ABSENT {
            bad_third(row(kind, 0, [x, y, 0]));
        }
    }
    bad_third(row(4, 2, [policy, ABSENT, ABSENT]));
    bad_third(row(4, 0, [policy, 0, ABSENT]));
    bad_third(row(4, 0, [policy, ABSENT, 0]));
    // the other sort in an agent's or a datum's place, and numbers that are no terms
    for wrong in [data(0), data_variable(0), 32_832, 40_959, 40_976, 65_534, ABSENT] {
        bad_third(row(1, 0, [wrong, data(0), ABSENT]));
        bad_third(row(2, 0, [wrong, policy, 0]));
        bad_third(row(8, 0, [0, policy, wrong]));
        bad_third(row(10, 0, [wrong, ABSENT, ABSENT]));
    }
    for wrong in [0, agent_variable(0), 32_832, 40_959, 40_976, 65_534, ABSENT] {
        bad_third(row(1, 0, [0, wrong, ABSENT]));
        bad_third(row(9, 0, [0, wrong, ABSENT]));
    }
    // absent terms come last
    for terms in
        [[ABSENT, 0, ABSENT], [ABSENT, ABSENT, 0], [0, ABSENT, 0], [40_959, ABSENT, ABSENT]]
    {
        bad_third(row(0, 0, terms));
    }
    bad_third(row(10, 0, [0, ABSENT, 0]));
}

/// A for-all's variable never has the other sort, also under a second for-all, where its number is 1.
#[test]
fn sorts_of_bound_variables() {
    let sorts =
        [(0, data_variable(0), data_variable(1)), (1, agent_variable(0), agent_variable(1))];
    for (code, own_depth, one_deeper) in sorts {
        let body = row(0, 0, [own_depth, ABSENT, ABSENT]);
        let direct = [body, row(4, code, [0, ABSENT, ABSENT])].concat();
        assert_eq!(agree(&direct), bad_row(1));
        let under = row(0, 0, [one_deeper, ABSENT, ABSENT]);
        for inner in [0, 1] {
            let nested =
                [under, row(4, inner, [0, ABSENT, ABSENT]), row(4, code, [1, ABSENT, ABSENT])];
            assert_eq!(agree(&nested.concat()), bad_row(2));
        }
    }
}

#[test]
fn sizes_and_limits() {
    for count in 2..=64 {
        assert_eq!(agree(&nodes(count).concat()), ADMITTED);
    }
    assert_eq!(agree(&nodes(65).concat()), bad_row(64));
    let mut wide: Vec<Row> =
        (0..1_025).map(|k| row(0, (k % 256) as u8, [data(k as u16), ABSENT, ABSENT])).collect();
    assert_eq!(agree(&wide.concat()), MISSHAPEN);
    wide.pop();
    assert_eq!(agree(&wide.concat()), ADMITTED);
}

/// A row of each kind, with few terms and with many.
fn all_kinds() -> Vec<Row> {
    vec![
        row(0, 7, [ABSENT; 3]),
        row(0, 7, [0, data(0), 2]),
        row(1, 0, [0, data(0), ABSENT]),
        row(2, 0, [0, 1, 2]),
        row(3, 0, [2, 3, ABSENT]),
        row(4, 0, [4, ABSENT, ABSENT]),
        row(4, 1, [4, ABSENT, ABSENT]),
        row(5, 0, [5, 6, ABSENT]),
        row(8, 0, [0, 7, 1]),
        row(9, 0, [0, data(0), ABSENT]),
        row(10, 7, [0, ABSENT, ABSENT]),
        row(10, 7, [0, data(0), 2]),
        row(6, 0, [8, 7, ABSENT]),
        row(7, 0, [11, 12, ABSENT]),
        row(3, 0, [13, 13, ABSENT]),
    ]
}

#[test]
fn sizes_of_all_kinds() {
    let (answer, column) = agreed(&all_kinds().concat());
    assert_eq!(answer, ADMITTED);
    assert_eq!(column[..14], [1, 1, 1, 2, 4, 5, 5, 11, 12, 1, 1, 1, 24, 26]);
    assert_eq!((column[14], column[15..] == lent()[15..]), (53, true));
}

/// A sound book, one that 3 refuses and one that 4 refuses, each cut at each length.
#[test]
fn cut_at_each_length() {
    let sound = all_kinds();
    let bad = [&sound[..7], &[row(11, 0, [ABSENT; 3])], &sound[7..]].concat();
    let again = [&sound[..7], &[sound[3]], &sound[7..9]].concat();
    for (book, refused) in [(&sound, ADMITTED), (&bad, bad_row(7)), (&again, repeats(7))] {
        let bytes = book.concat();
        for cut in 0..=bytes.len() {
            let answer = agree(&bytes[..cut]);
            assert_eq!(answer == MISSHAPEN, cut % 8 != 0);
            if cut % 8 == 0 {
                assert_eq!(answer, if cut < 64 { ADMITTED } else { refused });
            }
        }
    }
}

/// The numbers at which the meaning of a field of this row changes, and those before them.
fn limits(row: usize, rows: usize) -> Vec<u16> {
    let classes = [0, 16_384, 32_768, 32_800, 32_832, 40_960, 40_968, 40_976, ABSENT];
    let rows = [row, row + 1, rows, 1_024].map(|number| number as u16);
    let changes = classes.into_iter().chain(rows);
    changes.flat_map(|number| [number.wrapping_sub(1), number]).collect()
}

#[test]
fn every_field_at_its_limits() {
    let book = all_kinds();
    let mut seen = [0; 3];
    let mut damage = |at: usize, value: &[u8]| {
        let mut bytes = book.concat();
        bytes[at..at + value.len()].copy_from_slice(value);
        match agree(&bytes) {
            Ok(()) => seen[0] += 1,
            Err(refusal) => seen[refusal.number as usize - 2] += 1,
        }
    };
    for place in 0..book.len() {
        for byte in (0..=12).chain([254, 255]) {
            [0, 1].iter().for_each(|at| damage(8 * place + at, &[byte]));
        }
        for number in limits(place, book.len()) {
            [2, 4, 6].iter().for_each(|at| damage(8 * place + at, &number.to_le_bytes()));
        }
    }
    assert!(seen[0] > 100 && seen[1] > 500 && seen[2] > 0, "{seen:?}");
}

/// Each row of a full book repeated at each of some later places, row 0 among them.
#[test]
fn each_row_repeated() {
    let book: Vec<Row> =
        (0..1_023).map(|k| row(0, (k % 7) as u8, [data(k as u16), ABSENT, ABSENT])).collect();
    for lower in [0, 1, 2, 500, 1_000, 1_022] {
        for later in [1, 2, 3, 501, 1_001, 1_023] {
            if lower < later {
                let mut again = book.clone();
                again.insert(later, book[lower]);
                assert_eq!(agree(&again.concat()), repeats(later));
            }
        }
    }
}

fn damaged(random: &mut Random, book: &mut Vec<Row>) {
    for _ in 0..random.below(3) {
        if let Some(place) = (!book.is_empty()).then(|| random.below(book.len())) {
            let byte = random.below(8);
            book[place][byte] = match random.below(4) {
                0 => random.below(256) as u8,
                1 => 255,
                2 => book[place][byte].wrapping_add(1),
                _ => book[place][byte].wrapping_sub(1),
            };
        }
    }
    if !book.is_empty() && random.one_in(4) {
        let (from, to) = (random.below(book.len()), random.below(book.len() + 1));
        book.insert(to, book[from]);
    }
}

#[test]
fn random_books() {
    let mut random = Random(0x9e37_79b9_7f4a_7c15);
    let mut seen = [0_usize; 4];
    let (mut sized_before_bad, mut sized_behind_repeat) = (0, 0);
    let mut sizes = BTreeSet::new();
    for number in 0..150_000 {
        let count = if number % 1_000 == 0 { random.below(1_030) } else { random.below(24) };
        let mut book = fitting_book(&mut random, count);
        if number % 2 == 1 {
            damaged(&mut random, &mut book);
        }
        let mut bytes = book.concat();
        if random.one_in(16) {
            bytes.truncate(random.below(bytes.len() + 1));
        }
        let answer = agree(&bytes);
        let case = match answer {
            Ok(()) => 0,
            Err(Refusal { number, .. }) => number as usize - 1,
        };
        seen[case] += 1;
        let told = sized(&bytes, answer);
        sizes.extend((0..told).map(|row| nodes_at(&bytes, row)));
        match answer {
            Err(Refusal { number: 3, .. }) => sized_before_bad += usize::from(told > 0),
            Err(Refusal { number: 4, place }) => {
                sized_behind_repeat += usize::from(place as usize + 1 < told)
            }
            _ => (),
        }
    }
    println!("{seen:?}, {sized_before_bad} sized before a bad row, {sized_behind_repeat} behind a repeat");
    assert!(seen.iter().all(|count| *count > 1_000), "{seen:?}");
    assert!(sized_before_bad > 1_000 && sized_behind_repeat > 1_000);
    assert!(sizes.len() > 60, "{sizes:?}");
}
