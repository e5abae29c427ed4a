//! The proved admission of case files against the separate checker.

use std::collections::{BTreeMap, BTreeSet};
use std::thread;

use conformance::builder::{data, CaseFile, FormulaRow, LogRow, Obligation, Step, HOUR};
use conformance::cases::{examples_and_vectors, grant, twice, visit};
use conformance::checker::{admit, number_at, pair_at, ABSENT, HEADER_BYTES, HOUR_AT};
use conformance::checker::{MOST_BYTES, PARTS};
use conformance::columns::book_of;
use conformance::desk::words::check_refusals;
use conformance::proved;
use conformance::random::{damage, fitting_book, Random};

/// Admitted, or refused by a check at a place.
type Answer = Result<(), (u16, u16)>;

fn agree(file: &[u8]) -> Answer {
    let expected = admit(file).map(|_| ());
    assert_eq!(proved::admit(file), expected, "{file:?}");
    expected.map_err(|refusal| (refusal.number, refusal.place))
}

/// A file of so many bytes in each part, all of them 0.
fn blank(sizes: [usize; 8]) -> Vec<u8> {
    let mut file = vec![0; HEADER_BYTES];
    for (place, size) in sizes.into_iter().enumerate() {
        let pair = [file.len(), size].map(|number| (number as u16).to_le_bytes());
        file[pair_at(place)..][..4].copy_from_slice(&pair.concat());
        file.resize(file.len() + size, 0);
    }
    file
}

/// Every part has all the records that it may have, and checks 1 to 9 let it pass.
fn full() -> CaseFile {
    let mut case = CaseFile::new(3);
    case.action = 1;
    case.formulas.push(FormulaRow { kind: 0, code: 0, fields: [ABSENT; 3] });
    case.formulas.push(FormulaRow { kind: 9, code: 0, fields: [3, data(0), ABSENT] });
    while case.formulas.len() < 62 {
        let below = case.formulas.len() as u16 - 1;
        let below = if below == 1 { 0 } else { below };
        let code = (case.formulas.len() % 2) as u8;
        case.formulas.push(FormulaRow { kind: 4, code, fields: [below, ABSENT, ABSENT] });
    }
    while case.formulas.len() < 1024 {
        let number = case.formulas.len() as u16;
        case.formulas.push(FormulaRow { kind: 2, code: 0, fields: [number, 61, 0] });
    }
    for number in 0..1024 {
        let action = if number % 3 == 0 { ABSENT } else { 1 };
        case.rows.push(LogRow { action, observers: vec![0, 1, 2 + number % 2, 9], span: None });
    }
    case.conditions = vec![0; 64];
    case.obligations =
        (0..64).map(|k| Obligation { row: 1_023 - k, ..Obligation::new(1, 1) }).collect();
    case.labels = vec![(0, 0); 32];
    let step = Step { rule: 0, formula: 0, argument: 0, premises: vec![0], span: None };
    case.steps = vec![step; 2048];
    case
}

/// The numbers of the header's list up to the admission's last check, by their order there.
fn admission_refusals() -> BTreeSet<u16> {
    let listed: Vec<_> = check_refusals().collect();
    let last = listed.iter().position(|refusal| refusal.name == "BAD_AUDIT");
    let last = last.expect("the header lists the admission's last check");
    listed[..=last].iter().map(|refusal| refusal.number).collect()
}

#[test]
fn every_example_and_vector() {
    let vectors = examples_and_vectors();
    let answers = vectors.iter().map(|vector| agree(&vector.file));
    let refused = answers.filter_map(|answer| answer.err().map(|(number, _)| number)).collect();
    assert!(admission_refusals().is_subset(&refused), "{refused:?}");
}

#[test]
fn each_part_faulty_in_each_way() {
    let mut places = [0; 8];
    for case in [grant(), visit(), twice()] {
        for place in 0..8 {
            let file = case.to_bytes();
            let (offset, size) = case.pairs()[place];
            let record = PARTS[place].0 as u16;
            let whole = file.len() as u16;
            let near = |n: u16| [n.wrapping_sub(1), n + 1, n.wrapping_sub(record), n + record];
            let header = HEADER_BYTES as u16;
            let mut numbers = vec![0, 1, header, whole, whole - 1, whole + 1, 65_534, 65_535];
            numbers.extend(near(offset));
            numbers.extend(near(size));
            for number in numbers {
                for pair in [(number, size), (offset, number), (number, number)] {
                    let file = case.clone().change(|case| case.header[place] = Some(pair));
                    if let Err((2, place)) = agree(&file.to_bytes()) {
                        places[place as usize] += 1;
                    }
                }
            }
        }
    }
    assert!(places.iter().all(|count| *count > 0), "{places:?}");
}

#[test]
fn parts_at_their_limits() {
    for place in 0..8 {
        let (record, most) = PARTS[place];
        for records in [0, 1, most - 1, most, most + 1] {
            for extra in [0, 1] {
                let mut sizes = [0; 8];
                sizes[place] = record * records + extra;
                let answer = agree(&blank(sizes));
                let sound = records <= most && extra == 0;
                let orphan = matches!(place, 2 | 7) && sizes[place] > 0;
                let faulty = answer == Err((2, place as u16));
                assert_eq!(faulty, !sound || orphan, "part {place} of {records} records");
            }
        }
    }
    let most = PARTS.map(|(record, most)| record * most);
    assert_eq!(blank(most).len(), MOST_BYTES);
    let mut long = blank(most);
    assert_ne!(agree(&long), Err((1, 0)));
    long.push(0);
    assert_eq!(agree(&long), Err((1, 0)));
    let mut longer = grant().to_bytes();
    longer.push(0);
    assert_eq!(agree(&longer), Err((2, 7)));
}

#[test]
fn every_truncation() {
    let full = full().to_bytes();
    assert_eq!(full.len(), MOST_BYTES);
    for file in [grant().to_bytes(), visit().to_bytes(), full] {
        assert_eq!(agree(&file), Ok(()));
        for length in 0..file.len() {
            assert!(agree(&file[..length]).is_err());
        }
    }
}

/// A file of 65,535 everywhere, and of any one byte everywhere, at many lengths.
#[test]
fn one_byte_everywhere() {
    for byte in 0..=255 {
        let near = [HEADER_BYTES, MOST_BYTES].into_iter().flat_map(|edge| edge - 1..=edge + 1);
        for length in near.chain([0, 1, 100, 1_000, 70_000]) {
            assert!(agree(&vec![byte; length]).is_err());
        }
    }
}

/// An absent condition is admitted, formula 0 only where it is a ground predicate.
#[test]
fn absent_is_not_formula_0() {
    let case = grant();
    let with = |number: u16| case.clone().change(|case| case.conditions = vec![number]);
    assert_eq!(agree(&with(ABSENT).to_bytes()), Ok(()));
    assert_eq!(agree(&with(0).to_bytes()), Err((6, 0)));
    assert_eq!(agree(&with(2).to_bytes()), Ok(()));
    assert_eq!(agree(&with(65_534).to_bytes()), Err((6, 0)));
}

/// Every hour but the absent one; and an obligation's row, which is one of the log or absent.
#[test]
fn hours_and_rows_of_obligations() {
    let numbers = [0, 1, 2, HOUR, 16_384, ABSENT - 1, ABSENT];
    for number in numbers {
        let hour = grant().change(|case| case.hour = number);
        let due = if number == ABSENT { Err((9, 0)) } else { Ok(()) };
        assert_eq!(agree(&hour.to_bytes()), due);
        assert_eq!(number_at(&hour.to_bytes(), HOUR_AT), number);
        let two = || grant().obligation(2, "0 creates").obligation(1, "0 creates");
        let late = two().change(|case| case.obligations[1].due = number);
        let due = if number == ABSENT { Err((7, 1)) } else { Ok(()) };
        assert_eq!(agree(&late.to_bytes()), due);
        for rows in [0, 1, 2] {
            let named = two().change(|case| {
                case.rows = vec![case.rows[0].clone(); rows];
                case.obligations[1].row = number;
            });
            let there = number == ABSENT || (number as usize) < rows;
            assert_eq!(agree(&named.to_bytes()), if there { Ok(()) } else { Err((7, 1)) });
        }
    }
}

#[test]
fn spans_and_observers() {
    let case = grant().row("0 creates", &[0, 2]).row("0 creates", &[3]);
    let spans = [0, 1, 2, 3, 4, 5, 65_534, 65_535];
    let mut answers = BTreeMap::new();
    for row in 0..3 {
        for from in spans {
            for count in spans {
                let changed = case.clone().change(|case| case.rows[row].span = Some((from, count)));
                *answers.entry(agree(&changed.to_bytes())).or_insert(0) += 1;
            }
        }
    }
    assert!((0..3).all(|row| answers.contains_key(&Err((5, row)))), "{answers:?}");
    let last = case.clone().change(|case| case.rows[2].span = Some((3, 0)));
    assert_eq!(agree(&last.to_bytes()), Err((5, 2)));
    for observers in [vec![2, 2], vec![2, 1], vec![16_383], vec![16_384], vec![ABSENT], vec![]] {
        let fits = matches!(observers[..], [16_383] | []);
        let changed = case.clone().change(|case| case.rows[1].observers = observers);
        assert_eq!(agree(&changed.to_bytes()), if fits { Ok(()) } else { Err((5, 1)) });
    }
    for (agent, fits) in [(16_383, true), (16_384, false), (32_768, false), (ABSENT, false)] {
        let changed = case.clone().change(|case| case.agent = agent);
        assert_eq!(agree(&changed.to_bytes()), if fits { Ok(()) } else { Err((9, 0)) });
    }
}

/// A case over a random book whose records mostly name what they should.
fn random_case(random: &mut Random) -> CaseFile {
    let mut case = CaseFile::new(random.below(4) as u16);
    let formulas = 1 + random.below(16);
    let book = fitting_book(random, formulas);
    for row in &book {
        let field = |at: usize| u16::from_le_bytes([row[at], row[at + 1]]);
        let fields = [field(2), field(4), field(6)];
        case.formulas.push(FormulaRow { kind: row[0], code: row[1], fields });
    }
    let number = |random: &mut Random| random.below(book.len() + 1) as u16;
    let or_absent = |number: u16, random: &mut Random| match random.one_in(4) {
        true => ABSENT,
        false => number,
    };
    case.action = number(random);
    for _ in 0..random.below(4) {
        let action = number(random);
        let action = or_absent(action, random);
        let first = random.below(3) as u16;
        let observers = (0..random.below(4)).map(|i| first + i as u16).collect();
        case.rows.push(LogRow { action, observers, span: None });
    }
    for _ in 0..random.below(3) {
        let condition = number(random);
        case.conditions.push(or_absent(condition, random));
    }
    for _ in 0..random.below(3) {
        let (mark, action) = (random.below(4) as u16, number(random));
        let due = or_absent(random.below(3) as u16, random);
        let row = or_absent(random.below(case.rows.len() + 1) as u16, random);
        case.obligations.push(Obligation { mark, action, due, row });
    }
    for _ in 0..random.below(3) {
        case.labels.push((random.below(4) as u16, number(random)));
    }
    case
}

#[test]
fn random_and_damaged_files() {
    let vectors = examples_and_vectors();
    let mut random = Random(0x5EED_0F0F_1234_9876);
    let mut answers = BTreeMap::new();
    for turn in 0..240_000 {
        let file = match turn % 4 {
            0 => random_case(&mut random).to_bytes(),
            1 => damage(&random_case(&mut random).to_bytes(), &mut random),
            _ => damage(&vectors[turn % vectors.len()].file, &mut random),
        };
        let number = agree(&file).err().map(|(number, _)| number);
        *answers.entry(number).or_insert(0) += 1;
    }
    let mut due = admission_refusals().into_iter().map(Some).chain([None]);
    assert!(due.all(|answer| answers.get(&answer) > Some(&20)), "{answers:?}");
}

/// All tables and walks of the largest files fit a stack of 64 KiB, with the thread's own frames.
#[test]
fn stack_of_64_kib() {
    let file = full().to_bytes();
    let answer = thread::Builder::new()
        .stack_size(64 * 1024)
        .spawn(move || {
            let mut sizes = [0; 1_024];
            (proved::admit(&file), proved::size_column(book_of(&file), &mut sizes), sizes[1_023])
        })
        .expect("a thread starts")
        .join();
    assert_eq!(answer.expect("the thread ends"), (Ok(()), Ok(()), 62));
}
