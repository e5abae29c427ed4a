//! A file of the layout before change request 6 is refused by 1 or 2 and never read as another: by
//! every function that takes a file, with all that is lent as before. With the feature `proved` the
//! proved library has to say the same.

use conformance::cases::{examples, ROOM};
use conformance::checker::{admit, check, number_at, pair_at, Refusal, Verdict};
use conformance::checker::{HEADER_BYTES, HOUR_AT};
use conformance::examples;
use conformance::full_size::full_size;
use conformance::indexes::{built, checked, lent};
use conformance::nights::{self, Night};
use conformance::old_layout::{in_old_layout, old_vectors, without_hour};
use conformance::rooms::{answer, PATTERN};
use conformance::vectors::Vector;

/// The one refusal of a file, by each function, which is by 1 or 2.
fn refusal(file: &[u8]) -> (u16, u16) {
    let (verdict, room) = answer(check, file, ROOM);
    let Verdict::Refused { number: number @ (1 | 2), place } = verdict else {
        panic!("{verdict}, {file:?}")
    };
    assert_eq!(room, vec![PATTERN; ROOM], "{file:?}");
    #[cfg(feature = "proved")]
    conformance::rooms::agreed_in_all_rooms(file);
    let refused = Refusal { number, place };
    assert_eq!(admit(file).map(|_| ()), Err(refused), "{file:?}");
    for entries in [0, 1, 40] {
        assert_eq!(built(file, entries), (Err(refused), lent(entries)), "{file:?}");
    }
    for index in [&[][..], &[0], &[1, 0, 4, 1, 0]] {
        let expected = (verdict, vec![PATTERN; ROOM]);
        assert_eq!(checked(file, index, ROOM), expected, "{file:?}");
    }
    let night = Night::of(&[file], || vec![1]);
    assert_eq!(nights::checked(&night, 4).verdicts(), [verdict], "{file:?}");
    (number, place)
}

/// What is due to a file whose first part does not begin behind the header.
fn due(file: &[u8]) -> (u16, u16) {
    if file.len() < HEADER_BYTES {
        (1, 0)
    } else {
        (2, 0)
    }
}

/// An old file as it is, with up to eight bytes behind it, cut by up to eight, and with two bytes
/// where the hour is now.
fn old_and_near(old: &[u8]) -> Vec<Vec<u8>> {
    let header = old.len().min(HOUR_AT);
    let mut files = vec![old.to_vec()];
    for count in 1..=8 {
        files.push(old[..old.len().saturating_sub(count)].to_vec());
        files.extend([0, u8::MAX].map(|byte| [old, &vec![byte; count]].concat()));
    }
    files.extend([[0, 0], [50, 0]].map(|hour| [&old[..header], &hour, &old[header..]].concat()));
    files
}

fn assert_refused(old: &[u8]) {
    for file in old_and_near(old) {
        assert_eq!(refusal(&file), due(&file), "{file:?}");
    }
}

/// Every vector of the old layout, whatever was due to it then.
#[test]
fn old_vectors_are_refused() {
    let all = old_vectors();
    let told =
        |wanted: fn(&Verdict) -> bool| all.iter().filter(|vector| wanted(&vector.verdict)).count();
    assert_eq!(all.len(), 319);
    assert!(told(|verdict| matches!(verdict, Verdict::Passed { .. })) > 30);
    assert!(told(|verdict| *verdict == Verdict::NoneOwed) > 5);
    let long = all.iter().filter(|vector| vector.file.len() >= HEADER_BYTES);
    assert!(long.count() > 300);
    all.iter().for_each(|vector| assert_refused(&vector.file));
}

/// The examples and the largest file.
fn files() -> Vec<Vec<u8>> {
    let examples = examples().into_iter().chain(examples::all()).map(|example| example.file);
    examples.chain([full_size().to_bytes()]).collect()
}

/// Every example in the old layout. Those of document 01 are then vectors of the old layout, so that
/// it is the one meant.
#[test]
fn examples_in_the_old_layout() {
    let (files, known) = (files(), old_vectors());
    let old: Vec<Vec<u8>> = files.iter().filter_map(|file| in_old_layout(file)).collect();
    let is_known = |file: &&Vec<u8>| known.iter().any(|vector: &Vector| vector.file == **file);
    let found = old.iter().filter(is_known).count();
    println!("{} of {} files, {found} of them are old vectors", old.len(), files.len());
    assert!(old.len() > 60 && found > 30);
    for file in &old {
        assert_eq!(number_at(file, pair_at(0)) as usize, HOUR_AT);
        assert_refused(file);
    }
}

/// Every example with its hour cut out, and the rest of it as it is: its parts are beyond its end.
#[test]
fn examples_without_the_hour() {
    for file in files() {
        let cut = without_hour(&file);
        assert_eq!(file.len() - cut.len(), file.len().min(HEADER_BYTES) - file.len().min(HOUR_AT));
        let (number, _) = refusal(&cut);
        assert_eq!(number == 1, cut.len() < HEADER_BYTES, "{file:?}");
    }
}
