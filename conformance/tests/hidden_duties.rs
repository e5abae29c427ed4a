//! Demand 3 where duties name rows: a row that the agent does not see never shows through, whatever
//! it holds. By the separate checker, without an index and through one; with the feature `proved`
//! the proved library has to say the same.

use conformance::builder::{CaseFile, Obligation};
use conformance::checker::{check, number_at, strike_unseen, Verdict, ABSENT, HOUR_AT};
use conformance::desk::words::number_of;
use conformance::duties::is_right_about_duties;
use conformance::hidden::{is_left_out, pair_with_duties};
use conformance::indexes::{checked, due};
use conformance::random::Random;
use conformance::rooms;
use conformance::tallies::{count, count_verdict, Answers, Times, NONE_OWED};

/// The one answer to a file: the verdict, and the whole room.
fn answer(file: &[u8], entries: usize) -> (Verdict, Vec<u16>) {
    let answer = rooms::answer(check, file, entries);
    #[cfg(feature = "proved")]
    assert_eq!(rooms::agreed(file, entries), answer);
    let index = due(file).unwrap_or_default();
    assert_eq!(checked(file, &index, entries), answer, "{file:?}");
    answer
}

/// The one answer to both files and to both struck out; none if either file is left out.
fn one_answer(pair: [&[u8]; 2], entries: usize) -> Option<Verdict> {
    let [first, second] = pair.map(|file| answer(file, entries));
    if is_left_out(first.0) || is_left_out(second.0) {
        return None;
    }
    assert_eq!(first, second, "{pair:?}");
    for struck in pair.map(strike_unseen) {
        assert_eq!(answer(&struck, entries), first, "{struck:?}");
    }
    assert!(is_right_about_duties(pair[0], first.0), "{}", first.0);
    Some(first.0)
}

/// What both files have at the row that a duty names, if it names one.
fn kind_of_row([one, other]: [&CaseFile; 2], duty: &Obligation) -> Option<&'static str> {
    let at = duty.row as usize;
    let rows = [one.rows.get(at)?, other.rows.get(at)?];
    let does = rows.map(|row| row.action == duty.action);
    let struck = rows.map(|row| row.action == ABSENT);
    let kind = match rows[0].observers.contains(&one.agent) {
        true if struck[0] => "seen, struck",
        true if does[0] => "seen, with the action",
        true => "seen, with another action",
        false if does[0] != does[1] => "unseen, with the action in one file",
        false if does[0] => "unseen, with the action in both",
        false if struck[0] != struck[1] => "unseen, struck in one file",
        false => "unseen, with other actions",
    };
    Some(kind)
}

/// What was seen in all pairs.
#[derive(Default, Debug)]
struct Seen {
    /// The kinds of rows that duties name, and whether the duty is expired.
    rows: Times<(&'static str, bool)>,
    answers: Answers,
    /// The kinds of rows of the duties that 31 and 32 tell.
    told: Times<(u16, Option<&'static str>)>,
}

impl Seen {
    /// Adds a pair; one of its duties names a row.
    fn add(&mut self, pair: [&CaseFile; 2], verdict: Verdict) {
        let CaseFile { obligations, hour, .. } = pair[0];
        let named = obligations.iter().filter_map(|duty| {
            let kind = kind_of_row(pair, duty)?;
            Some((kind, duty.due < *hour))
        });
        assert!(named.clone().count() > 0);
        named.for_each(|kind| count(&mut self.rows, kind));
        count_verdict(&mut self.answers, verdict);
        let Verdict::Refused { number, place } = verdict else { return };
        if [not_done(), named_twice()].contains(&number) {
            let duty = &obligations[place as usize];
            count(&mut self.told, (number, kind_of_row(pair, duty)));
        }
    }
}

fn not_done() -> u16 {
    number_of("DUTY_NOT_DONE")
}

fn named_twice() -> u16 {
    number_of("ROW_NAMED_TWICE")
}

/// 12,000 pairs compared, which share the audit hour. Duties, expired or not, name rows of every
/// kind, and every verdict that may come of it is met often; 31 and 32 because of every kind.
#[test]
fn pairs_alike_to_the_agent() {
    let mut random = Random(0x1F83_D9AB_FB41_BD6B);
    let (mut turn, mut compared, mut observers) = (0, 0, 0);
    let mut seen = Seen::default();
    while compared < 12_000 {
        turn += 1;
        let [one, other] = pair_with_duties(&mut random);
        let files = [one.to_bytes(), other.to_bytes()];
        let entries = random.pick(&[0, 40, 40, 40]);
        let Some(verdict) = one_answer([&files[0], &files[1]], entries) else { continue };
        compared += 1;
        assert_eq!(number_at(&files[0], HOUR_AT), number_at(&files[1], HOUR_AT));
        observers += usize::from(due(&files[0]) != due(&files[1]));
        seen.add([&one, &other], verdict);
    }
    println!("{turn} pairs, {observers} with other observers, {seen:?}");
    assert!(turn < 13_000 && observers > 10_000, "{turn}, {observers}");
    let Seen { rows, answers, told } = seen;
    assert!(rows.len() == 14 && rows.values().all(|times| *times >= 150), "{rows:?}");
    let often = [0, NONE_OWED, not_done(), named_twice()];
    assert!(often.iter().all(|answer| answers[answer] >= 1_200), "{answers:?}");
    // 31 of no row and of each kind but what is done; 32 of each kind of row.
    assert!(told.len() == 7 + 7 && told.values().all(|times| *times >= 20), "{told:?}");
    let in_one_file = |number| told[&(number, Some("unseen, with the action in one file"))];
    assert!(in_one_file(not_done()) >= 800 && in_one_file(named_twice()) >= 100, "{told:?}");
}
