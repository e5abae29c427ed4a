//! The checker against the documents' examples, the vectors, struck files and random damage.

use std::collections::{BTreeMap, BTreeSet};

use conformance::builder::*;
use conformance::cases::{examples, examples_and_vectors, grant, vector_files, ROOM};
use conformance::checker::{check, strike_unseen, Verdict, ABSENT};
use conformance::desk::words::check_refusals;
use conformance::duties::is_right_about_duties;
use conformance::justifications::{passing, refining_on_grounds, slipping};
use conformance::misfits::misfits;
use conformance::random::{damage, Random};
use conformance::refinements::{grounds, is_right_about_refining, refine_steps, tree};
use conformance::rooms::{answer, room_too_short, PATTERN};
use conformance::strays::{lowest_stray, strays};
use conformance::vectors::Vector;

fn run(file: &[u8], entries: usize) -> (Verdict, Vec<u16>) {
    answer(check, file, entries)
}

fn assert_agrees(vector: &Vector) {
    let mut room = vector.written.clone();
    assert!(room.len() <= vector.room, "{}", vector.name);
    room.resize(vector.room, PATTERN);
    let expected = (vector.verdict, room);
    assert_eq!(run(&vector.file, vector.room), expected, "{}", vector.name);
}

/// One for each refusal, and seven desk cases.
#[test]
fn examples_of_the_documents() {
    let all = examples();
    assert!(all.len() >= check_refusals().count() + 7, "{}", all.len());
    all.iter().for_each(assert_agrees);
}

#[test]
fn misfits_agree() {
    misfits().iter().for_each(assert_agrees);
}

#[test]
fn grant_has_108_bytes() {
    let all = examples();
    let grant = all.iter().find(|example| example.name == "Grant");
    assert_eq!(grant.map(|grant| grant.file.len()), Some(108));
}

#[test]
fn vectors_agree() {
    let files = vector_files();
    let all: Vec<Vector> = files.into_iter().flat_map(|(_, vectors)| vectors).collect();
    assert!(all.len() >= 401, "{}", all.len());
    all.iter().for_each(assert_agrees);
}

/// The numbers of the refusals among these.
fn refused(vectors: &[Vector]) -> BTreeSet<u16> {
    let numbers = vectors.iter().filter_map(|vector| match vector.verdict {
        Verdict::Refused { number, .. } => Some(number),
        _ => None,
    });
    numbers.collect()
}

/// Each refusal of the header's list has an example, and no vector has another.
#[test]
fn every_refusal_occurs() {
    let listed = check_refusals().map(|refusal| refusal.number).collect();
    assert_eq!(refused(&examples()), listed);
    assert_eq!(refused(&examples_and_vectors()), listed);
}

/// Striking what the agent does not see changes no verdict and no room, unless the file falls
/// before its log is admitted: check 5 may refuse an action that is struck out afterwards.
fn assert_blind_to_unseen(file: &[u8], entries: usize) {
    let struck = strike_unseen(file);
    assert_eq!(struck.len(), file.len());
    assert_eq!(strike_unseen(&struck), struck);
    let (verdict, room) = run(file, entries);
    match verdict {
        Verdict::Refused { number: 1 | 2, .. } => assert_eq!(struck, file),
        Verdict::Refused { number: 5, .. } => (),
        _ => assert_eq!(run(&struck, entries), (verdict, room)),
    }
}

#[test]
fn unseen_rows_do_not_matter() {
    let all = examples_and_vectors();
    for vector in &all {
        assert_blind_to_unseen(&vector.file, vector.room);
    }
    let changed = all.iter().filter(|vector| strike_unseen(&vector.file) != vector.file);
    assert!(changed.count() > 0);
}

/// Three rows, of which agent 0 sees the second; a span may also name more than there is.
#[test]
fn struck_rows() {
    let case = grant().row("0 creates", &[0, 2]).row("0 creates", &[3]);
    let case = case.change(|case| case.rows[0].observers = vec![1]);
    let strike = |case: CaseFile| {
        let struck = case.clone().change(|case| {
            case.rows[0].action = ABSENT;
            case.rows[2].action = ABSENT;
        });
        assert_eq!(strike_unseen(&case.to_bytes()), struck.to_bytes());
    };
    strike(case.clone());
    strike(case.clone().change(|case| case.rows[1].span = Some((0, ABSENT))));
    strike(case.change(|case| case.rows[2].span = Some((ABSENT, ABSENT))));
}

/// A room of just the entries needed is long enough, and one entry less is too short.
#[test]
fn shortest_rooms() {
    let mut all = examples_and_vectors();
    all.retain(|vector| matches!(vector.verdict, Verdict::Passed { .. }));
    for vector in all {
        let needed = vector.written.len();
        assert_eq!(run(&vector.file, needed), (vector.verdict, vector.written));
        if needed > 0 {
            let refused = Verdict::Refused { number: room_too_short(), place: needed as u16 };
            assert_eq!(run(&vector.file, needed - 1), (refused, vec![PATTERN; needed - 1]));
        }
    }
}

/// What holds of every answer, whatever the file.
fn assert_well_formed(file: &[u8], verdict: Verdict, room: &[u16]) {
    assert!(is_right_about_refining(file, verdict), "{verdict}, {file:?}");
    assert!(is_right_about_duties(file, verdict), "{verdict}, {file:?}");
    let written = match verdict {
        Verdict::Passed { obligations, rows } => {
            let (duties, rest) = room.split_at(obligations as usize);
            let rows = &rest[..rows as usize];
            assert!(duties.windows(2).all(|pair| pair[0] < pair[1]));
            assert!(rows.windows(2).all(|pair| pair[0] < pair[1]));
            duties.len() + rows.len()
        }
        Verdict::NoneOwed => 0,
        Verdict::Refused { number, place } => {
            assert!(check_refusals().any(|refusal| refusal.number == number));
            if number == 27 {
                assert_eq!(lowest_stray(file), Some(place), "{file:?}");
            }
            0
        }
    };
    assert!(room[written..].iter().all(|entry| *entry == PATTERN));
}

/// Every second file is one that passes, so that some still do.
#[test]
fn damaged_files() {
    let all = examples_and_vectors();
    let passing = all.iter().filter(|vector| matches!(vector.verdict, Verdict::Passed { .. }));
    let passing: Vec<&Vector> = passing.collect();
    let mut random = Random(0x0123_4567_89AB_CDEF);
    let mut passes = 0;
    for turn in 0..200_000 {
        let vector = match turn % 2 {
            0 => &all[turn / 2 % all.len()],
            _ => passing[turn / 2 % passing.len()],
        };
        let file = damage(&vector.file, &mut random);
        let entries = random.below(8);
        let (verdict, room) = run(&file, entries);
        assert_well_formed(&file, verdict, &room);
        assert_blind_to_unseen(&file, entries);
        passes += usize::from(matches!(verdict, Verdict::Passed { .. }));
    }
    assert!(passes > 1_000, "{passes}");
}

/// Random slips bring 27 for every kind of formula that can have a bound variable in it, with every
/// kind of row that can hold one; in some the lowest row is not the one that a walk meets first.
#[test]
fn data_variables_anywhere() {
    let mut random = Random(0x2545_F491_4F6C_DD1D);
    let (mut refused, mut met_later) = (0, 0);
    let (mut formulas, mut rows) = (BTreeSet::new(), BTreeSet::new());
    for _ in 0..40_000 {
        let case = slipping(&mut random);
        let file = case.to_bytes();
        let (verdict, room) = run(&file, 0);
        assert_well_formed(&file, verdict, &room);
        let Verdict::Refused { number: 27, place } = verdict else { continue };
        let kind = |row: u16| case.formulas[row as usize].kind;
        let found = strays(&file).expect("there are some");
        refused += 1;
        met_later += usize::from(found.rows[0] != place);
        formulas.insert(kind(found.formula));
        rows.insert(kind(place));
    }
    assert!(refused >= 1_000 && met_later >= 100, "{refused}, {met_later}");
    assert_eq!(formulas, BTreeSet::from([2, 3, 4, 5, 6, 7]));
    assert_eq!(rows, BTreeSet::from([0, 1, 9, 10]));
}

/// Justifications that pass refine often, by tautologies of many forms: by every rule that neither
/// cites nor leaves a label open for good. What is refined may rest on anything.
#[test]
fn refinements_by_tautologies() {
    let mut random = Random(0x9E37_79B9_7F4A_7C15);
    let (mut refining, mut deep, mut rules) = (0, 0, BTreeSet::new());
    let (mut citing, mut supposing) = (0, 0);
    for _ in 0..4_000 {
        let case = passing(&mut random);
        let (verdict, _) = run(&case.to_bytes(), ROOM);
        assert!(matches!(verdict, Verdict::Passed { .. }), "{verdict}");
        refining += usize::from(refine_steps(&case, case.steps.len()).count() > 0);
        for (_, [first, second]) in refine_steps(&case, case.steps.len()) {
            let steps = tree(&case, first);
            deep += usize::from(steps.len() > 2);
            rules.extend(steps.into_iter().map(|step| case.steps[step as usize].rule));
            let refined = grounds(&case, second);
            citing += usize::from(!refined.citing.is_empty());
            supposing += usize::from(!refined.supposing.is_empty());
        }
    }
    println!("{refining} cases refine, {deep} steps by more than two; second premises: {citing} cite, {supposing} suppose");
    assert!(refining >= 400 && deep >= 400, "{refining}, {deep}");
    assert!(citing >= 400 && supposing >= 20, "{citing}, {supposing}");
    assert_eq!(rules, (0..16).filter(|rule| ![1, 2, 12].contains(rule)).collect());
}

/// What a step cites or supposes: its rule, the mark of the obligation or label, and whether it is
/// the premise itself.
fn kind_of_ground(case: &CaseFile, step: u16, premise: u16) -> (u16, u16, bool) {
    let Step { rule, argument, .. } = case.steps[step as usize];
    let mark = match rule {
        BY_OBLIGATION => case.obligations[argument as usize].mark,
        SUPPOSE | BY_LABEL => case.labels[argument as usize].0,
        _ => 0,
    };
    (rule, mark, step == premise)
}

/// The rules of the steps through which what a step cites or supposes comes down to the premise.
fn rules_on_the_way(case: &CaseFile, ground: u16, premise: u16) -> impl Iterator<Item = u16> + '_ {
    let steps = tree(case, premise).into_iter();
    let on_the_way = move |step: &u16| *step != ground && tree(case, *step).contains(&ground);
    steps.filter(on_the_way).map(|step| case.steps[step as usize].rule)
}

/// Random slips bring 28 by everything that a refinement may not rest on, each alone. A log row gives
/// a statement or an ownership and a condition a predicate, so that they never are the first premise
/// themselves, which is an implication. Every rule that has premises hands on what is cited above it;
/// only a step by rule 12 cites by itself, so that nothing above it is alone.
#[test]
fn refinements_on_every_ground() {
    let mut random = Random(0xD1B5_4A32_D192_ED03);
    let (mut refused, mut alone, mut rules) = (0, BTreeMap::new(), BTreeSet::new());
    for _ in 0..30_000 {
        let case = refining_on_grounds(&mut random);
        let file = case.to_bytes();
        let (verdict, room) = run(&file, 0);
        assert_well_formed(&file, verdict, &room);
        assert_blind_to_unseen(&file, 0);
        let Verdict::Refused { number: 28, place } = verdict else { continue };
        refused += 1;
        let first = case.steps[place as usize].premises[0];
        let found = grounds(&case, first);
        let [ground] = *found.citing.union(&found.supposing).collect::<Vec<_>>() else { continue };
        *alone.entry(kind_of_ground(&case, *ground, first)).or_insert(0) += 1;
        if found.supposing.is_empty() {
            rules.extend(rules_on_the_way(&case, *ground, first));
        }
    }
    println!("{refused} refused; alone, by rule, mark, and whether it is the premise: {alone:?}");
    assert!(refused >= 5_000, "{refused}");
    let itself_or_above =
        [(BY_OBLIGATION, 1), (BY_OBLIGATION, 2), (SUPPOSE, 0), (BY_LABEL, 1), (BY_LABEL, 2)];
    let due = itself_or_above
        .into_iter()
        .flat_map(|(rule, mark)| [false, true].map(|itself| (rule, mark, itself)));
    let due = due.chain([(CONDITION, 0, false), (SEEN, 0, false)]);
    assert_eq!(alone.keys().copied().collect::<BTreeSet<_>>(), due.collect());
    assert!(alone.values().all(|times| *times >= 100), "{alone:?}");
    let due = (3..16).filter(|rule| *rule != BY_OBLIGATION).collect();
    assert_eq!(rules, due, "those that hand on what is cited");
}
