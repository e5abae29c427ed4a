//! The proved checker against the separate one: verdict, and every entry of the room.

use std::collections::{BTreeMap, BTreeSet};
use std::thread;

use conformance::builder::{data, CaseFile, Step, LEFT};
use conformance::cases::{examples_and_vectors, ROOM};
use conformance::checker::{check, Verdict, ABSENT, MOST_BYTES};
use conformance::damages::{damaged, WAYS};
use conformance::desk::reading::read;
use conformance::desk::words::{check_refusals, number_of, step_faults};
use conformance::duties::is_right_about_duties;
use conformance::examples;
use conformance::full_size::{full_size, largest};
use conformance::justifications::{passing, slipping};
use conformance::loads::loads;
use conformance::proved;
use conformance::random::Random;
use conformance::refinements::{grounds, is_right_about_refining, refine_steps};
use conformance::rooms::{agreed, agreed_in_all_rooms, answer, entries_of};
use conformance::rooms::{room_too_short, PATTERN};
use conformance::strays::{lowest_stray, strays};
use conformance::tallies::{count, count_verdict, Answers, NONE_OWED};

#[test]
fn every_example_and_vector() {
    for vector in examples_and_vectors().into_iter().chain(examples::all()) {
        let mut room = vector.written.clone();
        room.resize(vector.room, PATTERN);
        let expected = (vector.verdict, room);
        assert_eq!(agreed(&vector.file, vector.room), expected, "{}", vector.name);
        agreed_in_all_rooms(&vector.file);
    }
}

/// A pass whose room is one entry too short counts as that refusal too.
fn count_in_all_rooms(answers: &mut Answers, verdict: Verdict) {
    count_verdict(answers, verdict);
    if entries_of(verdict) > 0 {
        count(answers, room_too_short());
    }
}

/// Justifications that pass, with slips, and damaged.
fn random_file(turn: usize, random: &mut Random) -> (&'static str, Vec<u8>) {
    match turn % 8 {
        0..=2 => ("passing", passing(random).to_bytes()),
        3 | 4 => ("slipping", slipping(random).to_bytes()),
        5 => damaged(&slipping(random), random),
        _ => damaged(&passing(random), random),
    }
}

/// 24, 25 and 26 come only with the rules for which the header has words. The place of 27 is a
/// formula, and the one due. 28, 31 and 32 are told where they are due, and nowhere else.
fn assert_place(file: &[u8], verdict: Verdict) {
    assert!(is_right_about_refining(file, verdict), "{verdict}, {file:?}");
    assert!(is_right_about_duties(file, verdict), "{verdict}, {file:?}");
    let Verdict::Refused { number, place } = verdict else { return };
    if number == 27 {
        assert_eq!(lowest_stray(file), Some(place), "{file:?}");
    }
    if step_faults().iter().any(|fault| fault.number == number) {
        let rule = read(file).expect("it is sound").case.steps[place as usize].rule;
        let told = step_faults().iter().any(|fault| (fault.number, fault.rule) == (number, rule));
        assert!(told, "{number} by rule {rule}");
    }
}

/// The answers of a run, and how often each way of making a file was refused.
fn run(seed: u64, turns: usize) -> (Answers, BTreeMap<&'static str, usize>) {
    let mut random = Random(seed);
    let (mut answers, mut refused) = (Answers::new(), BTreeMap::new());
    for turn in 0..turns {
        let (way, file) = random_file(turn, &mut random);
        let verdict = agreed_in_all_rooms(&file);
        assert_place(&file, verdict);
        count_in_all_rooms(&mut answers, verdict);
        let times = refused.entry(way).or_insert(0);
        *times += usize::from(matches!(verdict, Verdict::Refused { .. }));
    }
    (answers, refused)
}

/// Misfits of every number, refinements by more than a tautology, and duties not done or naming one
/// row come this often in the random files.
const OFTEN: [(&str, usize); 8] = [
    ("DUTY_NOT_DONE", 3_000),
    ("ROW_NAMED_TWICE", 3_000),
    ("NO_TAUTOLOGY", 3_000),
    ("DATA_VARIABLE", 3_000),
    ("WRONG_PREMISE_KIND", 3_000),
    ("WRONG_PARTY", 3_000),
    ("WRONG_INSTANCE", 3_000),
    ("MISFIT", 1_000),
];

/// 300,000 files in two threads. Every refusal comes often, and each kind of damage is refused at
/// times; what is made to pass does.
#[test]
fn random_justifications() {
    let seeds = [0x0123_4567_89AB_CDEF, 0xFEDC_BA98_7654_3210];
    let runs = thread::scope(|scope| {
        let runs = seeds.map(|seed| scope.spawn(move || run(seed, 150_000)));
        runs.map(|run| run.join().expect("the run ends"))
    });
    let (mut answers, mut refused) = (Answers::new(), BTreeMap::new());
    for (numbers, ways) in runs {
        numbers.into_iter().for_each(|(number, more)| *answers.entry(number).or_insert(0) += more);
        ways.into_iter().for_each(|(way, more)| *refused.entry(way).or_insert(0) += more);
    }
    println!("answers: {answers:?}\nrefused: {refused:?}");
    assert!(answers[&0] >= 100_000, "{answers:?}");
    let due = check_refusals().map(|refusal| refusal.number).chain([NONE_OWED]);
    assert!(due.clone().all(|number| answers.get(&number) >= Some(&300)), "{answers:?}");
    assert_eq!(answers.len(), 1 + due.count(), "{answers:?}");
    let comes = |(name, times): (&str, usize)| answers[&number_of(name)] >= times;
    assert!(OFTEN.into_iter().all(comes), "{answers:?}");
    assert_eq!(refused.remove("passing"), Some(0));
    assert_eq!(refused.len(), 1 + WAYS, "{refused:?}");
    assert!(refused.values().all(|times| *times >= 100), "{refused:?}");
}

/// The generator uses all sixteen rules, both marks, and rows seen, struck and hidden.
#[test]
fn passing_justifications_have_everything() {
    let mut random = Random(0x2545_F491_4F6C_DD1D);
    let (mut rules, mut marks, mut rows) = ([0; 16], [0; 3], BTreeSet::new());
    for _ in 0..2_000 {
        let case = passing(&mut random);
        case.steps.iter().for_each(|step| rules[step.rule as usize] += 1);
        case.obligations.iter().for_each(|duty| marks[duty.mark as usize] += 1);
        let kinds = case.rows.iter();
        rows.extend(kinds.map(|row| (row.action == ABSENT, row.observers.contains(&case.agent))));
        let passes = matches!(check(&case.to_bytes(), &mut [0; ROOM]), Verdict::Passed { .. });
        assert!(passes);
    }
    assert!(rules.iter().all(|count| *count > 100), "{rules:?}");
    assert!(marks[1..].iter().all(|count| *count > 100), "{marks:?}");
    assert_eq!(rows.len(), 4);
}

fn refused(case: CaseFile, number: u16, place: u16) {
    let verdict = agreed_in_all_rooms(&case.to_bytes());
    assert_eq!(verdict, Verdict::Refused { number, place });
}

/// 2,048 steps that cite 64 obligations and 1,024 rows, so that a room of 1,088 is just enough;
/// and the same refused at the last step or after it.
#[test]
fn full_size_files() {
    let full = full_size();
    let file = full.to_bytes();
    assert_eq!(file.len(), MOST_BYTES - 2);
    let verdict = agreed_in_all_rooms(&file);
    assert_eq!(verdict, Verdict::Passed { obligations: 64, rows: 1_024 });
    let last = 2_047;
    let change = |change: fn(&mut Step)| full.clone().change(|case| change(&mut case.steps[2_047]));
    assert_eq!(largest().to_bytes().len(), MOST_BYTES);
    refused(largest(), 12, last);
    refused(change(|step| step.premises[0] = 0), 13, last);
    refused(change(|step| step.argument = ABSENT), 14, last);
    refused(change(|step| (step.rule, step.argument) = (LEFT, ABSENT)), 24, last);
    let for_all = full.steps[2_046].formula;
    refused(full.clone().change(|case| case.steps[2_047].formula = for_all), 26, last);
    refused(change(|step| step.argument = data(0)), 18, last);
    refused(full.clone().change(|case| case.action = other_action(case)), 22, last);
    refused(full.clone().change(|case| case.obligations[63].row = ABSENT), 31, 63);
    let row = full.obligations[47].row;
    refused(full.clone().change(|case| case.obligations[63].row = row), 32, 63);
}

/// An action of the agent that owes something else than is proved: the one told in the log, by
/// the agent.
fn other_action(case: &mut CaseFile) -> u16 {
    let told = case.rows[1_023].action as usize;
    case.formulas[1_023] = case.formulas[told].clone();
    case.formulas[1_023].fields[0] = case.agent;
    1_023
}

/// As many refine steps as a file holds, all by tautologies; and the load whose last one rests on
/// the first of all steps.
#[test]
fn refinements_of_full_size() {
    let load =
        |name: &str| loads().into_iter().find(|load| load.name == name).expect("it is there").case;
    let tautologies = load("rule 4, tautologies");
    assert_eq!(refine_steps(&tautologies, tautologies.steps.len()).count(), 681);
    let verdict = agreed_in_all_rooms(&tautologies.to_bytes());
    assert_eq!(verdict, Verdict::Passed { obligations: 0, rows: 1 });
    let case = load("rule 4, 28 at the last step");
    let (last, [first, _]) = refine_steps(&case, case.steps.len()).last().expect("there are some");
    let found = grounds(&case, first);
    assert_eq!((found.citing, found.supposing), (BTreeSet::from([0]), BTreeSet::new()));
    refused(case, 28, last);
}

/// A stack of 64 KiB is enough for the largest files, with the thread's own frames; also for those
/// whose last step is a misfit.
#[test]
fn stack_of_64_kib() {
    let last_refused = full_size().change(|case| case.steps[2_047].argument = ABSENT);
    let misfits = loads().into_iter().filter(|load| load.name.ends_with("at the last step"));
    let misfits: Vec<CaseFile> = misfits.map(|load| load.case).collect();
    let met = strays(&misfits[3].to_bytes()).expect("there are some").rows;
    assert_eq!((met.len(), met.iter().min()), (31, met.last()));
    let last = |case: &CaseFile| case.steps.len() as u16 - 1;
    assert_eq!(misfits.len(), 5);
    for (case, due) in misfits.iter().zip([24, 25, 26, 27, 28]) {
        refused(case.clone(), due, if due == 27 { met[30] } else { last(case) });
    }
    let cases = misfits.into_iter().chain([full_size(), last_refused]);
    for file in cases.map(|case| case.to_bytes()) {
        let expected = answer(check, &file, ROOM);
        let found = thread::Builder::new()
            .stack_size(64 * 1024)
            .spawn(move || answer(proved::check, &file, ROOM))
            .expect("a thread starts")
            .join();
        assert_eq!(found.expect("the thread ends"), expected);
    }
}
