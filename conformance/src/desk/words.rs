//! A verdict in words: the desk console's.

use std::sync::OnceLock;

use crate::checker::Verdict;

use super::reading::read;

/// The parts of a file, by place.
pub const PARTS: [&str; 8] = [
    "formulas",
    "log rows",
    "observers",
    "conditions",
    "obligations",
    "labels",
    "steps",
    "premises",
];

/// A refusal as the C header lists it: what its place counts, empty where there is none, and what
/// is wrong.
pub struct Meaning {
    pub number: u16,
    pub name: String,
    pub counts: String,
    pub wrong: String,
}

/// What is wrong with a step of this rule, where the C header tells a refusal by the rule.
pub struct StepFault {
    pub number: u16,
    pub rule: u16,
    pub wrong: String,
}

const HEADER: &str = include_str!("../../../include/justification.h");

/// The header's list, the first one first.
pub fn refusals() -> &'static [Meaning] {
    static LISTED: OnceLock<Vec<Meaning>> = OnceLock::new();
    LISTED.get_or_init(|| entries("REFUSAL").map(refusal).collect())
}

/// The header's list without 29 and 30, which only an index brings, and 33, which only a night's
/// list does.
pub fn check_refusals() -> impl Iterator<Item = &'static Meaning> + Clone {
    refusals().iter().filter(|refusal| !matches!(refusal.number, 29 | 30 | 33))
}

/// The header's list of refusals that it tells by the rule.
pub fn step_faults() -> &'static [StepFault] {
    static LISTED: OnceLock<Vec<StepFault>> = OnceLock::new();
    LISTED.get_or_init(|| entries("STEP_FAULT").map(step_fault).collect())
}

/// What the header says of this refusal.
pub fn meaning(number: u16) -> &'static Meaning {
    let known = refusals().iter().find(|refusal| refusal.number == number);
    known.expect("the header lists every refusal")
}

/// The number of the refusal that the header calls so.
pub fn number_of(name: &str) -> u16 {
    let known = refusals().iter().find(|refusal| refusal.name == name);
    known.unwrap_or_else(|| panic!("the header lists no {name}")).number
}

/// What the list of this macro gives to it: the first parameter, the second, and the literals of
/// the rest.
type Entry = (u16, &'static str, Vec<String>);

/// The entries of a list, such as `REFUSAL(number, name, counts, meaning)`.
fn entries(name: &'static str) -> impl Iterator<Item = Entry> {
    let (_, list) = HEADER.split_once(&format!("_{name}S({name})")).expect("a list");
    let (list, _) = list.split_once("\n\n").expect("its end");
    list.split(name).filter_map(|entry| entry.strip_prefix('(')).map(|entry| {
        let (number, rest) = entry.split_once(',').expect("a number");
        let (second, rest) = rest.split_once(',').expect("a second parameter");
        (number.parse().expect("a number"), second.trim(), literals(rest))
    })
}

/// `REFUSAL(number, name, counts, meaning)`, the last of one literal or more.
fn refusal((number, name, mut literals): Entry) -> Meaning {
    let counts = literals.remove(0);
    Meaning { number, name: name.to_string(), counts, wrong: literals.concat() }
}

/// `STEP_FAULT(number, rule, meaning)`.
fn step_fault((number, rule, literals): Entry) -> StepFault {
    StepFault { number, rule: rule.parse().expect("a rule"), wrong: literals.concat() }
}

/// The string literals of a piece of C.
fn literals(source: &str) -> Vec<String> {
    let mut found: Vec<String> = Vec::new();
    let (mut inside, mut escaped) = (false, false);
    for letter in source.chars() {
        match (inside, escaped, letter) {
            (true, false, '\\') => escaped = true,
            (_, false, '"') => {
                inside = !inside;
                if inside {
                    found.push(String::new());
                }
            }
            (true, _, _) => {
                found.last_mut().expect("it is open").push(letter);
                escaped = false;
            }
            _ => (),
        }
    }
    found
}

/// The verdict on a file in a sentence, and for a pass one for each entry of the room.
pub fn words(file: &[u8], verdict: Verdict, room: &[u16]) -> Vec<String> {
    match verdict {
        Verdict::Passed { obligations, rows } => passed(obligations as usize, rows as usize, room),
        Verdict::NoneOwed => vec!["This action asks nothing of this agent.".to_string()],
        Verdict::Refused { number, place } => vec![refused(file, number, place)],
    }
}

fn passed(obligations: usize, rows: usize, room: &[u16]) -> Vec<String> {
    let (duties, rest) = room.split_at(obligations);
    let duties = duties.iter().map(|number| format!("Obligation {number} is discharged."));
    let rows = rest[..rows].iter().map(|number| format!("Log row {number} is cited."));
    let proves = "The justification proves what is owed.".to_string();
    [proves].into_iter().chain(duties).chain(rows).collect()
}

fn refused(file: &[u8], number: u16, place: u16) -> String {
    let Meaning { counts, wrong, .. } = meaning(number);
    let wrong = by_rule(file, number, place).unwrap_or(wrong);
    match (counts.as_str(), PARTS.get(place as usize)) {
        ("", _) => wrong.to_string(),
        ("Part", Some(part)) => format!("Part {place} ({part}): {wrong}"),
        _ => format!("{counts} {place}: {wrong}"),
    }
}

/// What the header says of this refusal for the rule of the step at this place. Only where it tells
/// the refusal by the rule is the place taken for a step.
fn by_rule(file: &[u8], number: u16, place: u16) -> Option<&'static String> {
    let rule = || Some(read(file)?.case.steps.get(place as usize)?.rule);
    let mut told = step_faults().iter().filter(|fault| fault.number == number);
    told.find(|fault| rule() == Some(fault.rule)).map(|fault| &fault.wrong)
}
