//! Case files that cost much to check: each brings one check or rule to its worst. Files that are
//! alike but for their size. And files whose logs cost much to index.

use crate::builder::*;
use crate::cases::grant;
use crate::checker::{Term, ABSENT};
use crate::full_size::full_size;
use crate::interned::{AGENTS, DATA};
use crate::random::{row as row_bytes, Row};
use crate::rounds::{Rounds, AGENT};

pub struct Load {
    pub name: &'static str,
    pub case: CaseFile,
}

/// The full-size pass, and the worst cases.
pub fn loads() -> Vec<Load> {
    let load = |name, case| Load { name, case };
    vec![
        load("full size", full_size()),
        load("check 4, one sum", rows_of_one_sum(8, last_fields())),
        load("check 4, one sum, 1/8 size", rows_of_one_sum(1, last_fields())),
        load("check 4, one sum and end", rows_of_one_sum(8, first_fields())),
        load("check 4, sum and end, 1/8 size", rows_of_one_sum(1, first_fields())),
        load("check 5, wide actions", long_actions(wide)),
        load("check 5, deep actions", long_actions(deep)),
        load("check 5, nested actions", long_actions(nested)),
        load("rule 5, wide", owner_walks(wide)),
        load("rule 5, deep", owner_walks(deep)),
        load("rule 5, nested", owner_walks(nested)),
        load("rule 14, wide", for_all_walks(wide)),
        load("rule 14, deep", for_all_walks(deep)),
        load("rule 14, nested", for_all_walks(nested)),
        load("rule 14, a book of for-alls", deep_for_alls()),
        load("rule 14, 32 wide labels open", open_labels(wide)),
        load("rule 14, 32 deep labels open", open_labels(deep)),
        load("rule 14, 32 nested labels open", open_labels(nested)),
        load("rule 5, 24 at the last step", owners_refused(|rounds| rounds.p)),
        load("rule 5, 25 at the last step", owners_refused(|rounds| rounds.pair(1, 1, data(15)))),
        load("rule 15, 26 at the last step", instances_refused()),
        load("rule 5, 27 at the last step", strays_refused()),
        load("rule 4, tautologies", refinements()),
        load("rule 4, 28 at the last step", refinements_refused()),
        load("check 31, 4,096 observers", duties_done(2, 1)),
        load("check 32, 64 rows", duties_done(1, 64)),
    ]
}

// ---- Common parts ----

/// Makes a policy of so many nodes, over one data object.
type Policy = fn(&mut Rounds, usize) -> u16;

/// For-alls around a predicate of one term.
fn deep(rounds: &mut Rounds, nodes: usize) -> u16 {
    let mut policy = rounds.book.add(0, 1, [data(0), ABSENT, ABSENT]).expect("a leaf is small");
    for _ in 1..nodes {
        policy = rounds.book.for_all(AGENTS, policy).expect("up to 64 nodes");
    }
    policy
}

/// Duties, each to communicate the policy below it: deep on the first side, which the walks go down
/// by calls.
fn nested(rounds: &mut Rounds, nodes: usize) -> u16 {
    let leaf = rounds.book.add(0, 1, [data(0), ABSENT, ABSENT]).expect("a leaf is small");
    let mut policy = leaf;
    for _ in 0..(nodes - 1) / 3 {
        let told = rounds.communicates(1, policy, 2);
        policy = rounds.pair(6, told, leaf);
    }
    for _ in 0..(nodes - 1) % 3 {
        policy = rounds.says(1, policy, 2);
    }
    policy
}

/// Conjunctions, whose leaves have three terms each.
fn wide(rounds: &mut Rounds, nodes: usize) -> u16 {
    let half = nodes.saturating_sub(1) / 2;
    match nodes {
        0 | 1 => rounds.book.add(0, 1, [data(0); 3]).expect("a leaf is small"),
        _ if nodes.is_multiple_of(2) => {
            let policy = wide(rounds, nodes - 1);
            rounds.says(1, policy, 2)
        }
        _ => {
            let odd = half + usize::from(half.is_multiple_of(2));
            let (left, right) = (wide(rounds, odd), wide(rounds, nodes - 1 - odd));
            rounds.pair(3, left, right)
        }
    }
}

/// Log rows up to 1,024, with 4,096 observers, and formulas up to 1,024.
fn filled(rounds: Rounds) -> CaseFile {
    filled_to(rounds, 8)
}

/// Log rows and formulas up to so many eighths of the most, and only so many of the entries that
/// are there from the start.
fn filled_to(mut rounds: Rounds, eighths: usize) -> CaseFile {
    let action = rounds.case.action;
    while rounds.case.rows.len() < 128 * eighths {
        rounds.row(action);
    }
    let body = rounds.p;
    rounds.fill_book(body, 128 * eighths);
    let mut case = rounds.finish();
    case.conditions.truncate(8 * eighths);
    case.obligations.truncate(8 * eighths);
    case.labels.truncate(4 * eighths);
    case
}

/// As many rounds from P to P by conditions as so many steps allow.
fn condition_rounds(rounds: &mut Rounds, steps: usize) {
    while rounds.case.steps.len() + 3 <= steps {
        rounds.condition_round(1);
    }
}

// ---- Worst cases ----

/// The sum by which the proved library finds repeated rows (`docs/DECISIONS.md`, 44).
fn sum(row: &Row) -> usize {
    let field = |at: usize| u16::from_le_bytes([row[at], row[at + 1]]) as usize;
    let tags = 859 * row[0] as usize + 758 * row[1] as usize;
    (tags + 708 * field(2) + 764 * field(4) + 466 * field(6)) % 1_021
}

/// Check 4, in so many eighths of the full size: but for three rows, all have one sum.
fn rows_of_one_sum(eighths: usize, rows: impl Iterator<Item = (u8, [u16; 3])>) -> CaseFile {
    let mut rounds = Rounds::new();
    condition_rounds(&mut rounds, 256 * eighths);
    for (code, fields) in rows.filter(|(code, fields)| sum(&row_bytes(0, *code, *fields)) == 0) {
        if rounds.book.rows.len() == 128 * eighths {
            break;
        }
        rounds.book.add(0, code, fields);
    }
    filled_to(rounds, eighths)
}

/// Most differ only in their last two fields.
fn last_fields() -> impl Iterator<Item = (u8, [u16; 3])> {
    (0..).flat_map(|y| (0..*Term::DATA.end()).map(move |z| (0, [AGENT, y, z])))
}

/// All agree in the last 35 bits of the key, so that a walk passes at least so many rows before it
/// parts from the others.
fn first_fields() -> impl Iterator<Item = (u8, [u16; 3])> {
    let terms = (0..*Term::DATA.end()).step_by(8);
    terms.flat_map(|x| (0..=u8::MAX).map(move |code| (code, [x, ABSENT, ABSENT])))
}

/// Check 5: 1,024 log rows, most with an action of 64 nodes of their own, and 4,096 observers.
fn long_actions(policy: Policy) -> CaseFile {
    let mut rounds = Rounds::new();
    condition_rounds(&mut rounds, 2_048);
    let policy = policy(&mut rounds, 63);
    let room = 1_024 - rounds.book.rows.len() as u16;
    let actions: Vec<u16> =
        (0..room).map(|agent| rounds.communicates(agent, policy, AGENT)).collect();
    for action in actions.iter().cycle().take(1_024) {
        rounds.row(*action);
    }
    filled(rounds)
}

/// Rule 5 at every second step, each with a formula of 64 nodes. No step uses them, so the refusal
/// is 20, after all steps.
fn owner_walks(policy: Policy) -> CaseFile {
    let mut rounds = Rounds::new();
    let policy = policy(&mut rounds, 63);
    owner_steps(&mut rounds, policy);
    filled(rounds)
}

/// "Agent says so to 1" of a policy over one data object, at every second step.
fn owner_steps(rounds: &mut Rounds, policy: u16) {
    let said = rounds.says(AGENT, policy, 1);
    let owned = rounds.pair(1, AGENT, data(0));
    let created = rounds.pair(9, AGENT, data(0));
    let row = rounds.row(created);
    while rounds.case.steps.len() + 2 <= 2_048 {
        let seen = rounds.step(SEEN, owned, row, &[]);
        rounds.step(OWNER, said, ABSENT, &[seen]);
    }
}

/// For all and its instance in turn, from the formula that the last step gives, until so many
/// steps are left.
fn for_alls_in_turn(rounds: &mut Rounds, formula: u16, left: usize) {
    let general = rounds.book.for_all(AGENTS, formula).expect("up to 64 nodes");
    while rounds.case.steps.len() + left + 2 <= 2_048 {
        rounds.last = rounds.step(FOR_ALL, general, agent_parameter(31), &[rounds.last]);
        rounds.last = rounds.step(INSTANCE, formula, 5, &[rounds.last]);
    }
}

/// Rules 14 and 15 in turn, over a formula of 64 nodes.
fn for_all_walks(policy: Policy) -> CaseFile {
    let mut rounds = Rounds::new();
    rounds.case.steps.clear();
    let rest = policy(&mut rounds, 61);
    let policy = rounds.pair(3, rounds.p, rest);
    let said = rounds.says(1, policy, AGENT);
    let told = rounds.communicates(1, policy, AGENT);
    let row = rounds.row(told);
    let seen = rounds.step(SEEN, said, row, &[]);
    rounds.last = rounds.step(SAYS, policy, ABSENT, &[seen]);
    for_alls_in_turn(&mut rounds, policy, 1);
    rounds.step(LEFT, rounds.p, ABSENT, &[rounds.last]);
    filled(rounds)
}

/// Rules 14 and 15 in turn, over 63 for-alls around P, in a book whose every second row is a
/// for-all of 64 nodes.
fn deep_for_alls() -> CaseFile {
    let mut rounds = Rounds::new();
    let mut formulas = vec![rounds.p];
    for level in 0..63 {
        let general = rounds.book.for_all(AGENTS, formulas[level]).expect("64 nodes");
        formulas.push(general);
    }
    for general in &formulas[1..63] {
        rounds.last = rounds.step(FOR_ALL, *general, agent_parameter(31), &[rounds.last]);
    }
    for_alls_in_turn(&mut rounds, formulas[62], 62);
    for formula in formulas[..62].iter().rev() {
        rounds.last = rounds.step(INSTANCE, *formula, 5, &[rounds.last]);
    }
    while rounds.book.rows.len() + 2 <= 1_024 {
        let x = rounds.book.rows.len() as u16;
        let said = rounds.says(x, formulas[61], 1);
        rounds.book.for_all(AGENTS, said).expect("64 nodes");
    }
    filled(rounds)
}

/// Rule 14 with all 32 labels open, each a formula of 62 nodes; then they are closed.
fn open_labels(policy: Policy) -> CaseFile {
    let mut rounds = Rounds::new();
    let shared = policy(&mut rounds, 57);
    let mut both = rounds.p;
    for label in 0..32 {
        let rest = rounds.says(label, shared, 2);
        both = rounds.pair(3, rounds.p, rest);
        let formula = rounds.pair(5, rounds.p, both);
        rounds.case.labels[label as usize].1 = formula;
        let supposed = rounds.step(SUPPOSE, formula, label, &[]);
        rounds.last = rounds.step(IMPLIED, both, ABSENT, &[supposed, rounds.last]);
        if label < 31 {
            rounds.last = rounds.step(LEFT, rounds.p, ABSENT, &[rounds.last]);
        }
    }
    for_alls_in_turn(&mut rounds, both, 1 + 4 * 32);
    rounds.last = rounds.step(LEFT, rounds.p, ABSENT, &[rounds.last]);
    for label in 0..32 {
        close_label(&mut rounds, label);
    }
    filled(rounds)
}

/// From P: "label implies P"; the label's formula, as agent 1 tells it; and P.
fn close_label(rounds: &mut Rounds, label: u16) {
    let formula = rounds.case.labels[label as usize].1;
    let implication = rounds.pair(5, formula, rounds.p);
    let said = rounds.says(1, formula, AGENT);
    let told = rounds.communicates(1, formula, AGENT);
    let row = rounds.row(told);
    let closed = rounds.step(IMPLIES_FROM_LABEL, implication, label, &[rounds.last]);
    let seen = rounds.step(SEEN, said, row, &[]);
    let given = rounds.step(SAYS, formula, ABSENT, &[seen]);
    rounds.last = rounds.step(IMPLIED, rounds.p, ABSENT, &[closed, given]);
}

/// Rule 5 with 16 premises, again and again. The last time its last premise is another formula, and
/// is found out after all that come before it.
fn owners_refused(other: fn(&mut Rounds) -> u16) -> CaseFile {
    let mut rounds = Rounds::new();
    let owned: Vec<u16> = (0..16).map(|k| rounds.pair(1, AGENT, data(k))).collect();
    let all = owned[1..].iter().fold(owned[0], |all, one| rounds.pair(3, all, *one));
    let said = rounds.says(AGENT, all, 1);
    for (label, formula) in (0..).zip(owned) {
        rounds.case.labels[label] = (0, formula);
    }
    let other = other(&mut rounds);
    rounds.case.labels[16] = (0, other);
    while rounds.case.steps.len() + 2 * 17 <= 2_048 {
        owner_step(&mut rounds, said, 0..16);
    }
    owner_step(&mut rounds, said, (0..15).chain([16]));
    filled(rounds)
}

/// An owner step from what these labels suppose.
fn owner_step(rounds: &mut Rounds, said: u16, labels: impl Iterator<Item = u16>) {
    let suppose = |label: u16| {
        let formula = rounds.case.labels[label as usize].1;
        rounds.step(SUPPOSE, formula, label, &[])
    };
    let premises: Vec<u16> = labels.map(suppose).collect();
    rounds.step(OWNER, said, ABSENT, &premises);
}

/// Rule 15 at every second step, from a for-all of 64 nodes. The argument of the last one gives
/// another formula, which differs in the innermost leaf only.
fn instances_refused() -> CaseFile {
    let mut rounds = Rounds::new();
    let leaf = rounds.book.add(0, 1, [data(0), ABSENT, ABSENT]).expect("a leaf is small");
    let body = (0..62).fold(leaf, |policy, _| rounds.says(1, policy, 2));
    let general = rounds.book.generalised(body, data(0), || true).expect("64 nodes");
    rounds.case.labels[0] = (0, general);
    while rounds.case.steps.len() + 2 <= 2_048 {
        let supposed = rounds.step(SUPPOSE, general, 0, &[]);
        rounds.step(INSTANCE, body, data(0), &[supposed]);
    }
    let last = rounds.case.steps.last_mut().expect("there are steps");
    last.argument = data(1);
    filled(rounds)
}

/// Rule 5 at every second step, each with a formula of 64 nodes. In the last one 31 leaves hold a
/// data variable each, in their last field; a walk from the left meets the lowest of them last.
fn strays_refused() -> CaseFile {
    let mut rounds = Rounds::new();
    let policy = wide(&mut rounds, 63);
    owner_steps(&mut rounds, policy);
    let fields = [data(0), data(0), data_variable(0)];
    let mut leaf = |code| rounds.book.add(0, code, fields).expect("a leaf is small");
    let leaves: Vec<u16> = (2..33).map(&mut leaf).collect();
    let all = leaves[1..].iter().fold(leaves[0], |all, one| rounds.pair(3, *one, all));
    let general = rounds.book.for_all(DATA, all).expect("62 nodes");
    let told = rounds.says(1, general, 2);
    let said = rounds.says(AGENT, told, 1);
    let last = rounds.case.steps.last_mut().expect("there are steps");
    last.formula = said;
    filled(rounds)
}

/// "Agent says P to 1", as 1 has told the agent: the formula, and the step that gives it.
fn told_to_say(rounds: &mut Rounds) -> (u16, u16) {
    let said = rounds.says(AGENT, rounds.p, 1);
    let (by_1, told) = (rounds.says(1, said, AGENT), rounds.communicates(1, said, AGENT));
    let row = rounds.row(told);
    let seen = rounds.step(SEEN, by_1, row, &[]);
    (said, rounds.step(SAYS, said, ABSENT, &[seen]))
}

/// That formula refined to itself by "P implies P", again and again, until so many steps are left.
/// Gives the last step.
fn refine_steps(rounds: &mut Rounds, (said, given): (u16, u16), left: usize) -> u16 {
    let implication = rounds.pair(5, rounds.p, rounds.p);
    let mut last = given;
    for label in (0..32).cycle() {
        if rounds.case.steps.len() + left + 3 > 2_048 {
            break;
        }
        let supposed = rounds.step(SUPPOSE, rounds.p, label, &[]);
        let shown = rounds.step(IMPLIES_FROM_LABEL, implication, label, &[supposed]);
        last = rounds.step(REFINE, said, ABSENT, &[shown, last]);
    }
    last
}

/// Rule 4 at every third step, each time by a tautology of two steps; P is the left of P and what
/// comes of it.
fn refinements() -> CaseFile {
    let mut rounds = Rounds::new();
    let told = told_to_say(&mut rounds);
    let refined = refine_steps(&mut rounds, told, 2);
    let both = rounds.pair(3, rounds.p, told.0);
    let and = rounds.step(AND, both, ABSENT, &[rounds.last, refined]);
    rounds.step(LEFT, rounds.p, ABSENT, &[and]);
    filled(rounds)
}

/// The same in the second half of the steps. The last refinement is by "P implies P" again, of which
/// P rests on step 0, a condition, by way of the whole first half.
fn refinements_refused() -> CaseFile {
    let mut rounds = Rounds::new();
    while rounds.case.steps.len() + 3 <= 1_024 {
        rounds.label_round(0);
    }
    let told = told_to_say(&mut rounds);
    let refined = refine_steps(&mut rounds, told, 2);
    let implication = rounds.pair(5, rounds.p, rounds.p);
    let shown = rounds.step(IMPLIES_FROM_LABEL, implication, 0, &[rounds.last]);
    rounds.step(REFINE, told.0, ABSENT, &[shown, refined]);
    filled(rounds)
}

/// Checks 31 and 32 where nothing is owed: 64 duties of this mark are expired, and were done by so
/// many rows, which share 4,096 observers. In each the agent comes last.
fn duties_done(mark: u16, rows: u16) -> CaseFile {
    let agent = *Term::AGENTS.end();
    let observers: Vec<u16> = (0..4_096 / rows - 1).chain([agent]).collect();
    let case = CaseFile::new(agent).formula("0 acts", user_action(1, &[0])).audits("0 acts");
    let case = (0..rows).fold(case, |case, _| case.row("0 acts", &observers));
    (0..64).fold(case, |case, duty| case.expired(mark, "0 acts", duty % rows))
}

// ---- Growth ----

/// A pass of so many eighths of the full size. Each eighth has the same mix of formulas, log rows
/// and steps as every other.
pub fn eighths(count: u16) -> CaseFile {
    let mut rounds = Rounds::new();
    for eighth in 0..count {
        add_eighth(&mut rounds, eighth);
    }
    filled_to(rounds, count as usize)
}

fn add_eighth(rounds: &mut Rounds, eighth: u16) {
    let objects = move || (16 * eighth..16 * (eighth + 1)).map(data);
    let demand = rounds.demand(8 * eighth);
    let told = rounds.communicates(1, demand, AGENT);
    for round in 0..8 {
        let first = rounds.case.rows.len() as u16;
        for object in objects() {
            let created = rounds.pair(9, AGENT, object);
            rounds.row(if round < 7 { created } else { told });
        }
        match round {
            7 => (0..8).for_each(|k| rounds.obligation_round(8 * eighth + k, first + k)),
            _ => rounds.owner_round(first, objects()),
        }
    }
    for k in 0..7 {
        rounds.condition_round(8 * eighth + k);
    }
    for k in 0..4 {
        rounds.label_round(4 * eighth + k);
    }
    let outermost = own_for_alls(rounds, eighth);
    rounds.fill_book(outermost, 128 * (eighth as usize + 1));
}

/// 27 for-alls around "P and a certified predicate of this eighth's own", and off again.
fn own_for_alls(rounds: &mut Rounds, eighth: u16) -> u16 {
    let own = rounds.book.add(0, 100 + eighth as u8, [AGENT, ABSENT, ABSENT]);
    let own = own.expect("a leaf is small");
    let condition = 8 * eighth + 7;
    rounds.case.conditions[condition as usize] = own;
    let certified = rounds.step(CONDITION, own, condition, &[]);
    let and = rounds.pair(3, rounds.p, own);
    rounds.last = rounds.step(AND, and, ABSENT, &[rounds.last, certified]);
    let outermost = rounds.for_all_round(and, 27);
    rounds.last = rounds.step(LEFT, rounds.p, ABSENT, &[rounds.last]);
    outermost
}

// ---- Logs for an index ----

/// 1,024 log rows: four observers each, of 64 agents; one observer in all of them; and 4,096
/// observers in one row each, from all over the agents. Agent 0 observes row 0.
pub fn index_loads() -> Vec<Load> {
    let load = |name, observers| Load { name, case: observed(observers) };
    vec![
        load("four observers of 64", four_of_64),
        load("one observer in all rows", |_| vec![0]),
        load("4,096 observers", four_of_4096),
    ]
}

/// Grant, which is agent 0's and cites row 0, with 1,024 log rows that have these observers.
pub fn observed(observers: fn(u16) -> Vec<u16>) -> CaseFile {
    grant().change(|case| {
        let action = case.rows[0].action;
        let row = |number| LogRow { action, observers: observers(number), span: None };
        case.rows = (0..1_024).map(row).collect();
    })
}

/// Neighbouring rows have other observers, and each agent has 64 rows.
fn four_of_64(row: u16) -> Vec<u16> {
    (0..4).map(|k| 16 * k + (row + 5 * k) % 16).collect()
}

/// No two rows share an observer.
fn four_of_4096(row: u16) -> Vec<u16> {
    (0..4).map(|k| 4 * (1_024 * k + row)).collect()
}
