//! Random cases with rows that the agent does not see, and files that are alike to the agent.

use crate::builder::{CaseFile, LogRow, Obligation};
use crate::checker::{admit, owed, Verdict, ABSENT, EACH_USE};
use crate::damages::damage_case;
use crate::justifications::{citing_hidden_rows, failing_duties, others, passing, slipping};
use crate::random::Random;

/// The numbers that a log row may have for its action.
fn row_actions(case: &CaseFile) -> Vec<u16> {
    let mut numbers = vec![ABSENT];
    if let Ok(admitted) = admit(&case.to_bytes()) {
        let book = admitted.book.iter().enumerate();
        let actions = book.filter(|(_, row)| row.is_action() && row.is_ground());
        numbers.extend(actions.map(|(number, _)| number as u16));
    }
    numbers
}

/// The case with one or two more rows that the agent does not see, and every span the one due.
fn with_hidden_rows(case: CaseFile, random: &mut Random) -> CaseFile {
    let actions = row_actions(&case);
    case.change(|case| {
        for _ in 0..=random.below(2) {
            let action = random.pick(&actions);
            let observers = others(random, case.agent).into_iter().collect();
            case.rows.push(LogRow { action, observers, span: None });
        }
        case.rows.iter_mut().for_each(|row| row.span = None);
    })
}

/// A case that is alike to the agent: unseen rows have any action, and one time in 64 a number
/// that is none; every row has other observers, the agent among them where it was before.
fn alike(case: &CaseFile, random: &mut Random) -> CaseFile {
    let actions = row_actions(case);
    case.clone().change(|case| {
        for row in &mut case.rows {
            let seen = row.observers.contains(&case.agent);
            let mut observers = others(random, case.agent);
            if seen {
                observers.insert(case.agent);
            } else if random.one_in(64) {
                row.action = random.below(40) as u16;
            } else {
                row.action = random.pick(&actions);
            }
            row.observers = observers.into_iter().collect();
        }
    })
}

/// Passing cases, cases that cite hidden rows, with duties that were not done, and with other slips;
/// about every second damaged.
pub fn random_case(turn: usize, random: &mut Random) -> CaseFile {
    let mut case = match turn % 9 {
        0..=2 => passing(random),
        3..=5 => citing_hidden_rows(random),
        6 => failing_duties(random),
        _ => slipping(random),
    };
    if turn % 2 == 1 {
        damage_case(&mut case, random);
    }
    with_hidden_rows(case, random)
}

/// The file of such a case, and one that differs in what the agent cannot see.
pub fn random_pair(turn: usize, random: &mut Random) -> [Vec<u8>; 2] {
    let case = random_case(turn, random);
    [case.to_bytes(), alike(&case, random).to_bytes()]
}

/// A case whose duties name rows of every kind, expired or not, and one that differs in what the
/// agent cannot see. About a fourth of them owe nothing.
pub fn pair_with_duties(random: &mut Random) -> [CaseFile; 2] {
    let case = match random.below(4) {
        0 => failing_duties(random),
        1 => owing_nothing(passing(random)),
        _ => passing(random),
    };
    let mut case = with_hidden_rows(case, random);
    for _ in 0..=random.below(3) {
        let duty = naming_a_row(&case, random);
        case.obligations.push(duty);
    }
    let other = alike(&case, random);
    [case, other]
}

/// The case without steps, for an action of its book that owes nothing. Where there is none it is as
/// it was.
fn owing_nothing(case: CaseFile) -> CaseFile {
    let Ok(admitted) = admit(&case.to_bytes()) else { return case };
    let owes = |number: &u16| owed(&admitted.book[*number as usize], admitted.agent).is_some();
    let actions = row_actions(&case).into_iter().filter(|number| *number != ABSENT);
    let Some(action) = actions.into_iter().find(|number| !owes(number)) else { return case };
    case.change(|case| {
        case.action = action;
        case.steps.clear();
    })
}

/// A duty that names any row, and in most cases asks for the action of that row. Of those that were
/// not done one in five is expired, and the row of an each-use one is seldom named by another.
fn naming_a_row(case: &CaseFile, random: &mut Random) -> Obligation {
    let number = random.below(case.rows.len()) as u16;
    let row = &case.rows[number as usize];
    let action = match row.action {
        ABSENT => case.action,
        _ if random.one_in(4) => case.action,
        action => action,
    };
    let done = row.action == action && row.observers.contains(&case.agent);
    let expired = random.one_in(if done { 2 } else { 5 });
    let due = if expired { case.hour.saturating_sub(1) } else { case.hour };
    let taken = case.obligations.iter().any(|duty| duty.mark == EACH_USE && duty.row == number);
    let mark = if random.one_in(if taken { 3 } else { 2 }) { 1 } else { 2 };
    Obligation { mark, action, due, row: number }
}

/// Demand 3 leaves out files refused by 1, 2 or 5.
pub fn is_left_out(verdict: Verdict) -> bool {
    matches!(verdict, Verdict::Refused { number: 1 | 2 | 5, .. })
}
