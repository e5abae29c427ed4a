//! The largest justification that passes: every part has all the records it may have, but for one
//! premise, and every obligation and log row is cited. Every obligation is expired, and done.

use crate::builder::*;
use crate::rounds::{Rounds, AGENT};

const DATA: u16 = 16;
const OWNER_ROUNDS: u16 = 63;
/// How deep for-alls are put around P, and taken off again.
const DEPTHS: [usize; 3] = [63, 63, 27];

pub fn full_size() -> CaseFile {
    let mut rounds = Rounds::new();
    set_duties(&mut rounds);
    add_log(&mut rounds);
    for round in 0..OWNER_ROUNDS {
        rounds.owner_round(round * DATA, (0..DATA).map(data));
    }
    for obligation in 0..64 {
        rounds.obligation_round(obligation, OWNER_ROUNDS * DATA + obligation % DATA);
    }
    for condition in 1..64 {
        rounds.condition_round(condition);
    }
    for label in (0..32).chain([0]) {
        rounds.label_round(label);
    }
    for depth in DEPTHS {
        rounds.for_all_round(rounds.p, depth);
    }
    let deepest = (0..rounds.book.rows.len() as u16).find(|row| rounds.book.nodes(*row) == 63);
    rounds.fill_book(deepest.expect("for-alls stand 63 deep"), 1_024);
    rounds.finish()
}

/// The largest file: a premise more, which the last step does not want.
pub fn largest() -> CaseFile {
    full_size().change(|case| {
        let last = case.steps.last_mut().expect("there are steps");
        last.premises.push(0);
    })
}

/// The agent has to create data. Each obligation names a row of its own in which it did; these
/// stand all over the log.
fn set_duties(rounds: &mut Rounds) {
    for number in 0..64 {
        let action = rounds.pair(9, AGENT, data(number % DATA));
        let row = number / DATA * 15 * DATA + number;
        let duty = Obligation { mark: 1, action, due: HOUR - 1, row };
        rounds.case.obligations[number as usize] = duty;
    }
}

/// Rows of data that the agent creates, and then rows of the demands for them as agent 1 tells
/// these.
fn add_log(rounds: &mut Rounds) {
    for row in 0..1_024 {
        let action = match row < OWNER_ROUNDS * DATA {
            true => rounds.pair(9, AGENT, data(row % DATA)),
            false => {
                let demand = rounds.demand(row % DATA);
                rounds.communicates(1, demand, AGENT)
            }
        };
        rounds.row(action);
    }
}
