//! Document 01's examples: the rows of its table, and the desk cases; examples of the numbers that
//! change requests 1 to 3 of document 02 bring; a log that several agents observe, for the index of
//! request 5; and duties with a due hour, of request 6.

use std::fs::{self, DirEntry};
use std::io;
use std::path::Path;

use crate::builder::*;
use crate::checker::{Verdict, ABSENT, HEADER_BYTES};
use crate::misfits::misfits;
use crate::vectors::{read, read_buildings, read_nights, read_throughs};
use crate::vectors::{Building, NightVector, Through, Vector};

/// The entries the program lends.
pub const ROOM: usize = 1_088;

/// Every example, by name.
pub fn examples() -> Vec<Vector> {
    let mut all = admission_rows();
    all.extend(step_rows());
    all.extend(end_rows());
    all.extend(desk_cases());
    all.extend(misfits_at_the_desk());
    all.extend(data_variables_at_the_desk());
    all.extend(refinements_at_the_desk());
    all.push(passed("Shared log", shared_log(), &[], &[1]));
    all.extend(duties_at_the_desk());
    all.extend(bad_hours_at_the_desk());
    all
}

/// The rows of the table for the checks before the steps.
fn admission_rows() -> Vec<Vector> {
    let empty = Vector { file: Vec::new(), ..refused("row 1: empty", grant(), 1, 0) };
    let one_less = (HEADER_BYTES as u16 - 1, grant().pairs()[0].1);
    let first_offset = grant().change(|case| case.header[0] = Some(one_less));
    let row_0_code = grant().change(|case| case.formulas[0].code = 1);
    let row_0_again = grant().formula("created again", creates(0, data(0)));
    let observers = grant().change(|case| case.rows[0].observers = vec![0, 0]);
    let condition = grant().condition("0 owns");
    let obligation = grant().obligation(3, "0 creates");
    let label = grant().label(0, "0 creates");
    let action = grant().audits("0 owns");
    let no_steps = grant().change(|case| case.steps.clear());
    let agent = grant().change(|case| case.agent = 1);
    vec![
        empty,
        refused("row 2: Grant, first offset one less", first_offset, 2, 0),
        refused("row 3: Grant, row 0 code 1", row_0_code, 3, 0),
        refused("row 4: Grant, row 0 again as 5", row_0_again, 4, 5),
        refused("row 5: Grant, observers 0, 0", observers, 5, 0),
        refused("row 6: Grant, condition 1", condition, 6, 0),
        refused("row 7: Grant, an obligation of mark 3", obligation, 7, 0),
        refused("row 8: Grant, label mark 0, formula 0", label, 8, 0),
        refused("row 9: Grant, action 1", action, 9, 0),
        refused("row 10: Grant, no steps, no premises", no_steps, 10, 0),
        refused("row 11: Grant, agent 1", agent, 11, 0),
    ]
}

/// The rows of the table for the checks of a step.
fn step_rows() -> Vec<Vector> {
    let rule = grant().change(|case| case.steps[0].rule = 16);
    let premise = grant().change(|case| case.steps[1].premises = vec![1]);
    let absent = grant().change(|case| case.steps[0].argument = ABSENT);
    let argument = grant().change(|case| case.steps[0].argument = 1);
    let observer = grant().change(|case| case.rows[0].observers = vec![1]);
    let formula = grant().change(|case| case.steps[0].formula = 2);
    vec![
        refused("row 12: Grant, first rule 16", rule, 12, 0),
        refused("row 13: Grant, premise 1", premise, 13, 1),
        refused("row 14: Grant, first argument 65535", absent, 14, 0),
        refused("row 15: Grant, first argument 1", argument, 15, 0),
        refused("row 16: Grant, observer 1", observer, 16, 0),
        refused("row 17: Twice", twice(), 17, 5),
        refused("row 18: Grant, first formula 2", formula, 18, 0),
        refused("row 19: for all by a supposed parameter", generalised(), 19, 1),
    ]
}

/// The rows of the table for the checks after the last step.
fn end_rows() -> Vec<Vector> {
    let doubled = grant().change(|case| case.steps.insert(1, case.steps[0].clone()));
    let seen_alone = grant().change(|case| case.steps.truncate(1));
    let no_room = Vector { room: 0, ..refused("row 23: Grant, room 0", grant(), 23, 1) };
    vec![
        refused("row 20: Grant, seen step doubled", doubled, 20, 1),
        refused("row 21: one step supposing what is owed", supposed(), 21, 0),
        refused("row 22: Grant, seen step alone", seen_alone, 22, 0),
        no_room,
    ]
}

/// The desk cases that are not in the table.
fn desk_cases() -> Vec<Vector> {
    let absent = visit().change(|case| case.conditions = vec![ABSENT]);
    let no_conditions = visit().change(|case| case.conditions.clear());
    let second = twice().obligation(1, "action 3").change(|case| case.steps[5].argument = 1);
    let once = twice().change(|case| {
        case.formulas[2].kind = 7;
        case.obligations[0].mark = 2;
    });
    vec![
        passed("Grant", grant(), &[], &[0]),
        vector("Creator", creator(), Verdict::NoneOwed),
        passed("Visit", visit(), &[], &[0]),
        refused("Visit, condition absent", absent, 14, 2),
        refused("Visit, no conditions", no_conditions, 15, 2),
        passed("Twice, a second obligation", second, &[0, 1], &[0]),
        passed("Twice, kind 7 and mark 2", once, &[0], &[0]),
    ]
}

/// 24, 25 and 26 as the desk meets them; an argument that the rule does not admit stays 18.
fn misfits_at_the_desk() -> Vec<Vector> {
    let swapped = visit().change(|case| case.steps[3].premises = vec![2, 1]);
    let other_modem = any_modem().change(|case| case.steps[2].argument = data(1));
    let no_modem = any_modem().change(|case| case.steps[2].argument = 1);
    vec![
        refused("24: Visit, the reading before the policy", swapped, 24, 3),
        refused("25: Grant, by another than the owner", not_the_owner(), 25, 2),
        refused("25: Visit, what was said to another", said_to_another(), 25, 2),
        passed("Any modem", any_modem(), &[], &[0]),
        refused("26: Any modem, another modem's number", other_modem, 26, 2),
        refused("18: Any modem, the technician's number", no_modem, 18, 2),
    ]
}

/// 27 as the desk meets it: its place is a formula. A "for all" that binds nothing does no harm.
fn data_variables_at_the_desk() -> Vec<Vector> {
    let told_at = |row: &str, name: &str, case: CaseFile| {
        let place = case.number(row);
        refused(name, case, 27, place)
    };
    let of_none = swap_for_any().change(|case| case.formulas[2].fields[2] = ABSENT);
    vec![
        told_at("swap for x", "27: Grant, a swap for any modem", swap_for_any()),
        told_at("x open", "27: Grant, a swap for any modem told of", swap_and_tell()),
        passed("Grant, for all data, of none of them", of_none, &[], &[0]),
    ]
}

/// 28 as the desk meets it; and refinements by tautologies.
fn refinements_at_the_desk() -> Vec<Vector> {
    let by_reading = |case: CaseFile| case.condition("open").step(CONDITION, "open", 0, &[]);
    let by_supposing = |case: CaseFile| case.label(0, "open").step(SUPPOSE, "open", 1, &[]);
    vec![
        passed("Grant, refined", refined_to_open(), &[], &[0]),
        passed("Grant, refined under a duty", refined_under_duty(), &[], &[0]),
        refused("28: Grant, refined by a reading", refined_as_open(by_reading), 28, 6),
        refused("28: Grant, refined by a log row", refined_as_open(told_of_it), 28, 7),
        refused("28: Grant, refined by a duty done", refined_by_duty(), 28, 5),
        refused("28: Grant, refined by supposing", refined_as_open(by_supposing), 28, 6),
    ]
}

/// 31 and 32 as the desk meets them; and duties that were done.
fn duties_at_the_desk() -> Vec<Vector> {
    let not_reported = reported().change(|case| case.obligations[1].row = ABSENT);
    let struck = reported().change(|case| case.rows[1].action = ABSENT);
    let unseen = reported().change(|case| case.rows[2].observers = vec![0]);
    let one_report = reported().change(|case| case.obligations[1].row = 1);
    let once = one_report.clone().change(|case| {
        case.formulas[2].kind = 7;
        case.obligations.iter_mut().for_each(|duty| duty.mark = 2);
    });
    let other_row = visit().formula("1 reports", user_action(3, &[1])).expired(2, "1 reports", 0);
    let creator = || creator().formula("0 reports", user_action(3, &[0]));
    let due = creator().expired(1, "0 reports", ABSENT);
    let done = creator().row("0 reports", &[0]).expired(1, "0 reports", 1);
    vec![
        passed("Twice, a report for each use", reported(), &[0, 1], &[0]),
        refused("31: Twice, a report not made", not_reported, 31, 1),
        refused("31: Twice, a report struck out", struck, 31, 0),
        refused("31: Twice, a report unseen", unseen, 31, 1),
        refused("31: Visit, a row of another action", other_row, 31, 0),
        refused("31: Creator, a report not made", due, 31, 0),
        vector("Creator, a report made", done, Verdict::NoneOwed),
        refused("32: Twice, one report for two uses", one_report, 32, 1),
        passed("Twice, one report for two duties owed once", once, &[0, 1], &[0]),
    ]
}

/// 7 and 9 of hours that are absent; and 7 of a row beyond the log.
fn bad_hours_at_the_desk() -> Vec<Vector> {
    let duty = || grant().formula("0 reports", user_action(3, &[0])).obligation(1, "0 reports");
    let no_due_hour = duty().change(|case| case.obligations[0].due = ABSENT);
    let no_such_row = duty().change(|case| case.obligations[0].row = 1);
    let no_hour = grant().change(|case| case.hour = ABSENT);
    vec![
        refused("7: Grant, a duty without a due hour", no_due_hour, 7, 0),
        refused("7: Grant, a duty done beyond the log", no_such_row, 7, 0),
        refused("9: Grant, no audit hour", no_hour, 9, 0),
    ]
}

/// Agent 0 created data 0 and grants agent 1 its use.
pub fn grant() -> CaseFile {
    granted(created().formula("use", predicate(7, &[1, data(0)])), "use")
}

/// Agent 0 created data 0, and owes nothing for it.
fn creator() -> CaseFile {
    grant().audits("0 creates").change(|case| case.steps.clear())
}

/// What agent 0 created, and owns.
fn created() -> CaseFile {
    CaseFile::new(0).formula("0 creates", creates(0, data(0))).formula("0 owns", owns(0, data(0)))
}

/// Agent 0 grants agent 1 this policy, as the owner of what it created.
fn granted(created: CaseFile, policy: &'static str) -> CaseFile {
    created
        .formula("0 says", says(0, policy, 1))
        .formula("0 communicates", communicates(0, policy, 1))
        .audits("0 communicates")
        .row("0 creates", &[0])
        .step(SEEN, "0 owns", 0, &[])
        .step(OWNER, "0 says", ABSENT, &[0])
}

/// Grant over a log that several agents observe. Agent 0 does not see row 0, and nobody row 3; row 2
/// is struck out.
fn shared_log() -> CaseFile {
    let case = grant()
        .formula("2 creates", creates(2, data(1)))
        .formula("1 reports", user_action(3, &[1]))
        .change(|case| case.rows.clear())
        .row("2 creates", &[2, 3])
        .row("0 creates", &[0, 16_383])
        .row("1 reports", &[0, 3])
        .row("1 reports", &[])
        .row("0 communicates", &[0, 1, 16_383]);
    case.change(|case| {
        case.rows[2].action = ABSENT;
        case.steps[0].argument = 1;
    })
}

/// Agent 1 uses data 0 under a condition.
pub fn visit() -> CaseFile {
    CaseFile::new(1)
        .formula("open", predicate(9, &[data(0)]))
        .formula("use", predicate(7, &[1, data(0)]))
        .formula("use if open", implies("open", "use"))
        .formula("0 communicates", communicates(0, "use if open", 1))
        .formula("0 says", says(0, "use if open", 1))
        .formula("1 uses", user_action(7, &[1, data(0)]))
        .audits("1 uses")
        .row("0 communicates", &[0, 1])
        .condition("open")
        .step(SEEN, "0 says", 0, &[])
        .step(SAYS, "use if open", ABSENT, &[0])
        .step(CONDITION, "open", 0, &[])
        .step(IMPLIED, "use", ABSENT, &[1, 2])
}

/// Agent 0 grants the use of data 0, of which it knows that agent 2 is the owner.
fn not_the_owner() -> CaseFile {
    CaseFile::new(0)
        .formula("2 owns", owns(2, data(0)))
        .formula("2 communicates", communicates(2, "2 owns", 0))
        .formula("2 says", says(2, "2 owns", 0))
        .formula("use", predicate(7, &[1, data(0)]))
        .formula("0 says", says(0, "use", 1))
        .formula("0 communicates", communicates(0, "use", 1))
        .audits("0 communicates")
        .row("2 communicates", &[0, 2])
        .step(SEEN, "2 says", 0, &[])
        .step(SAYS, "2 owns", ABSENT, &[0])
        .step(OWNER, "0 says", ABSENT, &[1])
}

/// Agent 1 uses data 0 and rests on what agent 0 said to agent 2, of which it was told.
fn said_to_another() -> CaseFile {
    CaseFile::new(1)
        .formula("use", predicate(7, &[1, data(0)]))
        .formula("0 says to 2", says(0, "use", 2))
        .formula("0 communicates", communicates(0, "0 says to 2", 1))
        .formula("0 says to 1", says(0, "0 says to 2", 1))
        .formula("1 uses", user_action(7, &[1, data(0)]))
        .audits("1 uses")
        .row("0 communicates", &[0, 1])
        .step(SEEN, "0 says to 1", 0, &[])
        .step(SAYS, "0 says to 2", ABSENT, &[0])
        .step(SAYS, "use", ABSENT, &[1])
}

/// Agent 1 uses data 0 under a policy for all data.
fn any_modem() -> CaseFile {
    CaseFile::new(1)
        .formula("open", predicate(9, &[data(0)]))
        .formula("use", predicate(7, &[1, data(0)]))
        .formula("use if open", implies("open", "use"))
        .formula("x open", predicate(9, &[data_variable(0)]))
        .formula("use x", predicate(7, &[1, data_variable(0)]))
        .formula("use x if open", implies("x open", "use x"))
        .formula("use any if open", for_all_data("use x if open"))
        .formula("0 communicates", communicates(0, "use any if open", 1))
        .formula("0 says", says(0, "use any if open", 1))
        .formula("1 uses", user_action(7, &[1, data(0)]))
        .audits("1 uses")
        .row("0 communicates", &[0, 1])
        .condition("open")
        .step(SEEN, "0 says", 0, &[])
        .step(SAYS, "use any if open", ABSENT, &[0])
        .step(INSTANCE, "use if open", data(0), &[1])
        .step(CONDITION, "open", 0, &[])
        .step(IMPLIED, "use", ABSENT, &[2, 3])
}

/// Agent 0 created data 0 and lets agent 1 swap it for any other.
fn swap_for_any() -> CaseFile {
    let case = created()
        .formula("swap for x", predicate(10, &[1, data(0), data_variable(0)]))
        .formula("swap for any", for_all_data("swap for x"));
    granted(case, "swap for any")
}

/// The same, with its use, and agent 1 may keep any other of which it tells agent 0, each time. The
/// lowest row over x stands inside the action; a walk from the left meets another one first.
fn swap_and_tell() -> CaseFile {
    let case = created()
        .formula("use", predicate(7, &[1, data(0)]))
        .formula("x open", predicate(9, &[data_variable(0)]))
        .formula("1 tells of x", communicates(1, "x open", 0))
        .formula("keep x", predicate(11, &[1, data_variable(0)]))
        .formula("tell of x, then keep it", each_use("1 tells of x", "keep x"))
        .formula("swap for x", predicate(10, &[1, data(0), data_variable(0)]))
        .formula("swap and keep x", and("swap for x", "tell of x, then keep it"))
        .formula("swap and keep any", for_all_data("swap and keep x"))
        .formula("use and swap", and("use", "swap and keep any"));
    granted(case, "use and swap")
}

/// What agent 0 created, and its use by agent 1: at all, while it is open, and once agent 1 has
/// reported it.
fn lent() -> CaseFile {
    created()
        .formula("open", predicate(9, &[data(0)]))
        .formula("use", predicate(7, &[1, data(0)]))
        .formula("use if open", implies("open", "use"))
        .formula("1 reports", user_action(3, &[1]))
        .row("0 creates", &[0])
}

/// Agent 0 grants agent 1 the one policy as the owner, and sends the other, which follows from it by
/// what the last step has shown.
fn refined(case: CaseFile, granted: &'static str, sent: &'static str) -> CaseFile {
    let shown = case.steps.len() as u16 - 1;
    case.formula("0 says granted", says(0, granted, 1))
        .formula("0 says sent", says(0, sent, 1))
        .formula("0 communicates", communicates(0, sent, 1))
        .audits("0 communicates")
        .step(SEEN, "0 owns", 0, &[])
        .step(OWNER, "0 says granted", ABSENT, &[shown + 1])
        .step(REFINE, "0 says sent", ABSENT, &[shown, shown + 2])
}

/// Agent 0 may let agent 1 use data 0, and lets it do so while it is open.
fn refined_to_open() -> CaseFile {
    let case = lent()
        .formula("refinement", implies("use", "use if open"))
        .label(0, "use")
        .label(0, "open")
        .step(SUPPOSE, "use", 0, &[])
        .step(IMPLIES_FROM_LABEL, "use if open", 1, &[0])
        .step(IMPLIES_FROM_LABEL, "refinement", 0, &[1]);
    refined(case, "use", "use if open")
}

/// The same where agent 1 has to report, once for all uses: the duty is met by a label, which is
/// closed again.
fn refined_under_duty() -> CaseFile {
    let case = lent()
        .formula("report, then use", once("1 reports", "use"))
        .formula("report, then use if open", once("1 reports", "use if open"))
        .formula("refinement", implies("report, then use", "report, then use if open"))
        .label(0, "report, then use")
        .label(2, "1 reports")
        .label(0, "open")
        .step(SUPPOSE, "report, then use", 0, &[])
        .step(BY_LABEL, "use", 1, &[0])
        .step(IMPLIES_FROM_LABEL, "use if open", 2, &[1])
        .step(OBLIGES_FROM_LABEL, "report, then use if open", 1, &[2])
        .step(IMPLIES_FROM_LABEL, "refinement", 0, &[3]);
    refined(case, "report, then use", "report, then use if open")
}

/// Agent 0 grants the use of data 0 while it is open, and sends a grant without that, since it is
/// open, as the steps show that are put in.
fn refined_as_open(shown: impl FnOnce(CaseFile) -> CaseFile) -> CaseFile {
    let case = lent()
        .formula("refinement", implies("use if open", "use"))
        .label(0, "use if open")
        .step(SUPPOSE, "use if open", 0, &[]);
    let case = shown(case);
    let open = case.steps.len() as u16 - 1;
    let case = case.step(IMPLIED, "use", ABSENT, &[0, open]).step(
        IMPLIES_FROM_LABEL,
        "refinement",
        0,
        &[open + 1],
    );
    refined(case, "use if open", "use")
}

/// Agent 2 has told agent 0 that data 0 is open.
fn told_of_it(case: CaseFile) -> CaseFile {
    case.formula("2 says open", says(2, "open", 0))
        .formula("2 communicates", communicates(2, "open", 0))
        .row("2 communicates", &[0, 2])
        .step(SEEN, "2 says open", 1, &[])
        .step(SAYS, "open", ABSENT, &[1])
}

/// Agent 0 grants the use of data 0 for a report each time, and sends a grant without that, since
/// agent 1 has reported.
fn refined_by_duty() -> CaseFile {
    let case = lent()
        .formula("report, then use", each_use("1 reports", "use"))
        .formula("refinement", implies("report, then use", "use"))
        .obligation(1, "1 reports")
        .label(0, "report, then use")
        .step(SUPPOSE, "report, then use", 0, &[])
        .step(BY_OBLIGATION, "use", 0, &[0])
        .step(IMPLIES_FROM_LABEL, "refinement", 0, &[1]);
    refined(case, "report, then use", "use")
}

/// Agent 1 uses data 0 under an each-use obligation, which it cites twice.
pub fn twice() -> CaseFile {
    CaseFile::new(1)
        .formula("action 3", user_action(3, &[1]))
        .formula("use", predicate(7, &[1, data(0)]))
        .formula("action 3, then use", each_use("action 3", "use"))
        .formula("0 communicates", communicates(0, "action 3, then use", 1))
        .formula("0 says", says(0, "action 3, then use", 1))
        .formula("1 uses", user_action(7, &[1, data(0)]))
        .formula("use and use", and("use", "use"))
        .audits("1 uses")
        .row("0 communicates", &[0, 1])
        .obligation(1, "action 3")
        .step(SEEN, "0 says", 0, &[])
        .step(SAYS, "action 3, then use", ABSENT, &[0])
        .step(BY_OBLIGATION, "use", 0, &[1])
        .step(SEEN, "0 says", 0, &[])
        .step(SAYS, "action 3, then use", ABSENT, &[3])
        .step(BY_OBLIGATION, "use", 0, &[4])
        .step(AND, "use and use", ABSENT, &[2, 5])
        .step(LEFT, "use", ABSENT, &[6])
}

/// Twice with an obligation for each use. Both were due, and agent 1 did what they ask for in rows 1
/// and 2.
fn reported() -> CaseFile {
    twice()
        .row("action 3", &[0, 1])
        .row("action 3", &[0, 1])
        .change(|case| case.obligations.clear())
        .expired(1, "action 3", 1)
        .expired(1, "action 3", 2)
        .change(|case| case.steps[5].argument = 1)
}

/// "Suppose p(32768), then for all by 32768."
fn generalised() -> CaseFile {
    CaseFile::new(0)
        .formula("p of parameter", predicate(1, &[agent_parameter(0)]))
        .formula("p of variable", predicate(1, &[agent_variable(0)]))
        .formula("p of all", for_all_agents("p of variable"))
        .formula("0 uses", user_action(7, &[0]))
        .audits("0 uses")
        .label(0, "p of parameter")
        .step(SUPPOSE, "p of parameter", 0, &[])
        .step(FOR_ALL, "p of all", agent_parameter(0), &[0])
}

/// "One step supposing what is owed."
fn supposed() -> CaseFile {
    CaseFile::new(0)
        .formula("use", predicate(7, &[0]))
        .formula("0 uses", user_action(7, &[0]))
        .audits("0 uses")
        .label(0, "use")
        .step(SUPPOSE, "use", 0, &[])
}

fn vector(name: &str, case: CaseFile, verdict: Verdict) -> Vector {
    Vector {
        name: name.to_string(),
        file: case.to_bytes(),
        room: ROOM,
        verdict,
        written: Vec::new(),
    }
}

pub fn refused(name: &str, case: CaseFile, number: u16, place: u16) -> Vector {
    vector(name, case, Verdict::Refused { number, place })
}

pub fn passed(name: &str, case: CaseFile, obligations: &[u16], rows: &[u16]) -> Vector {
    let verdict =
        Verdict::Passed { obligations: obligations.len() as u16, rows: rows.len() as u16 };
    Vector { written: [obligations, rows].concat(), ..vector(name, case, verdict) }
}

/// The files of `vectors/` have these names; every other one has vectors of plain checks.
const BUILDINGS: &str = "index-";
const THROUGHS: &str = "through-";
const NIGHTS: &str = "night-";

/// The vectors of each file of plain checks in `vectors/`, with the file's name.
pub fn vector_files() -> Vec<(String, Vec<Vector>)> {
    files_of(|name| ![BUILDINGS, THROUGHS, NIGHTS].iter().any(|kind| name.starts_with(kind)), read)
}

/// The vectors of building an index.
pub fn building_vectors() -> Vec<Building> {
    let files = files_of(|name| name.starts_with(BUILDINGS), read_buildings);
    files.into_iter().flat_map(|(_, vectors)| vectors).collect()
}

/// The vectors of checks through an index.
pub fn through_vectors() -> Vec<Through> {
    let files = files_of(|name| name.starts_with(THROUGHS), read_throughs);
    files.into_iter().flat_map(|(_, vectors)| vectors).collect()
}

/// The vectors of a night's cases.
pub fn night_vectors() -> Vec<NightVector> {
    let files = files_of(|name| name.starts_with(NIGHTS), read_nights);
    files.into_iter().flat_map(|(_, vectors)| vectors).collect()
}

/// What the files of `vectors/` with such a name hold.
fn files_of<T>(
    wanted: fn(&str) -> bool,
    read: fn(&str) -> Option<Vec<T>>,
) -> Vec<(String, Vec<T>)> {
    let folder = Path::new(env!("CARGO_MANIFEST_DIR")).join("vectors");
    let entries = fs::read_dir(&folder).expect("the vectors are there");
    let name = |entry: io::Result<DirEntry>| entry.expect("it is listed").file_name().into_string();
    let names = entries.map(|entry| name(entry).expect("its name is text"));
    let mut names: Vec<String> = names.filter(|name| wanted(name)).collect();
    names.sort();
    let vectors = |name: String| {
        let text = fs::read_to_string(folder.join(&name)).expect("it is text");
        let vectors = read(&text).unwrap_or_else(|| panic!("a line of {name} is no vector"));
        (name, vectors)
    };
    names.into_iter().map(vectors).collect()
}

/// The examples, a case for each misfit, and the vectors.
pub fn examples_and_vectors() -> Vec<Vector> {
    let mut all = examples();
    all.extend(misfits());
    all.extend(vector_files().into_iter().flat_map(|(_, vectors)| vectors));
    all
}
