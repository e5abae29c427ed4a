//! A case for each misfit that the C header tells by the rule of the step.

use crate::builder::*;
use crate::cases::refused;
use crate::checker::ABSENT;
use crate::vectors::Vector;

/// Agent 1 is audited. The formulas are those the rules below need.
fn scene() -> CaseFile {
    CaseFile::new(1)
        .formula("act", user_action(3, &[1]))
        .audits("act")
        .obligation(1, "act")
        .formula("p", predicate(1, &[]))
        .formula("q", predicate(2, &[]))
        .formula("p implies q", implies("p", "q"))
        .formula("all p", for_all_agents("p"))
        .formula("1 says p to 2", says(1, "p", 2))
        .formula("1 says q to 2", says(1, "q", 2))
        .formula("2 says p to 2", says(2, "p", 2))
        .formula("2 owns 0", owns(2, data(0)))
}

/// Each is refused at the step of its rule, which comes after what it supposes.
pub fn misfits() -> Vec<Vector> {
    let wrong = |number, rule, premises: &[&str], argument, formula| {
        let case = scene().step_from(rule, premises, argument, formula);
        refused(&format!("{number} by rule {rule}"), case, number, premises.len() as u16)
    };
    let kind = |rule, premises: &[&str], argument| wrong(24, rule, premises, argument, "q");
    let party = |rule, premises: &[&str], formula| wrong(25, rule, premises, ABSENT, formula);
    let instance =
        |rule, premise, argument, formula| wrong(26, rule, &[premise], argument, formula);
    vec![
        kind(SAYS, &["p"], ABSENT),
        kind(REFINE, &["p", "1 says p to 2"], ABSENT),
        kind(REFINE, &["p implies q", "p"], ABSENT),
        kind(OWNER, &["p"], ABSENT),
        kind(LEFT, &["p"], ABSENT),
        kind(RIGHT, &["p"], ABSENT),
        kind(IMPLIED, &["p", "p"], ABSENT),
        kind(BY_OBLIGATION, &["p"], 0),
        kind(BY_LABEL, &["p"], 0),
        kind(INSTANCE, &["p"], 3),
        party(SAYS, &["1 says p to 2"], "p"),
        party(REFINE, &["p implies q", "2 says p to 2"], "1 says q to 2"),
        party(OWNER, &["2 owns 0"], "1 says p to 2"),
        instance(FOR_ALL, "q", agent_parameter(0), "all p"),
        instance(INSTANCE, "all p", 3, "q"),
    ]
}
