//! Each of the sixteen rules where it fits, and near misses. Number 0 means that a step holds.
//! With the feature `proved` the proved checker has to say the same.

use conformance::builder::*;
use conformance::checker::{check, Verdict, ABSENT};
use conformance::strays::strays;

const HOLDS: u16 = 0;

/// The number that the last step is refused with by the checks of a step. No case here proves what
/// is owed, so one whose steps all hold falls at 20 to 22.
fn last_step(case: &CaseFile) -> u16 {
    let file = case.to_bytes();
    #[cfg(feature = "proved")]
    conformance::rooms::agreed_in_all_rooms(&file);
    match check(&file, &mut []) {
        Verdict::Refused { number: 20..=22, .. } => HOLDS,
        Verdict::Refused { number: 27, place } => {
            let told = strays(&file).expect("it has a data variable");
            assert_eq!(Some(told.formula), case.steps.last().map(|step| step.formula));
            assert_eq!(told.rows.into_iter().min(), Some(place));
            27
        }
        Verdict::Refused { number, place } => {
            assert_eq!(place as usize + 1, case.steps.len(), "refused {number} {place}");
            number
        }
        verdict => panic!("{verdict}"),
    }
}

/// Agent 1 is audited for "goal". The formulas are those the rules below need.
fn scene() -> CaseFile {
    CaseFile::new(1)
        .formula("goal", user_action(99, &[1]))
        .audits("goal")
        .formula("none gives it", predicate(98, &[]))
        .formula("p", predicate(1, &[]))
        .formula("q", predicate(2, &[]))
        .formula("p and q", and("p", "q"))
        .formula("p implies q", implies("p", "q"))
        .formula("act", user_action(3, &[1]))
        .formula("other act", user_action(4, &[1]))
        .formula("act each use, p", each_use("act", "p"))
        .formula("act once, p", once("act", "p"))
        .formula("1 says p to 2", says(1, "p", 2))
        .formula("1 says q to 2", says(1, "q", 2))
        .formula("1 says q to 3", says(1, "q", 3))
        .formula("2 says p to 1", says(2, "p", 1))
        .formula("2 says p to 2", says(2, "p", 2))
        .formula("2 says q to 2", says(2, "q", 2))
}

/// The number for a step whose premises are supposed.
fn step(case: CaseFile, rule: u16, premises: &[&str], argument: u16, formula: &str) -> u16 {
    last_step(&case.step_from(rule, premises, argument, formula))
}

#[test]
fn suppose() {
    let labelled = || scene().label(0, "p").label(1, "act");
    assert_eq!(step(labelled(), SUPPOSE, &[], 0, "p"), HOLDS);
    assert_eq!(step(labelled(), SUPPOSE, &[], 0, "q"), 18);
    assert_eq!(step(labelled(), SUPPOSE, &[], 1, "p"), 18);
    assert_eq!(step(labelled(), SUPPOSE, &[], 2, "p"), 15);
    assert_eq!(step(labelled(), SUPPOSE, &[], ABSENT, "p"), 14);
    assert_eq!(step(labelled(), SUPPOSE, &[], 0, "act"), 12);
    assert_eq!(step(labelled(), SUPPOSE, &["p"], 0, "p"), 12);
}

#[test]
fn condition() {
    let certified = || scene().condition("p").change(|case| case.conditions.push(ABSENT));
    assert_eq!(step(certified(), CONDITION, &[], 0, "p"), HOLDS);
    assert_eq!(step(certified(), CONDITION, &[], 0, "q"), 18);
    assert_eq!(step(certified(), CONDITION, &[], 1, "p"), 14);
    assert_eq!(step(certified(), CONDITION, &[], 2, "p"), 15);
    assert_eq!(step(certified(), CONDITION, &[], ABSENT, "p"), 14);
}

/// A listed bystander sees a row and concludes nothing; a recipient who is not listed does not see
/// it, and not whether it is struck.
#[test]
fn seen() {
    let logged = || {
        scene()
            .formula("2 tells 1", communicates(2, "p", 1))
            .formula("1 tells 2", communicates(1, "p", 2))
            .formula("2 creates", creates(2, data(0)))
            .formula("2 owns", owns(2, data(0)))
            .row("2 tells 1", &[1])
            .row("1 tells 2", &[1, 2])
            .row("2 creates", &[1])
            .row("act", &[1])
            .row("2 tells 1", &[2])
    };
    assert_eq!(step(logged(), SEEN, &[], 0, "2 says p to 1"), HOLDS);
    assert_eq!(step(logged(), SEEN, &[], 0, "p"), 18);
    assert_eq!(step(logged(), SEEN, &[], 1, "1 says p to 2"), 18);
    assert_eq!(step(logged(), SEEN, &[], 2, "2 owns"), 18);
    assert_eq!(step(logged(), SEEN, &[], 3, "p"), 18);
    assert_eq!(step(logged(), SEEN, &[], 4, "2 says p to 1"), 16);
    assert_eq!(step(logged(), SEEN, &[], 5, "2 says p to 1"), 15);
    let strike = |case: &mut CaseFile| case.rows.iter_mut().for_each(|row| row.action = ABSENT);
    assert_eq!(step(logged().change(strike), SEEN, &[], 0, "2 says p to 1"), 14);
    assert_eq!(step(logged().change(strike), SEEN, &[], 4, "2 says p to 1"), 16);
}

/// The wrong party is the premise's target in rule 3, the source of the second in rule 4. Its own
/// formula with another source, or another target, is a misfit. Both come before 28: the first
/// premise of rule 4 is only supposed here.
#[test]
fn says_and_refine() {
    assert_eq!(step(scene(), SAYS, &["2 says p to 1"], ABSENT, "p"), HOLDS);
    assert_eq!(step(scene(), SAYS, &["2 says p to 2"], ABSENT, "p"), 25);
    assert_eq!(step(scene(), SAYS, &["1 says p to 2"], ABSENT, "p"), 25);
    assert_eq!(step(scene(), SAYS, &["2 says p to 2"], ABSENT, "q"), 25);
    assert_eq!(step(scene(), SAYS, &["2 says p to 1"], ABSENT, "q"), 18);
    assert_eq!(step(scene(), SAYS, &["2 says p to 1"], 0, "p"), 12);
    let refine = |said, formula| step(scene(), REFINE, &["p implies q", said], ABSENT, formula);
    assert_eq!(refine("1 says p to 2", "1 says q to 2"), 28);
    assert_eq!(refine("1 says p to 2", "1 says q to 3"), 18);
    assert_eq!(refine("1 says p to 2", "1 says p to 2"), 18);
    assert_eq!(refine("1 says p to 2", "2 says q to 2"), 18);
    assert_eq!(refine("1 says p to 2", "q"), 18);
    assert_eq!(refine("1 says q to 2", "1 says q to 2"), 18);
    assert_eq!(refine("2 says p to 2", "2 says q to 2"), 25);
    assert_eq!(refine("2 says p to 2", "1 says q to 2"), 25);
    assert_eq!(refine("2 says p to 1", "1 says q to 2"), 25);
    assert_eq!(refine("2 says q to 2", "1 says q to 3"), 25);
    let swapped = ["1 says p to 2", "p implies q"];
    assert_eq!(step(scene(), REFINE, &swapped, ABSENT, "1 says q to 2"), 24);
}

/// Formulas for refinements, and their labels: 0 is p, 1 p once more, 2 q, 3 "act" each use, 4
/// "act" once, 5 what is refined. "p implies p" is proved from label 0 by step 1.
fn refine_scene() -> CaseFile {
    scene()
        .formula("p implies p", implies("p", "p"))
        .formula("q implies p", implies("q", "p"))
        .formula("p implies q implies p", implies("p", "q implies p"))
        .formula("act each use, p implies p", each_use("act", "p implies p"))
        .formula("act once, p implies p", once("act", "p implies p"))
        .formula("1 says q implies p to 2", says(1, "q implies p", 2))
        .formula("2 tells p", communicates(2, "p", 1))
        .formula("2 says p implies p to 1", says(2, "p implies p", 1))
        .formula("2 tells p implies p", communicates(2, "p implies p", 1))
        .formula("2 says so to 1", says(2, "1 says p to 2", 1))
        .formula("2 tells so", communicates(2, "1 says p to 2", 1))
        .formula("act once, 1 says p to 2", once("act", "1 says p to 2"))
        .formula("2 says duty to 1", says(2, "act once, 1 says p to 2", 1))
        .formula("2 tells duty", communicates(2, "act once, 1 says p to 2", 1))
        .row("2 tells p", &[1])
        .row("2 tells p implies p", &[1])
        .row("2 tells so", &[1])
        .row("2 tells duty", &[1])
        .condition("p")
        .obligation(1, "act")
        .obligation(2, "act")
        .label(0, "p")
        .label(0, "p")
        .label(0, "q")
        .label(1, "act")
        .label(2, "act")
        .label(0, "1 says p to 2")
        .step(SUPPOSE, "p", 0, &[])
        .step(IMPLIES_FROM_LABEL, "p implies p", 0, &[0])
}

/// "1 says p to 2", which is supposed, refined to itself by the last step so far.
fn refined(case: CaseFile) -> u16 {
    let last = case.steps.len() as u16 - 1;
    let case = case.step(SUPPOSE, "1 says p to 2", 5, &[]);
    last_step(&case.step(REFINE, "1 says p to 2", ABSENT, &[last, last + 1]))
}

/// What is refined may rest on anything: on a log row, an obligation, a label left open, also the
/// one that the tautology has closed.
#[test]
fn refine_by_a_tautology() {
    assert_eq!(refined(refine_scene()), HOLDS);
    let by_row = refine_scene()
        .step(SEEN, "2 says so to 1", 2, &[])
        .step(SAYS, "1 says p to 2", ABSENT, &[2])
        .step(REFINE, "1 says p to 2", ABSENT, &[1, 3]);
    assert_eq!(last_step(&by_row), HOLDS);
    let by_obligation = refine_scene()
        .step(SEEN, "2 says duty to 1", 3, &[])
        .step(SAYS, "act once, 1 says p to 2", ABSENT, &[2])
        .step(BY_OBLIGATION, "1 says p to 2", 1, &[3])
        .step(REFINE, "1 says p to 2", ABSENT, &[1, 4]);
    assert_eq!(last_step(&by_obligation), HOLDS);
    let one_label = refine_scene()
        .formula("refined implies itself", implies("1 says p to 2", "1 says p to 2"))
        .formula("1 says it to 2", says(1, "1 says p to 2", 2))
        .change(|case| case.steps.clear())
        .label(0, "1 says it to 2")
        .step(SUPPOSE, "1 says p to 2", 5, &[])
        .step(IMPLIES_FROM_LABEL, "refined implies itself", 5, &[0])
        .step(SUPPOSE, "1 says it to 2", 6, &[])
        .step(REFINE, "1 says it to 2", ABSENT, &[1, 2]);
    assert_eq!(last_step(&one_label), HOLDS);
    let condition_put_before = refine_scene()
        .change(|case| case.steps.truncate(1))
        .step(IMPLIES_FROM_LABEL, "q implies p", 2, &[0])
        .step(IMPLIES_FROM_LABEL, "p implies q implies p", 0, &[1])
        .step(SUPPOSE, "1 says p to 2", 5, &[])
        .step(REFINE, "1 says q implies p to 2", ABSENT, &[2, 3]);
    assert_eq!(last_step(&condition_put_before), HOLDS);
}

/// A tautology in the making: nothing is proved yet.
fn unproved() -> CaseFile {
    refine_scene().change(|case| case.steps.clear())
}

#[test]
fn refine_by_what_is_cited() {
    let closed = |case: CaseFile| {
        let last = case.steps.len() as u16 - 1;
        refined(case.step(IMPLIES_FROM_LABEL, "p implies p", 0, &[last]))
    };
    assert_eq!(closed(unproved().step(CONDITION, "p", 0, &[])), 28);
    let told = unproved().step(SEEN, "2 says p to 1", 0, &[]).step(SAYS, "p", ABSENT, &[0]);
    assert_eq!(closed(told), 28);
    let told = unproved().step(SEEN, "2 says p implies p to 1", 1, &[]);
    assert_eq!(refined(told.step(SAYS, "p implies p", ABSENT, &[0])), 28);
    for (demand, label, obligation) in
        [("act each use, p implies p", 3, 0), ("act once, p implies p", 4, 1)]
    {
        let demanded = refine_scene().step(OBLIGES_FROM_LABEL, demand, label, &[1]);
        let met = |rule, entry| refined(demanded.clone().step(rule, "p implies p", entry, &[2]));
        assert_eq!(met(BY_OBLIGATION, obligation), 28);
        assert_eq!(met(BY_LABEL, label), 28);
    }
}

/// A label is told by its number: to close its twin does not close it. One that was closed may be
/// opened again.
#[test]
fn refine_by_what_is_supposed() {
    let supposed = unproved().label(0, "p implies p").step(SUPPOSE, "p implies p", 6, &[]);
    assert_eq!(refined(supposed), 28);
    let closed_by = |label| {
        let supposed = unproved().step(SUPPOSE, "p", 0, &[]);
        refined(supposed.step(IMPLIES_FROM_LABEL, "p implies p", label, &[0]))
    };
    assert_eq!([0, 1].map(closed_by), [HOLDS, 28]);
    let again = |label, closing| {
        let case = refine_scene().step(SUPPOSE, "p", label, &[]);
        let case = case.step(IMPLIED, "p", ABSENT, &[1, 2]);
        refined(case.step(IMPLIES_FROM_LABEL, "p implies p", closing, &[3]))
    };
    assert_eq!([(0, 0), (1, 1)].map(|(label, closing)| again(label, closing)), [HOLDS; 2]);
    assert_eq!([(0, 1), (1, 0)].map(|(label, closing)| again(label, closing)), [28; 2]);
    for (demand, label) in [("act each use, p", 3), ("act once, p", 4)] {
        let met = unproved()
            .formula("demand implies p", implies(demand, "p"))
            .formula("demand implies itself", implies(demand, demand))
            .formula("1 says demand to 2", says(1, demand, 2))
            .label(0, demand)
            .label(0, "1 says demand to 2")
            .step(SUPPOSE, "1 says demand to 2", 7, &[])
            .step(SUPPOSE, demand, 6, &[])
            .step(BY_LABEL, "p", label, &[1]);
        let left_open = met.clone().step(IMPLIES_FROM_LABEL, "demand implies p", 6, &[2]).step(
            REFINE,
            "1 says p to 2",
            ABSENT,
            &[3, 0],
        );
        assert_eq!(last_step(&left_open), 28);
        let closed = met
            .step(OBLIGES_FROM_LABEL, demand, label, &[2])
            .step(IMPLIES_FROM_LABEL, "demand implies itself", 6, &[3])
            .step(REFINE, "1 says demand to 2", ABSENT, &[4, 0]);
        assert_eq!(last_step(&closed), HOLDS);
    }
}

/// What is supposed above the first premise is handed on by every rule: here into a formula beside
/// "p implies p". Rule 12 cites by itself, and is not among them.
#[test]
fn refine_by_what_is_handed_on() {
    let (a, d) = (agent_parameter(0), data(0));
    let scene = || {
        refine_scene()
            .formula("1 owns 0", owns(1, d))
            .formula("of 0", predicate(7, &[d]))
            .formula("1 says 0", says(1, "of 0", 2))
            .formula("all p", for_all_agents("p"))
    };
    let steps: [(u16, &[&str], u16, &'static str); 10] = [
        (SAYS, &["2 says p to 1"], ABSENT, "p"),
        (OWNER, &["1 owns 0"], ABSENT, "1 says 0"),
        (AND, &["p", "q"], ABSENT, "p and q"),
        (LEFT, &["p and q"], ABSENT, "p"),
        (RIGHT, &["p and q"], ABSENT, "q"),
        (IMPLIES_FROM_LABEL, &["q"], 0, "p implies q"),
        (IMPLIED, &["p implies q", "p"], ABSENT, "q"),
        (OBLIGES_FROM_LABEL, &["p"], 4, "act once, p"),
        (FOR_ALL, &["p"], a, "all p"),
        (INSTANCE, &["all p"], 3, "p"),
    ];
    for (rule, premises, argument, formula) in steps {
        let case = scene().formula("both", and("p implies p", formula));
        let case = case.step_from(rule, premises, argument, formula);
        let last = case.steps.len() as u16 - 1;
        let case = case.step(AND, "both", ABSENT, &[1, last]);
        assert_eq!(refined(case.step(LEFT, "p implies p", ABSENT, &[last + 1])), 28, "rule {rule}");
    }
    let case = scene().formula("both", and("p implies p", "act once, p"));
    let case = case.step_from(BY_LABEL, &["act once, p"], 4, "p");
    let last = case.steps.len() as u16 - 1;
    let closed = case
        .step(OBLIGES_FROM_LABEL, "act once, p", 4, &[last])
        .step(AND, "both", ABSENT, &[1, last + 1])
        .step(LEFT, "p implies p", ABSENT, &[last + 2]);
    assert_eq!(refined(closed), 28);
    let within = scene()
        .formula("both", and("p implies p", "1 says p to 2"))
        .step(SUPPOSE, "1 says p to 2", 5, &[])
        .step(REFINE, "1 says p to 2", ABSENT, &[1, 2])
        .step(SUPPOSE, "p", 0, &[])
        .step(IMPLIES_FROM_LABEL, "p implies p", 0, &[4])
        .step(AND, "both", ABSENT, &[5, 3])
        .step(LEFT, "p implies p", ABSENT, &[6]);
    assert_eq!(refined(within), 28);
}

/// 28 is of the refine rule alone, and comes after 17: an each-use label that both premises leave
/// open.
#[test]
fn refine_and_other_rules() {
    assert_eq!(step(scene(), IMPLIED, &["p implies q", "p"], ABSENT, "q"), HOLDS);
    assert_eq!(step(scene(), AND, &["p", "q"], ABSENT, "p and q"), HOLDS);
    let met = |second| {
        let case = unproved()
            .formula("act each use, 1 says p to 2", each_use("act", "1 says p to 2"))
            .label(0, "act each use, p implies p")
            .label(0, "act each use, 1 says p to 2")
            .label(1, "act")
            .step(SUPPOSE, "act each use, p implies p", 6, &[])
            .step(BY_LABEL, "p implies p", 3, &[0])
            .step(SUPPOSE, "act each use, 1 says p to 2", 7, &[])
            .step(BY_LABEL, "1 says p to 2", second, &[2]);
        last_step(&case.step(REFINE, "1 says p to 2", ABSENT, &[1, 3]))
    };
    assert_eq!([3, 8].map(met), [17, 28]);
}

/// Formulas for the owner rule. Data 1 stands inside an action only.
fn owner_scene() -> CaseFile {
    scene()
        .formula("1 owns 0", owns(1, data(0)))
        .formula("1 owns 1", owns(1, data(1)))
        .formula("1 owns p", owns(1, data_parameter(0)))
        .formula("2 owns 0", owns(2, data(0)))
        .formula("of 0 and p", predicate(7, &[data(0), data_parameter(0)]))
        .formula("on 1", user_action(5, &[1, data(1)]))
        .formula("all", each_use("on 1", "of 0 and p"))
        .formula("1 says all", says(1, "all", 2))
        .formula("of 0", predicate(7, &[data(0)]))
        .formula("1 says 0", says(1, "of 0", 2))
        .formula("2 says 0", says(2, "of 0", 2))
        .formula("of 0 and x", predicate(7, &[data(0), data_variable(0)]))
        .formula("for all x", for_all_data("of 0 and x"))
        .formula("1 says x", says(1, "for all x", 2))
        .formula("for no x", for_all_data("of 0"))
        .formula("1 says no x", says(1, "for no x", 2))
}

/// The wrong party is any premise's owner. The step's own formula by another agent is a misfit.
#[test]
fn owner() {
    let owner = |premises: &[&str], formula| step(owner_scene(), OWNER, premises, ABSENT, formula);
    assert_eq!(owner(&["1 owns 0", "1 owns 1", "1 owns p"], "1 says all"), HOLDS);
    assert_eq!(owner(&["1 owns 1", "1 owns 0", "1 owns p"], "1 says all"), 18);
    assert_eq!(owner(&["1 owns 0", "1 owns p"], "1 says all"), 18);
    assert_eq!(owner(&["1 owns 0"], "1 says 0"), HOLDS);
    assert_eq!(owner(&["1 owns 0", "1 owns 0"], "1 says 0"), 18);
    assert_eq!(owner(&["1 owns 0", "1 owns 1"], "1 says 0"), 18);
    assert_eq!(owner(&["2 owns 0"], "1 says 0"), 25);
    assert_eq!(owner(&["2 owns 0"], "2 says 0"), 25);
    assert_eq!(owner(&["1 owns 0", "2 owns 0"], "1 says 0"), 25);
    assert_eq!(owner(&["1 owns 0", "1 owns 1", "2 owns 0"], "1 says all"), 25);
    let mut all_but_the_last = ["1 owns 0"; 16];
    all_but_the_last[15] = "2 owns 0";
    assert_eq!(owner(&all_but_the_last, "1 says 0"), 25);
    assert_eq!(owner(&["1 owns 0"], "2 says 0"), 18);
    assert_eq!(owner(&["1 owns 0"], "of 0"), 18);
    assert_eq!(owner(&["1 owns 0"], "1 says x"), 27);
    assert_eq!(owner(&["1 owns 0"], "1 says no x"), HOLDS);
    assert_eq!(owner(&["1 owns 0"], "1 says p to 2"), 18);
    assert_eq!(owner(&[], "1 says p to 2"), 12);
    assert_eq!(owner(&["1 owns 0"; 16], "1 says 0"), 18);
    assert_eq!(owner(&["1 owns 0"; 17], "1 says 0"), 12);
}

/// "1 says" this body, for all agents and all data, by rule 5 from "1 owns 0". In the body data
/// variable 0 and agent variable 1 are bound.
fn owner_of_all(case: CaseFile, body: &'static str) -> CaseFile {
    case.formula("1 owns 0", owns(1, data(0)))
        .formula("for all data", for_all_data(body))
        .formula("for all", for_all_agents("for all data"))
        .formula("1 says for all", says(1, "for all", 2))
        .step_from(OWNER, &["1 owns 0"], ABSENT, "1 says for all")
}

/// The name of the row that 27 tells.
fn stray_row(case: CaseFile, body: &'static str) -> &'static str {
    let case = owner_of_all(case, body);
    assert_eq!(last_step(&case), 27);
    match check(&case.to_bytes(), &mut []) {
        Verdict::Refused { place, .. } => case.names[place as usize],
        verdict => panic!("{verdict}"),
    }
}

/// Every field of every kind of row that may hold a data variable, inside actions too.
#[test]
fn data_variable_in_each_field() {
    let (x, y) = (data_variable(0), agent_variable(1));
    let policies = || {
        [
            predicate(7, &[x]),
            predicate(7, &[data(0), x]),
            predicate(7, &[y, data(0), x]),
            predicate(7, &[x, x, x]),
            owns(1, x),
            owns(y, x),
        ]
    };
    let actions = || [creates(1, x), user_action(5, &[1, x]), user_action(5, &[y, data(0), x])];
    for row in policies() {
        assert_eq!(stray_row(scene().formula("row", row), "row"), "row");
    }
    for row in policies() {
        let told = scene().formula("row", row).formula("1 tells", communicates(1, "row", y));
        let duty = told.formula("duty", once("1 tells", "p"));
        assert_eq!(stray_row(duty, "duty"), "row");
    }
    for duty in [each_use, once] {
        for row in actions() {
            let case = scene().formula("row", row).formula("duty", duty("row", "p"));
            assert_eq!(stray_row(case, "duty"), "row");
        }
    }
}

/// Of several rows the lowest is told, wherever it stands in the formula. Rows that the formula does
/// not have in it, and rows with other terms only, are passed over.
#[test]
fn lowest_row_with_a_data_variable() {
    let x = data_variable(0);
    let rows = || {
        scene()
            .formula("elsewhere", predicate(6, &[x]))
            .formula("of agents", predicate(7, &[agent_variable(1), data(0), data_parameter(0)]))
            .formula("low", predicate(8, &[x]))
            .formula("low act", user_action(8, &[1, x]))
            .formula("high", predicate(9, &[x]))
            .formula("high act", user_action(9, &[1, x]))
            .formula("1 tells low", communicates(1, "low", 2))
    };
    let told = |body| stray_row(rows().formula("body", body), "body");
    assert_eq!(told(and("low", "high")), "low");
    assert_eq!(told(and("high", "low")), "low");
    assert_eq!(told(and("high", "high")), "high");
    assert_eq!(told(implies("high", "low")), "low");
    assert_eq!(told(implies("of agents", "high")), "high");
    assert_eq!(told(and("high", "of agents")), "high");
    assert_eq!(told(each_use("low act", "high")), "low act");
    assert_eq!(told(each_use("high act", "low")), "low");
    assert_eq!(told(once("high act", "p")), "high act");
    assert_eq!(told(once("1 tells low", "high")), "low");
    assert_eq!(told(says(2, "high", 3)), "high");
    let apart = rows().formula("far", and("p", "high")).formula("near", says(2, "low", 3));
    assert_eq!(stray_row(apart.formula("body", implies("far", "near")), "body"), "low");
    let agents = rows().formula("all agents", predicate(7, &[agent_variable(1), data(0)]));
    assert_eq!(last_step(&owner_of_all(agents, "all agents")), HOLDS);
}

/// The variable of the outermost of eight for-alls has number 7: a data variable is told, and the
/// agent variable of the number before data variable 0 is not.
#[test]
fn variables_of_the_highest_number() {
    const DEPTHS: [&str; 7] = ["1", "2", "3", "4", "5", "6", "7"];
    let under = |row: Sketch, for_all: fn(&'static str) -> Sketch| {
        let mut case = owner_scene().formula("row", row);
        let mut body = "row";
        for depth in DEPTHS {
            case = case.formula(depth, for_all(body));
            body = depth;
        }
        let case =
            case.formula("eight", for_all(body)).formula("1 says eight", says(1, "eight", 2));
        step(case, OWNER, &["1 owns 0"], ABSENT, "1 says eight")
    };
    assert_eq!(under(predicate(7, &[data(0), data_variable(7)]), for_all_data), 27);
    assert_eq!(under(predicate(7, &[data(0), agent_variable(7)]), for_all_agents), HOLDS);
}

/// 27 is of the owner rule alone, and of its own formula, whatever that is; it comes before the
/// other misfits, and after the checks of a step's shape and uses.
#[test]
fn data_variables_and_other_faults() {
    let owner = |premises: &[&str], formula| {
        let case = owner_scene()
            .formula("2 says x", says(2, "for all x", 1))
            .formula("x implies p", implies("for all x", "p"));
        step(case, OWNER, premises, ABSENT, formula)
    };
    for formula in ["1 says x", "2 says x", "for all x", "x implies p"] {
        for premise in ["1 owns 0", "1 owns 1", "2 owns 0", "p", "for all x"] {
            assert_eq!(owner(&[premise], formula), 27);
        }
    }
    assert_eq!(owner(&["for all x"], "1 says 0"), 24);
    assert_eq!(owner(&["1 owns 0"], "of 0 and x"), 12);
    assert_eq!(owner(&[], "1 says x"), 12);
    assert_eq!(owner(&["1 owns 0"; 17], "1 says x"), 12);
    for second in [1, 2] {
        let met = met_twice(1, "act each use, p", second)
            .formula("of x", predicate(7, &[data_variable(0)]))
            .formula("for all x", for_all_data("of x"))
            .step(OWNER, "for all x", ABSENT, &[1, 3]);
        assert_eq!(last_step(&met), if second == 1 { 17 } else { 27 });
    }
    for rule in [SAYS, LEFT, RIGHT] {
        assert_eq!(step(owner_scene(), rule, &["p"], ABSENT, "1 says x"), 24);
    }
    let labelled = owner_scene().label(0, "1 says x");
    assert_eq!(step(labelled, SUPPOSE, &[], 0, "1 says x"), HOLDS);
}

#[test]
fn and_implies() {
    assert_eq!(step(scene(), AND, &["p", "q"], ABSENT, "p and q"), HOLDS);
    assert_eq!(step(scene(), AND, &["q", "p"], ABSENT, "p and q"), 18);
    assert_eq!(step(scene(), LEFT, &["p and q"], ABSENT, "p"), HOLDS);
    assert_eq!(step(scene(), LEFT, &["p and q"], ABSENT, "q"), 18);
    assert_eq!(step(scene(), RIGHT, &["p and q"], ABSENT, "q"), HOLDS);
    assert_eq!(step(scene(), RIGHT, &["p and q"], ABSENT, "p"), 18);
    assert_eq!(step(scene(), LEFT, &["p implies q"], ABSENT, "p"), 24);
    assert_eq!(step(scene(), IMPLIED, &["p implies q", "p"], ABSENT, "q"), HOLDS);
    assert_eq!(step(scene(), IMPLIED, &["p", "p implies q"], ABSENT, "q"), 24);
    assert_eq!(step(scene(), IMPLIED, &["p implies q", "q"], ABSENT, "q"), 18);
    let labelled = || scene().label(0, "p").label(1, "act");
    let implies =
        |premise, label| step(labelled(), IMPLIES_FROM_LABEL, &[premise], label, "p implies q");
    assert_eq!(implies("q", 0), HOLDS);
    assert_eq!(implies("p", 0), 18);
    assert_eq!(implies("q", 1), 18);
    assert_eq!(implies("q", 2), 18);
    assert_eq!(implies("q", 3), 15);
}

#[test]
fn obligations() {
    let labelled = || scene().label(0, "p").label(1, "act").label(2, "act").label(1, "other act");
    let obliges = |label, formula| step(labelled(), OBLIGES_FROM_LABEL, &["p"], label, formula);
    assert_eq!([0, 1, 2, 3].map(|label| obliges(label, "act each use, p")), [18, HOLDS, 18, 18]);
    assert_eq!([0, 1, 2, 3].map(|label| obliges(label, "act once, p")), [18, 18, HOLDS, 18]);
    let by_label = |premise, label| step(labelled(), BY_LABEL, &[premise], label, "p");
    assert_eq!([0, 1, 2, 3].map(|label| by_label("act each use, p", label)), [18, HOLDS, 18, 18]);
    assert_eq!([0, 1, 2, 3].map(|label| by_label("act once, p", label)), [18, 18, HOLDS, 18]);
    let owing = || scene().obligation(1, "act").obligation(2, "act").obligation(1, "other act");
    let by_row = |premise, row| step(owing(), BY_OBLIGATION, &[premise], row, "p");
    assert_eq!([0, 1, 2, 3].map(|row| by_row("act each use, p", row)), [HOLDS, 18, 18, 15]);
    assert_eq!([0, 1, 2, 3].map(|row| by_row("act once, p", row)), [18, HOLDS, 18, 15]);
    assert_eq!(step(owing(), BY_OBLIGATION, &["act once, p"], 1, "q"), 18);
}

/// The demand met twice, by labels of this mark: first by label 1, then by label 1 or 2.
fn met_twice(mark: u16, demand: &'static str, second: u16) -> CaseFile {
    scene()
        .formula("p and p", and("p", "p"))
        .formula("demand and demand", and(demand, demand))
        .label(0, demand)
        .label(mark, "act")
        .label(mark, "act")
        .step(SUPPOSE, demand, 0, &[])
        .step(BY_LABEL, "p", 1, &[0])
        .step(SUPPOSE, demand, 0, &[])
        .step(BY_LABEL, "p", second, &[2])
}

/// A demand within a demand, met by labels of this mark: first by label 1, then by label 1 or 2.
fn nested(mark: u16, second: u16) -> CaseFile {
    let (inner, outer) = match mark {
        1 => ("act each use, p", each_use("act", "act each use, p")),
        _ => ("act once, p", once("act", "act once, p")),
    };
    scene()
        .formula("outer", outer)
        .label(0, "outer")
        .label(mark, "act")
        .label(mark, "act")
        .step(SUPPOSE, "outer", 0, &[])
        .step(BY_LABEL, inner, 1, &[0])
        .step(BY_LABEL, "p", second, &[1])
}

/// Twin labels are two; a label met once for all uses may stand open in two premises; a closed
/// label is open no longer; and 17 comes before a misfit.
#[test]
fn each_use_labels() {
    let joined = |mark, demand, second, formula| {
        last_step(&met_twice(mark, demand, second).step(AND, formula, ABSENT, &[1, 3]))
    };
    assert_eq!(joined(1, "act each use, p", 1, "p and p"), 17);
    assert_eq!(joined(1, "act each use, p", 1, "p"), 17);
    assert_eq!(joined(1, "act each use, p", 2, "p and p"), HOLDS);
    assert_eq!(joined(2, "act once, p", 1, "p and p"), HOLDS);
    let closed = met_twice(1, "act each use, p", 1)
        .step(OBLIGES_FROM_LABEL, "act each use, p", 1, &[1])
        .step(OBLIGES_FROM_LABEL, "act each use, p", 1, &[3])
        .step(AND, "demand and demand", ABSENT, &[4, 5]);
    assert_eq!(last_step(&closed), HOLDS);
    assert_eq!(last_step(&nested(1, 1)), 17);
    assert_eq!(last_step(&nested(1, 2)), HOLDS);
    assert_eq!(last_step(&nested(2, 1)), HOLDS);
}

/// An each-use label open in any two premises of a rule, whether or not the rule would fit.
#[test]
fn each_use_label_in_two_premises() {
    for (rule, formula) in
        [(REFINE, "1 says p to 2"), (OWNER, "1 says p to 2"), (AND, "p and p"), (IMPLIED, "p")]
    {
        let joined = |second| {
            last_step(&met_twice(1, "act each use, p", second).step(rule, formula, ABSENT, &[1, 3]))
        };
        let fits = if rule == AND { HOLDS } else { 24 };
        assert_eq!([1, 2].map(joined), [17, fits]);
    }
    let between = |second| {
        let met = met_twice(1, "act each use, p", second).step(SUPPOSE, "act each use, p", 0, &[]);
        last_step(&met.step(OWNER, "1 says p to 2", ABSENT, &[1, 4, 3]))
    };
    assert_eq!([1, 2].map(between), [17, 24]);
}

/// Formulas for the rules of for-all: "r" of two agents, "s" of a data object.
fn for_all_scene() -> CaseFile {
    let (a, x) = (agent_parameter(0), agent_variable(0));
    scene()
        .formula("r a a", predicate(5, &[a, a]))
        .formula("r x x", predicate(5, &[x, x]))
        .formula("r x a", predicate(5, &[x, a]))
        .formula("r 3 3", predicate(5, &[3, 3]))
        .formula("r 3 4", predicate(5, &[3, 4]))
        .formula("all r x x", for_all_agents("r x x"))
        .formula("all r x a", for_all_agents("r x a"))
        .formula("all p", for_all_agents("p"))
        .formula("r y x", predicate(5, &[agent_variable(1), x]))
        .formula("some y", for_all_agents("r y x"))
        .formula("all y", for_all_agents("some y"))
        .formula("r 3 x", predicate(5, &[3, x]))
        .formula("all r 3 x", for_all_agents("r 3 x"))
        .formula("r a implies r a", implies("r a a", "r a a"))
        .formula("r x implies r x", implies("r x x", "r x x"))
        .formula("all r implies r", for_all_agents("r x implies r x"))
        .formula("s 0", predicate(6, &[data(0)]))
        .formula("s 1", predicate(6, &[data(1)]))
        .formula("s d", predicate(6, &[data_parameter(0)]))
        .formula("s x", predicate(6, &[data_variable(0)]))
        .formula("all s", for_all_data("s x"))
}

/// Numbers next to the ranges of terms, which are none, and one far from them.
const NO_TERMS: [u16; 4] = [32_832, 40_959, 40_976, 65_534];

#[test]
fn instance() {
    let instance =
        |premise, argument, formula| step(for_all_scene(), INSTANCE, &[premise], argument, formula);
    assert_eq!(instance("all r x x", 3, "r 3 3"), HOLDS);
    assert_eq!(instance("all r x x", 3, "r 3 4"), 26);
    assert_eq!(instance("all r x x", 4, "r 3 3"), 26);
    assert_eq!(instance("all r x x", agent_parameter(0), "r 3 3"), 26);
    assert_eq!(instance("all r x x", 3, "p"), 26);
    assert_eq!(instance("all r x x", 3, "all r x x"), 26);
    assert_eq!(instance("all r x x", agent_parameter(0), "r a a"), HOLDS);
    assert_eq!(instance("all r x a", agent_parameter(0), "r a a"), HOLDS);
    assert_eq!(instance("all y", 3, "all r 3 x"), HOLDS);
    assert_eq!(instance("all y", 3, "all r x x"), 26);
    assert_eq!(instance("all p", 3, "p"), HOLDS);
    assert_eq!(instance("all p", 3, "q"), 26);
    assert_eq!(instance("all s", data(0), "s 0"), HOLDS);
    assert_eq!(instance("all s", data(0), "s 1"), 26);
    assert_eq!(instance("all s", data_parameter(0), "s d"), HOLDS);
    assert_eq!(instance("all s", data_parameter(1), "s d"), 26);
    assert_eq!(instance("all p", ABSENT, "p"), 14);
}

/// Of another sort, a variable or no term: 18, whether the bodies agree or not.
#[test]
fn instance_by_an_argument_not_admitted() {
    let instance =
        |premise, argument, formula| step(for_all_scene(), INSTANCE, &[premise], argument, formula);
    let variables = [agent_variable(0), agent_variable(7), data_variable(0), data_variable(7)];
    for argument in [data(0), data_parameter(0)].into_iter().chain(variables).chain(NO_TERMS) {
        assert_eq!(instance("all p", argument, "p"), 18);
        assert_eq!(instance("all r x x", argument, "r 3 4"), 18);
        assert_eq!(instance("p and q", argument, "r 3 4"), 24);
    }
    for argument in [3, agent_parameter(0)].into_iter().chain(variables).chain(NO_TERMS) {
        assert_eq!(instance("all s", argument, "s 0"), 18);
    }
}

/// A condition, and a for-all step from it.
fn for_all_from(premise: &str, argument: u16, formula: &str) -> u16 {
    let given = for_all_scene().condition(premise).step(CONDITION, premise, 0, &[]);
    last_step(&given.step(FOR_ALL, formula, argument, &[0]))
}

#[test]
fn for_all() {
    let a = agent_parameter(0);
    assert_eq!(for_all_from("p", a, "all p"), HOLDS);
    assert_eq!(for_all_from("q", a, "all p"), 26);
    assert_eq!(for_all_from("r 3 3", a, "all r x x"), 26);
    assert_eq!(for_all_from("p", a, "p"), 18);
    assert_eq!(for_all_from("p", a, "q"), 18);
    assert_eq!(for_all_from("p", a, "p and q"), 18);
    assert_eq!(for_all_from("s 0", data_parameter(0), "all s"), 26);
    assert_eq!(for_all_from("p", ABSENT, "all p"), 14);
}

/// No parameter, or one of the other sort: 18, whether the bodies agree or not.
#[test]
fn for_all_by_an_argument_not_admitted() {
    let variables = [agent_variable(0), data_variable(0)];
    let others = [3, data(0), data_parameter(0)].into_iter().chain(variables).chain(NO_TERMS);
    for argument in others {
        assert_eq!(for_all_from("p", argument, "all p"), 18);
        assert_eq!(for_all_from("r 3 3", argument, "all r x x"), 18);
        assert_eq!(for_all_from("q", argument, "all p"), 18);
    }
    assert_eq!(for_all_from("s 0", agent_parameter(0), "all s"), 18);
    assert_eq!(for_all_from("s 0", data(0), "all s"), 18);
}

/// The parameter may stand in a label that is closed by then, in none that is open, and not in
/// the formula; a wrong instance and a misfit come before that.
#[test]
fn fresh_parameters() {
    let a = agent_parameter(0);
    let supposed = for_all_scene().label(0, "r a a").step(SUPPOSE, "r a a", 0, &[]);
    let open = supposed.clone().step(FOR_ALL, "all r x x", a, &[0]);
    assert_eq!(last_step(&open), 19);
    for (formula, argument) in
        [("all p", a), ("all r x x", agent_parameter(1)), ("all r x a", agent_parameter(1))]
    {
        let other = supposed.clone().step(FOR_ALL, formula, argument, &[0]);
        assert_eq!(last_step(&other), 26);
    }
    let no_for_all = supposed.clone().step(FOR_ALL, "r a a", a, &[0]);
    assert_eq!(last_step(&no_for_all), 18);
    let closed = supposed.step(IMPLIES_FROM_LABEL, "r a implies r a", 0, &[0]);
    let fresh = closed.step(FOR_ALL, "all r implies r", a, &[1]);
    assert_eq!(last_step(&fresh), HOLDS);
    let all = for_all_scene().label(0, "all r x x").step(SUPPOSE, "all r x x", 0, &[]);
    let instance = all.step(INSTANCE, "r a a", a, &[0]);
    assert_eq!(last_step(&instance.clone().step(FOR_ALL, "all r x x", a, &[1])), HOLDS);
    assert_eq!(last_step(&instance.step(FOR_ALL, "all r x a", a, &[1])), 19);
}

/// A formula of each policy kind, none of which gives another by a rule below.
const KINDS: [(&str, u8); 8] = [
    ("r 3 4", 0),
    ("1 owns 0", 1),
    ("2 says p to 1", 2),
    ("p and q", 3),
    ("all r x x", 4),
    ("p implies q", 5),
    ("act each use, p", 6),
    ("act once, p", 7),
];

const ANY: [u8; 8] = [0, 1, 2, 3, 4, 5, 6, 7];

/// A step whose premise at one place is of each kind in turn, and whose formula no rule gives: 24
/// for the kinds that are not asked for, and the number due for the others.
fn assert_kinds(
    (rule, argument): (u16, u16),
    premises: &[&str],
    place: usize,
    asked: &[u8],
    due: u16,
) {
    for (formula, kind) in KINDS {
        let mut premises = premises.to_vec();
        premises[place] = formula;
        let case = for_all_scene()
            .formula("1 owns 0", owns(1, data(0)))
            .obligation(1, "act")
            .label(1, "act");
        let number = step(case, rule, &premises, argument, "none gives it");
        let expected = if asked.contains(&kind) { due } else { 24 };
        assert_eq!(number, expected, "rule {rule}, kind {kind}");
    }
}

#[test]
fn premise_kinds() {
    assert_kinds((SAYS, ABSENT), &[""], 0, &[2], 18);
    assert_kinds((REFINE, ABSENT), &["", "1 says p to 2"], 0, &[5], 18);
    assert_kinds((REFINE, ABSENT), &["p implies q", ""], 1, &[2], 25);
    assert_kinds((OWNER, ABSENT), &[""], 0, &[1], 18);
    assert_kinds((OWNER, ABSENT), &["1 owns 0", "1 owns 0", ""], 2, &[1], 18);
    assert_kinds((OWNER, ABSENT), &["1 owns 0", "", "1 owns 0"], 1, &[1], 18);
    assert_kinds((AND, ABSENT), &["", "q"], 0, &ANY, 18);
    assert_kinds((AND, ABSENT), &["p", ""], 1, &ANY, 18);
    assert_kinds((LEFT, ABSENT), &[""], 0, &[3], 18);
    assert_kinds((RIGHT, ABSENT), &[""], 0, &[3], 18);
    assert_kinds((IMPLIES_FROM_LABEL, 1), &[""], 0, &ANY, 18);
    assert_kinds((IMPLIED, ABSENT), &["", "p"], 0, &[5], 18);
    assert_kinds((IMPLIED, ABSENT), &["p implies q", ""], 1, &ANY, 18);
    assert_kinds((OBLIGES_FROM_LABEL, 0), &[""], 0, &ANY, 18);
    assert_kinds((BY_OBLIGATION, 0), &[""], 0, &[6, 7], 18);
    assert_kinds((BY_LABEL, 0), &[""], 0, &[6, 7], 18);
    assert_kinds((FOR_ALL, agent_parameter(0)), &[""], 0, &ANY, 18);
    assert_kinds((INSTANCE, 3), &[""], 0, &[4], 26);
    for (formula, _) in KINDS {
        let case = for_all_scene().formula("1 owns 0", owns(1, data(0)));
        assert_eq!(step(case, FOR_ALL, &[formula], agent_parameter(1), "all p"), 26);
    }
}

/// The other of kinds 6 and 7 is no wrong kind, whatever else is at fault.
#[test]
fn marks_that_do_not_match() {
    let given = || scene().obligation(1, "act").label(2, "act").label(0, "p");
    assert_eq!(step(given(), BY_OBLIGATION, &["act once, p"], 0, "p"), 18);
    assert_eq!(step(given(), BY_OBLIGATION, &["act once, p"], 0, "q"), 18);
    assert_eq!(step(given(), BY_LABEL, &["act each use, p"], 0, "p"), 18);
    assert_eq!(step(given(), BY_LABEL, &["act each use, p"], 1, "p"), 18);
    assert_eq!(step(given(), BY_OBLIGATION, &["p"], 0, "p"), 24);
    assert_eq!(step(given(), BY_LABEL, &["p"], 1, "p"), 24);
}

/// Of several faults the first in the order of the checks is told: 17, 24, 25, 26, 18. Those with a
/// data variable or a refinement are above.
#[test]
fn several_faults() {
    let at = |rule, premises: &[&str], argument, formula| {
        step(owner_scene(), rule, premises, argument, formula)
    };
    // A wrong kind beside a wrong party, before and after it.
    assert_eq!(at(OWNER, &["2 owns 0", "p"], ABSENT, "1 says 0"), 24);
    assert_eq!(at(OWNER, &["p", "2 owns 0"], ABSENT, "1 says 0"), 24);
    assert_eq!(at(REFINE, &["p", "2 says p to 2"], ABSENT, "1 says q to 2"), 24);
    // A wrong kind or party, and a formula that the rule would not give either.
    assert_eq!(at(SAYS, &["p"], ABSENT, "q"), 24);
    assert_eq!(at(OWNER, &["2 owns 0"], ABSENT, "of 0"), 25);
    assert_eq!(at(OWNER, &["1 owns 1", "2 owns 0"], ABSENT, "1 says 0"), 25);
    assert_eq!(at(REFINE, &["p implies q", "2 says q to 2"], ABSENT, "q"), 25);
    // An each-use label open twice, and premises of a wrong kind.
    let twice = met_twice(1, "act each use, p", 1).step(REFINE, "p", ABSENT, &[1, 3]);
    assert_eq!(last_step(&twice), 17);
    // An obligation cited a second time, for a premise of a wrong kind.
    let cited = scene()
        .obligation(1, "act")
        .label(0, "act each use, p")
        .step(SUPPOSE, "act each use, p", 0, &[])
        .step(BY_OBLIGATION, "p", 0, &[0])
        .step(BY_OBLIGATION, "p", 0, &[1]);
    assert_eq!(last_step(&cited), 17);
}

#[test]
fn premises_and_spans() {
    let base = || {
        let given = scene().condition("p").condition("q");
        given.step(CONDITION, "p", 0, &[]).step(CONDITION, "q", 1, &[])
    };
    let and = |premises: &[u16]| last_step(&base().step(AND, "p and q", ABSENT, premises));
    assert_eq!(and(&[0, 1]), HOLDS);
    assert_eq!(and(&[0, 0]), 13);
    assert_eq!(and(&[0, 2]), 13);
    assert_eq!(and(&[0, ABSENT]), 13);
    assert_eq!(and(&[0]), 12);
    assert_eq!(and(&[0, 1, 1]), 12);
    let spanned = |span| {
        let case = base().step(AND, "p and q", ABSENT, &[0, 1]);
        last_step(&case.change(|case| case.steps[2].span = Some(span)))
    };
    assert_eq!([(0, 2), (1, 2), (0, 3), (0, 1)].map(spanned), [HOLDS, 12, 12, 12]);
    let no_entries = base().change(|case| {
        case.steps[1].span = Some((1, 0));
        case.steps.truncate(2);
    });
    assert_eq!(last_step(&no_entries), 12);
    let free = base().formula("r x", predicate(1, &[agent_variable(0)]));
    assert_eq!(last_step(&free.step(CONDITION, "r x", 0, &[])), 12);
}

/// 20 comes before 21 and 21 before 22, each with the lowest place.
#[test]
fn ends() {
    let ends = |case: CaseFile, expected| {
        let (number, place) = expected;
        assert_eq!(check(&case.to_bytes(), &mut []), Verdict::Refused { number, place });
    };
    let labelled = scene().label(0, "p").label(0, "q").label(0, "p");
    let three =
        labelled.step(SUPPOSE, "p", 2, &[]).step(SUPPOSE, "q", 1, &[]).step(SUPPOSE, "p", 0, &[]);
    ends(three, (20, 0));
    let supposed = scene().label(0, "p").label(0, "q").label(0, "p");
    let supposed = supposed.step(SUPPOSE, "p", 2, &[]).step(SUPPOSE, "q", 1, &[]);
    ends(supposed.step(AND, "p and q", ABSENT, &[0, 1]), (21, 1));
    ends(scene().condition("p").step(CONDITION, "p", 0, &[]), (22, 0));
}
