//! The worked examples of the sources: "An audit logic for accountability" (000) and "Audit-based
//! compliance control" (003), each with damaged siblings. `examples/README.md` has the numbers
//! that stand for their agents, data and words.

use crate::builder::*;
use crate::cases::{passed, refused};
use crate::checker::ABSENT;
use crate::vectors::Vector;

pub fn examples() -> Vec<Vector> {
    let mut all = paper_000();
    all.extend(paper_003());
    all
}

// ---- 000: An audit logic for accountability ----

const ALICE: u16 = 0;
const BOB: u16 = 1;

fn paper_000() -> Vec<Vector> {
    let unrefined = related().change(|case| {
        case.steps.drain(0..4);
        case.steps[1].premises = vec![0];
        case.steps[1].formula = case.number("say policy");
        case.steps.truncate(2);
    });
    let other = related().change(|case| case.labels[1].1 = case.number("print"));
    let uncertified = drink().change(|case| case.conditions[0] = ABSENT);
    let once = drink().change(|case| case.obligations[0].mark = 2);
    vec![
        passed("000-example-2", related(), &[], &[0]),
        refused("000-example-2-not-refined", unrefined, 27, 5),
        refused("000-example-2-other-condition", other, 18, 1),
        passed("000-example-3", drink(), &[0], &[0]),
        refused("000-example-3-age-not-certified", uncertified, 14, 5),
        refused("000-example-3-other-mark", once, 18, 3),
    ]
}

/// Example 2, by the proof of table 1: Alice may tell Bob that he may print d once a related
/// object exists.
fn related() -> CaseFile {
    const REL: u8 = 1;
    const PRINT: u8 = 2;
    let d = data(0);
    let fresh = data_parameter(0);
    CaseFile::new(ALICE)
        .formula("creates d", creates(ALICE, d))
        .formula("owns d", owns(ALICE, d))
        .formula("print", predicate(PRINT, &[BOB, d]))
        .formula("rel to one", predicate(REL, &[d, fresh]))
        .formula("print if rel to one", implies("rel to one", "print"))
        .formula("rel to x", predicate(REL, &[d, data_variable(0)]))
        .formula("print if rel to x", implies("rel to x", "print"))
        .formula("policy", for_all_data("print if rel to x"))
        .formula("refinement", implies("print", "policy"))
        .formula("say print", says(ALICE, "print", BOB))
        .formula("say policy", says(ALICE, "policy", BOB))
        .formula("send policy", communicates(ALICE, "policy", BOB))
        .audits("send policy")
        .row("creates d", &[ALICE])
        .label(0, "print")
        .label(0, "rel to one")
        .step(SUPPOSE, "print", 0, &[])
        .step(IMPLIES_FROM_LABEL, "print if rel to one", 1, &[0])
        .step(FOR_ALL, "policy", fresh, &[1])
        .step(IMPLIES_FROM_LABEL, "refinement", 0, &[2])
        .step(SEEN, "owns d", 0, &[])
        .step(OWNER, "say print", ABSENT, &[4])
        .step(REFINE, "say policy", ABSENT, &[3, 5])
}

const AGE_21: u8 = 1;
const ALCOHOLIC: u8 = 2;
const DRINK: u8 = 3;
const PAY: u8 = 4;
const TEN_DOLLARS: u16 = data(0);
const BEER: u16 = data(1);

/// Agent x, who stands outside this for-all, may drink any y that is alcoholic, being 21. The
/// names are those of the formula's parts and, last, of the formula.
fn may_drink_any(case: CaseFile, x: u16, names: [&'static str; 5]) -> CaseFile {
    let [age, both, drink, rule, any] = names;
    case.formula(age, predicate(AGE_21, &[x]))
        .formula(both, and(age, "y is alcoholic"))
        .formula(drink, predicate(DRINK, &[x, data_variable(0)]))
        .formula(rule, implies(both, drink))
        .formula(any, for_all_data(rule))
}

/// Example 1.3: whoever pays ten dollars each time may drink. With it, as Alice has it.
fn drinking_policy() -> CaseFile {
    let of_x = ["x is 21", "both of x", "x drinks y", "x may drink y", "x may drink"];
    let of_a = ["Alice is 21", "both of Alice", "Alice drinks y", "Alice may drink y", "may drink"];
    let y_is_alcoholic = predicate(ALCOHOLIC, &[data_variable(0)]);
    let case = CaseFile::new(ALICE).formula("y is alcoholic", y_is_alcoholic);
    let case = may_drink_any(case, agent_variable(1), of_x);
    may_drink_any(case, ALICE, of_a)
        .formula("x pays", user_action(PAY, &[agent_variable(0), TEN_DOLLARS]))
        .formula("x pays, then may drink", each_use("x pays", "x may drink"))
        .formula("policy", for_all_agents("x pays, then may drink"))
        .formula("Alice pays", user_action(PAY, &[ALICE, TEN_DOLLARS]))
        .formula("Alice pays, then may drink", each_use("Alice pays", "may drink"))
        .formula("Bob tells policy", communicates(BOB, "policy", ALICE))
        .formula("Bob says policy", says(BOB, "policy", ALICE))
}

/// Example 3: Alice drinks a beer that she paid for, being 21.
fn drink() -> CaseFile {
    drinking_policy()
        .formula("beer is alcoholic", predicate(ALCOHOLIC, &[BEER]))
        .formula("both", and("Alice is 21", "beer is alcoholic"))
        .formula("drink beer", predicate(DRINK, &[ALICE, BEER]))
        .formula("may drink beer", implies("both", "drink beer"))
        .formula("Alice drinks beer", user_action(DRINK, &[ALICE, BEER]))
        .audits("Alice drinks beer")
        .row("Bob tells policy", &[ALICE, BOB])
        .row("Alice pays", &[ALICE, BOB])
        .condition("Alice is 21")
        .condition("beer is alcoholic")
        .obligation(1, "Alice pays")
        .step(SEEN, "Bob says policy", 0, &[])
        .step(SAYS, "policy", ABSENT, &[0])
        .step(INSTANCE, "Alice pays, then may drink", ALICE, &[1])
        .step(BY_OBLIGATION, "may drink", 0, &[2])
        .step(INSTANCE, "may drink beer", BEER, &[3])
        .step(CONDITION, "Alice is 21", 0, &[])
        .step(CONDITION, "beer is alcoholic", 1, &[])
        .step(AND, "both", ABSENT, &[5, 6])
        .step(IMPLIED, "drink beer", ABSENT, &[4, 7])
}

// ---- 003: Audit-based compliance control ----

const ANGELA: u16 = 0;
const BENNY: u16 = 1;
const CRISTOPHE: u16 = 2;
const DORA: u16 = 3;

fn paper_003() -> Vec<Vector> {
    let mut all = administration();
    all.extend(refinement());
    all.extend(availability());
    all.extend(obligations());
    all
}

const D1: u16 = data(0);
const D2: u16 = data(1);
const MAY_READ: u8 = 1;
const MAY_WRITE: u8 = 2;
const IS_USING_V4: u8 = 3;
const NOTIFY: u8 = 4;

/// What examples 1 and 2 speak of.
fn first_formulas(case: CaseFile) -> CaseFile {
    case.formula("a creates d1", creates(ANGELA, D1))
        .formula("a owns d1", owns(ANGELA, D1))
        .formula("c may read d1", predicate(MAY_READ, &[CRISTOPHE, D1]))
        .formula("a tells c: c may read d1", communicates(ANGELA, "c may read d1", CRISTOPHE))
        .formula("a may say c may read d1", says(ANGELA, "c may read d1", CRISTOPHE))
        .formula("c reads d1", user_action(MAY_READ, &[CRISTOPHE, D1]))
        .formula("c may read d2", predicate(MAY_READ, &[CRISTOPHE, D2]))
        .formula("c may write d2", predicate(MAY_WRITE, &[CRISTOPHE, D2]))
        .formula("c has V4", predicate(IS_USING_V4, &[CRISTOPHE]))
        .formula("with V4", implies("c has V4", "c may read d2"))
        .formula("b may say c may read d2", says(BENNY, "c may read d2", CRISTOPHE))
        .formula("b may say with V4", says(BENNY, "with V4", CRISTOPHE))
        .formula("b tells c: with V4", communicates(BENNY, "with V4", CRISTOPHE))
        .formula("a tells b: may say", communicates(ANGELA, "b may say c may read d2", BENNY))
        .formula("a says b may say", says(ANGELA, "b may say c may read d2", BENNY))
        .formula("c reads d2", user_action(MAY_READ, &[CRISTOPHE, D2]))
}

/// What examples 3 and 4 speak of.
fn second_formulas(case: CaseFile) -> CaseFile {
    let x = agent_variable(0);
    case.formula("b may read d1", predicate(MAY_READ, &[BENNY, D1]))
        .formula("c may say b may read d1", says(CRISTOPHE, "b may read d1", BENNY))
        .formula("c tells b: b may read d1", communicates(CRISTOPHE, "b may read d1", BENNY))
        .formula("b reads d1", user_action(MAY_READ, &[BENNY, D1]))
        .formula("a tells c: may say", communicates(ANGELA, "c may say b may read d1", CRISTOPHE))
        .formula("a may say c may say", says(ANGELA, "c may say b may read d1", CRISTOPHE))
        .formula("c notifies a", user_action(NOTIFY, &[CRISTOPHE, ANGELA]))
        .formula("x may read d1", predicate(MAY_READ, &[x, D1]))
        .formula("c may say x may read d1", says(CRISTOPHE, "x may read d1", x))
        .formula("c may say for all x", for_all_agents("c may say x may read d1"))
        .formula("phi", each_use("c notifies a", "c may say for all x"))
        .formula("a tells c: phi", communicates(ANGELA, "phi", CRISTOPHE))
        .formula("a may say phi", says(ANGELA, "phi", CRISTOPHE))
}

/// One log for all four examples, which each party sees in part; the audited agent and action.
fn office(agent: u16, action: &str) -> CaseFile {
    second_formulas(first_formulas(CaseFile::new(agent)))
        .audits(action)
        .row("a creates d1", &[ANGELA])
        .row("a tells c: c may read d1", &[ANGELA, CRISTOPHE])
        .row("a tells b: may say", &[ANGELA, BENNY])
        .row("b tells c: with V4", &[BENNY, CRISTOPHE])
        .row("c reads d2", &[CRISTOPHE])
        .row("c tells b: b may read d1", &[BENNY, CRISTOPHE])
        .row("b reads d1", &[BENNY])
        .row("a tells c: may say", &[ANGELA, CRISTOPHE])
        .row("a tells c: phi", &[ANGELA, CRISTOPHE])
        .row("c notifies a", &[ANGELA, CRISTOPHE])
}

/// The rows of the office's log that steps cite.
const CREATED: u16 = 0;
const MAY_READ_D1: u16 = 1;
const MAY_SAY: u16 = 2;
const WITH_V4: u16 = 3;
const BENNY_MAY_READ: u16 = 5;
const MAY_SAY_TO_BENNY: u16 = 7;
const PHI: u16 = 8;

/// Angela, who created d1, says something of it.
fn as_owner(action: &str, said: &str) -> CaseFile {
    office(ANGELA, action).step(SEEN, "a owns d1", CREATED, &[]).step(OWNER, said, ABSENT, &[0])
}

/// Somebody was told something, and goes by it.
fn as_told(agent: u16, action: &str, row: u16, said: &str, formula: &str) -> CaseFile {
    office(agent, action).step(SEEN, said, row, &[]).step(SAYS, formula, ABSENT, &[0])
}

/// Example 1: Angela authorises Cristophe, who reads.
fn administration() -> Vec<Vector> {
    let told = "a may say c may read d1";
    let angela = as_owner("a tells c: c may read d1", told);
    let by = |agent, action| as_told(agent, action, MAY_READ_D1, told, "c may read d1");
    vec![
        passed("003-example-1-angela", angela, &[], &[CREATED]),
        passed("003-example-1-cristophe", by(CRISTOPHE, "c reads d1"), &[], &[MAY_READ_D1]),
        refused("003-example-1-benny", by(BENNY, "b reads d1"), 16, 0),
    ]
}

/// Benny, whom Angela lets say something, refines it by what the last step has shown.
fn as_refined(case: CaseFile, refined: &str) -> CaseFile {
    let shown = case.steps.len() as u16 - 1;
    case.step(SEEN, "a says b may say", MAY_SAY, &[])
        .step(SAYS, "b may say c may read d2", ABSENT, &[shown + 1])
        .step(REFINE, refined, ABSENT, &[shown, shown + 2])
}

/// Example 2: Benny passes on what he may say with a condition of his own, and Cristophe meets it.
/// Section 4: of two permissions the one implies the other here, and that is not for everyone.
fn refinement() -> Vec<Vector> {
    let benny = office(BENNY, "b tells c: with V4")
        .formula("refinement", implies("c may read d2", "with V4"))
        .label(0, "c may read d2")
        .label(0, "c has V4")
        .step(SUPPOSE, "c may read d2", 0, &[])
        .step(IMPLIES_FROM_LABEL, "with V4", 1, &[0])
        .step(IMPLIES_FROM_LABEL, "refinement", 0, &[1]);
    let no_refinement = office(BENNY, "a creates d1")
        .formula("to write", implies("c may read d2", "c may write d2"))
        .formula("b may say c may write d2", says(BENNY, "c may write d2", CRISTOPHE))
        .formula("b tells c: write", communicates(BENNY, "c may write d2", CRISTOPHE))
        .audits("b tells c: write")
        .label(0, "to write")
        .step(SUPPOSE, "to write", 0, &[]);
    let no_refinement = as_refined(no_refinement, "b may say c may write d2");
    let local_fact = office(BENNY, "a creates d1")
        .formula("to b", implies("c may read d2", "b may read d1"))
        .formula("b may say b may read d1", says(BENNY, "b may read d1", CRISTOPHE))
        .formula("b tells c: b may read d1", communicates(BENNY, "b may read d1", CRISTOPHE))
        .audits("b tells c: b may read d1")
        .label(0, "c may read d2")
        .step(SEEN, "c may say b may read d1", BENNY_MAY_READ, &[])
        .step(SAYS, "b may read d1", ABSENT, &[0])
        .step(IMPLIES_FROM_LABEL, "to b", 0, &[1]);
    let local_fact = as_refined(local_fact, "b may say b may read d1");
    let cristophe = as_told(CRISTOPHE, "c reads d2", WITH_V4, "b may say with V4", "with V4")
        .condition("c has V4")
        .step(CONDITION, "c has V4", 0, &[])
        .step(IMPLIED, "c may read d2", ABSENT, &[1, 2]);
    let uncertified = cristophe.clone().change(|case| case.conditions[0] = ABSENT);
    vec![
        passed("003-example-2-benny", as_refined(benny, "b may say with V4"), &[], &[MAY_SAY]),
        refused("003-example-2-no-refinement", no_refinement, 28, 3),
        refused("003-section-4-local-fact", local_fact, 28, 5),
        passed("003-example-2-cristophe", cristophe, &[], &[WITH_V4]),
        refused("003-example-2-version-not-certified", uncertified, 14, 2),
    ]
}

/// Example 3: Cristophe authorises Benny on Friday, and is himself authorised on Monday.
fn availability() -> Vec<Vector> {
    let benny =
        as_told(BENNY, "b reads d1", BENNY_MAY_READ, "c may say b may read d1", "b may read d1");
    let cristophe =
        |row, said, formula| as_told(CRISTOPHE, "c tells b: b may read d1", row, said, formula);
    let friday = cristophe(MAY_READ_D1, "a may say c may read d1", "c may read d1")
        .change(|case| case.rows.truncate(MAY_SAY_TO_BENNY as usize));
    let monday = cristophe(MAY_SAY_TO_BENNY, "a may say c may say", "c may say b may read d1");
    let angela = as_owner("a tells c: may say", "a may say c may say");
    vec![
        passed("003-example-3-benny", benny, &[], &[BENNY_MAY_READ]),
        refused("003-example-3-cristophe-on-friday", friday, 22, 1),
        passed("003-example-3-cristophe-on-monday", monday, &[], &[MAY_SAY_TO_BENNY]),
        passed("003-example-3-angela", angela, &[], &[CREATED]),
    ]
}

/// Example 4: Cristophe may authorise anybody, if he notifies Angela each time.
fn obligations() -> Vec<Vector> {
    let angela = as_owner("a tells c: phi", "a may say phi");
    let cristophe = as_told(CRISTOPHE, "c tells b: b may read d1", PHI, "a may say phi", "phi")
        .obligation(1, "c notifies a")
        .step(BY_OBLIGATION, "c may say for all x", 0, &[1])
        .step(INSTANCE, "c may say b may read d1", BENNY, &[2]);
    let not_notified = cristophe.clone().change(|case| case.obligations.clear());
    let twice = cristophe
        .clone()
        .formula("dora may read d1", predicate(MAY_READ, &[DORA, D1]))
        .formula("c may say dora may read d1", says(CRISTOPHE, "dora may read d1", DORA))
        .formula("both", and("c may say b may read d1", "c may say dora may read d1"))
        .step(SEEN, "a may say phi", PHI, &[])
        .step(SAYS, "phi", ABSENT, &[4])
        .step(BY_OBLIGATION, "c may say for all x", 0, &[5])
        .step(INSTANCE, "c may say dora may read d1", DORA, &[6])
        .step(AND, "both", ABSENT, &[3, 7])
        .step(LEFT, "c may say b may read d1", ABSENT, &[8]);
    let two_notices =
        twice.clone().obligation(1, "c notifies a").change(|case| case.steps[6].argument = 1);
    vec![
        passed("003-example-4-angela", angela, &[], &[CREATED]),
        passed("003-example-4-cristophe", cristophe, &[0], &[PHI]),
        refused("003-example-4-not-notified", not_notified, 15, 2),
        refused("003-example-4-one-notice-twice", twice, 17, 6),
        passed("003-example-4-two-notices", two_notices, &[0, 1], &[PHI]),
    ]
}
