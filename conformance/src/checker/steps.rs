//! The steps of a justification, one after the other; checks 12 to 19 and 24 to 28, of which 18 is
//! in `rules`, and 24 to 27 are in `misfits`.

use std::collections::BTreeSet;
use std::ops::{Range, RangeInclusive};

use super::case_file::ABSENT;
use super::formulas::{find, Tree, EACH_USE};
use super::records::{span, LogRow, Marked};
use super::{ensure, refusal, Case, Refusal};

/// What the steps so far have given.
#[derive(Default)]
pub(super) struct Proof {
    pub(super) proved: Vec<Proved>,
    /// Where the next step's span has to begin.
    due: usize,
    /// Steps used as premises.
    pub(super) used: BTreeSet<u16>,
    /// Obligations and log rows cited.
    pub(super) obligations: BTreeSet<u16>,
    pub(super) rows: BTreeSet<u16>,
}

/// What a step hands on: its formula, the set of labels it leaves open, and whether it or a step
/// above it cites a log row, a condition or an obligation.
pub(super) struct Proved {
    pub(super) formula: Tree,
    pub(super) open: BTreeSet<u16>,
    cites: bool,
}

/// A rule applied: a step that has passed checks 12 and 13, with its premises.
pub(super) struct Inference<'a> {
    pub(super) case: &'a Case,
    place: usize,
    pub(super) rule: u16,
    pub(super) argument: u16,
    pub(super) formula: Tree,
    pub(super) premises: Vec<&'a Proved>,
}

/// One step through its checks. "One exception: at a seen step, 16 comes before 14 for a struck
/// row." And 24 to 26 are "tried in that order just before 18", with 27 "just before 24"; 28 comes
/// "after 19".
pub(super) fn take_step(case: &Case, proof: &mut Proof) -> Result<(), Refusal> {
    let place = proof.proved.len();
    let (formula, span) = check_12(case, proof, place)?;
    proof.due = span.end;
    let premises = &case.premises[span];
    check_13(premises, &mut proof.used, place)?;
    let step = &case.steps[place];
    let inference = Inference {
        case,
        place,
        rule: step.rule,
        argument: step.argument,
        formula,
        premises: premises.iter().map(|premise| &proof.proved[*premise as usize]).collect(),
    };
    inference.check_14()?;
    inference.check_15()?;
    inference.check_16()?;
    inference.check_14_struck()?;
    inference.check_17(&proof.obligations)?;
    inference.check_27()?;
    inference.check_24()?;
    inference.check_25()?;
    inference.check_26()?;
    inference.check_18()?;
    inference.check_19()?;
    inference.check_28()?;
    let (open, cites) = (inference.left_open(), inference.cites());
    let formula = inference.formula;
    proof.proved.push(Proved { formula, open, cites });
    match step.rule {
        2 => proof.rows.insert(step.argument),
        12 => proof.obligations.insert(step.argument),
        _ => false,
    };
    Ok(())
}

/// 12: rule, formula, span, premise count, or argument not absent where it must be. Gives the
/// formula and the span. "A step's formula is a closed policy."
fn check_12(case: &Case, proof: &Proof, place: usize) -> Result<(Tree, Range<usize>), Refusal> {
    let step = &case.steps[place];
    let last = place + 1 == case.steps.len();
    let formula = find(&case.book, step.formula, |row| row.is_policy() && row.is_closed());
    let span = span(proof.due, step.offset, step.count, last, case.premises.len());
    let counted = premise_counts(step.rule).is_some_and(|counts| counts.contains(&step.count));
    let argument = takes_argument(step.rule) || step.argument == ABSENT;
    match (formula, span) {
        (Some(formula), Some(span)) if counted && argument => Ok((formula, span)),
        _ => Err(refusal(12, place)),
    }
}

/// "Rules 3 to 8 and 10 have the argument absent."
fn takes_argument(rule: u16) -> bool {
    !matches!(rule, 3..=8 | 10)
}

/// How many premises a rule takes; none if there is no such rule.
fn premise_counts(rule: u16) -> Option<RangeInclusive<u16>> {
    match rule {
        0..=2 => Some(0..=0),
        5 => Some(1..=16),
        4 | 6 | 10 => Some(2..=2),
        3 | 7..=9 | 11..=15 => Some(1..=1),
        _ => None,
    }
}

/// 13: premise not earlier, or used before. "Premises are earlier steps, each used once in all."
fn check_13(premises: &[u16], used: &mut BTreeSet<u16>, place: usize) -> Result<(), Refusal> {
    for premise in premises {
        let earlier = (*premise as usize) < place;
        ensure(earlier && used.insert(*premise), 13, place)?;
    }
    Ok(())
}

impl Inference<'_> {
    pub(super) fn ensure(&self, holds: bool, number: u16) -> Result<(), Refusal> {
        ensure(holds, number, self.place)
    }

    pub(super) fn index(&self) -> usize {
        self.argument as usize
    }

    /// The entry cited. Check 15 has seen that it is there.
    pub(super) fn label(&self) -> &Marked {
        &self.case.labels[self.index()]
    }

    pub(super) fn row(&self) -> &LogRow {
        &self.case.log[self.index()]
    }

    pub(super) fn obligation(&self) -> &Marked {
        &self.case.obligations[self.index()].duty
    }

    /// 14: needed argument absent, or cited entry absent. A struck row waits for check 16.
    fn check_14(&self) -> Result<(), Refusal> {
        self.ensure(!takes_argument(self.rule) || self.argument != ABSENT, 14)?;
        let absent = matches!(self.case.conditions.get(self.index()), Some(None));
        self.ensure(self.rule != 1 || !absent, 14)
    }

    /// 15: no such label, condition, log row or obligation.
    fn check_15(&self) -> Result<(), Refusal> {
        let count = match self.rule {
            0 | 9 | 11 | 13 => self.case.labels.len(),
            1 => self.case.conditions.len(),
            2 => self.case.log.len(),
            12 => self.case.obligations.len(),
            _ => return Ok(()),
        };
        self.ensure(self.index() < count, 15)
    }

    /// 16: agent not among the row's observers.
    fn check_16(&self) -> Result<(), Refusal> {
        self.ensure(self.rule != 2 || self.row().is_seen_by(self.case.agent), 16)
    }

    /// 14 for a struck row.
    fn check_14_struck(&self) -> Result<(), Refusal> {
        self.ensure(self.rule != 2 || self.row().action.is_some(), 14)
    }

    /// 17: each-use obligation cited before; each-use label open in two premises, or already in
    /// rule 13's.
    fn check_17(&self, cited: &BTreeSet<u16>) -> Result<(), Refusal> {
        let again = self.rule == 12 && self.obligation().mark == EACH_USE;
        self.ensure(!(again && cited.contains(&self.argument)), 17)?;
        let mut open = BTreeSet::new();
        for label in self.premises.iter().flat_map(|premise| &premise.open) {
            let each_use = self.case.labels[*label as usize].mark == EACH_USE;
            self.ensure(open.insert(*label) || !each_use, 17)?;
        }
        let added = self.rule == 13 && self.label().mark == EACH_USE;
        self.ensure(!(added && open.contains(&self.argument)), 17)
    }

    /// 19: parameter in rule 14's formula or its premise's open labels.
    fn check_19(&self) -> Result<(), Refusal> {
        if self.rule != 14 {
            return Ok(());
        }
        self.ensure(!self.formula.mentions(self.argument), 19)?;
        let mut open = self.premises[0].open.iter();
        let label = |number: &u16| &self.case.labels[*number as usize].formula;
        self.ensure(!open.any(|number| label(number).mentions(self.argument)), 19)
    }

    /// 28: "Rule 4's first premise and all above it may cite no log row, condition or obligation; it
    /// leaves no label open."
    fn check_28(&self) -> Result<(), Refusal> {
        if self.rule != 4 {
            return Ok(());
        }
        let refinement = self.premises[0];
        self.ensure(!refinement.cites && refinement.open.is_empty(), 28)
    }

    /// Rule 1 cites a condition, rule 2 a log row, rule 12 an obligation.
    fn cites(&self) -> bool {
        matches!(self.rule, 1 | 2 | 12) || self.premises.iter().any(|premise| premise.cites)
    }

    /// The labels left open: "that of its premises together, with its own added (0, 13) or closed
    /// (9, 11). Closing a label not open is allowed."
    fn left_open(&self) -> BTreeSet<u16> {
        let together = self.premises.iter().flat_map(|premise| &premise.open);
        let mut open: BTreeSet<u16> = together.copied().collect();
        match self.rule {
            0 | 13 => open.insert(self.argument),
            9 | 11 => open.remove(&self.argument),
            _ => false,
        };
        open
    }
}
