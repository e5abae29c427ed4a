//! The sixteen rules; check 18.

use std::collections::BTreeSet;

use super::formulas::Formula::{self, *};
use super::formulas::{Tree, POLICY};
use super::records::Marked;
use super::steps::Inference;
use super::terms::{Shape, Sort, Term};
use super::Refusal;

impl Inference<'_> {
    /// 18: rule does not fit otherwise.
    pub(super) fn check_18(&self) -> Result<(), Refusal> {
        let fits = match self.rule {
            0 => self.suppose(),
            1 => self.condition(),
            2 => self.seen(),
            3 => self.says(),
            4 => self.refine(),
            5 => self.owner(),
            6 => self.and(),
            7 => self.left(),
            8 => self.right(),
            9 => self.implies_from_label(),
            10 => self.implied(),
            11 => self.obliges_from_label(),
            12 => self.discharge_by(self.obligation()),
            13 => self.discharge_by(self.label()),
            14 => self.for_all() == Some(true),
            15 => self.instance() == Some(true),
            _ => false,
        };
        self.ensure(fits, 18)
    }

    fn premise(&self, number: usize) -> &Formula {
        &self.premises[number].formula
    }

    /// 0 suppose label (mark 0).
    fn suppose(&self) -> bool {
        self.label().mark == POLICY && self.label().formula == self.formula
    }

    /// 1 condition row.
    fn condition(&self) -> bool {
        self.case.conditions[self.index()].as_ref() == Some(&self.formula)
    }

    /// 2 seen row: the row's conclusion for the agent. "Where a row has no conclusion for this
    /// agent, the step does not fit."
    fn seen(&self) -> bool {
        let action = self.row().action.as_ref();
        let conclusion = action.and_then(|action| conclusion(action, self.case.agent));
        conclusion.as_ref() == Some(&*self.formula)
    }

    /// 3 from "X says F to agent": F.
    fn says(&self) -> bool {
        let agent = self.case.agent;
        matches!(self.premise(0), Says(_, f, z) if *f == self.formula && *z == agent)
    }

    /// 4 refine: from F implies G and "agent says F to B": "agent says G to B".
    fn refine(&self) -> bool {
        let agent = self.case.agent;
        let says = |f: &Tree, b: &Term| Says(agent, f.clone(), *b);
        matches!((self.premise(0), self.premise(1)), (Implies(f, g), said @ Says(_, _, b))
            if *said == says(f, b) && *self.formula == says(g, b))
    }

    /// 5 owner: "agent says F to B" from 1 to 16 premises "agent owns D", D strictly ascending and
    /// exactly the data objects and data parameters in the formula, actions included; no data
    /// variable in it.
    fn owner(&self) -> bool {
        let by_agent = matches!(&*self.formula, Says(x, _, _) if *x == self.case.agent);
        let terms = self.formula.terms().into_iter().map(|(term, _)| term);
        let data: BTreeSet<Term> = terms.filter(|term| term.sort == Sort::Data).collect();
        let variable = data.iter().any(|term| term.shape == Shape::Variable);
        let owned = (0..self.premises.len()).map(|number| match self.premise(number) {
            Owns(x, d) if *x == self.case.agent => Some(*d),
            _ => None,
        });
        by_agent && !variable && owned.eq(data.into_iter().map(Some))
    }

    /// 6 and.
    fn and(&self) -> bool {
        let (left, right) = (&self.premises[0].formula, &self.premises[1].formula);
        *self.formula == And(left.clone(), right.clone())
    }

    /// 7 its left.
    fn left(&self) -> bool {
        matches!(self.premise(0), And(left, _) if *left == self.formula)
    }

    /// 8 its right.
    fn right(&self) -> bool {
        matches!(self.premise(0), And(_, right) if *right == self.formula)
    }

    /// 9 from G: F implies G, F the label's, closing the label.
    fn implies_from_label(&self) -> bool {
        let (f, g) = (&self.label().formula, &self.premises[0].formula);
        self.label().mark == POLICY && *self.formula == Implies(f.clone(), g.clone())
    }

    /// 10 from F implies G and F: G.
    fn implied(&self) -> bool {
        matches!(self.premise(0), Implies(f, g) if **f == *self.premise(1) && *g == self.formula)
    }

    /// 11 from G: a kind 6 or 7 formula over the label's action and mark (6 with mark 1, 7 with
    /// mark 2), closing it. No kind has mark 0.
    fn obliges_from_label(&self) -> bool {
        let (action, g) = (&self.label().formula, &self.premises[0].formula);
        *self.formula == Obliges(self.label().mark, action.clone(), g.clone())
    }

    /// 12 from such a formula: its policy, by an obligation row of that mark and action.
    /// 13 the same by a label.
    fn discharge_by(&self, by: &Marked) -> bool {
        matches!(self.premise(0), Obliges(mark, action, policy)
            if *mark == by.mark && *action == by.formula && *policy == self.formula)
    }

    /// 14 from the body with a parameter put in: for all; argument the parameter.
    pub(super) fn for_all(&self) -> Option<bool> {
        self.turns_into(&self.formula, self.premise(0), |shape| shape == Shape::Parameter)
    }

    /// 15 from for all: the body with the argument (agent, data or parameter of the sort).
    pub(super) fn instance(&self) -> Option<bool> {
        self.turns_into(self.premise(0), &self.formula, |shape| shape != Shape::Variable)
    }

    /// Whether the argument turns the body of this for-all into this instance. None if it is no
    /// for-all, or the argument is not of its sort and of a shape that the rule admits.
    fn turns_into(
        &self,
        for_all: &Formula,
        instance: &Formula,
        admits: fn(Shape) -> bool,
    ) -> Option<bool> {
        let ForAll(sort, body) = for_all else { return None };
        let argument = Term::read_sort(self.argument, *sort).filter(|term| admits(term.shape))?;
        Some(*instance == body.instance(argument))
    }
}

/// "Communicate X, Y, Z gives Z 'X says Y to Z', creates gives X 'X owns Y'; others give nothing."
fn conclusion(action: &Formula, agent: Term) -> Option<Formula> {
    match action {
        Communicates(x, y, z) if *z == agent => Some(Says(*x, y.clone(), *z)),
        Creates(x, y) if *x == agent => Some(Owns(*x, *y)),
        _ => None,
    }
}
