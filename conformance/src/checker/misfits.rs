//! Misfits that have numbers of their own: "24 wrong premise kind, 25 wrong party, 26 wrong
//! instance, tried in that order just before 18", and "27 data variable under an owner step", "just
//! before 24". Words in quotes are document 02's.

use std::ptr;

use super::formulas::Formula::{self, *};
use super::steps::Inference;
use super::terms::Term;
use super::{refusal, Refusal};

impl Inference<'_> {
    /// 27: the place is "the lowest row reached from the formula that itself holds one". Every
    /// formula reached is the book's own row, so its number is told by where it lies.
    pub(super) fn check_27(&self) -> Result<(), Refusal> {
        if self.rule != 5 {
            return Ok(());
        }
        let row = |stray: &Formula| self.case.book.iter().position(|row| ptr::eq(&**row, stray));
        let known = |stray| row(stray).expect("a formula reached is a row of the book");
        match self.formula.strays().into_iter().map(known).min() {
            Some(lowest) => Err(refusal(27, lowest)),
            None => Ok(()),
        }
    }

    /// 24: "a premise of the wrong kind".
    pub(super) fn check_24(&self) -> Result<(), Refusal> {
        self.ensure(self.numbered().all(|(place, premise)| has_kind(self.rule, place, premise)), 24)
    }

    /// 25: "a premise with a wrong party in rules 3, 4 and 5".
    pub(super) fn check_25(&self) -> Result<(), Refusal> {
        let mut parties =
            self.numbered().filter_map(|(place, premise)| party(self.rule, place, premise));
        self.ensure(parties.all(|party| party == self.case.agent), 25)
    }

    /// 26: "a body, in 14 and 15, that the argument does not turn into the instance". With "an
    /// argument the rule does not admit" it is left to 18.
    pub(super) fn check_26(&self) -> Result<(), Refusal> {
        let turned = match self.rule {
            14 => self.for_all(),
            15 => self.instance(),
            _ => None,
        };
        self.ensure(turned != Some(false), 26)
    }

    fn numbered(&self) -> impl Iterator<Item = (usize, &Formula)> {
        self.premises.iter().map(|premise| &*premise.formula).enumerate()
    }
}

/// The kind that a rule asks of its premise at this place: "rules 12 and 13 take 6 or 7". Where it
/// asks none, any kind will do.
fn has_kind(rule: u16, place: usize, premise: &Formula) -> bool {
    match (rule, place) {
        (3, _) | (4, 1) => matches!(premise, Says(..)),
        (4 | 10, 0) => matches!(premise, Implies(..)),
        (5, _) => matches!(premise, Owns(..)),
        (7 | 8, _) => matches!(premise, And(..)),
        (12 | 13, _) => matches!(premise, Obliges(..)),
        (15, _) => matches!(premise, ForAll(..)),
        _ => true,
    }
}

/// The party of a premise that has to be the agent: "its target, source or owner", in rules 3, 4
/// and 5.
fn party(rule: u16, place: usize, premise: &Formula) -> Option<Term> {
    match (rule, place, premise) {
        (3, _, Says(_, _, target)) => Some(*target),
        (4, 1, Says(source, _, _)) => Some(*source),
        (5, _, Owns(owner, _)) => Some(*owner),
        _ => None,
    }
}
