//! What refine steps rest on, found by going up from their first premises: what 28 has to tell.

use std::collections::BTreeSet;

use crate::builder::*;
use crate::checker::Verdict;
use crate::desk::reading::read;

/// What a step has from outside of logic, by itself or by the steps above it: those that cite a log
/// row, a condition or an obligation, and those that suppose a label which it leaves open.
#[derive(Default)]
pub struct Grounds {
    pub citing: BTreeSet<u16>,
    pub supposing: BTreeSet<u16>,
}

impl Grounds {
    /// The lowest step that cites, or if there is none, the lowest that supposes.
    pub fn first(&self) -> Option<u16> {
        self.citing.first().or(self.supposing.first()).copied()
    }

    /// Adds those of a step and of all above it. The labels are those that steps below close.
    fn add(&mut self, case: &CaseFile, number: u16, closed: &[u16]) {
        let Step { rule, argument, premises, .. } = &case.steps[number as usize];
        let mut closed = closed.to_vec();
        match *rule {
            CONDITION | SEEN | BY_OBLIGATION => _ = self.citing.insert(number),
            SUPPOSE | BY_LABEL if !closed.contains(argument) => _ = self.supposing.insert(number),
            IMPLIES_FROM_LABEL | OBLIGES_FROM_LABEL => closed.push(*argument),
            _ => (),
        }
        premises.iter().for_each(|premise| self.add(case, *premise, &closed));
    }
}

/// Those of a step whose premises are earlier steps, as are all above it.
pub fn grounds(case: &CaseFile, step: u16) -> Grounds {
    let mut found = Grounds::default();
    found.add(case, step, &[]);
    found
}

/// The step and all above it.
pub fn tree(case: &CaseFile, step: u16) -> Vec<u16> {
    let premises = case.steps[step as usize].premises.iter();
    [step].into_iter().chain(premises.flat_map(|premise| tree(case, *premise))).collect()
}

/// The two premises of each refine step among the first so many, with its number.
pub fn refine_steps(case: &CaseFile, steps: usize) -> impl Iterator<Item = (u16, [u16; 2])> + '_ {
    let numbered = (0..).zip(&case.steps[..steps]);
    let refining = numbered.filter(|(_, step)| step.rule == REFINE);
    refining.map(|(number, step)| (number, [step.premises[0], step.premises[1]]))
}

/// The lowest refine step among the first so many whose first premise rests on more than logic.
fn first_refined_by_more(case: &CaseFile, steps: usize) -> Option<u16> {
    let mut refining = refine_steps(case, steps);
    refining.find(|(_, [first, _])| grounds(case, *first).first().is_some()).map(|(step, _)| step)
}

/// Whether a verdict tells 28 where it is due, as far as it lets steps pass. Where it tells 27 it
/// does not say how far.
pub fn is_right_about_refining(file: &[u8], verdict: Verdict) -> bool {
    let steps = |file: &[u8]| read(file).expect("its header is sound").case;
    match verdict {
        Verdict::Refused { number: 28, place } => {
            first_refined_by_more(&steps(file), place as usize + 1) == Some(place)
        }
        Verdict::Refused { number: 12..=19 | 24..=26, place } => {
            first_refined_by_more(&steps(file), place as usize).is_none()
        }
        Verdict::Passed { .. } | Verdict::Refused { number: 20..=23 | 31 | 32, .. } => {
            let case = steps(file);
            first_refined_by_more(&case, case.steps.len()).is_none()
        }
        _ => true,
    }
}
