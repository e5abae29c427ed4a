//! A book in the making, in which each formula stands once; walks over its terms; random formulas.

use std::collections::HashMap;

use crate::builder::{
    agent_parameter, agent_variable, data, data_parameter, data_variable, FormulaRow,
};
use crate::checker::{Term, ABSENT};
use crate::random::Random;

/// The codes of a for-all, also as sorts of terms.
pub const AGENTS: u8 = 0;
pub const DATA: u8 = 1;

/// Names and parameters that random formulas use, of each sort.
const NAMES: usize = 4;
const PARAMETERS: usize = 2;

/// What a field of a formula is.
#[derive(Clone, Copy, PartialEq)]
enum Role {
    Term,
    Child,
    Nothing,
}

fn roles(kind: u8) -> [Role; 3] {
    use Role::{Child, Nothing, Term};
    match kind {
        0 | 10 => [Term, Term, Term],
        1 | 9 => [Term, Term, Nothing],
        2 | 8 => [Term, Child, Term],
        4 => [Child, Nothing, Nothing],
        _ => [Child, Child, Nothing],
    }
}

/// The variable of a for-all of this sort, seen from under so many more.
pub fn variable(sort: u8, binders: u16) -> u16 {
    match sort {
        AGENTS => agent_variable(binders),
        _ => data_variable(binders),
    }
}

pub fn parameter(sort: u8, index: u16) -> u16 {
    match sort {
        AGENTS => agent_parameter(index),
        _ => data_parameter(index),
    }
}

pub fn is_parameter(term: u16) -> bool {
    Term::AGENT_PARAMETERS.contains(&term) || Term::DATA_PARAMETERS.contains(&term)
}

/// The sort of a name or parameter.
pub fn sort_of(term: u16) -> u8 {
    match Term::DATA.contains(&term) || Term::DATA_PARAMETERS.contains(&term) {
        true => DATA,
        false => AGENTS,
    }
}

/// The formulas that a row is made of.
pub fn children(row: &FormulaRow) -> impl Iterator<Item = u16> {
    let fields = row.fields.into_iter().zip(roles(row.kind));
    fields.filter(|(_, role)| *role == Role::Child).map(|(child, _)| child)
}

/// Their numbers, open to change.
pub fn children_mut(row: &mut FormulaRow) -> impl Iterator<Item = &mut u16> {
    let fields = row.fields.iter_mut().zip(roles(row.kind));
    fields.filter(|(_, role)| *role == Role::Child).map(|(child, _)| child)
}

#[derive(Default)]
pub struct Book {
    pub rows: Vec<FormulaRow>,
    numbers: HashMap<FormulaRow, u16>,
    nodes: Vec<usize>,
}

impl Book {
    /// The number of this formula, which is added if it is new. None if it has too many nodes, or
    /// there are too many formulas.
    pub fn add(&mut self, kind: u8, code: u8, fields: [u16; 3]) -> Option<u16> {
        let row = FormulaRow { kind, code, fields };
        if let Some(number) = self.numbers.get(&row) {
            return Some(*number);
        }
        let nodes = 1 + children(&row).map(|child| self.nodes[child as usize]).sum::<usize>();
        let number = self.rows.len() as u16;
        if nodes > 64 || number == 1_024 {
            return None;
        }
        self.rows.push(row.clone());
        self.nodes.push(nodes);
        self.numbers.insert(row, number);
        Some(number)
    }

    pub fn says(&mut self, x: u16, policy: u16, z: u16) -> Option<u16> {
        self.add(2, 0, [x, policy, z])
    }

    pub fn pair(&mut self, kind: u8, x: u16, y: u16) -> Option<u16> {
        self.add(kind, 0, [x, y, ABSENT])
    }

    pub fn for_all(&mut self, sort: u8, body: u16) -> Option<u16> {
        self.add(4, sort, [body, ABSENT, ABSENT])
    }

    pub fn kind(&self, formula: u16) -> u8 {
        self.rows[formula as usize].kind
    }

    pub fn code(&self, formula: u16) -> u8 {
        self.rows[formula as usize].code
    }

    pub fn fields(&self, formula: u16) -> [u16; 3] {
        self.rows[formula as usize].fields
    }

    pub fn nodes(&self, formula: u16) -> usize {
        self.nodes[formula as usize]
    }

    /// Every term of the formula, with the number of for-alls around it.
    pub fn terms(&self, formula: u16) -> Vec<(u16, u16)> {
        let mut found = Vec::new();
        self.gather(formula, 0, &mut found);
        found
    }

    fn gather(&self, formula: u16, binders: u16, found: &mut Vec<(u16, u16)>) {
        let inner = binders + u16::from(self.kind(formula) == 4);
        for (field, role) in self.fields(formula).into_iter().zip(roles(self.kind(formula))) {
            match role {
                Role::Term if field != ABSENT => found.push((field, binders)),
                Role::Child => self.gather(field, inner, found),
                _ => (),
            }
        }
    }

    pub fn mentions(&self, formula: u16, term: u16) -> bool {
        self.terms(formula).iter().any(|(found, _)| *found == term)
    }

    pub fn parameters(&self, formula: u16) -> Vec<u16> {
        let terms = self.terms(formula).into_iter().map(|(term, _)| term);
        terms.filter(|term| is_parameter(*term)).collect()
    }

    /// The formula with each term changed, which is given with the number of for-alls around it.
    fn changed(
        &mut self,
        formula: u16,
        binders: u16,
        change: &mut dyn FnMut(u16, u16) -> u16,
    ) -> Option<u16> {
        let FormulaRow { kind, code, mut fields } = self.rows[formula as usize].clone();
        let inner = binders + u16::from(kind == 4);
        for (field, role) in fields.iter_mut().zip(roles(kind)) {
            *field = match role {
                Role::Term if *field != ABSENT => change(*field, binders),
                Role::Child => self.changed(*field, inner, change)?,
                _ => *field,
            };
        }
        self.add(kind, code, fields)
    }

    /// A for-all's body with a term put in.
    pub fn instance(&mut self, for_all: u16, argument: u16) -> Option<u16> {
        let (sort, body) = (self.code(for_all), self.fields(for_all)[0]);
        self.changed(body, 0, &mut |term, binders| {
            if term == variable(sort, binders) {
                argument
            } else {
                term
            }
        })
    }

    /// A for-all of which the formula is the instance by this name or parameter: each occurrence
    /// that is chosen becomes the variable. None where a variable would need too high a number.
    pub fn generalised(
        &mut self,
        formula: u16,
        argument: u16,
        mut chosen: impl FnMut() -> bool,
    ) -> Option<u16> {
        let sort = sort_of(argument);
        let mut too_deep = false;
        let body = self.changed(formula, 0, &mut |term, binders| {
            if term != argument || !chosen() {
                return term;
            }
            too_deep |= binders > 7;
            variable(sort, binders)
        });
        body.filter(|_| !too_deep).and_then(|body| self.for_all(sort, body))
    }
}

/// Random formulas under for-alls of the given sorts, the innermost last.
impl Book {
    fn term(&self, random: &mut Random, sort: u8, binders: &[u8]) -> u16 {
        let bound: Vec<u16> = (0..binders.len())
            .filter(|depth| binders[binders.len() - 1 - depth] == sort)
            .map(|depth| variable(sort, depth as u16))
            .collect();
        match random.below(8) {
            0 => parameter(sort, random.below(PARAMETERS) as u16),
            1..=4 if !bound.is_empty() => random.pick(&bound),
            _ => name(random, sort),
        }
    }

    fn terms_of(&self, random: &mut Random, most: usize, binders: &[u8]) -> [u16; 3] {
        let mut terms = [ABSENT; 3];
        for term in &mut terms[..random.below(most + 1)] {
            let sort = random.below(2) as u8;
            *term = self.term(random, sort, binders);
        }
        terms
    }

    /// A random policy of so many levels at most.
    pub fn policy(&mut self, random: &mut Random, levels: usize, binders: &[u8]) -> Option<u16> {
        let inner = levels.saturating_sub(1);
        match if levels == 0 { random.below(2) } else { random.below(8) } {
            0 => {
                let terms = self.terms_of(random, 3, binders);
                self.add(0, random.below(3) as u8, terms)
            }
            1 => {
                let (x, y) = (self.term(random, AGENTS, binders), self.term(random, DATA, binders));
                self.pair(1, x, y)
            }
            2 => self.told(random, 2, inner, binders),
            4 => {
                let sort = random.below(2) as u8;
                let body = self.policy(random, inner, &[binders, &[sort]].concat())?;
                self.for_all(sort, body)
            }
            kind @ (6 | 7) => {
                let action = self.action(random, inner, binders)?;
                let policy = self.policy(random, inner, binders)?;
                self.pair(kind as u8, action, policy)
            }
            kind => {
                let left = self.policy(random, inner, binders)?;
                let right = self.policy(random, inner, binders)?;
                self.pair(kind as u8, left, right)
            }
        }
    }

    /// A random action of so many levels at most.
    pub fn action(&mut self, random: &mut Random, levels: usize, binders: &[u8]) -> Option<u16> {
        let agent = self.term(random, AGENTS, binders);
        match random.below(if levels == 0 { 2 } else { 3 }) {
            0 => {
                let y = self.term(random, DATA, binders);
                self.pair(9, agent, y)
            }
            1 => {
                let [y, z, _] = self.terms_of(random, 2, binders);
                self.add(10, random.below(3) as u8, [agent, y, z])
            }
            _ => self.told(random, 8, levels - 1, binders),
        }
    }

    /// "X says Y to Z", or "X communicates Y to Z".
    fn told(
        &mut self,
        random: &mut Random,
        kind: u8,
        levels: usize,
        binders: &[u8],
    ) -> Option<u16> {
        let policy = self.policy(random, levels, binders)?;
        let (x, z) = (self.term(random, AGENTS, binders), self.term(random, AGENTS, binders));
        self.add(kind, 0, [x, policy, z])
    }

    /// The formula with a name for each parameter.
    pub fn grounded(&mut self, random: &mut Random, formula: u16) -> Option<u16> {
        self.changed(formula, 0, &mut |term, _| match is_parameter(term) {
            true => name(random, sort_of(term)),
            false => term,
        })
    }
}

/// An agent or data object.
pub fn name(random: &mut Random, sort: u8) -> u16 {
    let index = random.below(NAMES) as u16;
    match sort {
        AGENTS => index,
        _ => data(index),
    }
}
