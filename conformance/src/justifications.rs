//! Random justifications that pass: a proof of what is owed is made from its end, each formula by
//! a rule picked at random, over a log, conditions, obligations and labels that grow with it.
//!
//! A slip is a fault of reasoning in a case whose records are all in order, or a duty that is not
//! done.

mod duties;
mod tautologies;

use std::collections::BTreeSet;
use std::mem;

use crate::builder::*;
use crate::checker::{Term, ABSENT};
use crate::interned::{children, children_mut, is_parameter, name, parameter, sort_of};
use crate::interned::{Book, AGENTS, DATA};
use crate::random::Random;

/// A label that a step below will close.
#[derive(Clone)]
struct Hypothesis {
    number: u16,
    mark: u16,
    formula: u16,
    /// An each-use label is taken once.
    taken: bool,
}

/// What a slip is: something supposed for good, a row cited that is hidden, struck or about others,
/// an owner step over a data variable, a premise of another kind or about another party, an
/// instance by another argument, a refinement on other grounds than logic, an each-use obligation
/// or label used twice, a parameter that is not free, an expired duty that is not done, two each-use
/// duties done by one row.
#[derive(Clone, Copy, PartialEq)]
enum Slip {
    Supposed,
    Hidden,
    Struck,
    Bystander,
    Variable,
    Kind,
    Party,
    Instance,
    Grounds,
    Obligation,
    Label,
    Parameter,
    NotDone,
    OneRow,
}

/// Most of those from `Variable` on are tried more often: some need more to come together.
const SLIPS: [Slip; 24] = [
    Slip::Supposed,
    Slip::Hidden,
    Slip::Struck,
    Slip::Bystander,
    Slip::Variable,
    Slip::Variable,
    Slip::Kind,
    Slip::Kind,
    Slip::Party,
    Slip::Party,
    Slip::Instance,
    Slip::Instance,
    Slip::Grounds,
    Slip::Grounds,
    Slip::Obligation,
    Slip::Obligation,
    Slip::Label,
    Slip::Label,
    Slip::Parameter,
    Slip::Parameter,
    Slip::NotDone,
    Slip::OneRow,
    Slip::OneRow,
    Slip::OneRow,
];

struct Maker<'a> {
    random: &'a mut Random,
    /// The slip that is made now and then.
    slip: Option<Slip>,
    /// How many more rules may be picked freely.
    budget: usize,
    book: Book,
    case: CaseFile,
    hypotheses: Vec<Hypothesis>,
}

/// A case that passes, in a room long enough.
pub fn passing(random: &mut Random) -> CaseFile {
    made(random, None)
}

/// A case with slips of one kind, or none.
pub fn slipping(random: &mut Random) -> CaseFile {
    let slip = random.pick(&SLIPS);
    made(random, Some(slip))
}

/// A case with steps that cite rows which the agent does not see, or none.
pub fn citing_hidden_rows(random: &mut Random) -> CaseFile {
    made(random, Some(Slip::Hidden))
}

/// A case with refine steps whose first premise rests on more than logic, or none.
pub fn refining_on_grounds(random: &mut Random) -> CaseFile {
    made(random, Some(Slip::Grounds))
}

/// A case with duties that are expired and not done, or that share a row, or none.
pub fn failing_duties(random: &mut Random) -> CaseFile {
    let slip = random.pick(&[Slip::NotDone, Slip::OneRow]);
    made(random, Some(slip))
}

/// Tries until everything keeps within the limits of a file.
fn made(random: &mut Random, slip: Option<Slip>) -> CaseFile {
    loop {
        let case = CaseFile::new(name(random, AGENTS));
        let budget = random.below(14);
        let (book, hypotheses) = (Book::default(), Vec::new());
        let maker = Maker { random: &mut *random, slip, budget, book, case, hypotheses };
        if let Some(case) = maker.make() {
            return case;
        }
    }
}

impl Maker<'_> {
    fn make(mut self) -> Option<CaseFile> {
        let (action, owed) = self.audit()?;
        self.case.action = action;
        self.prove(owed)?;
        for _ in 0..self.random.below(4) {
            self.add_unused()?;
        }
        self.set_hours()?;
        self.case.formulas = self.book.rows;
        let within = self.case.conditions.len() <= 64
            && self.case.obligations.len() <= 64
            && self.case.labels.len() <= 32;
        reorder(self.random, &mut self.case.steps);
        renumber(self.random, &mut self.case);
        within.then_some(self.case)
    }

    fn slips(&mut self, slip: Slip) -> bool {
        self.slip == Some(slip) && self.random.one_in(2)
    }

    /// An action of the agent, and what it owes.
    fn audit(&mut self) -> Option<(u16, u16)> {
        let agent = self.case.agent;
        if self.slip != Some(Slip::Grounds) && self.random.one_in(2) {
            let code = self.random.below(3) as u8;
            let mut terms = [agent, ABSENT, ABSENT];
            for term in &mut terms[1..1 + self.random.below(3)] {
                let sort = self.random.below(2) as u8;
                *term = name(self.random, sort);
            }
            Some((self.book.add(10, code, terms)?, self.book.add(0, code, terms)?))
        } else {
            let policy = self.policy(3)?;
            let policy = self.book.grounded(self.random, policy)?;
            let to = name(self.random, AGENTS);
            Some((self.book.add(8, 0, [agent, policy, to])?, self.book.says(agent, policy, to)?))
        }
    }

    /// A random policy: by a slip, two of them for all data.
    fn policy(&mut self, levels: usize) -> Option<u16> {
        if !self.slips(Slip::Variable) {
            return self.book.policy(self.random, levels, &[]);
        }
        let left = self.book.policy(self.random, levels, &[DATA])?;
        let right = self.book.policy(self.random, levels, &[DATA])?;
        let both = self.book.pair(3, left, right)?;
        self.book.for_all(DATA, both)
    }

    fn ground_action(&mut self) -> Option<u16> {
        let action = self.book.action(self.random, 1, &[])?;
        self.book.grounded(self.random, action)
    }

    fn step(&mut self, rule: u16, formula: u16, argument: u16, premises: &[u16]) -> Option<u16> {
        let number = self.case.steps.len() as u16;
        let premises = premises.to_vec();
        self.case.steps.push(Step { rule, formula, argument, premises, span: None });
        (number < 2_048).then_some(number)
    }

    /// A step that gives this formula, and all that it rests on.
    fn prove(&mut self, goal: u16) -> Option<u16> {
        if self.budget == 0 || self.book.nodes(goal) > 24 {
            return self.prove_plainly(goal);
        }
        self.budget -= 1;
        let rules = self.rules_for(goal);
        match self.random.pick(&rules) {
            REFINE => self.refine(goal),
            OWNER => self.owner(goal),
            AND => self.and(goal),
            LEFT | RIGHT => self.one_side(goal),
            IMPLIES_FROM_LABEL | OBLIGES_FROM_LABEL => self.closing_label(goal),
            IMPLIED => self.implied(goal),
            BY_OBLIGATION => self.by_obligation(goal),
            BY_LABEL => self.by_label(goal),
            FOR_ALL => self.for_all(goal),
            INSTANCE => self.instance(goal),
            SAYS => self.says(goal),
            _ => self.prove_plainly(goal),
        }
    }

    /// The rules that can give this formula; those made for its kind, and labels in scope, weigh
    /// more.
    fn rules_for(&self, goal: u16) -> Vec<u16> {
        let mut rules =
            vec![SEEN, SAYS, LEFT, RIGHT, IMPLIED, BY_OBLIGATION, BY_OBLIGATION, INSTANCE];
        let own: &[u16] = match self.book.kind(goal) {
            _ if self.slip == Some(Slip::Variable) && self.has_data_variable(goal) => &[OWNER],
            2 if self.book.fields(goal)[0] == self.case.agent => match self.is_ownable(goal) {
                true => &[OWNER, REFINE],
                false => &[REFINE],
            },
            3 => &[AND],
            4 => &[FOR_ALL],
            5 => &[IMPLIES_FROM_LABEL],
            6 | 7 => &[OBLIGES_FROM_LABEL],
            _ => &[],
        };
        for _ in 0..6 {
            rules.extend(own);
        }
        if self.slip == Some(Slip::Grounds) && own.contains(&REFINE) {
            rules.extend([REFINE; 12]);
        }
        if self.hypotheses.iter().any(|known| known.mark > 0 && !known.taken) {
            rules.extend([BY_LABEL; 4]);
        }
        rules
    }

    /// Data objects and data parameters in the formula, ascending.
    fn data_in(&self, formula: u16) -> BTreeSet<u16> {
        let terms = self.book.terms(formula).into_iter().map(|(term, _)| term);
        terms.filter(|term| sort_of(*term) == DATA).collect()
    }

    fn has_data_variable(&self, formula: u16) -> bool {
        let terms = self.book.terms(formula);
        terms.iter().any(|(term, _)| Term::DATA_VARIABLES.contains(term))
    }

    fn is_ownable(&self, goal: u16) -> bool {
        !self.has_data_variable(goal) && (1..=16).contains(&self.data_in(goal).len())
    }

    /// The shortest way: a supposition, a condition, a seen row, or what somebody said of it, with
    /// parameters put in last.
    fn prove_plainly(&mut self, goal: u16) -> Option<u16> {
        let agent = self.case.agent;
        let [x, y, z] = self.book.fields(goal);
        let supposed =
            self.hypotheses.iter().find(|known| known.mark == 0 && known.formula == goal);
        if let Some(label) = supposed.map(|known| known.number) {
            return self.step(SUPPOSE, goal, label, &[]);
        }
        if self.slips(Slip::Supposed) {
            let label = self.label(0, goal);
            return self.step(SUPPOSE, goal, label, &[]);
        }
        if let Some(first) = self.book.parameters(goal).first().copied() {
            let general = self.book.generalised(goal, first, || true)?;
            let premise = self.prove_plainly(general)?;
            let argument = self.argument(first);
            return self.step(INSTANCE, goal, argument, &[premise]);
        }
        match self.book.kind(goal) {
            0 if !self.random.one_in(3) => {
                let condition = entry(self.random, &mut self.case.conditions, goal);
                self.step(CONDITION, goal, condition, &[])
            }
            1 if x == agent || self.slips(Slip::Bystander) => {
                let row = self.book.pair(9, x, y)?;
                self.seen(goal, row)
            }
            2 if z == agent || self.slips(Slip::Bystander) => {
                let row = self.book.add(8, 0, [x, y, z])?;
                self.seen(goal, row)
            }
            _ => self.says(goal),
        }
    }

    /// A log row that the agent sees, which may be there already.
    fn seen(&mut self, goal: u16, action: u16) -> Option<u16> {
        let agent = self.case.agent;
        let same = |row: &LogRow| row.action == action && row.observers.contains(&agent);
        let known = self.case.rows.iter().position(same);
        if let Some(row) = known.filter(|_| !self.random.one_in(3)) {
            return self.step(SEEN, goal, row as u16, &[]);
        }
        while self.random.one_in(3) {
            self.add_row()?;
        }
        let mut observers = others(self.random, agent);
        if !self.slips(Slip::Hidden) {
            observers.insert(agent);
        }
        let action = if self.slips(Slip::Struck) { ABSENT } else { action };
        let row = self.push_row(action, observers)?;
        self.step(SEEN, goal, row, &[])
    }

    fn push_row(&mut self, action: u16, observers: BTreeSet<u16>) -> Option<u16> {
        let observers = observers.into_iter().collect();
        self.case.rows.push(LogRow { action, observers, span: None });
        Some(self.case.rows.len() as u16 - 1).filter(|row| *row < 1_024)
    }

    /// A log row that no step cites: seen or hidden, struck or not.
    fn add_row(&mut self) -> Option<u16> {
        let mut observers = others(self.random, self.case.agent);
        if self.random.one_in(3) {
            observers.insert(self.case.agent);
        }
        let action = match self.random.one_in(3) {
            true => ABSENT,
            false => self.ground_action()?,
        };
        self.push_row(action, observers)
    }

    /// An entry of some part that no step cites.
    fn add_unused(&mut self) -> Option<()> {
        match self.random.below(5) {
            0 => {
                let policy = self.policy(2)?;
                self.label(0, policy);
            }
            1 => {
                let (mark, action) = (1 + self.random.below(2) as u16, self.ground_action()?);
                self.case.obligations.push(Obligation::new(mark, action));
            }
            2 => self.case.conditions.push(ABSENT),
            _ => {
                self.add_row()?;
            }
        }
        Some(())
    }

    /// A premise of a kind that the rule asks for: by a slip, any policy in its place.
    fn premise(&mut self, goal: u16) -> Option<u16> {
        let goal = if self.slips(Slip::Kind) { self.policy(1)? } else { goal };
        self.prove(goal)
    }

    /// The agent, where a premise has to be about it: by a slip, any agent.
    fn party(&mut self) -> u16 {
        match self.slips(Slip::Party) {
            true => name(self.random, AGENTS),
            false => self.case.agent,
        }
    }

    /// What is put in for a variable: by a slip, any name of that sort.
    fn argument(&mut self, due: u16) -> u16 {
        match self.slips(Slip::Instance) {
            true => name(self.random, sort_of(due)),
            false => due,
        }
    }

    fn says(&mut self, goal: u16) -> Option<u16> {
        let (x, to) = (name(self.random, AGENTS), self.party());
        let said = self.book.says(x, goal, to)?;
        let premise = self.premise(said)?;
        self.step(SAYS, goal, ABSENT, &[premise])
    }

    /// A formula to go by: mostly one that is supposed here.
    fn helper(&mut self) -> Option<u16> {
        let supposed: Vec<u16> = self
            .hypotheses
            .iter()
            .filter(|known| known.mark == 0)
            .map(|known| known.formula)
            .collect();
        match supposed.is_empty() || self.random.one_in(3) {
            true => self.policy(1),
            false => Some(self.random.pick(&supposed)),
        }
    }

    fn refine(&mut self, goal: u16) -> Option<u16> {
        let [_, policy, z] = self.book.fields(goal);
        let (from, shown) = self.refinement(policy)?;
        let by = self.party();
        let said = self.book.says(by, from, z)?;
        let premises = [shown, self.premise(said)?];
        self.step(REFINE, goal, ABSENT, &premises)
    }

    /// From the formula's data. By a slip it may have none but variables, and then from any one.
    fn owner(&mut self, goal: u16) -> Option<u16> {
        let mut data = self.data_in(goal);
        if data.is_empty() {
            data.insert(name(self.random, DATA));
        }
        let mut premises = Vec::new();
        for datum in data {
            let owner = self.party();
            let owned = self.book.pair(1, owner, datum)?;
            premises.push(self.premise(owned)?);
        }
        self.step(OWNER, goal, ABSENT, &premises)
    }

    fn and(&mut self, goal: u16) -> Option<u16> {
        let [left, right, _] = self.book.fields(goal);
        let premises = [self.prove(left)?, self.prove(right)?];
        self.step(AND, goal, ABSENT, &premises)
    }

    fn one_side(&mut self, goal: u16) -> Option<u16> {
        let other = self.helper()?;
        let (rule, left, right) = match self.random.one_in(2) {
            true => (LEFT, goal, other),
            false => (RIGHT, other, goal),
        };
        let both = self.book.pair(3, left, right)?;
        let premise = self.premise(both)?;
        self.step(rule, goal, ABSENT, &[premise])
    }

    fn implied(&mut self, goal: u16) -> Option<u16> {
        let from = self.helper()?;
        let implication = self.book.pair(5, from, goal)?;
        let premises = [self.premise(implication)?, self.prove(from)?];
        self.step(IMPLIED, goal, ABSENT, &premises)
    }

    /// A label of this mark and formula that is not in scope, old or new.
    fn label(&mut self, mark: u16, formula: u16) -> u16 {
        let hypotheses = &self.hypotheses;
        let free = |number: usize| hypotheses.iter().all(|known| known.number as usize != number);
        let labels = &self.case.labels;
        let old = (0..labels.len()).find(|k| labels[*k] == (mark, formula) && free(*k));
        if let Some(number) = old.filter(|_| !self.random.one_in(3)) {
            return number as u16;
        }
        self.case.labels.push((mark, formula));
        self.case.labels.len() as u16 - 1
    }

    /// Rules 9 and 11: what is left of the arrow may be used above.
    fn closing_label(&mut self, goal: u16) -> Option<u16> {
        let [formula, policy, _] = self.book.fields(goal);
        let (rule, mark) = closing(self.book.kind(goal));
        let number = self.label(mark, formula);
        self.hypotheses.push(Hypothesis { number, mark, formula, taken: false });
        let premise = self.prove(policy)?;
        self.hypotheses.pop();
        self.step(rule, goal, number, &[premise])
    }

    /// "Action X each use", or once, "then" the goal.
    fn demand(&mut self, mark: u16, action: u16, goal: u16) -> Option<u16> {
        let demand = self.book.pair(mark as u8 + 5, action, goal)?;
        self.premise(demand)
    }

    fn by_obligation(&mut self, goal: u16) -> Option<u16> {
        let known = !self.case.obligations.is_empty();
        let duty = match known && !self.random.one_in(3) {
            true => self.random.pick(&self.case.obligations),
            false => Obligation::new(1 + self.random.below(2) as u16, self.ground_action()?),
        };
        let number = match duty.mark == 2 || self.slips(Slip::Obligation) {
            true => entry(self.random, &mut self.case.obligations, duty),
            false => {
                self.case.obligations.push(duty);
                self.case.obligations.len() as u16 - 1
            }
        };
        let premise = self.demand(duty.mark, duty.action, goal)?;
        self.step(BY_OBLIGATION, goal, number, &[premise])
    }

    fn by_label(&mut self, goal: u16) -> Option<u16> {
        let free: Vec<usize> = (0..self.hypotheses.len())
            .filter(|k| self.hypotheses[*k].mark > 0 && !self.hypotheses[*k].taken)
            .collect();
        let at = self.random.pick(&free);
        self.hypotheses[at].taken = self.hypotheses[at].mark == 1 && !self.slips(Slip::Label);
        let Hypothesis { number, mark, formula, .. } = self.hypotheses[at].clone();
        let premise = self.demand(mark, formula, goal)?;
        self.step(BY_LABEL, goal, number, &[premise])
    }

    /// A slip is a parameter that stands in the formula already, or in a label that is open.
    fn for_all(&mut self, goal: u16) -> Option<u16> {
        let sort = self.book.code(goal);
        let stale = |maker: &Self, argument: u16| {
            let mut known = maker.hypotheses.iter();
            maker.book.mentions(goal, argument)
                || known.any(|known| maker.book.mentions(known.formula, argument))
        };
        let wanted = self.slips(Slip::Parameter);
        let found = (0..32).map(|index| parameter(sort, index));
        let mut found = found.filter(|argument| stale(self, *argument) == wanted);
        let argument = found.next().or_else(|| wanted.then_some(parameter(sort, 0)))?;
        let put_in = self.argument(argument);
        let body = self.book.instance(goal, put_in)?;
        let premise = self.prove(body)?;
        self.step(FOR_ALL, goal, argument, &[premise])
    }

    fn instance(&mut self, goal: u16) -> Option<u16> {
        let (general, argument) = self.general(goal)?;
        let premise = self.premise(general)?;
        let argument = self.argument(argument);
        self.step(INSTANCE, goal, argument, &[premise])
    }

    /// A for-all and an argument that give the formula. The argument mostly stands in the formula,
    /// and some of its occurrences are the variable's.
    fn general(&mut self, goal: u16) -> Option<(u16, u16)> {
        let is_name = |term: &u16| is_parameter(*term) || *term <= *Term::DATA.end();
        let terms = self.book.terms(goal).into_iter().map(|(term, _)| term);
        let mut arguments: Vec<u16> = terms.filter(is_name).collect();
        let sort = self.random.below(2) as u8;
        arguments.push(name(self.random, sort));
        let argument = self.random.pick(&arguments);
        let random = &mut *self.random;
        let general = self.book.generalised(goal, argument, || !random.one_in(3))?;
        Some((general, argument))
    }
}

/// The rule that gives an implication or a demand, and the mark of the label that it closes.
fn closing(kind: u8) -> (u16, u16) {
    match kind {
        5 => (IMPLIES_FROM_LABEL, 0),
        _ => (OBLIGES_FROM_LABEL, kind as u16 - 5),
    }
}

/// The number of this entry in the list, to which it is added if it is not there, and one time in
/// three if it is.
fn entry<T: PartialEq>(random: &mut Random, list: &mut Vec<T>, wanted: T) -> u16 {
    let known = list.iter().position(|entry| *entry == wanted);
    if let Some(number) = known.filter(|_| !random.one_in(3)) {
        return number as u16;
    }
    list.push(wanted);
    list.len() as u16 - 1
}

/// Up to three agents, this one not among them.
pub fn others(random: &mut Random, agent: u16) -> BTreeSet<u16> {
    let agents = (0..random.below(4)).map(|_| name(random, AGENTS));
    let agents: Vec<u16> = agents.collect();
    agents.into_iter().filter(|other| *other != agent).collect()
}

/// New numbers for records, so that each still comes after those that it names.
fn new_numbers(random: &mut Random, named: &[Vec<u16>]) -> Vec<u16> {
    let mut keys: Vec<usize> = Vec::new();
    for named in named {
        let behind = named.iter().map(|number| keys[*number as usize] + 1).max();
        keys.push(behind.unwrap_or(0) + random.below(64));
    }
    let mut order: Vec<usize> = (0..keys.len()).collect();
    order.sort_by_key(|old| keys[*old]);
    let mut numbers = vec![0; keys.len()];
    for (new, old) in (0..).zip(order) {
        numbers[old] = new;
    }
    numbers
}

/// Records in the order of their new numbers.
fn in_order<T>(records: Vec<T>, numbers: &[u16]) -> Vec<T> {
    let mut numbered: Vec<(u16, T)> = numbers.iter().copied().zip(records).collect();
    numbered.sort_by_key(|(number, _)| *number);
    numbered.into_iter().map(|(_, record)| record).collect()
}

/// Another order of the steps, in which each premise is still earlier.
fn reorder(random: &mut Random, steps: &mut Vec<Step>) {
    let premises: Vec<Vec<u16>> = steps.iter().map(|step| step.premises.clone()).collect();
    let numbers = new_numbers(random, &premises);
    for premise in steps.iter_mut().flat_map(|step| &mut step.premises) {
        *premise = numbers[*premise as usize];
    }
    *steps = in_order(mem::take(steps), &numbers);
}

/// Another order of the formulas, in which each child is still lower.
fn renumber(random: &mut Random, case: &mut CaseFile) {
    let below: Vec<Vec<u16>> = case.formulas.iter().map(|row| children(row).collect()).collect();
    let numbers = new_numbers(random, &below);
    for child in case.formulas.iter_mut().flat_map(children_mut) {
        *child = numbers[*child as usize];
    }
    for number in case.formula_numbers().filter(|number| **number != ABSENT) {
        *number = numbers[*number as usize];
    }
    case.formulas = in_order(mem::take(&mut case.formulas), &numbers);
}
