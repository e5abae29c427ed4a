//! A builder of case files that names formulas and lays out offsets and spans.
//!
//! Every field is open, so that a test can damage what it likes before `to_bytes`. An unknown name
//! is a slip in the test and panics.

use crate::checker::{Term, ABSENT, HEADER_BYTES};

/// The numbers of the sixteen rules.
pub const SUPPOSE: u16 = 0;
pub const CONDITION: u16 = 1;
pub const SEEN: u16 = 2;
pub const SAYS: u16 = 3;
pub const REFINE: u16 = 4;
pub const OWNER: u16 = 5;
pub const AND: u16 = 6;
pub const LEFT: u16 = 7;
pub const RIGHT: u16 = 8;
pub const IMPLIES_FROM_LABEL: u16 = 9;
pub const IMPLIED: u16 = 10;
pub const OBLIGES_FROM_LABEL: u16 = 11;
pub const BY_OBLIGATION: u16 = 12;
pub const BY_LABEL: u16 = 13;
pub const FOR_ALL: u16 = 14;
pub const INSTANCE: u16 = 15;

pub const fn data(index: u16) -> u16 {
    *Term::DATA.start() + index
}

pub fn agent_parameter(index: u16) -> u16 {
    Term::AGENT_PARAMETERS.start() + index
}

pub fn data_parameter(index: u16) -> u16 {
    Term::DATA_PARAMETERS.start() + index
}

pub fn agent_variable(index: u16) -> u16 {
    Term::AGENT_VARIABLES.start() + index
}

pub fn data_variable(index: u16) -> u16 {
    Term::DATA_VARIABLES.start() + index
}

/// A formula to add: its fields are terms, or names of formulas already there.
pub struct Sketch {
    kind: u8,
    code: u8,
    fields: Vec<Field>,
}

enum Field {
    Is(u16),
    Named(&'static str),
}

use Field::{Is, Named};

fn sketch(kind: u8, code: u8, fields: Vec<Field>) -> Sketch {
    Sketch { kind, code, fields }
}

pub fn predicate(code: u8, terms: &[u16]) -> Sketch {
    sketch(0, code, terms.iter().map(|term| Is(*term)).collect())
}

pub fn owns(x: u16, y: u16) -> Sketch {
    sketch(1, 0, vec![Is(x), Is(y)])
}

pub fn says(x: u16, policy: &'static str, z: u16) -> Sketch {
    sketch(2, 0, vec![Is(x), Named(policy), Is(z)])
}

pub fn and(left: &'static str, right: &'static str) -> Sketch {
    sketch(3, 0, vec![Named(left), Named(right)])
}

pub fn for_all_agents(body: &'static str) -> Sketch {
    sketch(4, 0, vec![Named(body)])
}

pub fn for_all_data(body: &'static str) -> Sketch {
    sketch(4, 1, vec![Named(body)])
}

pub fn implies(from: &'static str, to: &'static str) -> Sketch {
    sketch(5, 0, vec![Named(from), Named(to)])
}

pub fn each_use(action: &'static str, policy: &'static str) -> Sketch {
    sketch(6, 0, vec![Named(action), Named(policy)])
}

pub fn once(action: &'static str, policy: &'static str) -> Sketch {
    sketch(7, 0, vec![Named(action), Named(policy)])
}

pub fn communicates(x: u16, policy: &'static str, z: u16) -> Sketch {
    sketch(8, 0, vec![Is(x), Named(policy), Is(z)])
}

pub fn creates(x: u16, y: u16) -> Sketch {
    sketch(9, 0, vec![Is(x), Is(y)])
}

/// The first term is the acting agent.
pub fn user_action(code: u8, terms: &[u16]) -> Sketch {
    sketch(10, code, terms.iter().map(|term| Is(*term)).collect())
}

#[derive(Clone, PartialEq, Eq, Hash)]
pub struct FormulaRow {
    pub kind: u8,
    pub code: u8,
    pub fields: [u16; 3],
}

/// A span given here stands in the file instead of the one due.
#[derive(Clone)]
pub struct LogRow {
    pub action: u16,
    pub observers: Vec<u16>,
    pub span: Option<(u16, u16)>,
}

/// The audit hour of a new case.
pub const HOUR: u16 = 50;

#[derive(Clone, Copy, PartialEq)]
pub struct Obligation {
    pub mark: u16,
    pub action: u16,
    pub due: u16,
    pub row: u16,
}

impl Obligation {
    /// One that is not due, and names no row.
    pub fn new(mark: u16, action: u16) -> Obligation {
        Obligation { mark, action, due: HOUR, row: ABSENT }
    }
}

#[derive(Clone)]
pub struct Step {
    pub rule: u16,
    pub formula: u16,
    pub argument: u16,
    pub premises: Vec<u16>,
    pub span: Option<(u16, u16)>,
}

/// A case file in the making. A header pair given here stands in the file instead of the one due.
#[derive(Clone)]
pub struct CaseFile {
    pub agent: u16,
    pub action: u16,
    /// The audit hour.
    pub hour: u16,
    pub header: [Option<(u16, u16)>; 8],
    pub names: Vec<&'static str>,
    pub formulas: Vec<FormulaRow>,
    pub rows: Vec<LogRow>,
    pub conditions: Vec<u16>,
    pub obligations: Vec<Obligation>,
    pub labels: Vec<(u16, u16)>,
    pub steps: Vec<Step>,
}

impl CaseFile {
    /// A case of this agent, with nothing in it and no audited action yet.
    pub fn new(agent: u16) -> CaseFile {
        CaseFile {
            agent,
            action: ABSENT,
            hour: HOUR,
            header: [None; 8],
            names: Vec::new(),
            formulas: Vec::new(),
            rows: Vec::new(),
            conditions: Vec::new(),
            obligations: Vec::new(),
            labels: Vec::new(),
            steps: Vec::new(),
        }
    }

    /// The number of the formula of this name.
    pub fn number(&self, name: &str) -> u16 {
        let found = self.names.iter().position(|known| *known == name);
        found.unwrap_or_else(|| panic!("no formula is named {name}")) as u16
    }

    /// Adds a formula.
    pub fn formula(mut self, name: &'static str, sketch: Sketch) -> CaseFile {
        let mut fields = [ABSENT; 3];
        for (field, value) in fields.iter_mut().zip(&sketch.fields) {
            *field = match value {
                Is(term) => *term,
                Named(name) => self.number(name),
            };
        }
        let (kind, code) = (sketch.kind, sketch.code);
        self.formulas.push(FormulaRow { kind, code, fields });
        self.names.push(name);
        self
    }

    /// Sets the audited action.
    pub fn audits(mut self, action: &str) -> CaseFile {
        self.action = self.number(action);
        self
    }

    pub fn row(mut self, action: &str, observers: &[u16]) -> CaseFile {
        let action = self.number(action);
        let observers = observers.to_vec();
        self.rows.push(LogRow { action, observers, span: None });
        self
    }

    pub fn condition(mut self, predicate: &str) -> CaseFile {
        self.conditions.push(self.number(predicate));
        self
    }

    pub fn obligation(mut self, mark: u16, action: &str) -> CaseFile {
        self.obligations.push(Obligation::new(mark, self.number(action)));
        self
    }

    /// An obligation that was due an hour before the audit, and names this row.
    pub fn expired(mut self, mark: u16, action: &str, row: u16) -> CaseFile {
        let action = self.number(action);
        self.obligations.push(Obligation { mark, action, due: self.hour - 1, row });
        self
    }

    pub fn label(mut self, mark: u16, formula: &str) -> CaseFile {
        self.labels.push((mark, self.number(formula)));
        self
    }

    pub fn step(mut self, rule: u16, formula: &str, argument: u16, premises: &[u16]) -> CaseFile {
        let formula = self.number(formula);
        let premises = premises.to_vec();
        self.steps.push(Step { rule, formula, argument, premises, span: None });
        self
    }

    /// Supposes each premise, by a label of its own after those that are there, and takes a step
    /// from them.
    pub fn step_from(
        mut self,
        rule: u16,
        premises: &[&str],
        argument: u16,
        formula: &str,
    ) -> CaseFile {
        let first = self.steps.len() as u16;
        for premise in premises {
            let label = self.labels.len() as u16;
            self = self.label(0, premise).step(SUPPOSE, premise, label, &[]);
        }
        let supposed: Vec<u16> = (first..self.steps.len() as u16).collect();
        self.step(rule, formula, argument, &supposed)
    }

    /// Every number outside the book that names a formula.
    pub fn formula_numbers(&mut self) -> impl Iterator<Item = &mut u16> {
        let rows = self.rows.iter_mut().map(|row| &mut row.action);
        let obligations = self.obligations.iter_mut().map(|duty| &mut duty.action);
        let labels = self.labels.iter_mut().map(|label| &mut label.1);
        let steps = self.steps.iter_mut().map(|step| &mut step.formula);
        [&mut self.action]
            .into_iter()
            .chain(rows)
            .chain(&mut self.conditions)
            .chain(obligations)
            .chain(labels)
            .chain(steps)
    }

    /// The case with a change made by hand.
    pub fn change(mut self, change: impl FnOnce(&mut CaseFile)) -> CaseFile {
        change(&mut self);
        self
    }

    /// The eight parts, by place.
    fn parts(&self) -> [Vec<u8>; 8] {
        let duty = |duty: &Obligation| [duty.mark, duty.action, duty.due, duty.row];
        let label = |label: &(u16, u16)| [label.0, label.1];
        let (rows, observers) = self.log_parts();
        let (steps, premises) = self.step_parts();
        [
            self.formula_part(),
            rows,
            observers,
            bytes(self.conditions.iter().copied()),
            bytes(self.obligations.iter().flat_map(duty)),
            bytes(self.labels.iter().flat_map(label)),
            steps,
            premises,
        ]
    }

    pub fn formula_part(&self) -> Vec<u8> {
        let mut part = Vec::new();
        for row in &self.formulas {
            part.extend([row.kind, row.code]);
            part.extend(bytes(row.fields));
        }
        part
    }

    fn log_parts(&self) -> (Vec<u8>, Vec<u8>) {
        let (mut records, mut observers) = (Vec::new(), Vec::new());
        for row in &self.rows {
            let due = (observers.len() as u16, row.observers.len() as u16);
            let (offset, count) = row.span.unwrap_or(due);
            records.extend([row.action, offset, count]);
            observers.extend(&row.observers);
        }
        (bytes(records), bytes(observers))
    }

    fn step_parts(&self) -> (Vec<u8>, Vec<u8>) {
        let (mut records, mut premises) = (Vec::new(), Vec::new());
        for step in &self.steps {
            let due = (premises.len() as u16, step.premises.len() as u16);
            let (offset, count) = step.span.unwrap_or(due);
            records.extend([step.rule, step.formula, step.argument, offset, count]);
            premises.extend(&step.premises);
        }
        (bytes(records), bytes(premises))
    }

    /// The eight pairs of offset and length that the header has.
    pub fn pairs(&self) -> [(u16, u16); 8] {
        pairs_over(&self.parts(), self.header)
    }

    pub fn to_bytes(&self) -> Vec<u8> {
        let parts = self.parts();
        let pairs = pairs_over(&parts, self.header).into_iter();
        let pairs = pairs.flat_map(|(offset, length)| [offset, length]);
        let header = [self.agent, self.action].into_iter().chain(pairs).chain([self.hour]);
        [bytes(header), parts.concat()].concat()
    }
}

/// The pairs that are given, and for the other parts those that are due.
fn pairs_over(parts: &[Vec<u8>; 8], given: [Option<(u16, u16)>; 8]) -> [(u16, u16); 8] {
    let mut offset = HEADER_BYTES;
    let mut due = |place: usize| {
        let pair = (offset as u16, parts[place].len() as u16);
        offset += parts[place].len();
        given[place].unwrap_or(pair)
    };
    std::array::from_fn(&mut due)
}

/// Numbers as the file has them, low byte first.
pub fn bytes(numbers: impl IntoIterator<Item = u16>) -> Vec<u8> {
    numbers.into_iter().flat_map(u16::to_le_bytes).collect()
}
