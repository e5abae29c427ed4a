//! A justification in the making that goes round from P to P, each time by other rules. P is what
//! is owed, and was certified.

use crate::builder::*;
use crate::checker::ABSENT;
use crate::interned::{Book, AGENTS};

pub const AGENT: u16 = 0;

pub struct Rounds {
    pub case: CaseFile,
    pub book: Book,
    /// P, which is owed.
    pub p: u16,
    /// The step that last gave P.
    pub last: u16,
}

impl Rounds {
    /// Step 0 gives P by condition 0. Every condition is P, every obligation the audited action.
    pub fn new() -> Rounds {
        let mut book = Book::default();
        let mut add = |kind, fields| book.add(kind, 9, fields).expect("the book is small");
        let p = add(0, [AGENT, ABSENT, ABSENT]);
        let action = add(10, [AGENT, ABSENT, ABSENT]);
        let case = CaseFile {
            action,
            conditions: vec![p; 64],
            obligations: vec![Obligation::new(1, action); 64],
            labels: vec![(0, p); 32],
            ..CaseFile::new(AGENT)
        };
        let mut rounds = Rounds { case, book, p, last: 0 };
        rounds.step(CONDITION, p, 0, &[]);
        rounds
    }

    pub fn finish(self) -> CaseFile {
        CaseFile { formulas: self.book.rows, ..self.case }
    }

    pub fn step(&mut self, rule: u16, formula: u16, argument: u16, premises: &[u16]) -> u16 {
        let premises = premises.to_vec();
        self.case.steps.push(Step { rule, formula, argument, premises, span: None });
        self.case.steps.len() as u16 - 1
    }

    pub fn pair(&mut self, kind: u8, x: u16, y: u16) -> u16 {
        self.book.pair(kind, x, y).expect("the formula is small")
    }

    pub fn says(&mut self, x: u16, policy: u16, z: u16) -> u16 {
        self.book.says(x, policy, z).expect("the formula is small")
    }

    pub fn communicates(&mut self, x: u16, policy: u16, z: u16) -> u16 {
        self.book.add(8, 0, [x, policy, z]).expect("the formula is small")
    }

    /// A log row, with four observers: the agent and three more.
    pub fn row(&mut self, action: u16) -> u16 {
        let row = self.case.rows.len() as u16;
        let observers = vec![AGENT, 1, 2, 3 + row];
        self.case.rows.push(LogRow { action, observers, span: None });
        row
    }

    /// "P implies P, once the obligation's action is done, at each use".
    pub fn demand(&mut self, obligation: u16) -> u16 {
        let implication = self.pair(5, self.p, self.p);
        self.pair(6, self.case.obligations[obligation as usize].action, implication)
    }

    /// "Agent says so to 1" of these data, by the owner, who created them in the rows from this one
    /// on; and P, of which P is the left.
    pub fn owner_round(&mut self, row: u16, objects: impl Iterator<Item = u16>) {
        let mut premises = Vec::new();
        let mut all = self.p;
        for (row, object) in (row..).zip(objects) {
            let owned = self.pair(1, AGENT, object);
            premises.push(self.step(SEEN, owned, row, &[]));
            all = self.pair(3, all, owned);
        }
        let said = self.says(AGENT, all, 1);
        let owner = self.step(OWNER, said, ABSENT, &premises);
        let both = self.pair(3, self.p, said);
        let and = self.step(AND, both, ABSENT, &[self.last, owner]);
        self.last = self.step(LEFT, self.p, ABSENT, &[and]);
    }

    /// By an obligation, and the demand for it, as agent 1 tells it in this row.
    pub fn obligation_round(&mut self, obligation: u16, row: u16) {
        let demand = self.demand(obligation);
        let said = self.says(1, demand, AGENT);
        let implication = self.pair(5, self.p, self.p);
        let seen = self.step(SEEN, said, row, &[]);
        let told = self.step(SAYS, demand, ABSENT, &[seen]);
        let met = self.step(BY_OBLIGATION, implication, obligation, &[told]);
        self.last = self.step(IMPLIED, self.p, ABSENT, &[met, self.last]);
    }

    pub fn condition_round(&mut self, condition: u16) {
        let both = self.pair(3, self.p, self.p);
        let certified = self.step(CONDITION, self.p, condition, &[]);
        let and = self.step(AND, both, ABSENT, &[self.last, certified]);
        self.last = self.step(RIGHT, self.p, ABSENT, &[and]);
    }

    pub fn label_round(&mut self, label: u16) {
        let implication = self.pair(5, self.p, self.p);
        let supposed = self.step(SUPPOSE, self.p, label, &[]);
        let closed = self.step(IMPLIES_FROM_LABEL, implication, label, &[supposed]);
        self.last = self.step(IMPLIED, self.p, ABSENT, &[closed, self.last]);
    }

    /// So many for-alls around the formula that the last step gives, and off again. Gives the
    /// outermost.
    pub fn for_all_round(&mut self, formula: u16, depth: usize) -> u16 {
        let mut formulas = vec![formula];
        for level in 0..depth {
            let general = self.book.for_all(AGENTS, formulas[level]).expect("up to 64 nodes");
            self.last = self.step(FOR_ALL, general, agent_parameter(31), &[self.last]);
            formulas.push(general);
        }
        for formula in formulas[..depth].iter().rev() {
            self.last = self.step(INSTANCE, *formula, 5, &[self.last]);
        }
        formulas[depth]
    }

    /// Formulas that nothing uses, each with this body, up to so many in the book.
    pub fn fill_book(&mut self, body: u16, formulas: usize) {
        while self.book.rows.len() < formulas {
            let x = self.book.rows.len() as u16;
            self.says(x, body, 1);
        }
    }
}
