//! Formulas written out as trees, and the book of them; checks 3 and 4, and the column of sizes.

use std::collections::BTreeSet;
use std::rc::Rc;

use super::case_file::{is_sound_length, numbers, ABSENT};
use super::terms::{Shape, Sort, Term};
use super::{ensure, refusal, Refusal};

use Formula::*;

pub(super) type Tree = Rc<Formula>;

/// The marks of obligations and labels; a label of mark 0 is a policy.
pub(super) const POLICY: u16 = 0;
pub const EACH_USE: u16 = 1;
pub(super) const ONCE: u16 = 2;

/// A formula written out. The variants stand in the order of the kinds; `Obliges` is kind 6 with
/// mark 1 and kind 7 with mark 2. The terms of `User` begin with the acting agent.
#[derive(Debug, PartialEq, Eq)]
pub enum Formula {
    Predicate(u8, Vec<Term>),
    Owns(Term, Term),
    Says(Term, Tree, Term),
    And(Tree, Tree),
    ForAll(Sort, Tree),
    Implies(Tree, Tree),
    Obliges(u16, Tree, Tree),
    Communicates(Term, Tree, Term),
    Creates(Term, Term),
    User(u8, Vec<Term>),
}

impl Formula {
    pub fn is_action(&self) -> bool {
        matches!(self, Communicates(..) | Creates(..) | User(..))
    }

    pub(super) fn is_policy(&self) -> bool {
        !self.is_action()
    }

    /// Nodes of the tree, "terms not counted".
    fn nodes(&self) -> usize {
        match self {
            Predicate(..) | Owns(..) | Creates(..) | User(..) => 1,
            Says(_, f, _) | Communicates(_, f, _) | ForAll(_, f) => 1 + f.nodes(),
            And(f, g) | Implies(f, g) | Obliges(_, f, g) => 1 + f.nodes() + g.nodes(),
        }
    }

    /// Every term of the formula, actions included, with the number of binders around it.
    pub(super) fn terms(&self) -> Vec<(Term, u16)> {
        let mut found = Vec::new();
        self.gather(0, &mut found);
        found
    }

    fn gather(&self, binders: u16, found: &mut Vec<(Term, u16)>) {
        match self {
            Predicate(_, terms) | User(_, terms) => {
                found.extend(terms.iter().map(|term| (*term, binders)))
            }
            Owns(x, y) | Creates(x, y) => found.extend([(*x, binders), (*y, binders)]),
            Says(x, f, z) | Communicates(x, f, z) => {
                found.extend([(*x, binders), (*z, binders)]);
                f.gather(binders, found);
            }
            And(f, g) | Implies(f, g) | Obliges(_, f, g) => {
                f.gather(binders, found);
                g.gather(binders, found);
            }
            ForAll(_, f) => f.gather(binders + 1, found),
        }
    }

    /// The formulas reached from this one, itself and actions included, that themselves hold a data
    /// variable. The fields left out here are agents'.
    pub(super) fn strays(&self) -> Vec<&Formula> {
        let mut found = Vec::new();
        self.gather_strays(&mut found);
        found
    }

    fn gather_strays<'a>(&'a self, found: &mut Vec<&'a Formula>) {
        match self {
            Predicate(_, terms) | User(_, terms) => {
                found.extend(terms.iter().any(is_data_variable).then_some(self))
            }
            Owns(_, y) | Creates(_, y) => found.extend(is_data_variable(y).then_some(self)),
            Says(_, f, _) | Communicates(_, f, _) | ForAll(_, f) => f.gather_strays(found),
            And(f, g) | Implies(f, g) | Obliges(_, f, g) => {
                f.gather_strays(found);
                g.gather_strays(found);
            }
        }
    }

    /// "Closed: no free variable." A variable that counts beyond the binders around it is free.
    pub(super) fn is_closed(&self) -> bool {
        let bound =
            |(term, binders): (Term, u16)| term.shape != Shape::Variable || term.index < binders;
        self.terms().into_iter().all(bound)
    }

    /// "Ground: closed, no parameter."
    pub fn is_ground(&self) -> bool {
        let parameter = |(term, _): &(Term, u16)| term.shape == Shape::Parameter;
        self.is_closed() && !self.terms().iter().any(parameter)
    }

    pub(super) fn mentions(&self, number: u16) -> bool {
        self.terms().iter().any(|(term, _)| term.number == number)
    }

    /// A for-all's body with the argument in the place of variable 0. The for-all is closed and
    /// its body keeps to its sort, so no other variable is touched and none has to move.
    pub(super) fn instance(&self, argument: Term) -> Formula {
        self.put(argument, 0)
    }

    fn put(&self, argument: Term, binders: u16) -> Formula {
        let term = |term: &Term| match is_variable(term, argument.sort, binders) {
            true => argument,
            false => *term,
        };
        let list = |terms: &[Term]| terms.iter().map(term).collect();
        let tree = |f: &Formula| Rc::new(f.put(argument, binders));
        match self {
            Predicate(code, terms) => Predicate(*code, list(terms)),
            Owns(x, y) => Owns(term(x), term(y)),
            Says(x, f, z) => Says(term(x), tree(f), term(z)),
            And(f, g) => And(tree(f), tree(g)),
            ForAll(sort, f) => ForAll(*sort, Rc::new(f.put(argument, binders + 1))),
            Implies(f, g) => Implies(tree(f), tree(g)),
            Obliges(mark, f, g) => Obliges(*mark, tree(f), tree(g)),
            Communicates(x, f, z) => Communicates(term(x), tree(f), term(z)),
            Creates(x, y) => Creates(term(x), term(y)),
            User(code, terms) => User(*code, list(terms)),
        }
    }
}

fn is_variable(term: &Term, sort: Sort, index: u16) -> bool {
    term.shape == Shape::Variable && term.sort == sort && term.index == index
}

fn is_data_variable(term: &Term) -> bool {
    term.shape == Shape::Variable && term.sort == Sort::Data
}

/// Checks 3 and 4 over the bytes of a formulas part. A length that makes the part faulty is
/// refused as check 2 does.
pub fn admit_book(part: &[u8]) -> Result<Vec<Tree>, Refusal> {
    ensure(is_sound_length(0, part.len()), 2, 0)?;
    let mut book = Vec::new();
    check_3(part, &mut book)?;
    check_4(part)?;
    Ok(book)
}

/// The answer of `admit_book`, and "a column of 1,024 bytes, byte k exactly the nodes of row k's
/// tree". Where 3 refuses, the rows below its place have their sizes; where 4 does, all rows.
/// Every other byte is as it was lent.
pub fn size_column(part: &[u8], column: &mut [u8; 1_024]) -> Result<(), Refusal> {
    ensure(is_sound_length(0, part.len()), 2, 0)?;
    let mut book = Vec::new();
    let good_rows = check_3(part, &mut book);
    for (byte, formula) in column.iter_mut().zip(&book) {
        *byte = formula.nodes() as u8;
    }
    good_rows?;
    check_4(part)
}

/// 3: bad formula row. A row is read only after all lower ones, so every child has at most 64
/// nodes and counting never runs away. An empty book is lent, and gets the rows below the first bad
/// one, or all rows.
fn check_3(part: &[u8], book: &mut Vec<Tree>) -> Result<(), Refusal> {
    for (place, record) in part.chunks_exact(8).enumerate() {
        let formula = read_formula(record, book).ok_or(refusal(3, place))?;
        ensure(formula.nodes() <= 64 && keeps_sort(&formula), 3, place)?;
        book.push(Rc::new(formula));
    }
    Ok(())
}

/// "Kind (one byte), code (one byte), fields X, Y, Z." "Children have lower row numbers and are
/// policies but for X of 6 and 7." "Unlisted codes are 0 and unlisted fields absent."
fn read_formula(record: &[u8], lower: &[Tree]) -> Option<Formula> {
    let agent = |number| Term::read_sort(number, Sort::Agent);
    let data = |number| Term::read_sort(number, Sort::Data);
    let policy = |number| find(lower, number, Formula::is_policy);
    let action = |number| find(lower, number, Formula::is_action);
    let fields = numbers(&record[2..]);
    let formula = match (record[0], record[1], fields[0], fields[1], fields[2]) {
        (0, code, _, _, _) => Predicate(code, Term::read_list(&fields)?),
        (1, 0, x, y, ABSENT) => Owns(agent(x)?, data(y)?),
        (2, 0, x, y, z) => Says(agent(x)?, policy(y)?, agent(z)?),
        (3, 0, x, y, ABSENT) => And(policy(x)?, policy(y)?),
        (4, 0, x, ABSENT, ABSENT) => ForAll(Sort::Agent, policy(x)?),
        (4, 1, x, ABSENT, ABSENT) => ForAll(Sort::Data, policy(x)?),
        (5, 0, x, y, ABSENT) => Implies(policy(x)?, policy(y)?),
        (6, 0, x, y, ABSENT) => Obliges(EACH_USE, action(x)?, policy(y)?),
        (7, 0, x, y, ABSENT) => Obliges(ONCE, action(x)?, policy(y)?),
        (8, 0, x, y, z) => Communicates(agent(x)?, policy(y)?, agent(z)?),
        (9, 0, x, y, ABSENT) => Creates(agent(x)?, data(y)?),
        (10, code, x, _, _) => {
            agent(x)?;
            User(code, Term::read_list(&fields)?)
        }
        _ => return None,
    };
    Some(formula)
}

/// The book's row of this number, if it is there and as wanted.
pub(super) fn find(book: &[Tree], number: u16, wanted: impl Fn(&Formula) -> bool) -> Option<Tree> {
    book.get(number as usize).filter(|row| wanted(row)).cloned()
}

/// "In a for-all's body, variable 0 never has the other sort": the variable this for-all binds,
/// written with number d under d more for-alls.
fn keeps_sort(formula: &Formula) -> bool {
    let ForAll(sort, body) = formula else { return true };
    let other = match sort {
        Sort::Agent => Sort::Data,
        Sort::Data => Sort::Agent,
    };
    let strays = |(term, binders): (Term, u16)| is_variable(&term, other, binders);
    !body.terms().into_iter().any(strays)
}

/// 4: repeats a lower row.
fn check_4(part: &[u8]) -> Result<(), Refusal> {
    let mut lower = BTreeSet::new();
    for (place, record) in part.chunks_exact(8).enumerate() {
        ensure(lower.insert(record), 4, place)?;
    }
    Ok(())
}
