//! Formulas as they are written: trees in which a child is written out or named by its row.

use std::collections::HashMap;

use crate::builder::FormulaRow;
use crate::checker::{Term, ABSENT, PARTS};

/// A formula written out, or the number of its row.
#[derive(Clone, Debug, PartialEq, Eq)]
pub enum Written {
    Row(u16),
    Node(Node),
}

/// A formula's top, with its fields in the order of the file. Fields that are absent are left out.
#[derive(Clone, Debug, PartialEq, Eq)]
pub struct Node {
    pub kind: u8,
    pub code: u8,
    pub fields: Vec<Field>,
}

#[derive(Clone, Debug, PartialEq, Eq)]
pub enum Field {
    Term(u16),
    Child(Written),
}

/// What a field of a row is: a term, one of a list of terms that may end early, a formula, or
/// nothing.
#[derive(Clone, Copy, PartialEq, Eq)]
enum Place {
    Term,
    Listed,
    Child,
    Unused,
}

/// The fields of each kind.
fn places(kind: u8) -> Option<[Place; 3]> {
    use Place::*;
    match kind {
        0 | 10 => Some([Listed, Listed, Listed]),
        1 | 9 => Some([Term, Term, Unused]),
        2 | 8 => Some([Term, Child, Term]),
        3 | 5..=7 => Some([Child, Child, Unused]),
        4 => Some([Child, Unused, Unused]),
        _ => None,
    }
}

fn has_code(kind: u8, code: u8) -> bool {
    match kind {
        0 | 10 => true,
        4 => code <= 1,
        _ => code == 0,
    }
}

/// The row's top with its children as given. None if the notation has no words for such a row;
/// then its bytes have to be told. A row with words may still be refused.
fn node(row: &FormulaRow, child: impl Fn(u16) -> Written) -> Option<Node> {
    let places = places(row.kind).filter(|_| has_code(row.kind, row.code))?;
    let mut fields = Vec::new();
    let mut ended = false;
    for (place, field) in places.into_iter().zip(row.fields) {
        match (place, field) {
            (Place::Unused, ABSENT) => (),
            (Place::Listed, ABSENT) => ended = true,
            (Place::Child, number) => fields.push(Field::Child(child(number))),
            (Place::Term | Place::Listed, number) if !ended => {
                fields.push(Field::Term(Term::read(number)?.number))
            }
            _ => return None,
        }
    }
    Some(Node { kind: row.kind, code: row.code, fields })
}

/// A book's rows as they are written.
pub struct Book<'a> {
    rows: &'a [FormulaRow],
    /// The rows that may stand written out for their number.
    spelled: Vec<bool>,
}

/// A formula has at most so many nodes; of a larger one the children are named by their rows.
const MOST_NODES: usize = 64;

impl<'a> Book<'a> {
    /// A row is written out if it has words, few enough of them, and no lower row has the same.
    pub fn new(rows: &'a [FormulaRow]) -> Book<'a> {
        let mut book = Book { rows, spelled: Vec::new() };
        let mut first = HashMap::new();
        let mut sizes: Vec<usize> = Vec::new();
        for (number, row) in rows.iter().enumerate() {
            let is_first = *first.entry(row).or_insert(number) == number;
            let size = |child: &u16| match book.is_spelled(*child, number) {
                true => sizes[*child as usize],
                false => 1,
            };
            let nodes = 1 + children(row).iter().map(size).sum::<usize>();
            let words = node(row, Written::Row).is_some();
            sizes.push(nodes);
            book.spelled.push(is_first && words && nodes <= MOST_NODES);
        }
        book
    }

    fn is_spelled(&self, number: u16, below: usize) -> bool {
        let number = number as usize;
        number < below && self.spelled.get(number) == Some(&true)
    }

    /// What this number stands for, as a child of a row or in another record.
    pub fn written(&self, number: u16) -> Written {
        match self.is_spelled(number, self.rows.len()) {
            true => self.top(number as usize).map_or(Written::Row(number), Written::Node),
            false => Written::Row(number),
        }
    }

    /// This row, with its children written out where they can be.
    pub fn top(&self, number: usize) -> Option<Node> {
        node(&self.rows[number], |child| match self.is_spelled(child, number) {
            true => self.written(child),
            false => Written::Row(child),
        })
    }
}

fn children(row: &FormulaRow) -> Vec<u16> {
    let places = places(row.kind).unwrap_or([Place::Unused; 3]);
    let children = places.into_iter().zip(row.fields).filter(|(place, _)| *place == Place::Child);
    children.map(|(_, field)| field).collect()
}

/// A book in the making.
#[derive(Default)]
pub struct Maker {
    pub rows: Vec<FormulaRow>,
    first: HashMap<FormulaRow, u16>,
}

impl Maker {
    /// The formula's number: that of the lowest such row, or of a new one.
    pub fn number(&mut self, written: &Written) -> Result<u16, String> {
        let node = match written {
            Written::Row(number) => return Ok(*number),
            Written::Node(node) => node,
        };
        let row = self.row(node)?;
        match self.first.get(&row) {
            Some(number) => Ok(*number),
            None => self.push(row),
        }
    }

    /// The formula's row; its children get rows where they have none.
    pub fn row(&mut self, node: &Node) -> Result<FormulaRow, String> {
        let mut fields = [ABSENT; 3];
        for (field, value) in fields.iter_mut().zip(&node.fields) {
            *field = match value {
                Field::Term(number) => *number,
                Field::Child(child) => self.number(child)?,
            };
        }
        Ok(FormulaRow { kind: node.kind, code: node.code, fields })
    }

    /// A new row, whether or not it repeats one.
    pub fn push(&mut self, row: FormulaRow) -> Result<u16, String> {
        let most = PARTS[0].1;
        if self.rows.len() == most {
            return Err(format!("there are more than {most} formulas"));
        }
        let number = self.rows.len() as u16;
        self.first.entry(row.clone()).or_insert(number);
        self.rows.push(row);
        Ok(number)
    }
}
