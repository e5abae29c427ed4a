//! Terms and formulas in the notation.

use crate::checker::{Shape, Sort, Term};

use super::formulas::{Field, Node, Written};

/// How tightly a place binds; what binds less tightly stands there in brackets.
const ANY: u8 = 0;
const CONJUNCTION: u8 = 1;
const OPERAND: u8 = 2;
const BRACKETED: u8 = 3;

fn binding(kind: u8) -> u8 {
    match kind {
        0 | 10 => BRACKETED,
        1 | 2 | 8 | 9 => OPERAND,
        3 => CONJUNCTION,
        _ => ANY,
    }
}

/// A number that is a term as a term, any other as it is.
pub fn value(number: u16) -> String {
    let Some(term) = Term::read(number) else { return number.to_string() };
    let sort = match term.sort {
        Sort::Agent => "a",
        Sort::Data => "d",
    };
    let shape = match term.shape {
        Shape::Name => "",
        Shape::Parameter => "'",
        Shape::Variable => "^",
    };
    format!("{sort}{shape}{}", term.index)
}

/// The name of the variable that the for-all under so many others binds.
fn name(depth: usize) -> String {
    match ["x", "y", "z", "u", "v", "w"].get(depth) {
        Some(letter) => letter.to_string(),
        None => format!("x{depth}"),
    }
}

pub fn formula(written: &Written) -> String {
    spell(written, &mut Vec::new(), ANY)
}

/// A formula where more text follows or stands before it.
pub fn operand(written: &Written) -> String {
    spell(written, &mut Vec::new(), BRACKETED)
}

fn spell(written: &Written, binders: &mut Vec<Sort>, level: u8) -> String {
    let node = match written {
        Written::Row(number) => return format!("#{number}"),
        Written::Node(node) => node,
    };
    let text = spell_node(node, binders);
    match binding(node.kind) < level {
        true => format!("({text})"),
        false => text,
    }
}

fn spell_node(node: &Node, binders: &mut Vec<Sort>) -> String {
    if node.kind == 4 {
        return spell_for_all(node, binders);
    }
    let mut part = |number: usize, level: u8| match &node.fields[number] {
        Field::Term(number) => spell_term(*number, binders),
        Field::Child(child) => spell(child, binders, level),
    };
    match node.kind {
        1 => format!("{} owns {}", part(0, ANY), part(1, ANY)),
        2 => format!("{} says {} to {}", part(0, ANY), part(1, BRACKETED), part(2, ANY)),
        3 => format!("{} and {}", part(0, CONJUNCTION), part(1, OPERAND)),
        5 => format!("{} implies {}", part(0, CONJUNCTION), part(1, ANY)),
        6 => format!("!{} implies {}", part(0, BRACKETED), part(1, ANY)),
        7 => format!("?{} implies {}", part(0, BRACKETED), part(1, ANY)),
        8 => format!("{} communicates {} to {}", part(0, ANY), part(1, BRACKETED), part(2, ANY)),
        9 => format!("{} creates {}", part(0, ANY), part(1, ANY)),
        kind => {
            let word = if kind == 0 { "p" } else { "act" };
            let terms: Vec<String> = (0..node.fields.len()).map(|at| part(at, ANY)).collect();
            format!("{word}{}({})", node.code, terms.join(", "))
        }
    }
}

fn spell_for_all(node: &Node, binders: &mut Vec<Sort>) -> String {
    let (sort, word) = match node.code {
        0 => (Sort::Agent, "agents"),
        _ => (Sort::Data, "data"),
    };
    let variable = name(binders.len());
    binders.push(sort);
    let body = match &node.fields[0] {
        Field::Child(body) => spell(body, binders, ANY),
        Field::Term(number) => value(*number),
    };
    binders.pop();
    format!("for all {word} {variable}. {body}")
}

/// A variable has the name of its for-all if that is written out and of the same sort.
fn spell_term(number: u16, binders: &[Sort]) -> String {
    let variable = Term::read(number).filter(|term| term.shape == Shape::Variable);
    let bound = variable.and_then(|term| {
        let depth = binders.len().checked_sub(1 + term.index as usize)?;
        (binders[depth] == term.sort).then_some(depth)
    });
    bound.map_or_else(|| value(number), name)
}
