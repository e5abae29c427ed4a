//! The words of the records that are not formulas, for both forms of the text.

use crate::builder::{FormulaRow, Step};
use crate::checker::{Term, ABSENT};

use super::formulas::{Book, Written};
use super::notation::{formula, operand, value};
use super::parser::Parser;

/// What a rule's argument is.
#[derive(Clone, Copy, PartialEq, Eq)]
pub enum Argument {
    None,
    Entry,
    Term,
}

/// The rules by number.
pub const RULES: [(&str, Argument); 16] = [
    ("suppose label", Argument::Entry),
    ("condition", Argument::Entry),
    ("seen row", Argument::Entry),
    ("says", Argument::None),
    ("refine", Argument::None),
    ("owner", Argument::None),
    ("and", Argument::None),
    ("left", Argument::None),
    ("right", Argument::None),
    ("implies from label", Argument::Entry),
    ("implied", Argument::None),
    ("duty from label", Argument::Entry),
    ("by obligation", Argument::Entry),
    ("by label", Argument::Entry),
    ("for all by", Argument::Term),
    ("instance by", Argument::Term),
];

/// A step's rule with its argument.
pub fn rule(step: &Step) -> String {
    let number = or_absent(step.argument);
    match (RULES.get(step.rule as usize), step.argument) {
        (None, _) => format!("rule {} argument {number}", step.rule),
        (Some((words, Argument::None)), ABSENT) => words.to_string(),
        (Some((words, Argument::None)), _) => format!("{words} argument {number}"),
        (Some((words, Argument::Term)), argument) if Term::read(argument).is_some() => {
            format!("{words} {}", value(argument))
        }
        (Some((words, _)), _) => format!("{words} {number}"),
    }
}

/// The number of a rule, and its argument.
pub fn read_rule(parser: &mut Parser) -> Result<(u16, u16), String> {
    if parser.take("rule") {
        let rule = parser.number()?;
        parser.expect("argument")?;
        return Ok((rule, parser.value()?));
    }
    let Some(rule) = RULES.iter().position(|(words, _)| parser.take(words)) else {
        return parser.expected("a rule");
    };
    let given = RULES[rule].1 != Argument::None || parser.take("argument");
    let argument = if given { parser.value()? } else { ABSENT };
    Ok((rule as u16, argument))
}

/// A number, in a place where it may be absent.
pub fn or_absent(number: u16) -> String {
    match number {
        ABSENT => "absent".to_string(),
        _ => number.to_string(),
    }
}

/// A row that the notation has no words for.
pub fn raw(row: &FormulaRow) -> String {
    let [x, y, z] = row.fields;
    format!("kind {} code {} fields {x}, {y}, {z}", row.kind, row.code)
}

/// The rest of such a row, after "kind".
pub fn read_raw(parser: &mut Parser) -> Result<FormulaRow, String> {
    let kind = byte(parser)?;
    parser.expect("code")?;
    let code = byte(parser)?;
    parser.expect("fields")?;
    match parser.list(Parser::value)?[..] {
        [x, y, z] => Ok(FormulaRow { kind, code, fields: [x, y, z] }),
        _ => Err("a formula row has three fields".to_string()),
    }
}

fn byte(parser: &mut Parser) -> Result<u8, String> {
    let number = parser.number()?;
    number.try_into().map_err(|_| format!("{number} is over 255"))
}

/// A formula, in a place where it may be absent.
pub fn reference(book: &Book, number: u16) -> String {
    match number {
        ABSENT => "absent".to_string(),
        _ => formula(&book.written(number)),
    }
}

pub fn read_reference(parser: &mut Parser) -> Result<Written, String> {
    match parser.take("absent") {
        true => Ok(Written::Row(ABSENT)),
        false => parser.formula(),
    }
}

/// An obligation or a label.
pub fn marked(book: &Book, (mark, number): (u16, u16)) -> String {
    let written = book.written(number);
    match mark {
        0 => formula(&written),
        1 => format!("!{}", operand(&written)),
        2 => format!("?{}", operand(&written)),
        _ => format!("mark {mark} {}", formula(&written)),
    }
}

/// A mark before "implies" is the formula's own.
pub fn read_marked(parser: &mut Parser) -> Result<(u16, Written), String> {
    if parser.take("mark") {
        return Ok((parser.number()?, parser.formula()?));
    }
    let Some(mark) = parser.mark() else { return Ok((0, parser.formula()?)) };
    let action = parser.operand()?;
    match parser.take("implies") {
        true => Ok((0, parser.duty(mark, action)?)),
        false => Ok((mark, action)),
    }
}

pub fn list(numbers: &[u16], one: impl Fn(u16) -> String) -> String {
    let words: Vec<String> = numbers.iter().map(|number| one(*number)).collect();
    words.join(", ")
}
