//! The exact text of a case file: `write` takes it back to the same bytes.

use std::fmt::Write;

use crate::builder::{CaseFile, LogRow, Obligation, Step};
use crate::checker::ABSENT;

use super::formulas::{Book, Written};
use super::notation::{formula, value};
use super::reading::read;
use super::records::{list, marked, or_absent, raw, reference, rule};

/// None if the header is not sound.
pub fn text(file: &[u8]) -> Option<String> {
    let reading = read(file).filter(|reading| reading.sound == 8)?;
    Some(spell(&reading.case))
}

fn spell(case: &CaseFile) -> String {
    let book = Book::new(&case.formulas);
    let mut text = format!("agent {}\n", value(case.agent));
    writeln!(text, "action {}", reference(&book, case.action)).expect("a string takes any text");
    writeln!(text, "hour {}", or_absent(case.hour)).expect("a string takes any text");
    let formulas = (0..case.formulas.len()).map(|number| formula_row(case, &book, number));
    add(&mut text, "formula", formulas);
    add(&mut text, "row", case.rows.iter().map(|row| log_row(&book, row)));
    add(&mut text, "condition", case.conditions.iter().map(|number| reference(&book, *number)));
    add(&mut text, "obligation", case.obligations.iter().map(|duty| obligation(&book, duty)));
    add(&mut text, "label", case.labels.iter().map(|entry| marked(&book, *entry)));
    add(&mut text, "step", case.steps.iter().map(|row| step(&book, row)));
    text
}

/// A part's records, a line each, after an empty line.
fn add(text: &mut String, word: &str, records: impl Iterator<Item = String>) {
    for (number, record) in records.enumerate() {
        let gap = if number == 0 { "\n" } else { "" };
        writeln!(text, "{gap}{word} {number}: {record}").expect("a string takes any text");
    }
}

/// A formula row in words, or else its numbers.
pub fn formula_row(case: &CaseFile, book: &Book, number: usize) -> String {
    match book.top(number) {
        Some(node) => formula(&Written::Node(node)),
        None => raw(&case.formulas[number]),
    }
}

fn log_row(book: &Book, row: &LogRow) -> String {
    let action = reference(book, row.action);
    action + &entries("seen by", &row.observers, value) + &span(row.span)
}

/// The duty, its due hour, and the row that did it if it names one.
fn obligation(book: &Book, duty: &Obligation) -> String {
    let due = format!("{}; due {}", marked(book, (duty.mark, duty.action)), or_absent(duty.due));
    match duty.row {
        ABSENT => due,
        row => format!("{due}; done by row {row}"),
    }
}

fn step(book: &Book, step: &Step) -> String {
    let proved = format!("{}; {}", reference(book, step.formula), rule(step));
    proved + &entries("from", &step.premises, |number| number.to_string()) + &span(step.span)
}

fn entries(words: &str, entries: &[u16], one: impl Fn(u16) -> String) -> String {
    match entries {
        [] => String::new(),
        _ => format!("; {words} {}", list(entries, one)),
    }
}

fn span(span: Option<(u16, u16)>) -> String {
    span.map_or(String::new(), |(offset, count)| format!("; span {offset} {count}"))
}
