//! The other records: log rows, conditions, obligations, labels, the agent and the action, steps;
//! checks 5 to 9. What is owed; checks 10 and 11.

use std::ops::Range;

use super::case_file::{fields, number_at, numbers, ABSENT, ACTION_AT, AGENT_AT, HOUR_AT};
use super::formulas::Formula::{self, *};
use super::formulas::{find, Tree, EACH_USE, ONCE, POLICY};
use super::terms::Term;
use super::{ensure, refusal, Case, Refusal};

/// A log row; one without an action is struck out.
pub(super) struct LogRow {
    pub(super) action: Option<Tree>,
    pub(super) observers: Vec<u16>,
}

impl LogRow {
    /// "A row is seen by an agent whose number is among the observer entries", "struck or not".
    pub(super) fn is_seen_by(&self, agent: Term) -> bool {
        self.observers.contains(&agent.number)
    }
}

/// What an obligation or a label is about.
pub(super) struct Marked {
    pub(super) mark: u16,
    pub(super) formula: Tree,
}

/// An obligation with "a due hour" and "the log row that did it", if it names one.
pub(super) struct Obligation {
    pub(super) duty: Marked,
    pub(super) due: u16,
    pub(super) row: Option<u16>,
}

/// A step as the file has it; checks 12 and up judge it.
pub(super) struct Step {
    pub(super) rule: u16,
    pub(super) formula: u16,
    pub(super) argument: u16,
    pub(super) offset: u16,
    pub(super) count: u16,
}

/// No book has a row 65,535, so an absent number is no ground action.
fn ground_action(book: &[Tree], number: u16) -> Option<Tree> {
    find(book, number, |row| row.is_action() && row.is_ground())
}

/// The entries a record's span names, if "these spans adjoin from 0 and cover all" entries: it
/// begins where the last one ended, ends within the entries and, if it is the last, with them.
pub(super) fn span(
    due: usize,
    offset: u16,
    count: u16,
    last: bool,
    entries: usize,
) -> Option<Range<usize>> {
    let start = offset as usize;
    let end = start + count as usize;
    let covers = end == entries || (!last && end < entries);
    (start == due && covers).then_some(start..end)
}

/// 5: bad log row.
pub(super) fn check_5(
    rows: &[u8],
    observers: &[u8],
    book: &[Tree],
) -> Result<Vec<LogRow>, Refusal> {
    let (rows, entries) = (numbers(rows), numbers(observers));
    let mut log = Vec::new();
    let mut due = 0;
    for (place, row) in rows.chunks(fields(1)).enumerate() {
        let action = ground_action(book, row[0]);
        ensure(action.is_some() || row[0] == ABSENT, 5, place)?;
        let last = fields(1) * (place + 1) == rows.len();
        let span = span(due, row[1], row[2], last, entries.len()).ok_or(refusal(5, place))?;
        due = span.end;
        let observers = entries[span].to_vec();
        ensure(are_ascending_agents(&observers), 5, place)?;
        log.push(LogRow { action, observers });
    }
    Ok(log)
}

/// "Each list strictly ascending agents."
fn are_ascending_agents(list: &[u16]) -> bool {
    let agents = list.iter().all(|entry| Term::AGENTS.contains(entry));
    agents && list.windows(2).all(|pair| pair[0] < pair[1])
}

/// 6: bad condition. "A ground predicate, or absent when no reading was certified."
pub(super) fn check_6(part: &[u8], book: &[Tree]) -> Result<Vec<Option<Tree>>, Refusal> {
    let is_ground_predicate = |row: &Formula| matches!(row, Predicate(..)) && row.is_ground();
    let mut conditions = Vec::new();
    for (place, number) in numbers(part).into_iter().enumerate() {
        let condition = find(book, number, is_ground_predicate);
        ensure(condition.is_some() || number == ABSENT, 6, place)?;
        conditions.push(condition);
    }
    Ok(conditions)
}

/// 7: bad obligation. "Mark 1 (each use) or 2 (once), ground action." And "a due hour (absent:
/// refusal 7) and the log row that did it (absent: not done; beyond the log: refusal 7)".
pub(super) fn check_7(
    part: &[u8],
    book: &[Tree],
    log: &[LogRow],
) -> Result<Vec<Obligation>, Refusal> {
    let mut obligations = Vec::new();
    for (place, record) in numbers(part).chunks(fields(4)).enumerate() {
        let (mark, due) = (record[0], record[2]);
        ensure(mark == EACH_USE || mark == ONCE, 7, place)?;
        let formula = ground_action(book, record[1]).ok_or(refusal(7, place))?;
        ensure(due != ABSENT, 7, place)?;
        let row = (record[3] != ABSENT).then_some(record[3]);
        ensure(row.is_none_or(|row| (row as usize) < log.len()), 7, place)?;
        obligations.push(Obligation { duty: Marked { mark, formula }, due, row });
    }
    Ok(obligations)
}

/// 8: bad label. "Mark 0 and a closed policy, or mark 1 or 2 and a closed action."
pub(super) fn check_8(part: &[u8], book: &[Tree]) -> Result<Vec<Marked>, Refusal> {
    let mut labels = Vec::new();
    for (place, record) in numbers(part).chunks(fields(5)).enumerate() {
        let mark = record[0];
        let formula = find(book, record[1], Formula::is_closed).ok_or(refusal(8, place))?;
        let matched = match mark {
            POLICY => formula.is_policy(),
            EACH_USE | ONCE => formula.is_action(),
            _ => false,
        };
        ensure(matched, 8, place)?;
        labels.push(Marked { mark, formula });
    }
    Ok(labels)
}

/// 9: agent no agent, or action no ground action; or "the audit hour" is absent.
pub(super) fn check_9(file: &[u8], book: &[Tree]) -> Result<(Term, Tree, u16), Refusal> {
    let agent = Term::read(number_at(file, AGENT_AT));
    let agent = agent.filter(|term| Term::AGENTS.contains(&term.number)).ok_or(refusal(9, 0))?;
    let action = ground_action(book, number_at(file, ACTION_AT)).ok_or(refusal(9, 0))?;
    let hour = number_at(file, HOUR_AT);
    ensure(hour != ABSENT, 9, 0)?;
    Ok((agent, action, hour))
}

pub(super) fn read_steps(part: &[u8]) -> Vec<Step> {
    let step = |record: &[u16]| Step {
        rule: record[0],
        formula: record[1],
        argument: record[2],
        offset: record[3],
        count: record[4],
    };
    numbers(part).chunks(fields(6)).map(step).collect()
}

/// "Owed: communicate by the agent owes 'X says Y to Z'; a user action whose X is the agent owes
/// the predicate of the same code and terms; all else owes nothing."
pub(crate) fn owed(action: &Formula, agent: Term) -> Option<Formula> {
    match action {
        Communicates(x, y, z) if *x == agent => Some(Says(*x, y.clone(), *z)),
        User(code, terms) if terms[0] == agent => Some(Predicate(*code, terms.clone())),
        _ => None,
    }
}

/// 10: owed, no steps.
pub(super) fn check_10(case: &Case, owed: &Option<Formula>) -> Result<(), Refusal> {
    ensure(owed.is_none() || !case.steps.is_empty(), 10, 0)
}

/// 11: steps, none owed.
pub(super) fn check_11(case: &Case, owed: &Option<Formula>) -> Result<(), Refusal> {
    ensure(owed.is_some() || case.steps.is_empty(), 11, 0)
}
