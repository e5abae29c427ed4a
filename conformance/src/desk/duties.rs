//! Obligations as people read them: their hours, the rows that they name, and whether they are done.

use crate::builder::Obligation;
use crate::checker::{Verdict, ABSENT, EACH_USE};

use super::notation::value;
use super::records::marked;
use super::show::{section, Section, View};

impl View<'_> {
    pub(super) fn obligations(&self) -> Section {
        let count = self.reading.case.obligations.len();
        section("Obligations", count, |number| self.obligation(number))
    }

    pub(super) fn obligation(&self, number: usize) -> String {
        let duty = &self.reading.case.obligations[number];
        let state = match (self.is_done(duty), self.is_expired(duty)) {
            (true, _) => "done    ",
            (false, Some(true)) => "overdue ",
            (false, _) => "not done",
        };
        let (hours, row) = (self.hours(duty), self.named_row(duty.row));
        format!("{state}  {}  [{hours}; {row}]", self.duty(duty))
    }

    /// The mark and the action.
    pub(super) fn duty(&self, duty: &Obligation) -> String {
        marked(&self.book, (duty.mark, duty.action))
    }

    /// Not known without an audit hour. An absent due hour is before none.
    fn is_expired(&self, duty: &Obligation) -> Option<bool> {
        let hour = self.reading.case.hour;
        (hour != ABSENT).then_some(duty.due < hour)
    }

    fn hours(&self, duty: &Obligation) -> String {
        match (duty.due, self.is_expired(duty)) {
            (ABSENT, _) => "no due hour".to_string(),
            (due, None) => format!("due {due}"),
            (due, Some(true)) => format!("due {due}, expired"),
            (due, Some(false)) => format!("due {due}, not expired"),
        }
    }

    /// Actions are compared by number: in a sound book each stands once.
    fn is_done(&self, duty: &Obligation) -> bool {
        let row = duty.row as usize;
        let action = self.reading.case.rows.get(row).map(|row| row.action);
        duty.action != ABSENT && action == Some(duty.action) && self.is_seen(row)
    }

    fn named_row(&self, row: u16) -> String {
        let number = row as usize;
        match self.reading.case.rows.get(number) {
            None if row == ABSENT => "no row".to_string(),
            None => format!("row {row}, not in the log"),
            Some(_) => format!("row {row}, {}: {}", self.eye(number), self.action(number)),
        }
    }

    /// More words for 31 and 32.
    pub(super) fn about_duties(&self, verdict: Verdict) -> Option<String> {
        match verdict {
            Verdict::Refused { number: 31, place } => Some(self.why_not_done(place as usize)),
            Verdict::Refused { number: 32, place } => self.named_before(place as usize),
            _ => None,
        }
    }

    fn why_not_done(&self, place: usize) -> String {
        let agent = value(self.reading.case.agent);
        let row = self.reading.case.obligations[place].row;
        match self.reading.case.rows.get(row as usize) {
            None => format!("It names no row. Ask {agent} for the one in which it was done."),
            Some(_) if !self.is_seen(row as usize) => {
                format!("{agent} does not see row {row}, so it counts as not done.")
            }
            Some(named) if named.action == ABSENT => format!("Row {row} is struck out."),
            Some(_) => format!("Row {row} has another action."),
        }
    }

    /// The first obligation for each use that names this one's row.
    fn named_before(&self, place: usize) -> Option<String> {
        let row = self.reading.case.obligations[place].row;
        let mut earlier = self.reading.case.obligations[..place].iter();
        let first = earlier.position(|duty| duty.mark == EACH_USE && duty.row == row)?;
        Some(format!("Obligation {first} names row {row} already: {}", self.obligation(first)))
    }
}
