//! The hours of a random case, and the rows that did what its obligations ask for.

use super::*;
use crate::checker::EACH_USE;

impl Maker<'_> {
    /// An audit hour, and for each obligation a due hour and a row. What is expired was done by its
    /// row; any other obligation names any row or none. No two each-use ones name the same row.
    pub(super) fn set_hours(&mut self) -> Option<()> {
        if matches!(self.slip, Some(Slip::NotDone | Slip::OneRow)) {
            let twin = Obligation::new(EACH_USE, self.ground_action()?);
            self.case.obligations.extend([twin; 2]);
        }
        self.case.hour = match self.random.one_in(4) {
            true => self.random.pick(&[0, 1, ABSENT - 1]),
            false => self.random.below(40) as u16,
        };
        // The rows that each-use obligations name.
        let mut taken = Vec::new();
        for number in 0..self.case.obligations.len() {
            let duty = Obligation { due: self.due_hour(), ..self.case.obligations[number] };
            let row = self.row_for(duty, &taken)?;
            if duty.mark == EACH_USE && row != ABSENT {
                taken.push(row);
            }
            self.case.obligations[number] = Obligation { row, ..duty };
        }
        Some(())
    }

    /// By a slip, the row of the last each-use duty before it.
    fn row_for(&mut self, duty: Obligation, taken: &[u16]) -> Option<u16> {
        let last = taken.last().filter(|_| duty.mark == EACH_USE && self.slips(Slip::OneRow));
        match last {
            Some(row) => Some(*row),
            None if duty.due < self.case.hour => self.row_that_did(duty, taken),
            None => Some(self.any_row(duty, taken)),
        }
    }

    /// The audit hour, a neighbour, or any hour.
    fn due_hour(&mut self) -> u16 {
        let hour = self.case.hour;
        match self.random.below(4) {
            0 => hour,
            1 => hour.saturating_sub(1),
            2 => (hour + 1).min(ABSENT - 1),
            _ => self.random.below(40) as u16,
        }
    }

    /// A row that the agent sees with the duty's action, which may be there already.
    fn row_that_did(&mut self, duty: Obligation, taken: &[u16]) -> Option<u16> {
        if self.slips(Slip::NotDone) {
            return self.row_that_did_not(duty);
        }
        let agent = self.case.agent;
        let did = |row: &LogRow| row.action == duty.action && row.observers.contains(&agent);
        let known = self.case.rows.iter().position(did).map(|row| row as u16);
        if let Some(row) = known.filter(|row| may_name(duty, *row, taken)) {
            return Some(row);
        }
        let mut observers = others(self.random, agent);
        observers.insert(agent);
        self.push_row(duty.action, observers)
    }

    /// None, one that is struck out or has any action, seen or not, or one that the agent does not see
    /// with the duty's action.
    fn row_that_did_not(&mut self, duty: Obligation) -> Option<u16> {
        let agent = self.case.agent;
        let mut observers = others(self.random, agent);
        let action = match self.random.below(4) {
            0 => return Some(ABSENT),
            1 => ABSENT,
            2 => self.ground_action()?,
            _ => duty.action,
        };
        if action != duty.action && self.random.one_in(2) {
            observers.insert(agent);
        }
        self.push_row(action, observers)
    }

    /// For a duty that is not due: none, or any row of the log.
    fn any_row(&mut self, duty: Obligation, taken: &[u16]) -> u16 {
        let row = match self.random.one_in(3) {
            true => ABSENT,
            false => self.random.below(self.case.rows.len()) as u16,
        };
        let there = (row as usize) < self.case.rows.len();
        if there && may_name(duty, row, taken) {
            row
        } else {
            ABSENT
        }
    }
}

/// An each-use duty gets no row that is taken.
fn may_name(duty: Obligation, row: u16, taken: &[u16]) -> bool {
    duty.mark == 2 || !taken.contains(&row)
}
