//! Random numbers and formula books, the same on each run.

use crate::builder::{agent_parameter, agent_variable, data, data_parameter, data_variable};
use crate::checker::ABSENT;

/// A small generator of numbers (xorshift).
pub struct Random(pub u64);

impl Random {
    pub fn below(&mut self, bound: usize) -> usize {
        self.0 ^= self.0 << 13;
        self.0 ^= self.0 >> 7;
        self.0 ^= self.0 << 17;
        (self.0 >> 11) as usize % bound.max(1)
    }

    pub fn one_in(&mut self, bound: usize) -> bool {
        self.below(bound) == 0
    }

    pub fn pick<T: Copy>(&mut self, from: &[T]) -> T {
        from[self.below(from.len())]
    }
}

/// A formula row as it stands in a file.
pub type Row = [u8; 8];

pub fn row(kind: u8, code: u8, fields: [u16; 3]) -> Row {
    let [x, y, z] = fields.map(u16::to_le_bytes);
    [kind, code, x[0], x[1], y[0], y[1], z[0], z[1]]
}

fn agent(random: &mut Random) -> u16 {
    match random.below(8) {
        0 => agent_parameter(random.below(32) as u16),
        1 => agent_variable(random.below(8) as u16),
        _ => random.below(4) as u16,
    }
}

fn datum(random: &mut Random) -> u16 {
    match random.below(8) {
        0 => data_parameter(random.below(32) as u16),
        1 => data_variable(random.below(8) as u16),
        _ => data(random.below(4) as u16),
    }
}

fn term(random: &mut Random) -> u16 {
    if random.one_in(2) {
        agent(random)
    } else {
        datum(random)
    }
}

/// Up to `most` terms, absent ones last.
fn terms(random: &mut Random, most: usize) -> Vec<u16> {
    let count = random.below(most + 1);
    (0..most).map(|place| if place < count { term(random) } else { ABSENT }).collect()
}

/// A row that fits over the given policies and actions; most such books are admitted.
pub fn fitting_row(random: &mut Random, policies: &[u16], actions: &[u16]) -> Row {
    let leaf = policies.is_empty();
    let kinds: &[u8] = match (leaf, actions.is_empty()) {
        (true, _) => &[0, 1, 9, 10],
        (false, true) => &[0, 1, 2, 3, 4, 5, 8, 9, 10],
        (false, false) => &[0, 1, 2, 3, 4, 5, 6, 7, 8, 9, 10],
    };
    let kind = random.pick(kinds);
    let code = random.below(256) as u8;
    let policy = |random: &mut Random| random.pick(policies);
    match kind {
        0 => {
            let t = terms(random, 3);
            row(0, code, [t[0], t[1], t[2]])
        }
        1 | 9 => row(kind, 0, [agent(random), datum(random), ABSENT]),
        2 | 8 => row(kind, 0, [agent(random), policy(random), agent(random)]),
        3 | 5 => row(kind, 0, [policy(random), policy(random), ABSENT]),
        4 => row(4, code % 2, [policy(random), ABSENT, ABSENT]),
        6 | 7 => row(kind, 0, [random.pick(actions), policy(random), ABSENT]),
        _ => {
            let t = terms(random, 2);
            row(10, code, [agent(random), t[0], t[1]])
        }
    }
}

/// A book of so many rows, each over the ones before it.
pub fn fitting_book(random: &mut Random, count: usize) -> Vec<Row> {
    let (mut policies, mut actions) = (Vec::new(), Vec::new());
    let mut book = Vec::new();
    for number in 0..count {
        let next = fitting_row(random, &policies, &actions);
        if next[0] < 8 {
            policies.push(number as u16);
        } else {
            actions.push(number as u16);
        }
        book.push(next);
    }
    book
}

/// Up to four bytes changed, mostly to near or telling values; one file in eight also cut.
pub fn damage(file: &[u8], random: &mut Random) -> Vec<u8> {
    let mut file = file.to_vec();
    for _ in 0..=random.below(4) {
        let at = random.below(file.len());
        let value = match random.below(4) {
            0 => random.below(256) as u8,
            1 => 255,
            2 => random.below(17) as u8,
            _ => file.get(at).map_or(0, |byte| byte.wrapping_add(1)),
        };
        if let Some(byte) = file.get_mut(at) {
            *byte = value;
        }
    }
    if random.below(8) == 0 {
        file.truncate(random.below(file.len() + 1));
    }
    file
}
