//! Indexes that are not as built: made by a slip over the log, or damaged afterwards.

use std::collections::BTreeSet;

use crate::checker::{Term, ABSENT};
use crate::desk::reading::read;
use crate::indexes::{due, laid_out, laid_out_from, lists, Lists};
use crate::random::Random;

/// What an index is made from.
struct Log {
    lists: Lists,
    rows: u16,
    struck: BTreeSet<u16>,
}

impl Log {
    /// The log of a file that has an index.
    fn of(file: &[u8]) -> Log {
        let case = read(file).expect("it has a header").case;
        let struck = (0..).zip(&case.rows).filter(|(_, row)| row.action == ABSENT);
        Log {
            lists: lists(&case),
            rows: case.rows.len() as u16,
            struck: struck.map(|(number, _)| number).collect(),
        }
    }

    /// One of the agents, by its place, with its rows; none where there is no agent.
    fn some_list(&mut self, random: &mut Random) -> Option<(usize, &mut (u16, Vec<u16>))> {
        let at = random.below(self.lists.len());
        self.lists.get_mut(at).map(|list| (at, list))
    }

    fn sort(&mut self) {
        self.lists.sort_by_key(|(agent, _)| *agent);
    }

    fn drop_empty(&mut self) {
        self.lists.retain(|(_, rows)| !rows.is_empty());
    }
}

/// Makes another index from the log, if the log allows it.
type Slip = fn(&mut Log, &mut Random) -> Vec<u16>;

const SLIPS: [(&str, Slip); 14] = [
    ("as built", |log, _| laid_out(&log.lists)),
    ("an entry changed", |log, random| {
        let mut index = laid_out(&log.lists);
        let at = random.below(index.len());
        index[at] = other(random, index[at], &index);
        index
    }),
    ("entries swapped", |log, random| {
        let mut index = laid_out(&log.lists);
        let (one, other) = (random.below(index.len()), random.below(index.len()));
        index.swap(one, other);
        index
    }),
    ("cut", |log, random| {
        let mut index = laid_out(&log.lists);
        index.truncate(random.below(index.len()));
        index
    }),
    ("a row too many", |log, random| {
        let row = random.below(log.rows as usize + 1) as u16;
        if let Some((_, (_, rows))) = log.some_list(random) {
            rows.push(row);
            rows.sort();
        }
        laid_out(&log.lists)
    }),
    ("a row too few", |log, random| {
        if let Some((_, (_, rows))) = log.some_list(random) {
            rows.remove(random.below(rows.len()));
        }
        if random.one_in(2) {
            log.drop_empty();
        }
        laid_out(&log.lists)
    }),
    ("struck rows left out", |log, random| {
        let struck = log.struck.clone();
        log.lists.iter_mut().for_each(|(_, rows)| rows.retain(|row| !struck.contains(row)));
        if random.one_in(2) {
            log.drop_empty();
        }
        laid_out(&log.lists)
    }),
    ("an agent too many", |log, random| {
        let rows = (0..log.rows).filter(|_| random.one_in(4)).collect();
        log.lists.push((any_agent(random), rows));
        log.sort();
        laid_out(&log.lists)
    }),
    ("an agent too few", |log, random| {
        if let Some((at, _)) = log.some_list(random) {
            log.lists.remove(at);
        }
        laid_out(&log.lists)
    }),
    ("another agent", |log, random| {
        let agent = any_agent(random);
        if let Some((_, list)) = log.some_list(random) {
            list.0 = agent;
        }
        if random.one_in(2) {
            log.sort();
        }
        laid_out(&log.lists)
    }),
    ("offsets from another entry", |log, random| {
        let (table, order) = (1 + 3 * log.lists.len(), order(log));
        let first = random.pick(&[0, table - 1, table + 1]);
        laid_out_from(&log.lists, first, &order)
    }),
    ("lists in another order", |log, random| {
        let (table, mut order) = (1 + 3 * log.lists.len(), order(log));
        order.rotate_left(random.below(log.lists.len()));
        laid_out_from(&log.lists, table, &order)
    }),
    ("agents in another order", |log, random| {
        let by = random.below(log.lists.len());
        log.lists.rotate_left(by);
        laid_out(&log.lists)
    }),
    ("rows in another order", |log, random| {
        if let Some((_, (_, rows))) = log.some_list(random) {
            let by = random.below(rows.len());
            rows.rotate_left(by);
        }
        laid_out(&log.lists)
    }),
];

/// How many slips there are, the one that changes nothing left out.
pub const WAYS: usize = SLIPS.len() - 1;

fn order(log: &Log) -> Vec<usize> {
    (0..log.lists.len()).collect()
}

fn any_agent(random: &mut Random) -> u16 {
    match random.below(4) {
        0 => random.pick(&[*Term::AGENTS.start(), *Term::AGENTS.end()]),
        _ => random.below(8) as u16,
    }
}

/// Another number: a neighbour, one at a limit, or one of the index.
fn other(random: &mut Random, value: u16, index: &[u16]) -> u16 {
    match random.below(4) {
        0 => value.wrapping_add(1),
        1 => value.wrapping_sub(1),
        2 => random.pick(&[0, 1, 16_383, 16_384, ABSENT - 1, ABSENT]),
        _ => random.pick(index),
    }
}

/// An index for the file, and how it was made. Where the log does not allow the slip it is as built.
/// One time in four entries follow that nobody looks at. A file without an index gets any entries.
pub fn random_index(file: &[u8], random: &mut Random) -> (&'static str, Vec<u16>) {
    let (name, mut index) = match due(file) {
        Ok(_) => {
            let (name, slip) = random.pick(&SLIPS);
            (name, slip(&mut Log::of(file), random))
        }
        Err(_) => ("any entries", (0..random.below(8)).map(|_| random.below(6) as u16).collect()),
    };
    if random.one_in(4) {
        index.extend((0..random.below(4)).map(|_| other(random, 7, &[ABSENT])));
    }
    (name, index)
}
