//! Changes to a case file that keep its layout, for the fuzzer: a field, a record, or a step more.

use crate::builder::{agent_parameter, data, data_parameter, data_variable};
use crate::checker::{pair_at, ABSENT, ACTION_AT, AGENT_AT, HEADER_BYTES, HOUR_AT, PARTS};
use crate::random::Random;

const ROWS: usize = 1;
const STEPS: usize = 6;
const PREMISES: usize = 7;

/// A file taken apart: its header, of which the pairs are laid out anew, and the records of each
/// part.
struct Parts {
    header: Vec<u8>,
    records: [Vec<Vec<u8>>; 8],
}

/// The file with up to four changes, or none where its parts do not adjoin.
pub fn mutated(file: &[u8], random: &mut Random) -> Option<Vec<u8>> {
    let mut parts = Parts::read(file)?;
    for _ in 0..=random.below(4) {
        parts.change(random);
    }
    if !random.one_in(4) {
        parts.lay_spans(ROWS, 2);
        parts.lay_spans(STEPS, 6);
    }
    Some(parts.write())
}

fn word(bytes: &[u8], at: usize) -> usize {
    u16::from_le_bytes([bytes[at], bytes[at + 1]]) as usize
}

fn set_word(bytes: &mut [u8], at: usize, value: usize) {
    bytes[at..at + 2].copy_from_slice(&(value as u16).to_le_bytes());
}

/// A number that means something somewhere in a file.
fn telling(random: &mut Random, before: usize) -> usize {
    let small = random.below(32);
    match random.below(9) {
        0 => ABSENT as usize,
        1 => before + 1,
        2 => before.wrapping_sub(1),
        3 => data(small as u16 % 4) as usize,
        4 => agent_parameter(small as u16 % 2) as usize,
        5 => data_parameter(small as u16 % 2) as usize,
        6 => data_variable(small as u16 % 2) as usize,
        _ => small,
    }
}

impl Parts {
    fn read(file: &[u8]) -> Option<Parts> {
        let (header, mut rest) = file.split_at_checked(HEADER_BYTES)?;
        let mut records: [Vec<Vec<u8>>; 8] = Default::default();
        for (place, (record, _)) in PARTS.into_iter().enumerate() {
            let (part, behind) = rest.split_at_checked(word(header, pair_at(place) + 2))?;
            records[place] = part.chunks_exact(record).map(<[u8]>::to_vec).collect();
            rest = behind;
        }
        rest.is_empty().then_some(Parts { header: header.to_vec(), records })
    }

    fn write(&self) -> Vec<u8> {
        let mut file = self.header.clone();
        let mut offset = HEADER_BYTES;
        for (place, (record, _)) in PARTS.into_iter().enumerate() {
            let length = record * self.records[place].len();
            set_word(&mut file, pair_at(place), offset);
            set_word(&mut file, pair_at(place) + 2, length);
            offset += length;
        }
        file.extend(self.records.iter().flatten().flatten());
        file
    }

    fn change(&mut self, random: &mut Random) {
        let place = random.below(8);
        let records = &mut self.records[place];
        let count = records.len();
        let (one, other) = (random.below(count), random.below(count));
        let at = 2 * random.below(PARTS[place].0 / 2);
        match random.below(10) {
            0 => self.add_step(random),
            1 => self.change_header(random),
            2 => records.insert(one, self_or_zeros(records, other, PARTS[place].0)),
            _ if count == 0 => (),
            3 => _ = records.remove(one),
            4 => records.swap(one, other),
            5 | 6 => {
                let value = word(&records[other], at);
                set_word(&mut records[one], at, value);
            }
            7 if place == 0 => records[one][random.below(2)] = random.below(12) as u8,
            _ => {
                let before = word(&records[one], at);
                set_word(&mut records[one], at, telling(random, before));
            }
        }
    }

    /// Another agent, action or hour.
    fn change_header(&mut self, random: &mut Random) {
        let at = random.pick(&[AGENT_AT, ACTION_AT, HOUR_AT]);
        let value = match at {
            HOUR_AT => telling(random, word(&self.header, at)),
            _ => random.below(32),
        };
        set_word(&mut self.header, at, value);
    }

    /// A step of any rule, from the last one or from none.
    fn add_step(&mut self, random: &mut Random) {
        let last = self.records[STEPS].len();
        let premises = random.below(3).min(last);
        let mut step = vec![0; 10];
        set_word(&mut step, 0, random.below(16));
        set_word(&mut step, 2, random.below(self.records[0].len()));
        set_word(&mut step, 4, telling(random, 0));
        set_word(&mut step, 8, premises);
        self.records[STEPS].push(step);
        for back in (1..=premises).rev() {
            self.records[PREMISES].push(((last - back) as u16).to_le_bytes().to_vec());
        }
    }

    /// Lets the spans of a part adjoin from 0, with the counts as they are, and the last one cover
    /// what is left. The field has the offset, the next one the count.
    fn lay_spans(&mut self, place: usize, field: usize) {
        let entries = self.records[place + 1].len();
        let mut due = 0;
        for record in &mut self.records[place] {
            set_word(record, field, due);
            due += word(record, field + 2);
        }
        if let Some(last) = self.records[place].last_mut() {
            let from = word(last, field);
            set_word(last, field + 2, entries.saturating_sub(from));
        }
    }
}

/// A copy of the record, or one of zeros where there is none.
fn self_or_zeros(records: &[Vec<u8>], number: usize, bytes: usize) -> Vec<u8> {
    records.get(number).cloned().unwrap_or(vec![0; bytes])
}
