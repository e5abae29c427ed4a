//! The case file: its numbers and its parts; checks 1 and 2.

use std::ops::Range;

use super::{ensure, Refusal};

/// "65,535 means absent; zero is an ordinary number everywhere."
pub const ABSENT: u16 = 65_535;

/// The header: agent, audited action, eight pairs, and "the audit hour at byte 36".
pub const HEADER_BYTES: usize = 38;
pub const AGENT_AT: usize = 0;
pub const ACTION_AT: usize = 2;
pub const HOUR_AT: usize = 36;

pub const MOST_BYTES: usize = 47_910;

/// For each part, by place, its record bytes and most records.
pub const PARTS: [(usize, usize); 8] =
    [(8, 1_024), (6, 1_024), (2, 4_096), (2, 64), (8, 64), (4, 32), (10, 2_048), (2, 2_048)];

/// The byte at which the header has this part's offset and, two bytes on, its length.
pub fn pair_at(place: usize) -> usize {
    ACTION_AT + 2 + 4 * place
}

/// The numbers in a record of this part.
pub(crate) fn fields(place: usize) -> usize {
    PARTS[place].0 / 2
}

/// The number at this byte.
pub fn number_at(bytes: &[u8], at: usize) -> u16 {
    u16::from_le_bytes([bytes[at], bytes[at + 1]])
}

/// "Numbers are 16 bits, low byte first."
pub(crate) fn numbers(bytes: &[u8]) -> Vec<u16> {
    let pairs = bytes.chunks_exact(2);
    pairs.map(|pair| u16::from_le_bytes([pair[0], pair[1]])).collect()
}

/// The header's eight pairs of offset and length.
pub(crate) fn pairs(file: &[u8]) -> [(u16, u16); 8] {
    let number = |at| number_at(file, at);
    std::array::from_fn(|place| (number(pair_at(place)), number(pair_at(place) + 2)))
}

/// 1: under 38 or over 47,910 bytes.
pub(super) fn check_1(file: &[u8]) -> Result<(), Refusal> {
    ensure((HEADER_BYTES..=MOST_BYTES).contains(&file.len()), 1, 0)
}

/// 2: a faulty part. Gives the bytes of each part.
pub(crate) fn check_2(file: &[u8]) -> Result<Vec<Range<usize>>, Refusal> {
    let mut parts: Vec<Range<usize>> = Vec::new();
    for (place, (offset, length)) in pairs(file).into_iter().enumerate() {
        let (offset, length) = (offset as usize, length as usize);
        let due = parts.last().map_or(HEADER_BYTES, |part| part.end);
        let end = offset + length;
        let ends = match place {
            7 => end == file.len(),
            _ => end <= file.len(),
        };
        let sound = offset == due && is_sound_length(place, length) && ends;
        ensure(sound && !is_orphan(place, length, &parts), 2, place)?;
        parts.push(offset..end);
    }
    Ok(parts)
}

/// A whole number of records, within the limit.
pub(super) fn is_sound_length(place: usize, length: usize) -> bool {
    let (record, most) = PARTS[place];
    length.is_multiple_of(record) && length / record <= most
}

/// "Observers without log rows make part 2 faulty, premises without steps part 7."
fn is_orphan(place: usize, length: usize, before: &[Range<usize>]) -> bool {
    matches!(place, 2 | 7) && length > 0 && before[place - 1].is_empty()
}
