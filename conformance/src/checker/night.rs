//! A night's cases in one call: check 33 of the list, and then each file by itself. Words in quotes
//! are document 02's.

use std::ops::Range;

use super::{check, ensure, Refusal, Verdict};

/// "Up to 64 case files lie in one buffer."
pub const NIGHT: usize = 64;

/// A verdict for each file, in three numbers: its kind, and the two values of that kind.
pub type Table = [[u16; 3]; NIGHT];

/// The number of files, or 33 with "no file checked". "Verdict k and what is then written are those
/// of file k checked alone with the part of the one result room that begins where earlier passes
/// stopped writing." Verdicts behind the last file, and all of them with 33, keep what they held.
pub fn check_night(
    files: &[u8],
    list: &[u8],
    verdicts: &mut Table,
    room: &mut [u16],
) -> Result<u16, Refusal> {
    let spans = check_33(list, files.len())?;
    let mut written = 0;
    for (k, span) in spans.iter().enumerate() {
        let verdict = check(&files[span.clone()], &mut room[written..]);
        verdicts[k] = in_numbers(verdict);
        if let Verdict::Passed { obligations, rows } = verdict {
            written += obligations as usize + rows as usize;
        }
    }
    Ok(spans.len() as u16)
}

/// 33: "a pair that begins before the last one's end, ends beyond the buffer, is cut short or is the
/// 65th, place the lowest, from 0". Gives the bytes of each file. The sum of two numbers of 32 bits
/// always fits into 64.
fn check_33(list: &[u8], bytes: usize) -> Result<Vec<Range<usize>>, Refusal> {
    let mut spans: Vec<Range<usize>> = Vec::new();
    for (place, pair) in list.chunks(8).enumerate() {
        ensure(pair.len() == 8 && place < NIGHT, 33, place)?;
        let last = spans.last().map_or(0, |span| span.end as u64);
        let offset = long_number_at(pair, 0);
        let end = offset + long_number_at(pair, 4);
        ensure(last <= offset && end <= bytes as u64, 33, place)?;
        spans.push(offset as usize..end as usize);
    }
    Ok(spans)
}

/// The number of 32 bits at this byte, low byte first.
fn long_number_at(bytes: &[u8], at: usize) -> u64 {
    u32::from_le_bytes([bytes[at], bytes[at + 1], bytes[at + 2], bytes[at + 3]]).into()
}

/// The kind of a verdict, 0 passed, 1 none owed and 2 refused, and its two values, 0 where it has
/// none.
fn in_numbers(verdict: Verdict) -> [u16; 3] {
    match verdict {
        Verdict::Passed { obligations, rows } => [0, obligations, rows],
        Verdict::NoneOwed => [1, 0, 0],
        Verdict::Refused { number, place } => [2, number, place],
    }
}
