//! What document 01's program prints.

use std::fmt::Write;

use crate::checker::Verdict;

/// "`case` and the bytes read, then `passed D R`, `none owed` or `refused N P`, then `duty N` per
/// obligation and `row N` per log row", which are a pass's first entries of the room.
pub fn printed(bytes: usize, verdict: Verdict, room: &[u16]) -> String {
    let mut text = format!("case {bytes}\n{verdict}\n");
    if let Verdict::Passed { obligations, rows } = verdict {
        let (duties, rest) = room.split_at(obligations as usize);
        let duties = duties.iter().map(|number| ("duty", number));
        let rows = rest[..rows as usize].iter().map(|number| ("row", number));
        for (word, number) in duties.chain(rows) {
            writeln!(text, "{word} {number}").expect("a string takes any text");
        }
    }
    text
}
