//! Striking out the log rows that the agent does not see.

use super::case_file::{check_1, check_2, number_at, numbers, ABSENT, AGENT_AT, PARTS};

/// The file with every log row that the agent does not see struck out: "makes its action absent
/// and changes no other byte". A file that check 1 or 2 refuses comes back as it is.
pub fn strike_unseen(file: &[u8]) -> Vec<u8> {
    let mut struck = file.to_vec();
    let Ok(parts) = check_1(file).and_then(|()| check_2(file)) else {
        return struck;
    };
    let agent = number_at(file, AGENT_AT);
    let observers = numbers(&file[parts[2].clone()]);
    for row in struck[parts[1].clone()].chunks_exact_mut(PARTS[1].0) {
        if !is_seen(agent, &numbers(row), &observers) {
            row[..2].copy_from_slice(&ABSENT.to_le_bytes());
        }
    }
    struck
}

/// "A row is seen by an agent whose number is among the observer entries its span names, as far as
/// the part has them, struck or not."
fn is_seen(agent: u16, row: &[u16], observers: &[u16]) -> bool {
    let named = observers.iter().skip(row[1] as usize).take(row[2] as usize);
    named.into_iter().any(|entry| *entry == agent)
}
