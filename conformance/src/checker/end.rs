//! The end of a justification: the checks after the last step.

use super::formulas::Formula;
use super::steps::Proof;
use super::{ensure, refusal, Refusal};

/// 20: a step before the last is no premise; the lowest.
pub(super) fn check_20(proof: &Proof) -> Result<(), Refusal> {
    for place in 0..proof.proved.len().saturating_sub(1) {
        ensure(proof.used.contains(&(place as u16)), 20, place)?;
    }
    Ok(())
}

/// 21: label open at the end; the lowest label.
pub(super) fn check_21(proof: &Proof) -> Result<(), Refusal> {
    let open = proof.proved.last().and_then(|last| last.open.first());
    open.map_or(Ok(()), |label| Err(refusal(21, *label as usize)))
}

/// 22: last formula not what is owed; the last step.
pub(super) fn check_22(proof: &Proof, owed: &Formula) -> Result<(), Refusal> {
    let last = proof.proved.last();
    let proves = last.is_some_and(|last| *last.formula == *owed);
    ensure(proves, 22, proof.proved.len().saturating_sub(1))
}

/// 23: room too short; the entries needed.
pub(super) fn check_23(proof: &Proof, room: usize) -> Result<(), Refusal> {
    let needed = proof.obligations.len() + proof.rows.len();
    ensure(needed <= room, 23, needed)
}
