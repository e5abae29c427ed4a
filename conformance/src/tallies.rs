//! How often each answer came in a run on many inputs.

use std::collections::BTreeMap;

use crate::checker::Verdict;

/// How often something came.
pub type Times<K> = BTreeMap<K, usize>;

pub fn count<K: Ord>(times: &mut Times<K>, key: K) {
    *times.entry(key).or_insert(0) += 1;
}

/// How often each answer came: 0 for a pass and for an index that is built, the number of a refusal,
/// and `NONE_OWED`.
pub type Answers = Times<u16>;

/// None owed, among the numbers of refusals.
pub const NONE_OWED: u16 = u16::MAX;

pub fn count_verdict(answers: &mut Answers, verdict: Verdict) {
    let number = match verdict {
        Verdict::Passed { .. } => 0,
        Verdict::NoneOwed => NONE_OWED,
        Verdict::Refused { number, .. } => number,
    };
    count(answers, number);
}
