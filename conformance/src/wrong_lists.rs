//! Lists of a night that are damaged: pairs that overlap, end beyond the files, are cut short or are
//! too many, and numbers at their limits. Some of the changes leave a list in order.

use crate::checker::NIGHT;
use crate::nights::{list_of, Night, Pair};
use crate::random::Random;

/// Changes the list, or the bytes behind the files, if the list allows it.
type Slip = fn(&mut Night, &mut Random);

const SLIPS: [(&str, Slip); 26] = [
    ("none", |_, _| ()),
    ("before the last one's end", |night, random| {
        change_pair(night, random, |pair, near, random| {
            pair.0 = near.last.saturating_sub(1 + random.below(3) as u32);
        });
    }),
    ("at the last one's end", |night, random| {
        change_pair(night, random, |pair, near, _| pair.0 = near.last);
    }),
    ("in another order", |night, random| {
        change_pairs(night, |pairs| {
            let (one, other) = (random.below(pairs.len()), random.below(pairs.len()));
            pairs.swap(one, other);
        });
    }),
    ("a pair again", |night, random| {
        change_pairs(night, |pairs| {
            let at = random.below(pairs.len());
            pairs.insert(at, pairs[at]);
        });
    }),
    ("beyond the files", |night, random| {
        change_pair(night, random, |pair, near, random| {
            pair.1 = near.bytes.wrapping_sub(pair.0).wrapping_add(1 + random.below(3) as u32);
        });
    }),
    ("up to the end of the files", |night, random| {
        change_pair(night, random, |pair, near, _| pair.1 = near.bytes.wrapping_sub(pair.0));
    }),
    ("the last one up to the end of the files", |night, _| {
        let bytes = night.files.len() as u32;
        change_pairs(night, |pairs| {
            let last = pairs.len() - 1;
            pairs[last].1 = bytes.wrapping_sub(pairs[last].0);
        });
    }),
    ("files cut", |night, random| {
        night.files.truncate(night.files.len().saturating_sub(1 + random.below(12)));
    }),
    ("list cut", |night, random| night.list.truncate(random.below(night.list.len()))),
    ("bytes behind the list", |night, random| add_bytes(night, random)),
    ("64 pairs", |night, _| fill_up(night, NIGHT)),
    ("65 pairs", |night, random| fill_up(night, NIGHT + 1 + random.below(2))),
    ("64 pairs, and bytes behind", |night, random| {
        fill_up(night, NIGHT);
        add_bytes(night, random);
    }),
    ("empty, at the end of the files", |night, _| fill_up(night, night.list.len() / 8 + 1)),
    ("empty, beyond the files", |night, _| {
        fill_up(night, night.list.len() / 8 + 1);
        change_pairs(night, |pairs| {
            let last = pairs.len() - 1;
            pairs[last].0 += 1;
        });
    }),
    ("an offset near 2^32", |night, random| {
        change_pair(night, random, |pair, _, random| pair.0 = u32::MAX - random.below(4) as u32);
    }),
    ("a length near 2^32", |night, random| {
        change_pair(night, random, |pair, _, random| pair.1 = u32::MAX - random.below(4) as u32);
    }),
    ("both near 2^32", |night, random| {
        change_pair(night, random, |pair, _, random| {
            *pair = (u32::MAX - random.below(4) as u32, u32::MAX - random.below(4) as u32);
        });
    }),
    ("a sum beyond 2^32, by the length", |night, random| {
        change_pair(night, random, |pair, _, random| {
            let end = random.below(pair.0 as usize) as u32;
            pair.1 = end.wrapping_sub(pair.0);
        });
    }),
    ("a sum beyond 2^32, by the offset", |night, random| {
        change_pair(night, random, |pair, _, random| {
            let end = random.below(pair.1 as usize) as u32;
            pair.0 = end.wrapping_sub(pair.1);
        });
    }),
    ("a bit of a high byte", |night, random| {
        let byte = random.pick(&[1, 2, 3, 5, 6, 7]);
        let pair = 8 * random.below(night.list.len() / 8);
        if let Some(byte) = night.list.get_mut(pair + byte) {
            *byte ^= 1 << random.below(8);
        }
    }),
    ("high byte first", |night, random| {
        change_pair(night, random, |pair, _, random| match random.below(2) {
            0 => pair.0 = pair.0.swap_bytes(),
            _ => pair.1 = pair.1.swap_bytes(),
        });
    }),
    ("length before offset", |night, random| {
        change_pair(night, random, |pair, _, _| *pair = (pair.1, pair.0));
    }),
    ("any pairs", |night, random| {
        let bytes = night.files.len();
        let mut pair = |_| (random.below(bytes + 2) as u32, random.below(bytes / 2 + 2) as u32);
        let pairs: Vec<Pair> = (0..3).map(&mut pair).collect();
        night.list = list_of(&pairs);
    }),
    ("any bytes", |night, random| {
        night.list = (0..random.below(40)).map(|_| random.below(256) as u8).collect();
    }),
];

/// How many changes there are, the one that changes nothing left out.
pub const WAYS: usize = SLIPS.len() - 1;

/// What a pair is measured by: the end of the one before it, and the bytes of all files.
struct Near {
    last: u32,
    bytes: u32,
}

/// Changes the pairs that are not cut short, if there are any.
fn change_pairs(night: &mut Night, change: impl FnOnce(&mut Vec<Pair>)) {
    let mut pairs = night.pairs();
    if !pairs.is_empty() {
        let whole = 8 * pairs.len();
        change(&mut pairs);
        night.list.splice(..whole, list_of(&pairs));
    }
}

/// Changes one of the pairs.
fn change_pair(
    night: &mut Night,
    random: &mut Random,
    change: impl FnOnce(&mut Pair, Near, &mut Random),
) {
    let bytes = night.files.len() as u32;
    change_pairs(night, |pairs| {
        let at = random.below(pairs.len());
        let before = at.checked_sub(1).map_or((0, 0), |before| pairs[before]);
        let last = before.0.wrapping_add(before.1);
        change(&mut pairs[at], Near { last, bytes }, random);
    });
}

/// Adds pairs of no bytes at the end of the files, up to so many pairs.
fn fill_up(night: &mut Night, pairs: usize) {
    let empty = list_of(&[(night.files.len() as u32, 0)]);
    while night.list.len() / 8 < pairs {
        night.list.truncate(night.list.len() / 8 * 8);
        night.list.extend(&empty);
    }
}

/// Adds up to seven bytes to the list.
fn add_bytes(night: &mut Night, random: &mut Random) {
    let bytes = 1 + random.below(7);
    night.list.extend((0..bytes).map(|_| random.below(256) as u8));
}

/// Changes the list in one way, and one time in eight in a second way too. Tells the first. Where the
/// list does not allow it, it stays as it is.
pub fn change_list(night: &mut Night, random: &mut Random) -> &'static str {
    let (name, slip) = random.pick(&SLIPS);
    slip(night, random);
    if random.one_in(8) {
        let (_, second) = random.pick(&SLIPS);
        second(night, random);
    }
    name
}
