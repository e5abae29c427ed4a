//! Nights as inputs of the fuzzer, in two forms, told by the first byte. After the one come the length
//! of the list in 16 bits, the list as it stands, and the files. After the other come the number of
//! files in 8 bits, for each the bytes of the gap before it in 8 bits and its length in 16, and the
//! files: the list that is made from these is in order, whatever the bytes.

use crate::mutator::mutated;
use crate::nights::{list_of, random_gap, Night, Pair};
use crate::random::{damage, Random};
use crate::wrong_lists::change_list;

/// The first bytes. A case file that begins with one is rare: it is its agent's low byte.
const AS_IT_STANDS: u8 = 0xFE;
const IN_ORDER: u8 = 0xFF;

/// What an input in the second form has for each file.
const HEAD: usize = 3;

fn number(bytes: &[u8]) -> usize {
    u16::from_le_bytes([bytes[0], bytes[1]]) as usize
}

/// The night that an input tells, if it tells any.
pub fn night_of(input: &[u8]) -> Option<Night> {
    match input.split_first()? {
        (&AS_IT_STANDS, rest) => {
            let (length, rest) = rest.split_at_checked(2)?;
            let (list, files) = rest.split_at_checked(number(length))?;
            Some(Night { files: files.to_vec(), list: list.to_vec() })
        }
        (&IN_ORDER, rest) => {
            let (count, rest) = rest.split_first()?;
            let (heads, files) = rest.split_at_checked(HEAD * *count as usize)?;
            let list = list_of(&pairs_in_order(heads, files.len()));
            Some(Night { files: files.to_vec(), list })
        }
        _ => None,
    }
}

/// Each gap and each file has as many bytes as its head says, or as are left.
fn pairs_in_order(heads: &[u8], bytes: usize) -> Vec<Pair> {
    let mut end = 0;
    let pair = |head: &[u8]| {
        let offset = bytes.min(end + head[0] as usize);
        end = bytes.min(offset + number(&head[1..]));
        (offset as u32, (end - offset) as u32)
    };
    heads.chunks_exact(HEAD).map(pair).collect()
}

/// An input that tells this night, unless its list is too long for one.
pub fn as_it_stands(night: &Night) -> Option<Vec<u8>> {
    let length = u16::try_from(night.list.len()).ok()?;
    let head = [AS_IT_STANDS].into_iter().chain(length.to_le_bytes());
    Some(head.chain(night.list.iter().chain(&night.files).copied()).collect())
}

/// An input in the second form that tells this night, unless there is none.
pub fn in_order(night: &Night) -> Option<Vec<u8>> {
    let pairs = night.pairs();
    let mut input = vec![IN_ORDER, pairs.len() as u8];
    let mut end: u32 = 0;
    for (offset, length) in pairs {
        input.push(offset.wrapping_sub(end) as u8);
        input.extend((length as u16).to_le_bytes());
        end = offset.wrapping_add(length);
    }
    input.extend(&night.files);
    (night_of(&input)? == *night).then_some(input)
}

/// An input that tells this night with another list or with other files; none where this one tells no
/// night.
pub fn mutated_night(input: &[u8], random: &mut Random) -> Option<Vec<u8>> {
    let mut night = night_of(input)?;
    let mut files = files_of(&night);
    if files.is_empty() || random.one_in(3) {
        change_list(&mut night, random);
        return as_it_stands(&night);
    }
    change_files(&mut files, random);
    let night = Night::of(&files, || random_gap(random));
    match random.below(2) {
        0 => as_it_stands(&night),
        _ => in_order(&night),
    }
}

/// What lies where the pairs say, those beyond the files left out.
fn files_of(night: &Night) -> Vec<Vec<u8>> {
    let file = |(offset, length): Pair| {
        let end = offset as usize + length as usize;
        Some(night.files.get(offset as usize..end)?.to_vec())
    };
    night.pairs().into_iter().filter_map(file).collect()
}

/// A file taken out, again, in another place, or changed.
fn change_files(files: &mut Vec<Vec<u8>>, random: &mut Random) {
    let (one, other) = (random.below(files.len()), random.below(files.len()));
    match random.below(6) {
        0 => _ = files.remove(one),
        1 => files.insert(one, files[other].clone()),
        2 => files.swap(one, other),
        _ => {
            let file = &files[one];
            files[one] = mutated(file, random).unwrap_or_else(|| damage(file, random));
        }
    }
}
