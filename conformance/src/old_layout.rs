//! Files of the layout before change request 6: a header of 36 bytes, which has no audit hour, and
//! obligations of four bytes, which have no due hour and no row.

use crate::builder::bytes;
use crate::checker::{check_2, pair_at, HEADER_BYTES, HOUR_AT, PARTS};
use crate::vectors::{read, Vector};

const OBLIGATIONS: usize = 4;

/// The bytes of an obligation's mark and action.
const OLD_OBLIGATION: usize = 4;

/// The vectors of document 01 in the old layout, with the answers due then.
pub fn old_vectors() -> Vec<Vector> {
    read(include_str!("../old-layout/base.tsv")).expect("each line is a vector")
}

/// The same case in the old layout, where no part is faulty.
pub fn in_old_layout(file: &[u8]) -> Option<Vec<u8>> {
    file.get(..HEADER_BYTES)?;
    let parts = check_2(file).ok()?.into_iter().enumerate();
    let parts: Vec<Vec<u8>> = parts.map(|(place, part)| old_part(place, &file[part])).collect();
    let mut old = file[..pair_at(0)].to_vec();
    let mut offset = HOUR_AT;
    for part in &parts {
        old.extend(bytes([offset as u16, part.len() as u16]));
        offset += part.len();
    }
    Some([old, parts.concat()].concat())
}

fn old_part(place: usize, part: &[u8]) -> Vec<u8> {
    if place != OBLIGATIONS {
        return part.to_vec();
    }
    let records = part.chunks_exact(PARTS[OBLIGATIONS].0);
    records.flat_map(|record| &record[..OLD_OBLIGATION]).copied().collect()
}

/// The file with its hour cut out, and every other byte as it is.
pub fn without_hour(file: &[u8]) -> Vec<u8> {
    let kept = |(at, _): &(usize, &u8)| !(HOUR_AT..HEADER_BYTES).contains(at);
    file.iter().enumerate().filter(kept).map(|(_, byte)| *byte).collect()
}
