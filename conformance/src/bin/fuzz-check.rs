//! A target of clang's libFuzzer: whatever the bytes, the proved checker says what the separate one
//! says, also of the log's index and through one; and of the night that the bytes tell, if they tell
//! any. `attack/run` builds it; the separate checker's branches guide the search.

#![no_main]

use std::slice;

use conformance::indexes::{as_built, checked_in_all_rooms};
use conformance::mutator::mutated;
use conformance::night_inputs::{mutated_night, night_of};
use conformance::nights;
use conformance::random::Random;
use conformance::rooms::agreed_in_all_rooms;
use conformance::wrong_indexes::random_index;

extern "C" {
    /// libFuzzer's own changes, which know nothing of the layout.
    fn LLVMFuzzerMutate(data: *mut u8, length: usize, most: usize) -> usize;
}

/// What libFuzzer calls with each input. A difference panics, which ends the run.
#[export_name = "LLVMFuzzerTestOneInput"]
pub extern "C" fn test_one_input(data: *const u8, length: usize) -> i32 {
    let file = match length {
        0 => &[],
        // libFuzzer lends `length` bytes for the time of the call.
        _ => unsafe { slice::from_raw_parts(data, length) },
    };
    agreed_in_all_rooms(file);
    as_built(file);
    let (_, index) = random_index(file, &mut Random(seed(file)));
    checked_in_all_rooms(file, &index);
    if let Some(night) = night_of(file) {
        nights::checked_in_all_rooms(&night);
        // A file behind one that does not fit may fit here.
        nights::checked(&night, night.needed() / 2);
    }
    0
}

/// A number that the bytes give, which is not 0: what is wrong with the index comes from it.
fn seed(file: &[u8]) -> u64 {
    let mix = |sum: u64, byte: &u8| (sum ^ *byte as u64).wrapping_mul(0x0000_0100_0000_01B3);
    file.iter().fold(0xCBF2_9CE4_8422_2325, mix) | 1
}

/// What libFuzzer calls for the next input: one in four it makes by itself.
#[export_name = "LLVMFuzzerCustomMutator"]
pub extern "C" fn mutate(data: *mut u8, length: usize, most: usize, seed: u32) -> usize {
    let mut random = Random((seed as u64 + 1).wrapping_mul(0x9E37_79B9_7F4A_7C15));
    // libFuzzer lends `most` bytes, of which the first `length` are the input.
    let bytes = unsafe { slice::from_raw_parts_mut(data, most) };
    let input = &bytes[..length];
    match mutated_night(input, &mut random).or_else(|| mutated(input, &mut random)) {
        Some(changed) if changed.len() <= most && !random.one_in(4) => {
            bytes[..changed.len()].copy_from_slice(&changed);
            changed.len()
        }
        // The same bytes, lent on.
        _ => unsafe { LLVMFuzzerMutate(data, length, most) },
    }
}
