//! Writes the fuzzer's first inputs to a folder: the known files that are short, and random
//! justifications, those that pass, which have all sixteen rules among them, those that slip, and
//! those whose duties fail; and the known nights that are short, and random ones, in both forms.

use std::env;
use std::fs;
use std::io;
use std::path::Path;

use conformance::justifications::{failing_duties, passing, slipping};
use conformance::night_inputs::{as_it_stands, in_order};
use conformance::nights::Files;
use conformance::pack::{known_files, known_nights, random_night};
use conformance::random::Random;

const LONGEST: usize = 4_096;
const OF_EACH: usize = 300;

fn files(random: &mut Random) -> Vec<Vec<u8>> {
    let mut each = || [passing, slipping, failing_duties].map(|make| make(random));
    let made = (0..OF_EACH).flat_map(|_| each()).map(|case| case.to_bytes());
    known_files().into_iter().chain(made).collect()
}

fn nights(random: &mut Random) -> Vec<Vec<u8>> {
    let mut files = Files::new(random);
    let made = (0..OF_EACH).map(|_| random_night(&mut files, random));
    let nights = known_nights().into_iter().chain(made);
    nights.flat_map(|night| [as_it_stands(&night), in_order(&night)]).flatten().collect()
}

fn main() -> io::Result<()> {
    let folder = env::args().nth(1).expect("give a folder");
    let mut random = Random(0x2545_F491_4F6C_DD1D);
    for (kind, inputs) in [("case", files(&mut random)), ("night", nights(&mut random))] {
        let short = inputs.into_iter().filter(|input| input.len() <= LONGEST);
        for (number, input) in short.enumerate() {
            fs::write(Path::new(&folder).join(format!("{number}.{kind}")), input)?;
        }
    }
    Ok(())
}
