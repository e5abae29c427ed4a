//! Writes records of the known files and of as many random ones as asked for to standard output; or,
//! with the word `nights` first, of nights.

use std::env;
use std::io::{self, BufWriter, Write};

use conformance::nights::Files;
use conformance::pack::{known_files, known_nights, night_record};
use conformance::pack::{random_file, random_night, record};
use conformance::random::Random;

fn write(records: impl Iterator<Item = Vec<u8>>) -> io::Result<()> {
    let mut out = BufWriter::new(io::stdout().lock());
    for record in records {
        out.write_all(&record)?;
    }
    out.flush()
}

fn main() -> io::Result<()> {
    let arguments: Vec<String> = env::args().skip(1).collect();
    let words: Vec<&str> = arguments.iter().map(String::as_str).collect();
    let number = |text: &str| -> usize { text.parse().expect("a number of random ones") };
    let mut random = Random(0x9E37_79B9_7F4A_7C15);
    match words[..] {
        [count] => {
            let files = (0..number(count)).map(|_| random_file(&mut random));
            write(known_files().into_iter().chain(files).map(|file| record(&file)))
        }
        ["nights", count] => {
            let mut files = Files::new(&mut random);
            let nights = (0..number(count)).map(|_| random_night(&mut files, &mut random));
            write(known_nights().into_iter().chain(nights).map(|night| night_record(&night)))
        }
        _ => panic!("give a number of random files, or `nights` and a number"),
    }
}
