//! Reads a case file on standard input and prints the verdict as document 01's program does.

use std::io::{self, Read};

use conformance::cases::ROOM;
use conformance::checker::{check, MOST_BYTES};
use conformance::output::printed;

/// One byte more than a file may have is enough to refuse it.
fn main() -> io::Result<()> {
    let mut file = Vec::new();
    io::stdin().take(MOST_BYTES as u64 + 1).read_to_end(&mut file)?;
    let mut room = [0; ROOM];
    let verdict = check(&file, &mut room);
    print!("{}", printed(file.len(), verdict, &room));
    Ok(())
}
