//! Shows a case file on standard input as people read it. With `--text` it writes the exact text,
//! which `write-case` takes back to the same bytes.

use std::env;
use std::process::ExitCode;

use conformance::checker::MOST_BYTES;
use conformance::desk::{show::show, text::text};
use conformance::streams::{answer, trouble};

const NAME: &str = "show-case";

fn readable(file: &[u8]) -> Result<Vec<u8>, String> {
    Ok(show(file).into_bytes())
}

fn exact(file: &[u8]) -> Result<Vec<u8>, String> {
    let text = text(file).ok_or("the header is not sound, so no text carries this file")?;
    Ok(text.into_bytes())
}

/// One byte more than a file may have is enough to refuse it.
fn main() -> ExitCode {
    let arguments: Vec<String> = env::args().skip(1).collect();
    let most = MOST_BYTES as u64 + 1;
    match arguments.iter().map(String::as_str).collect::<Vec<&str>>()[..] {
        [] => answer(NAME, most, readable),
        ["--text"] => answer(NAME, most, exact),
        _ => trouble(NAME, "usage: show-case [--text] < FILE"),
    }
}
