//! Writes the case file that a text on standard input tells.

use std::process::ExitCode;

use conformance::desk::write::write;
use conformance::streams::answer;

fn main() -> ExitCode {
    answer("write-case", u64::MAX, |text| write(text).map_err(|fault| fault.to_string()))
}
