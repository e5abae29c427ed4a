//! Programs as filters: from standard input to standard output.

use std::io::{self, Read, Write};
use std::process::{Child, Command, ExitCode, Output, Stdio};

/// Answers what stands on standard input, of which it reads at most so many bytes. Trouble goes to
/// standard error, with the program's name, and is the exit status.
pub fn answer(
    program: &str,
    most: u64,
    answer: impl FnOnce(&[u8]) -> Result<Vec<u8>, String>,
) -> ExitCode {
    let mut input = Vec::new();
    let read = io::stdin().take(most).read_to_end(&mut input);
    let answered = read.map_err(|error| error.to_string()).and_then(|_| answer(&input));
    let written = answered.and_then(|output| write(&output).map_err(|error| error.to_string()));
    written.map_or_else(|what| trouble(program, &what), |()| ExitCode::SUCCESS)
}

fn write(output: &[u8]) -> io::Result<()> {
    let mut stdout = io::stdout();
    stdout.write_all(output)?;
    stdout.flush()
}

pub fn trouble(program: &str, what: &str) -> ExitCode {
    eprintln!("{program}: {what}");
    ExitCode::FAILURE
}

/// Runs a program over this input. It may stop reading before the end.
pub fn run(command: &mut Command, input: &[u8]) -> Output {
    let piped = command.stdin(Stdio::piped()).stdout(Stdio::piped()).stderr(Stdio::piped());
    let mut child: Child = piped.spawn().unwrap_or_else(|error| panic!("{command:?}: {error}"));
    let mut stdin = child.stdin.take().expect("standard input is a pipe");
    let _ = stdin.write_all(input);
    drop(stdin);
    child.wait_with_output().expect("the program ends")
}
