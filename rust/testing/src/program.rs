//! The program that reads a sheet from standard input and prints the nearest trace, run as it is built.

use std::io::{self, Write};
use std::path::PathBuf;
use std::process::{Command, Stdio};

/// The repository's folder, beside which the kit builds.
pub fn repository() -> PathBuf {
    PathBuf::from(env!("CARGO_MANIFEST_DIR")).join("../..")
}

/// Where `tools/archive` puts the program.
pub fn path() -> PathBuf {
    repository().join("target/bin/match_sheet")
}

/// What the program prints of these bytes. It is an error if the program cannot be run.
pub fn printed(input: &[u8]) -> io::Result<String> {
    printed_in_pieces(input, input.len().max(1))
}

/// .. that come in pieces of a size, each a moment after the other.
pub fn printed_in_pieces(input: &[u8], size: usize) -> io::Result<String> {
    let mut child = Command::new(path()).stdin(Stdio::piped()).stdout(Stdio::piped()).stderr(Stdio::piped()).spawn()?;
    let mut pipe = child.stdin.take().expect("it is piped");
    for piece in input.chunks(size) {
        // a program that has seen enough may close its input
        if pipe.write_all(piece).is_err() {
            break;
        }
        if size < input.len() {
            std::thread::sleep(std::time::Duration::from_millis(1));
        }
    }
    drop(pipe);
    let output = child.wait_with_output()?;
    assert!(output.stderr.is_empty(), "nothing on standard error");
    Ok(String::from_utf8(output.stdout).expect("digits and letters"))
}
