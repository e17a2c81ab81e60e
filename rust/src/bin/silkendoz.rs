//! The program for the bench: `silkendoz help` says what it does.

#[path = "../tool/mod.rs"]
mod tool;

use std::process::ExitCode;

fn main() -> ExitCode {
    tool::run(std::env::args_os().skip(1).collect())
}
