//! Plays a script of calls from standard input by the protocol of `vectors/PROTOCOL.md`, and prints the replies.

use std::io::{self, BufRead, Write};
use testing::script::Session;

fn main() -> io::Result<()> {
    let mut session = Session::new();
    let mut replies = io::stdout().lock();
    for line in io::stdin().lock().lines() {
        if let Some(reply) = session.play(&line?) {
            writeln!(replies, "{reply}")?;
        }
    }
    Ok(())
}
