//! A line on standard error that says how far long work is; none if that is no terminal.

use std::io::{self, IsTerminal, Write};
use std::time::{Duration, Instant};

pub struct Progress {
    what: &'static str,
    total: usize,
    next: Instant,
    shown: bool,
    seen: bool,
}

impl Progress {
    pub fn new(what: &'static str, total: usize) -> Progress {
        Progress { what, total, next: Instant::now() + Duration::from_millis(500), shown: false, seen: io::stderr().is_terminal() }
    }

    /// So many are done.
    pub fn show(&mut self, done: usize) {
        if self.seen && Instant::now() >= self.next {
            let _ = write!(io::stderr(), "\r{}: {done} of {}", self.what, self.total);
            self.next = Instant::now() + Duration::from_millis(100);
            self.shown = true;
        }
    }
}

impl Drop for Progress {
    fn drop(&mut self) {
        if self.shown {
            let _ = write!(io::stderr(), "\r\x1b[K");
        }
    }
}
