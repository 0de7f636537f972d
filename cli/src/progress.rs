//! How far long work is, on a terminal.

use std::io::{self, IsTerminal, Write};
use std::time::{Duration, Instant};

/// Work that takes longer than a second is told from then on.
const QUIET: Duration = Duration::from_secs(1);
const BETWEEN: Duration = Duration::from_millis(200);

/// A count of how far work is, shown on standard error where that is a terminal.
pub struct Progress {
    what: &'static str,
    next: Option<Instant>,
    shown: bool,
}

impl Progress {
    /// Starts. Work that writes as it goes is not told where what it writes is seen.
    pub fn new(what: &'static str, writes: bool) -> Progress {
        let watched = io::stderr().is_terminal() && !(writes && io::stdout().is_terminal());
        Progress { what, next: watched.then(|| Instant::now() + QUIET), shown: false }
    }

    /// `done` of `all` is done.
    pub fn step(&mut self, done: u64, all: u64) {
        let Some(next) = self.next else { return };
        if Instant::now() < next {
            return;
        }
        self.next = Some(Instant::now() + BETWEEN);
        self.shown = true;
        let percent = (u128::from(done) * 100).checked_div(u128::from(all)).unwrap_or(100);
        // What cannot be told about progress is not worth an error.
        let _ = write!(io::stderr(), "\rdekvoz: {} {percent}%", self.what);
    }

    /// Takes the line away.
    pub fn end(&mut self) {
        if self.shown {
            let _ = write!(io::stderr(), "\r\x1b[K");
        }
        self.next = None;
    }
}
