//! How far long work has come, on a terminal.

use std::io::{IsTerminal, Write};
use std::time::{Duration, Instant};

/// Nothing is said before the work takes this long, and then once in every such time.
const PAUSE: Duration = Duration::from_millis(400);

/// Says how far work has come, on standard error where that is a terminal; else nothing.
pub struct Progress {
    what: &'static str,
    last: Option<Instant>,
    said: bool,
}

impl Progress {
    /// Work that counts something.
    pub fn new(what: &'static str) -> Progress {
        let terminal = std::io::stderr().is_terminal();
        Progress {
            what,
            last: terminal.then(Instant::now),
            said: false,
        }
    }

    /// The work has come to this number.
    pub fn at(&mut self, number: impl std::fmt::Display) {
        if self.last.is_some_and(|last| last.elapsed() >= PAUSE) {
            let _ = write!(std::io::stderr(), "\r{} {number} ", self.what);
            let _ = std::io::stderr().flush();
            self.last = Some(Instant::now());
            self.said = true;
        }
    }
}

impl Drop for Progress {
    fn drop(&mut self) {
        if self.said {
            let _ = write!(std::io::stderr(), "\r{:40}\r", "");
        }
    }
}
