//! A line on standard error that tells how far a run is, where standard error is a terminal.

use std::io::{self, IsTerminal, Write};
use std::time::{Duration, Instant};

const OFTEN: Duration = Duration::from_millis(100);
const ERASE: &str = "\r\x1b[K";

pub struct Progress {
    terminal: bool,
    shown: bool,
    next: Instant,
}

impl Progress {
    pub fn new() -> Progress {
        Progress { terminal: io::stderr().is_terminal(), shown: false, next: Instant::now() }
    }

    /// Makes way for other text.
    pub fn erase(&mut self) {
        if std::mem::take(&mut self.shown) {
            let _ = write!(io::stderr(), "{ERASE}");
        }
    }

    /// Tells how many records are done, now and then.
    pub fn tell(&mut self, done: usize) {
        if self.terminal && Instant::now() >= self.next {
            let _ = write!(io::stderr(), "{ERASE}{done} records");
            self.shown = true;
            self.next = Instant::now() + OFTEN;
        }
    }
}
