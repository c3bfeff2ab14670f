//! Long work shows on standard error how far it is, where that is a terminal.

use std::io::{self, IsTerminal, Write};
use std::time::{Duration, Instant};

const PAUSE: Duration = Duration::from_millis(100);

/// Whether the terminal knows no more than letters and line feeds.
pub fn dumb_terminal() -> bool {
    std::env::var_os("TERM").is_some_and(|kind| kind == "dumb")
}

pub struct Progress {
    terminal: bool,
    last: Option<Instant>,
    /// Whether something stands in the terminal's line.
    shown: bool,
}

impl Progress {
    pub fn begin() -> Progress {
        Progress {
            terminal: io::stderr().is_terminal() && !dumb_terminal(),
            last: None,
            shown: false,
        }
    }

    /// Says how far the work is, in place of what was said before; not more often than the eye can follow.
    pub fn say(&mut self, how_far: impl FnOnce() -> String) {
        if !self.terminal || self.last.is_some_and(|last| last.elapsed() < PAUSE) {
            return;
        }
        self.last = Some(Instant::now());
        self.shown = true;
        // A terminal that takes no progress is no reason to stop the work.
        let _ = write!(io::stderr(), "\r{}\x1b[K", how_far());
    }

    /// Takes back what was said: the output may go to the same terminal, and begins a line.
    pub fn clear(&mut self) {
        if self.shown {
            let _ = write!(io::stderr(), "\r\x1b[K");
        }
        self.shown = false;
    }
}

impl Drop for Progress {
    fn drop(&mut self) {
        self.clear();
    }
}
