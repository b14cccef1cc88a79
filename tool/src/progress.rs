//! How far a long run is, on the error stream when that is a terminal.

use std::io::{self, IsTerminal, Write};
use std::time::{Duration, Instant};

/// A line that is written over.
pub struct Progress {
    shown: bool,
    on: bool,
    total: u64,
    next: Instant,
}

/// Between two lines, and before the first.
const PAUSE: Duration = Duration::from_millis(200);

impl Progress {
    /// Of so many slices.
    pub fn new(total: u64) -> Progress {
        Progress {
            shown: false,
            on: io::stderr().is_terminal(),
            total,
            next: Instant::now() + PAUSE,
        }
    }

    /// So many are done.
    pub fn tell(&mut self, done: u64) {
        // The clock is not asked at every slice.
        if !self.on || !done.is_multiple_of(64) || Instant::now() < self.next {
            return;
        }
        self.next = Instant::now() + PAUSE;
        self.shown = true;
        let percent = done.saturating_mul(100) / self.total.max(1);
        let _ = write!(
            io::stderr(),
            "\r\x1b[K{done} of {} slices, {percent}%",
            self.total
        );
    }
}

impl Drop for Progress {
    fn drop(&mut self) {
        if self.shown {
            let _ = write!(io::stderr(), "\r\x1b[K");
        }
    }
}
