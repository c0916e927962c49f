//! Says on standard error how many points have been loaded, where that helps: on a terminal, and only if it takes a while.

use std::io::{self, IsTerminal, Write};
use std::time::{Duration, Instant};

/// Nothing is shown before this.
const PATIENCE: Duration = Duration::from_millis(400);

/// The time between two looks.
const PACE: Duration = Duration::from_millis(100);

/// The progress of one load.
pub struct Progress {
    next: Option<Instant>,
    shown: bool,
}

impl Progress {
    /// The progress of a load that starts now.
    pub fn new() -> Self {
        Self { next: io::stderr().is_terminal().then(|| Instant::now() + PATIENCE), shown: false }
    }

    /// So many points have been loaded.
    pub fn show(&mut self, points: usize) {
        let now = Instant::now();
        if self.next.is_some_and(|next| now >= next) {
            eprint!("\rloading: {points} points ..");
            let _ = io::stderr().flush();
            self.next = Some(now + PACE);
            self.shown = true;
        }
    }
}

/// Takes its line away.
impl Drop for Progress {
    fn drop(&mut self) {
        if self.shown {
            eprint!("\r\x1b[K");
            let _ = io::stderr().flush();
        }
    }
}
