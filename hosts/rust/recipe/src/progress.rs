//! How far a run is: a line on a terminal, overwritten as the run goes on.

use std::io::{self, IsTerminal, Write};
use std::time::{Duration, Instant};

/// The least time between two lines.
const PAUSE: Duration = Duration::from_millis(200);
/// Back to the line's first column, and clear it.
const CLEARED: &str = "\r\x1b[K";

/// The line on standard error; none where that is no terminal.
pub struct Progress {
    wanted: bool,
    /// Whether standard output goes to a terminal as well, so that the line has to make room for it.
    shared: bool,
    drawn: bool,
    /// Whether the line was cleared to make room, and is due again.
    due: bool,
    last: Instant,
}

impl Progress {
    pub fn new() -> Progress {
        let (wanted, shared) = (io::stderr().is_terminal(), io::stdout().is_terminal());
        Progress { wanted, shared, drawn: false, due: false, last: Instant::now() }
    }

    /// Shows a line in place of the last one, a few times a second, and where the last one made room.
    pub fn show(&mut self, line: impl FnOnce() -> String) {
        if self.wanted && (self.due || self.last.elapsed() >= PAUSE) {
            write(&format!("{CLEARED}{}", line()));
            (self.drawn, self.due, self.last) = (true, false, Instant::now());
        }
    }

    /// Makes room for what goes to standard output.
    pub fn make_room(&mut self) {
        if self.shared && self.drawn {
            self.clear();
            self.due = true;
        }
    }

    pub fn clear(&mut self) {
        if self.drawn {
            write(CLEARED);
            self.drawn = false;
        }
    }
}

impl Default for Progress {
    fn default() -> Progress {
        Progress::new()
    }
}

impl Drop for Progress {
    fn drop(&mut self) {
        self.clear();
    }
}

fn write(text: &str) {
    let mut errors = io::stderr().lock();
    // A terminal that went away needs no progress.
    let _ = errors.write_all(text.as_bytes()).and_then(|()| errors.flush());
}
