//! How far a run has come, on one line of standard error.

use crate::failure;
use crate::output::Output;
use std::io::{self, IsTerminal};
use std::time::{Duration, Instant};

/// Short runs show nothing.
const FIRST: Duration = Duration::from_millis(500);
const BETWEEN: Duration = Duration::from_millis(100);

/// The line is wiped when this is dropped.
pub struct Progress {
    on: bool,
    most: u32,
    due: Instant,
    /// The length of the line that is shown.
    shown: usize,
}

impl Progress {
    /// Of a run of at most so many cycles. It is shown on a terminal, but not where the answer
    /// itself goes there line by line, nor where JSON goes elsewhere: whoever reads that asked for
    /// no more.
    pub fn new(most: u32, line_by_line: bool, out: &Output) -> Progress {
        let is_wanted = match io::stdout().is_terminal() {
            true => !line_by_line,
            false => !out.is_json(),
        };
        let on = io::stderr().is_terminal() && is_wanted;
        Progress { on, most, due: Instant::now() + FIRST, shown: 0 }
    }

    pub fn show(&mut self, cycles: u32) {
        if !self.on || Instant::now() < self.due {
            return;
        }
        let percent = f64::from(cycles) * 100.0 / f64::from(self.most.max(1));
        let line = format!("cycles {cycles} of {} ({percent:.1} %)", self.most);
        failure::say(&format!("\r{line}"));
        self.shown = line.len();
        self.due = Instant::now() + BETWEEN;
    }
}

impl Drop for Progress {
    fn drop(&mut self) {
        if self.shown > 0 {
            failure::say(&format!("\r{:1$}\r", "", self.shown));
        }
    }
}
