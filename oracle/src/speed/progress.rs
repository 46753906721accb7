//! Tells somebody who watches how far a command is.
use std::io::{self, IsTerminal, Write};

/// The rows that are done, of how many.
pub struct Progress {
    done: usize,
    rows: usize,
    is_watched: bool,
}

impl Progress {
    /// None of so many rows.
    pub fn of(rows: usize) -> Progress {
        Progress {
            done: 0,
            rows,
            is_watched: io::stderr().is_terminal(),
        }
    }

    /// Says that the next row is begun.
    pub fn begin(&mut self, name: &str) {
        self.done += 1;
        self.write(&format!("row {} of {}: {name}", self.done, self.rows));
    }

    /// Clears the line.
    pub fn clear(&self) {
        self.write("");
    }

    /// Writes over the line.
    fn write(&self, text: &str) {
        if self.is_watched {
            eprint!("\r\x1b[K{text}");
            // Progress that is not seen is no failure.
            let _ = io::stderr().flush();
        }
    }
}

impl Drop for Progress {
    /// Leaves a clear line, after a failure too.
    fn drop(&mut self) {
        self.clear();
    }
}
