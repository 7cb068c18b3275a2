//! The line of progress on standard error.
use crate::entries::ENTRIES;
use crate::state::State;
use crate::summary::grouped;
use std::io::{IsTerminal, stderr};
use std::time::{Duration, Instant};

pub struct Progress {
    terminal: bool,
    said: Instant,
}

impl Progress {
    pub fn new() -> Self {
        Progress {
            terminal: stderr().is_terminal(),
            said: Instant::now(),
        }
    }
    /// Each second over the line before on a terminal, else a line each minute.
    pub fn say(&mut self, state: &State) {
        let often = Duration::from_secs(if self.terminal { 1 } else { 60 });
        if self.said.elapsed() < often {
            return;
        }
        self.said = Instant::now();
        if self.terminal {
            eprint!("\r{}\x1b[K", line(state));
        } else {
            eprintln!("{}", line(state));
        }
    }
    /// A line of its own.
    pub fn tell(&self, text: &str) {
        let over = if self.terminal { "\r\x1b[K" } else { "" };
        eprintln!("{over}{text}");
    }
}

pub fn line(state: &State) -> String {
    let seconds = state.elapsed.as_secs();
    let entries = ENTRIES.iter().zip(&state.entries);
    let calls = entries.map(|(entry, counts)| (counts.compared.calls(), entry.name));
    let (fewest, slowest) = calls.min().expect("entries");
    format!(
        "{}:{:02} {} calls, {} of {slowest}, {} differences",
        seconds / 60,
        seconds % 60,
        grouped(state.calls()),
        grouped(fewest),
        state.differences()
    )
}
