//! How far long work has come: a line on standard error that replaces itself and is
//! wiped at the end. It is shown only on a terminal, and not for short work.

use std::io::{self, IsTerminal, Stderr, Write};
use std::time::{Duration, Instant};

/// Work that takes less shows nothing.
const PATIENCE: Duration = Duration::from_millis(500);
/// The line is not written more often than this.
const PAUSE: Duration = Duration::from_millis(100);
/// A longer line might be broken by the terminal, and could not be wiped.
const WIDTH: usize = 79;

/// A line that is wiped when this is dropped.
#[derive(Debug)]
pub struct Progress<W: Write> {
    /// Nothing if the line is never to be shown.
    out: Option<W>,
    next: Instant,
    pause: Duration,
    /// How many characters the line has now.
    shown: usize,
}

impl Progress<Stderr> {
    pub fn new() -> Self {
        let stderr = io::stderr();
        let out = stderr.is_terminal().then_some(stderr);
        Progress::on(out, PATIENCE, PAUSE)
    }
}

impl Default for Progress<Stderr> {
    fn default() -> Self {
        Progress::new()
    }
}

impl<W: Write> Progress<W> {
    fn on(out: Option<W>, patience: Duration, pause: Duration) -> Self {
        Progress {
            out,
            next: Instant::now() + patience,
            pause,
            shown: 0,
        }
    }

    /// Says what is being done, in place of what was said before.
    pub fn show(&mut self, text: &str) {
        if Instant::now() < self.next {
            return;
        }
        self.next = Instant::now() + self.pause;
        let line: String = text.chars().take(WIDTH).collect();
        self.replace(&line);
    }

    fn replace(&mut self, line: &str) {
        let Some(out) = &mut self.out else { return };
        let length = line.chars().count();
        let wiped = " ".repeat(self.shown.saturating_sub(length));
        // A line of progress that cannot be written is not missed.
        let _ = write!(out, "\r{line}{wiped}").and_then(|()| out.flush());
        self.shown = length;
    }
}

impl<W: Write> Drop for Progress<W> {
    fn drop(&mut self) {
        if self.shown > 0 {
            self.replace("");
            if let Some(out) = &mut self.out {
                let _ = write!(out, "\r").and_then(|()| out.flush());
            }
        }
    }
}

#[cfg(test)]
mod tests {
    use super::*;

    fn written(patience: Duration, pause: Duration, texts: &[&str]) -> String {
        let mut out = Vec::new();
        let mut progress = Progress::on(Some(&mut out), patience, pause);
        for text in texts {
            progress.show(text);
        }
        drop(progress);
        String::from_utf8(out).expect("text")
    }

    #[test]
    fn a_line_replaces_the_last_one_and_is_wiped() {
        let zero = Duration::ZERO;
        let said = written(zero, zero, &["axiom 10 of 12", "part 1"]);
        assert_eq!(said, "\raxiom 10 of 12\rpart 1        \r      \r");
    }

    #[test]
    fn short_work_shows_nothing() {
        let hour = Duration::from_secs(3600);
        assert_eq!(written(hour, Duration::ZERO, &["axiom 1 of 2"]), "");
    }

    #[test]
    fn the_line_is_not_written_too_often() {
        let hour = Duration::from_secs(3600);
        let said = written(Duration::ZERO, hour, &["one", "two"]);
        assert_eq!(said, "\rone\r   \r");
    }

    #[test]
    fn a_long_line_is_cut_before_the_terminal_would_break_it() {
        let zero = Duration::ZERO;
        let said = written(zero, zero, &["é".repeat(200).as_str()]);
        let shown = "é".repeat(WIDTH);
        assert_eq!(said, format!("\r{shown}\r{}\r", " ".repeat(WIDTH)));
    }

    #[test]
    fn without_a_terminal_nothing_is_kept() {
        let mut progress: Progress<Vec<u8>> = Progress::on(None, Duration::ZERO, Duration::ZERO);
        progress.show("one");
        assert_eq!(progress.shown, 0);
    }
}
