//! A line that tells how far the frames have gone: on a terminal only.
use std::io::{IsTerminal, Write};
use std::time::{Duration, Instant};

pub struct Progress {
    total: usize,
    shown: Option<Instant>,
    terminal: bool,
}

impl Progress {
    pub fn new(total: usize) -> Self {
        Self {
            total,
            shown: None,
            terminal: std::io::stdout().is_terminal(),
        }
    }

    pub fn at(&mut self, offset: usize) {
        let due = self
            .shown
            .is_none_or(|shown| shown.elapsed() > Duration::from_millis(50));
        if self.terminal && due {
            self.shown = Some(Instant::now());
            print!("\rspeaking: {offset} of {} bytes", self.total);
            // a terminal that is gone is noticed when the page is printed
            let _ = std::io::stdout().flush();
        }
    }
}

impl Drop for Progress {
    fn drop(&mut self) {
        if self.shown.is_some() {
            print!("\r\x1b[K");
        }
    }
}
