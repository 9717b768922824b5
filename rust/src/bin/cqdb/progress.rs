//! How far long work has come, shown on a terminal.
use std::io::{self, IsTerminal, Write};
use std::time::{Duration, Instant};

const FIRST: Duration = Duration::from_millis(500);
const BETWEEN: Duration = Duration::from_millis(100);
/// The clock is looked at once in so many steps.
const STEPS: u64 = 1 << 12;

pub struct Progress {
    /// None where standard error is no terminal.
    next: Option<Instant>,
    shown: bool,
}

impl Progress {
    pub fn new() -> Progress {
        Progress { next: io::stderr().is_terminal().then(|| Instant::now() + FIRST), shown: false }
    }

    pub fn at(&mut self, done: u64, what: &str) {
        let Some(next) = self.next.filter(|_| done % STEPS == 0) else { return };
        let now = Instant::now();
        if now >= next {
            self.next = Some(now + BETWEEN);
            self.shown = true;
            let _ = write!(io::stderr(), "\rcqdb: {done} {what}\x1b[K");
        }
    }

    /// Takes the line away, before something else is written.
    pub fn clear(&mut self) {
        if std::mem::take(&mut self.shown) {
            let _ = write!(io::stderr(), "\r\x1b[K");
        }
    }
}
