//! How far a work is: said on a terminal, once it has taken more than a second, and nowhere else.

use std::io::{self, IsTerminal, Write};
use std::sync::atomic::{AtomicUsize, Ordering};
use std::sync::mpsc::{RecvTimeoutError, Sender, channel};
use std::sync::{Arc, Mutex};
use std::thread::JoinHandle;
use std::time::{Duration, Instant};

/// The time before anything is said, and between two times that it is.
const WAIT: Duration = Duration::from_secs(1);
const TICK: Duration = Duration::from_millis(250);

/// A work that is under way.
pub struct Progress {
    done: Arc<AtomicUsize>,
    shown: Arc<Mutex<bool>>,
    ticker: Option<(Sender<()>, JoinHandle<()>)>,
}

impl Progress {
    /// A work on so many things starts.
    pub fn start(what: &'static str, all: usize) -> Progress {
        let (done, shown) = (Arc::new(AtomicUsize::new(0)), Arc::new(Mutex::new(false)));
        let mut ticker = None;
        if io::stderr().is_terminal() {
            let (stop, stopped) = channel();
            let (done, shown) = (done.clone(), shown.clone());
            let tick = move || {
                let start = Instant::now();
                let mut wait = WAIT;
                while stopped.recv_timeout(wait) == Err(RecvTimeoutError::Timeout) {
                    wait = TICK;
                    tell(&shown, &line(what, done.load(Ordering::Relaxed), all, start.elapsed().as_secs()));
                }
            };
            ticker = std::thread::Builder::new().spawn(tick).ok().map(|thread| (stop, thread));
        }
        Progress { done, shown, ticker }
    }

    /// One more is done.
    pub fn step(&self) {
        self.done.fetch_add(1, Ordering::Relaxed);
    }

    /// Takes the line away, so that others can be written.
    pub fn clear(&self) {
        if let Ok(mut shown) = self.shown.lock()
            && std::mem::take(&mut *shown)
        {
            let _ = io::stderr().write_all(b"\r\x1b[K");
        }
    }
}

impl Drop for Progress {
    fn drop(&mut self) {
        if let Some((stop, thread)) = self.ticker.take() {
            drop(stop);
            let _ = thread.join();
        }
        self.clear();
    }
}

/// What is said.
fn line(what: &str, done: usize, all: usize, seconds: u64) -> String {
    if all > 1 { format!("{what}: {done} of {all}, {seconds} s") } else { format!("{what}: {seconds} s") }
}

/// Says it in place of what was said before.
fn tell(shown: &Mutex<bool>, line: &str) {
    if let Ok(mut shown) = shown.lock() {
        *shown = true;
        let _ = write!(io::stderr(), "\r\x1b[K{line}");
    }
}
