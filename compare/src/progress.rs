//! A line on standard error for work that lasts: how many of how many are done, or for how long it runs. It shows after two seconds.
//! Of work in steps it is rewritten in place on a terminal; else a new line comes every five seconds.
use std::io::{IsTerminal, Write};
use std::sync::Arc;
use std::sync::atomic::{AtomicU64, Ordering::Relaxed};
use std::sync::mpsc::{Receiver, RecvTimeoutError, Sender, channel};
use std::thread::JoinHandle;
use std::time::{Duration, Instant};

/// Work that lasts no longer shows nothing.
const FIRST: Duration = Duration::from_secs(2);

/// The line shows as long as this lives.
pub struct Progress {
    done: Arc<AtomicU64>,
    /// The thread that writes, and what ends it.
    writer: Option<(Sender<()>, JoinHandle<()>)>,
}

impl Progress {
    /// Work in so many steps.
    pub fn new(what: &str, of: u64) -> Self {
        let done = Arc::new(AtomicU64::new(0));
        let (what, count) = (what.to_string(), done.clone());
        let text = move || format!("{what}: {} of {of}", count.load(Relaxed));
        Progress { done, writer: Some(writer(std::io::stderr().is_terminal(), text)) }
    }
    /// Work that can't be counted. What it prints itself stands between these lines.
    pub fn waiting(what: &str) -> Self {
        let (what, start) = (what.to_string(), Instant::now());
        let text = move || format!("{what}: {} seconds", start.elapsed().as_secs());
        Progress { done: Arc::default(), writer: Some(writer(false, text)) }
    }
    /// One more is done.
    pub fn step(&self) {
        self.done.fetch_add(1, Relaxed);
    }
}

/// The thread that writes until its sender is gone.
fn writer(in_place: bool, text: impl Fn() -> String + Send + 'static) -> (Sender<()>, JoinHandle<()>) {
    let (sender, ended) = channel();
    (sender, std::thread::spawn(move || write(in_place, text, ended)))
}

/// Writes the line when it is due. On a terminal it goes with the work.
fn write(in_place: bool, text: impl Fn() -> String, ended: Receiver<()>) {
    let (before, after, every) = if in_place { ("\r", "\x1b[K", 200) } else { ("", "\n", 5_000) };
    let mut due = FIRST;
    let mut last = "";
    while ended.recv_timeout(due) == Err(RecvTimeoutError::Timeout) {
        let mut err = std::io::stderr().lock();
        _ = write!(err, "{before}{}{after}", text());
        _ = err.flush();
        due = Duration::from_millis(every);
        last = if in_place { "\r\x1b[K" } else { "" };
    }
    eprint!("{last}");
}

impl Drop for Progress {
    fn drop(&mut self) {
        if let Some((sender, writer)) = self.writer.take() {
            drop(sender);
            _ = writer.join();
        }
    }
}
