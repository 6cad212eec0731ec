//! A progress bar on a terminal, for work that takes over a second; nothing elsewhere. Of a file that arrives, whose length nobody knows, it shows
//! bytes, records and speed.

use crate::place::count;
use crate::warning::{in_json, is_gathered, is_quiet};
use indicatif::{ProgressBar, ProgressStyle};
use std::io::IsTerminal;
use std::sync::Arc;
use std::sync::atomic::{AtomicBool, AtomicU64, Ordering};
use std::thread::{self, JoinHandle};
use std::time::{Duration, Instant};

/// Nothing is shown for work that is done by then.
const QUIET: Duration = Duration::from_secs(1);

/// How often the bar moves.
const TICK: Duration = Duration::from_millis(100);

/// Shows how far some work is, until it is dropped.
#[derive(Debug)]
pub struct Progress {
    at: Arc<AtomicU64>,
    records: Arc<AtomicU64>,
    over: Arc<AtomicBool>,
    shower: Option<JoinHandle<()>>,
}

impl Progress {
    /// Reading so many bytes; 0 where that isn't known.
    pub fn reading(file: &str, bytes: u64) -> Self {
        Self::new(format!("reading {file}"), bytes, false)
    }

    /// Work on so many bytes; if they are mapped, the system says how many were read.
    pub fn working(doing: &str, file: &str, bytes: u64, mapped: bool) -> Self {
        Self::new(format!("{doing} {file}"), if mapped { bytes } else { 0 }, mapped)
    }

    /// Indexing what arrives; nobody knows how much it is.
    pub fn arriving(file: &str) -> Self {
        Self::new(format!("indexing {file}"), 0, false)
    }

    fn new(doing: String, bytes: u64, mapped: bool) -> Self {
        let at = Arc::new(AtomicU64::new(0));
        let records = Arc::new(AtomicU64::new(0));
        let over = Arc::new(AtomicBool::new(false));
        let shower = (!in_json() && !is_quiet() && !is_gathered() && std::io::stderr().is_terminal()).then(|| {
            let (at, records, over) = (Arc::clone(&at), Arc::clone(&records), Arc::clone(&over));
            thread::spawn(move || show(&doing, bytes, mapped, [&at, &records], &over))
        });
        Self { at, records, over, shower }
    }

    /// So many bytes are done.
    pub fn at(&self, bytes: u64) {
        self.at.store(bytes, Ordering::Relaxed);
    }

    /// So many records are indexed.
    pub fn with_records(&self, records: u64) {
        self.records.store(records, Ordering::Relaxed);
    }
}

impl Drop for Progress {
    fn drop(&mut self) {
        self.over.store(true, Ordering::Relaxed);
        if let Some(shower) = self.shower.take() {
            shower.thread().unpark();
            let _ = shower.join();
        }
    }
}

fn show(doing: &str, bytes: u64, mapped: bool, [at, records]: [&AtomicU64; 2], over: &AtomicBool) {
    let begun = Instant::now();
    let before = if mapped { looked_at() } else { 0 };
    thread::park_timeout(QUIET);
    if over.load(Ordering::Relaxed) {
        return;
    }
    let bar = if bytes == 0 { ProgressBar::new_spinner() } else { ProgressBar::new(bytes) };
    let bar = bar.with_elapsed(QUIET);
    let form =
        if bytes == 0 { "{spinner} {msg} {elapsed}" } else { "{msg} [{bar:30}] {bytes} of {total_bytes}, {elapsed}" };
    if let Ok(style) = ProgressStyle::with_template(form) {
        bar.set_style(style.progress_chars("=> "));
    }
    bar.set_message(doing.to_string());
    let mut most = 0;
    while !over.load(Ordering::Relaxed) {
        let now = if mapped { looked_at().saturating_sub(before) } else { at.load(Ordering::Relaxed) };
        most = now.max(most);
        if bytes == 0 {
            bar.set_message(format!("{doing}{}", so_far(most, records.load(Ordering::Relaxed), begun.elapsed())));
            bar.tick()
        } else {
            bar.set_position(most.min(bytes))
        }
        thread::park_timeout(TICK);
    }
    bar.finish_and_clear();
}

/// Bytes, records and speed of what arrives; nothing where no byte has come.
fn so_far(bytes: u64, records: u64, time: Duration) -> String {
    if bytes == 0 {
        return String::new();
    }
    let records = if records > 0 { format!(", {}", count(records, "record")) } else { String::new() };
    let speed = bytes as f64 / 1e6 / time.as_secs_f64().max(0.001);
    format!(": {}{records}, {speed:.1} MB/s,", count(bytes, "byte"))
}

/// The bytes of mapped files that this process has read and the system still holds.
fn looked_at() -> u64 {
    let told = std::fs::read_to_string("/proc/self/statm").unwrap_or_default();
    let pages: u64 = told.split(' ').nth(2).and_then(|pages| pages.parse().ok()).unwrap_or(0);
    // SAFETY: it only asks for a number.
    let page = unsafe { libc::sysconf(libc::_SC_PAGESIZE) };
    pages.saturating_mul(u64::try_from(page).unwrap_or(4096))
}

#[cfg(test)]
mod tests {
    use super::*;

    #[test]
    fn bytes_records_and_speed() {
        let second = Duration::from_secs(1);
        assert_eq!(so_far(0, 0, second), "");
        assert_eq!(so_far(3_000_000, 0, second), ": 3,000,000 bytes, 3.0 MB/s,");
        assert_eq!(so_far(3_000_000, 1234, 2 * second), ": 3,000,000 bytes, 1,234 records, 1.5 MB/s,");
    }
}
