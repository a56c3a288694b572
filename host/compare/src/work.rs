//! Work over a range of seeds, on one thread or several.

use std::fmt::Display;
use std::io::{IsTerminal, Write};
use std::panic::{catch_unwind, AssertUnwindSafe};
use std::sync::atomic::{AtomicBool, AtomicU64, Ordering::Relaxed};
use std::thread;
use std::time::{Duration, Instant};

/// What is counted over the seeds, which prints as a table.
pub trait Tally: Default + Display + Send {
    /// One of so many must be of each kind that is counted.
    const ONE_IN: u64;

    /// Adds what another counted.
    fn merge(&mut self, other: &Self);

    /// What occurred less often than demanded, a line each.
    fn too_rare(&self) -> Vec<String>;
}

/// A seed that failed, and why.
#[derive(Clone, Debug, PartialEq, Eq)]
pub struct Failure {
    pub seed: u64,
    pub what: String,
}

/// Seeds, and how many threads share them.
#[derive(Clone, Copy, Debug)]
pub struct Work {
    pub first: u64,
    pub count: u64,
    pub threads: usize,
}

/// How many seeds a thread takes at a time.
const SHARE: u64 = 32;

/// So many failures of one thread end the work.
pub const ENOUGH_FAILURES: usize = 20;

impl Work {
    /// Runs a function on every seed: what it counted and the failures, by seed. Shows progress on
    /// standard error if asked to.
    pub fn run<T: Tally>(
        &self,
        show_progress: bool,
        one: impl Fn(u64, &mut T) -> Result<(), String> + Sync,
    ) -> (T, Vec<Failure>) {
        let next = AtomicU64::new(0);
        let stop = AtomicBool::new(false);
        let mut tally = T::default();
        let mut failures = Vec::new();
        thread::scope(|scope| {
            let workers: Vec<_> = (0..self.threads)
                .map(|_| scope.spawn(|| self.run_shares(&next, &stop, &one)))
                .collect();
            let mut progress = Progress::new(self.count);
            while show_progress && workers.iter().any(|worker| !worker.is_finished()) {
                thread::sleep(Duration::from_millis(50));
                progress.show(next.load(Relaxed));
            }
            progress.end();
            for worker in workers {
                let (counted, failed) = worker.join().expect("panics are caught");
                tally.merge(&counted);
                failures.extend(failed);
            }
        });
        failures.sort_by_key(|failure| failure.seed.wrapping_sub(self.first));
        (tally, failures)
    }

    /// One thread's work: takes seeds until none is left or there are enough failures.
    fn run_shares<T: Tally>(
        &self,
        next: &AtomicU64,
        stop: &AtomicBool,
        one: &impl Fn(u64, &mut T) -> Result<(), String>,
    ) -> (T, Vec<Failure>) {
        let mut tally = T::default();
        let mut failures = Vec::new();
        while !stop.load(Relaxed) {
            let start = next.fetch_add(SHARE, Relaxed);
            if start >= self.count {
                break;
            }
            for k in start..self.count.min(start + SHARE) {
                let seed = self.first.wrapping_add(k);
                let result = catch_unwind(AssertUnwindSafe(|| one(seed, &mut tally)));
                if let Err(what) = result.unwrap_or_else(|_| Err("panicked".to_string())) {
                    failures.push(Failure { seed, what });
                }
            }
            if failures.len() >= ENOUGH_FAILURES {
                stop.store(true, Relaxed);
            }
        }
        (tally, failures)
    }
}

/// A line on standard error that says how far the work is: kept up to date on a terminal, otherwise
/// repeated now and then.
struct Progress {
    total: u64,
    start: Instant,
    shown: Instant,
    terminal: bool,
    is_open: bool,
}

impl Progress {
    /// Nothing done yet.
    fn new(total: u64) -> Progress {
        let now = Instant::now();
        Progress {
            total,
            start: now,
            shown: now,
            terminal: std::io::stderr().is_terminal(),
            is_open: false,
        }
    }

    /// Says how many are done, unless it was said just before.
    fn show(&mut self, done: u64) {
        let pause = if self.terminal { 200 } else { 15_000 };
        if self.shown.elapsed() < Duration::from_millis(pause) {
            return;
        }
        self.shown = Instant::now();
        let done = done.min(self.total);
        let seconds = self.start.elapsed().as_secs_f64();
        let line = format!(
            "{done} of {} ({:.0} %), {:.0} a second, {seconds:.0} s",
            self.total,
            100.0 * done as f64 / self.total as f64,
            done as f64 / seconds
        );
        let mut stderr = std::io::stderr();
        // A progress line that can't be written is no reason to stop.
        let _ = if self.terminal {
            self.is_open = true;
            write!(stderr, "\r{line}\x1b[K")
        } else {
            writeln!(stderr, "{line}")
        };
    }

    /// Ends the line.
    fn end(&self) {
        if self.is_open {
            eprintln!();
        }
    }
}
