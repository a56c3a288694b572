//! Interleaved timing: everything that is timed has a turn in every round, and its best turn counts.

use crate::clock::processor_time;

/// The least samples of a turn: small pictures are decoded many times over.
const LEAST_SAMPLES: usize = 1 << 20;

/// Something to time.
pub struct Timed<'a> {
    samples: usize,
    runs: usize,
    rounds: usize,
    run: Box<dyn FnMut() + 'a>,
    best_seconds: f64,
}

impl<'a> Timed<'a> {
    /// Something that makes this many samples in a run, and takes part in the first rounds.
    pub fn new(samples: usize, rounds: usize, run: impl FnMut() + 'a) -> Timed<'a> {
        let runs = LEAST_SAMPLES.div_ceil(samples);
        Timed::repeated(samples, runs, rounds, run)
    }

    /// The same with so many runs a turn.
    pub fn repeated(
        samples: usize,
        runs: usize,
        rounds: usize,
        run: impl FnMut() + 'a,
    ) -> Timed<'a> {
        Timed {
            samples,
            runs,
            rounds,
            run: Box::new(run),
            best_seconds: f64::INFINITY,
        }
    }

    /// The seconds of a run in the best turn.
    pub fn seconds(&self) -> f64 {
        self.best_seconds / self.runs as f64
    }

    /// Megasamples a second in the best turn.
    pub fn megasamples(&self) -> f64 {
        self.samples as f64 / self.seconds() / 1e6
    }

    /// Takes a turn and keeps its time if it is the best.
    fn take_turn(&mut self) {
        let start = processor_time();
        for _ in 0..self.runs {
            (self.run)();
        }
        let seconds = (processor_time() - start).as_secs_f64();
        self.best_seconds = self.best_seconds.min(seconds);
    }
}

/// Has all take turns until each has had its rounds.
pub fn take_turns(timed: &mut [Timed]) {
    let rounds = timed.iter().map(|c| c.rounds).max().unwrap_or(0);
    for round in 0..rounds {
        for one in timed.iter_mut() {
            if round < one.rounds {
                one.take_turn();
            }
        }
    }
}
