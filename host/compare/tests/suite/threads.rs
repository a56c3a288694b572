//! Threads that run jobs at once get the results of one thread, and need little stack.

use compare::{low_delay_result, proved, proved_low_delay, results, Case, LowDelayCase, Outcome};
use std::fmt::Debug;
use std::sync::Barrier;
use std::thread;

const THREADS: usize = 8;

#[test]
fn threads_at_once_give_the_same_results() {
    let cases: Vec<Case> = (1..=400).map(Case::from_seed).collect();
    threads_agree(&cases, |case| results(case, proved).to_vec());
}

#[test]
fn threads_at_once_give_the_same_pictures() {
    let cases: Vec<LowDelayCase> = (1..=400).map(LowDelayCase::from_seed).collect();
    threads_agree(&cases, |case| {
        vec![low_delay_result(case, proved_low_delay)]
    });
}

/// Has threads run all cases several times, at once: they give what one thread gives.
fn threads_agree<T: Debug + Sync>(cases: &[T], run: impl Fn(&T) -> Vec<Outcome> + Sync) {
    let alone: Vec<Vec<Outcome>> = cases.iter().map(&run).collect();
    let barrier = Barrier::new(THREADS);
    thread::scope(|scope| {
        for first in 0..THREADS {
            let (alone, barrier, run) = (&alone, &barrier, &run);
            let run = move || {
                barrier.wait();
                // Each thread starts at another case.
                for round in 0..5 {
                    for k in 0..cases.len() {
                        let k = (k + first * cases.len() / THREADS) % cases.len();
                        let together = run(&cases[k]);
                        assert_eq!(together, alone[k], "{:?}, {round}", cases[k]);
                    }
                }
            };
            let builder = thread::Builder::new().stack_size(128 << 10);
            builder.spawn_scoped(scope, run).unwrap();
        }
    });
}
