//! The stored vectors of the proved program `synthesis_vectors`.

use crate::common::{answer, assert_stored, assert_writes_vectors, crate_folder};
use reference::params::padded_area;
use reference::Answer;
use vectors::synthesis_vectors::{
    level_end_fits, run, synthesis_jobs, synthesis_vectors, SynthesisJob,
};

#[test]
fn stored_vectors_are_those_of_the_reference() {
    let vectors = synthesis_vectors();
    let folder = crate_folder("synthesis_vectors");
    assert_stored(&folder.join("stdin"), &vectors.input);
    assert_stored(&folder.join("stdout"), vectors.output.as_bytes());
}

#[test]
fn the_command_writes_the_vectors() {
    assert_writes_vectors("synthesis-vectors", &synthesis_vectors());
}

#[test]
fn every_kind_of_job_is_there() {
    let jobs: Vec<(SynthesisJob, Answer)> = synthesis_jobs()
        .into_iter()
        .map(|job| {
            let answer = run(&job).0;
            (job, answer)
        })
        .collect();
    let count = |kind: &dyn Fn(&SynthesisJob, Answer) -> bool| {
        jobs.iter().filter(|(job, given)| kind(job, *given)).count()
    };
    for wavelet in 0..7 {
        let of = |job: &SynthesisJob| job.parameters.wavelet == wavelet;
        for depth in 0..=4 {
            let accepted = count(&|job, given| {
                of(job) && job.parameters.depth == depth && given == answer(0, 0)
            });
            assert!(accepted >= 7, "wavelet {wavelet} depth {depth}");
        }
        for level in 1..=4 {
            let refused = count(&|job, given| {
                of(job) && job.parameters.depth == 4 && given == answer(10, level)
            });
            assert!(refused > 0, "wavelet {wavelet} level {level}");
        }
        let out_and_back = count(&|job, given| {
            of(job) && job.parameters.depth == 1 && given == answer(10, 1) && level_end_fits(job)
        });
        assert!(out_and_back > 0, "wavelet {wavelet}");
    }
    assert_eq!(count(&|_, given| given == answer(3, 0)), 2);
    // The extremes pass where nothing is assigned.
    let untouched = count(&|job, given| {
        let extreme = |&c: &i32| c == i32::MIN || c == i32::MAX;
        job.parameters.depth == 0 && given == answer(0, 0) && job.coefficients.iter().all(extreme)
    });
    assert!(untouched >= 7);
    // No plane is above what the program has room for.
    let largest = jobs
        .iter()
        .map(|(job, _)| padded_area(&job.parameters))
        .max();
    assert_eq!(largest, Some(65536));
}
