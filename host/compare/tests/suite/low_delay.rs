//! The proved library and the reference agree on pictures of low delay slices, and what these reach.

use crate::wrong_slices::refused_component;
use compare::work::{Tally, Work};
use compare::{
    check_low_delay, proved_low_delay, reference_low_delay, slice_headers, LowDelayCase,
    LowDelayKind, LowDelayStatistics,
};
use reference::low_delay::bits_for_values;
use reference::Answer;
use std::collections::BTreeSet;
use std::sync::OnceLock;
use vectors::low_delay_vectors::run;

/// The statuses that the job gives.
const STATUSES: [u32; 10] = [0, 1, 2, 5, 6, 7, 8, 9, 13, 14];

#[test]
fn pictures_are_alike() {
    let work = Work {
        first: 1,
        count: 4000,
        threads: 2,
    };
    let (reached, failures) = work.run(false, |seed, reached: &mut LowDelayStatistics| {
        let case = LowDelayCase::from_seed(seed);
        let answer = check_low_delay(&case, proved_low_delay)?;
        reached.add(&case, &answer);
        Ok(())
    });
    assert_eq!(failures, []);
    assert_eq!(reached.too_rare(), [""; 0]);
    assert_eq!(reached.pictures(), 4000);
    for status in STATUSES {
        assert!(reached.count(status) >= 40, "{status}");
    }
    let sum: u64 = STATUSES.iter().map(|&status| reached.count(status)).sum();
    assert_eq!(sum, 4000);
}

#[test]
fn slices_cut_at_every_byte_are_alike() {
    let mut cuts = 0;
    for case in pictures() {
        let is_whole = matches!(case.kind, LowDelayKind::Valid | LowDelayKind::OneByte);
        if !is_whole || case.job.bytes.len() > 60 {
            continue;
        }
        for length in 0..case.job.bytes.len() {
            let mut cut = case.clone();
            cut.job.bytes.truncate(length);
            if let Err(difference) = check_low_delay(&cut, proved_low_delay) {
                panic!("seed {} cut to {length} bytes: {difference}", case.seed);
            }
            cuts += 1;
        }
    }
    assert!(cuts > 3000, "{cuts}");
}

#[test]
fn every_kind_occurs_and_can_be_repeated() {
    let mut kinds = BTreeSet::new();
    for case in &pictures()[..1000] {
        kinds.insert(case.kind);
        // The reference's command answers the printed picture as the reference does.
        let answer = check_low_delay(case, reference_low_delay).unwrap();
        let text = reference::jobs::run_jobs(&case.job_text()).unwrap();
        let expected = format!("status {} place {}\n", answer.status, answer.place);
        assert!(text.starts_with(&expected), "seed {}", case.seed);
    }
    assert_eq!(kinds.len(), 19);
}

/// The first pictures, made once.
pub fn pictures() -> &'static [LowDelayCase] {
    static PICTURES: OnceLock<Vec<LowDelayCase>> = OnceLock::new();
    PICTURES.get_or_init(|| (1..=5000).map(LowDelayCase::from_seed).collect())
}

/// The pictures of some kinds that are accepted, with their planes.
pub fn accepted(
    is_wanted: impl Fn(LowDelayKind) -> bool,
) -> impl Iterator<Item = (&'static LowDelayCase, [Vec<i32>; 3])> {
    pictures()
        .iter()
        .filter(move |case| is_wanted(case.kind))
        .filter_map(|case| {
            let (answer, planes) = run(&case.job);
            (answer.status == 0).then_some((case, planes))
        })
}

#[test]
fn accepted_pictures_reach_every_index_size_and_fraction() {
    let mut indices = BTreeSet::new();
    let mut stated = BTreeSet::new();
    let mut sizes = BTreeSet::new();
    let mut slice_bytes = BTreeSet::new();
    let mut remainders = BTreeSet::new();
    let mut most_slices = 0;
    for (case, planes) in accepted(|_| true) {
        let p = &case.job.parameters;
        sizes.extend([p.picture.luma_width, p.picture.luma_height]);
        sizes.extend([p.picture.chroma_width, p.picture.chroma_height]);
        remainders.insert((p.denominator.min(9), p.numerator % p.denominator.min(9)));
        most_slices = most_slices.max(p.slice_count());
        for slice in slice_headers(p, &case.job.bytes) {
            stated.insert(slice.index);
            slice_bytes.insert(slice.bytes);
            assert!(slice.luma_length <= bits_for_values(slice.bytes));
            if planes.iter().flatten().any(|&value| value != 0) {
                indices.extend(p.picture.subband_indices(slice.index));
            }
        }
    }
    let small: Vec<u32> = sizes.iter().copied().filter(|size| *size <= 70).collect();
    assert_eq!(small, Vec::from_iter(1..=70));
    assert!(sizes.contains(&4096));
    assert_eq!(Vec::from_iter(indices), Vec::from_iter(0..=115));
    assert_eq!(Vec::from_iter(stated), Vec::from_iter(0..=127));
    assert!((1..=100).all(|bytes| slice_bytes.contains(&bytes)));
    assert!(slice_bytes.contains(&65_535));
    for denominator in 2..=7 {
        for remainder in 0..denominator {
            assert!(remainders.contains(&(denominator, remainder)));
        }
    }
    assert!(most_slices > 5000, "{most_slices}");
}

#[test]
fn prediction_refuses_each_component() {
    let mut counts = [0; 3];
    let of_kind = |case: &&LowDelayCase| case.kind == LowDelayKind::Prediction;
    for case in pictures().iter().filter(of_kind) {
        let job = &case.job;
        if let Some(component) = refused_component(&job.parameters, &job.bytes) {
            let expected = Answer::refused(9, job.parameters.slice_count() as u64);
            assert_eq!(run(job).0, expected);
            counts[component] += 1;
        }
    }
    assert!(counts.iter().all(|&count| count > 20), "{counts:?}");
}
