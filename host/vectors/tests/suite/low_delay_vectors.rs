//! The stored vectors of the program `low_delay_vectors`.

use crate::common::{answer, assert_stored, assert_writes_vectors, crate_folder};
use reference::codes::BitReader;
use reference::jobs::INITIAL_ENTRY;
use reference::low_delay::{bits_for_values, luma_length_bits};
use reference::params::{padded_area, padded_width, subbands, MAX_QUANTISER};
use reference::unpack::dequantise;
use reference::{Answer, LowDelay};
use std::collections::BTreeSet;
use std::sync::OnceLock;
use vectors::low_delay_vectors::{
    low_delay_jobs, low_delay_vectors, run, LowDelayJob, HEADER, MAX_BYTES, MAX_ENTRIES,
};

#[test]
fn stored_vectors_are_those_of_the_reference() {
    let vectors = low_delay_vectors();
    let folder = crate_folder("low_delay_vectors");
    assert_stored(&folder.join("stdin"), &vectors.input);
    assert_stored(&folder.join("stdout"), vectors.output.as_bytes());
}

#[test]
fn the_command_writes_the_vectors() {
    assert_writes_vectors("low-delay-vectors", &low_delay_vectors());
}

/// A job, its answer and its planes.
type Ran = (LowDelayJob, Answer, [Vec<i32>; 3]);

/// Every job, run once for all tests.
fn results() -> &'static [Ran] {
    static RESULTS: OnceLock<Vec<Ran>> = OnceLock::new();
    RESULTS.get_or_init(|| {
        low_delay_jobs()
            .into_iter()
            .map(|job| {
                let (answer, planes) = run(&job);
                (job, answer, planes)
            })
            .collect()
    })
}

/// How many jobs are of a kind.
fn count(kind: impl Fn(&LowDelayJob, Answer) -> bool) -> usize {
    results()
        .iter()
        .filter(|(job, given, _)| kind(job, *given))
        .count()
}

/// The jobs that the input states.
fn read_input(mut input: &[u8]) -> Vec<LowDelayJob> {
    let mut jobs = Vec::new();
    while !input.is_empty() {
        let (header, rest) = input.split_at(HEADER);
        let number = |from: usize, count: usize| {
            header[from..from + count]
                .iter()
                .fold(0, |number, &byte| number << 8 | u32::from(byte))
        };
        let mut job = LowDelayJob {
            parameters: vectors::slices::sliced(
                (number(0, 2), number(2, 2)),
                (number(4, 2), number(6, 2)),
                number(8, 1),
                header[9] == 1,
                (number(10, 2), number(12, 2)),
                (number(14, 4), number(18, 4)),
            ),
            lengths: [35, 37, 39].map(|from| number(from, 2) as usize),
            bytes: Vec::new(),
        };
        for (k, entry) in job.parameters.picture.matrix.iter_mut().enumerate() {
            *entry = number(22 + k, 1);
        }
        let (bytes, rest) = rest.split_at(number(41, 2) as usize);
        job.bytes = bytes.to_vec();
        input = rest;
        jobs.push(job);
    }
    jobs
}

#[test]
fn the_input_states_the_jobs() {
    let vectors = low_delay_vectors();
    let jobs = low_delay_jobs();
    assert_eq!(read_input(&vectors.input), jobs);
    assert!((600..=1200).contains(&jobs.len()), "{} jobs", jobs.len());
    assert!(vectors.input.len() + vectors.output.len() < 1 << 20);
    assert_eq!(vectors.output.lines().count(), 4 * jobs.len());
    let example = "4x2 chroma 2x2 depth 1 intra 1 slices 2x1 of 9/2 bytes 9: status 0 place 9\n\
                   5 3 -3 0 0 2 3 0\n1 0 0 0\n-1 4 0 0\n";
    assert!(vectors.output.contains(example));
}

#[test]
fn every_kind_of_job_is_there() {
    for status in [1, 2, 5, 13] {
        assert!(
            count(|_, given| given == answer(status, 0)) >= 10,
            "{status}"
        );
    }
    for status in [6, 7, 8, 9, 14] {
        for (place, least) in [(0, 8), (1, 3)] {
            let refused = count(|_, given| given == answer(status, place));
            assert!(refused >= least, "status {status} place {place}: {refused}");
        }
        // In the last of several slices.
        let last = |job: &LowDelayJob, given: Answer| {
            let slices = job.parameters.slice_count() as u64;
            slices > 2 && given == answer(status, slices - 1)
        };
        assert!(count(last) > 0, "status {status} in the last slice");
    }
    // Refused in prediction: the place is the number of slices.
    let in_prediction = |job: &LowDelayJob, given: Answer| {
        given == answer(9, job.parameters.slice_count() as u64) && job.parameters.picture.intra
    };
    assert!(count(in_prediction) >= 12);
    for depth in 0..=4 {
        for intra in [false, true] {
            let accepted = count(|job, given| {
                let p = &job.parameters.picture;
                p.depth == depth && p.intra == intra && given.status == 0
            });
            assert!(accepted >= 7, "depth {depth} intra {intra}");
        }
    }
    let behind = |job: &LowDelayJob, given: Answer| {
        given.status == 0 && given.place < job.bytes.len() as u64
    };
    assert!(count(behind) > 10);
    let no_bytes = |job: &LowDelayJob, given| job.bytes.is_empty() && given == answer(6, 0);
    assert!(count(no_bytes) > 0);
    let many_slices = |job: &LowDelayJob, given: Answer| {
        job.parameters.slice_count() == 255 * 64 && given.status == 0
    };
    assert_eq!(count(many_slices), 2);
    let divides = |job: &LowDelayJob| {
        job.parameters.denominator > 0
            && job
                .parameters
                .numerator
                .is_multiple_of(job.parameters.denominator)
    };
    assert!(count(|job, given| given.status == 0 && !divides(job)) > 50);
    let larger_chroma = |job: &LowDelayJob, given: Answer| {
        given.status == 0 && padded_area(&job.parameters.chroma()) > job.lengths[0]
    };
    assert!(count(larger_chroma) > 20);
    // No job is above what the program has room for.
    let above = |job: &LowDelayJob, _| {
        job.lengths.iter().any(|&length| length > MAX_ENTRIES) || job.bytes.len() > MAX_BYTES
    };
    assert_eq!(count(above), 0);
}

#[test]
fn planes_are_as_the_documents_say() {
    for (_, given, planes) in results() {
        match given.status {
            0 => {}
            1 | 2 | 5 | 13 => assert!(planes.concat().iter().all(|&entry| entry == INITIAL_ENTRY)),
            _ => assert!(planes.concat().iter().all(|&entry| entry == 0)),
        }
    }
    for extreme in [i32::MIN, i32::MAX] {
        for intra in [false, true] {
            for component in 0..3 {
                assert!(results().iter().any(|(job, _, planes)| {
                    job.parameters.picture.intra == intra && planes[component].contains(&extreme)
                }));
            }
        }
    }
}

/// Which of the refusals 1, 2, 13 and 5 a job has a reason for. A size or a depth out of range needs no length.
fn faults(job: &LowDelayJob) -> BTreeSet<u32> {
    let p = &job.parameters;
    let picture = &p.picture;
    let mut faults = BTreeSet::new();
    let sizes = [
        picture.luma_width,
        picture.luma_height,
        picture.chroma_width,
        picture.chroma_height,
    ];
    if sizes.iter().any(|&size| size == 0 || size > 4096) {
        faults.insert(1);
    }
    if picture.depth > 4 {
        faults.insert(2);
    }
    let counts = [picture.slices_across, picture.slices_down];
    let used = 13.min(1 + 3 * picture.depth as usize);
    if counts.iter().any(|&count| count == 0 || count > 255)
        || p.numerator < p.denominator
        || p.denominator == 0
        || p.numerator > 65_535
        || picture.matrix[..used].iter().any(|&entry| entry > 127)
    {
        faults.insert(13);
    }
    let needed = |(width, height): (u32, u32)| {
        let side = |size: u32| (size as usize).div_ceil(1 << picture.depth) << picture.depth;
        side(width) * side(height)
    };
    if faults.is_disjoint(&BTreeSet::from([1, 2])) {
        let luma = needed((picture.luma_width, picture.luma_height));
        let chroma = needed((picture.chroma_width, picture.chroma_height));
        if job.lengths != [luma, chroma, chroma] {
            faults.insert(5);
        }
    }
    faults
}

#[test]
fn refusals_before_reading_come_in_order() {
    let mut sets = BTreeSet::new();
    for (job, given, _) in results() {
        let faults = faults(job);
        let first = [1, 2, 13, 5]
            .into_iter()
            .find(|status| faults.contains(status));
        match first {
            Some(status) => assert_eq!(*given, answer(status, 0), "{job:?}"),
            None => assert!(![1, 2, 13, 5].contains(&given.status), "{job:?}"),
        }
        sets.insert(faults);
    }
    for set in [
        &[][..],
        &[1],
        &[2],
        &[5],
        &[13],
        &[1, 13],
        &[1, 2],
        &[5, 13],
        &[2, 13],
        &[1, 2, 13],
    ] {
        assert!(sets.contains(&set.iter().copied().collect()), "{set:?}");
    }
}

/// A number other than 0 that a slice states.
#[derive(Clone, Copy, Debug)]
struct Number {
    component: usize,
    subband: usize,
    index: u32,
    number: i64,
    entry: usize,
}

/// What the slices of an accepted job state.
fn stated(p: &LowDelay, bytes: &[u8]) -> Vec<Number> {
    let mut list = Vec::new();
    for k in 0..p.slice_count() {
        let slice = &bytes[p.slice_range(k)];
        let end = 8 * slice.len();
        let start = end - bits_for_values(slice.len());
        let mut header = BitReader::of_part(slice, 0..start);
        let slice_index = header.bits(7).unwrap() as u32;
        let luma_length = header.bits(luma_length_bits(slice.len())).unwrap() as usize;
        let luma = (p.luma(), 0..1, start..start + luma_length);
        let chroma = (p.chroma(), 1..3, start + luma_length..end);
        for (parameters, components, part) in [luma, chroma] {
            let mut reader = BitReader::of_part(slice, part);
            for (subband, band) in subbands(&parameters).iter().enumerate() {
                let (columns, rows) = p.picture.rectangle(band, k);
                for (x, y) in rows.flat_map(|y| columns.clone().map(move |x| (x, y))) {
                    for component in components.clone() {
                        let number = reader.signed_number().unwrap();
                        if number != 0 {
                            list.push(Number {
                                component,
                                subband,
                                index: slice_index.saturating_sub(p.picture.matrix[subband]),
                                number,
                                entry: (band.top + y) * padded_width(&parameters) + band.left + x,
                            });
                        }
                    }
                }
            }
        }
    }
    list
}

#[test]
fn every_index_is_shown_in_every_component() {
    let mut shown = BTreeSet::new();
    for (job, given, planes) in results() {
        if given.status != 0 {
            continue;
        }
        let p = &job.parameters;
        for number in stated(p, &job.bytes) {
            // Prediction changes all of level 0 but its corner.
            if p.picture.intra && number.subband == 0 && number.entry > 0 {
                continue;
            }
            let value = dequantise(number.number, number.index, p.picture.intra);
            let found = planes[number.component][number.entry];
            assert_eq!(i128::from(found), value);
            if value != dequantise(number.number, number.index, !p.picture.intra)
                || number.index < 12
            {
                shown.insert((p.picture.intra, number.component, number.index));
            }
        }
    }
    for intra in [false, true] {
        for component in 0..3 {
            for index in 0..=MAX_QUANTISER as u32 {
                let has = shown.contains(&(intra, component, index));
                assert!(has, "intra {intra} component {component} index {index}");
            }
        }
    }
}

/// The index and the luma length that a job's only slice states, and its bytes.
fn only_slice(job: &LowDelayJob) -> Option<(u32, usize, usize)> {
    let p = &job.parameters;
    if p.slice_count() != 1 || !faults(job).is_empty() {
        return None;
    }
    let slice = job.bytes.get(p.slice_range(0))?;
    let mut header = BitReader::of_part(slice, 0..8 * slice.len());
    let index = header.bits(7).unwrap() as u32;
    let luma_length = header.bits(luma_length_bits(slice.len())).unwrap() as usize;
    Some((index, luma_length, slice.len()))
}

#[test]
fn luma_lengths_around_the_bits_left() {
    for bytes in [2, 3, 5, 9, 17, 33] {
        let left = bits_for_values(bytes);
        for (index, length, status) in [
            (0, 0, 0),
            (0, left, 0),
            (0, left + 1, 14),
            (127, left, 8),
            (127, left + 1, 14),
        ] {
            let found = count(|job, given| {
                only_slice(job) == Some((index, length, bytes)) && given.status == status
            });
            assert!(found > 0, "index {index} length {length} of {bytes} bytes");
        }
    }
    let one_byte = |job: &LowDelayJob, _| only_slice(job).is_some_and(|(_, _, bytes)| bytes == 1);
    assert!(count(one_byte) > 20);
}

#[test]
fn an_index_is_refused_for_one_subband_alone() {
    for depth in [0, 1, 4] {
        for subband in 0..=3 * depth as usize {
            let refused = count(|job, given| {
                let p = &job.parameters.picture;
                // The largest index of a slice, 127, is above 115 only where an entry is below 12.
                let below: Vec<usize> = (0..=3 * p.depth as usize)
                    .filter(|&k| k < 13 && p.matrix[k] < 12)
                    .collect();
                p.depth == depth && below == [subband] && given.status == 8
            });
            assert!(refused >= 2, "depth {depth} subband {subband}");
        }
    }
}

#[test]
fn refusals_of_slices_come_in_order() {
    // The statuses of the first slice and of the second, of jobs with two slices of 20 bytes.
    let mut pairs = BTreeSet::new();
    for (job, given, _) in results() {
        let p = &job.parameters;
        if (p.numerator, p.denominator, p.slice_count()) != (20, 1, 2) || job.bytes.len() < 20 {
            continue;
        }
        let status_of = |bytes: &[u8]| {
            let mut whole = bytes.to_vec();
            if bytes.len() == 20 {
                // Behind it, a slice of zeros.
                whole.extend([0, 0]);
                whole.extend([0xFF; 18]);
            }
            let alone = LowDelayJob {
                bytes: whole,
                ..job.clone()
            };
            run(&alone).0.status
        };
        let first = status_of(&job.bytes[..20]);
        let second = status_of(&job.bytes[20..]);
        let expected = match (first, second) {
            (0, 0) => answer(0, 40),
            (0, status) => answer(status, 1),
            (status, _) => answer(status, 0),
        };
        assert_eq!(*given, expected);
        pairs.insert((first, second));
    }
    for first in [0, 7, 8, 9, 14] {
        for second in [0, 7, 8, 9, 14] {
            assert!(pairs.contains(&(first, second)), "{first} and {second}");
        }
    }
    for first in [0, 7, 14] {
        assert!(pairs.contains(&(first, 6)), "{first} and 6");
    }
}
