//! The stored vectors of the proved program `unpack_vectors`.

use crate::common::{answer, assert_stored, assert_writes_vectors, crate_folder, stated, Number};
use reference::codes::{BitReader, PastEnd};
use reference::jobs::INITIAL_ENTRY;
use reference::transform::fits_32_bits;
use reference::unpack::dequantise;
use reference::Answer;
use std::collections::{BTreeMap, BTreeSet};
use vectors::factors::shows_factor;
use vectors::offsets::{
    indices_that_show_rule, indices_with_two_borders, largest_that_fits, shows_offset, shows_rule,
    MAGNITUDES,
};
use vectors::unpack_vectors::{
    run, unpack_jobs, unpack_vectors, UnpackJob, MAX_BYTES, MAX_ENTRIES,
};

#[test]
fn stored_vectors_are_those_of_the_reference() {
    let vectors = unpack_vectors();
    let folder = crate_folder("unpack_vectors");
    assert_stored(&folder.join("stdin"), &vectors.input);
    assert_stored(&folder.join("stdout"), vectors.output.as_bytes());
}

#[test]
fn the_command_writes_the_vectors() {
    assert_writes_vectors("unpack-vectors", &unpack_vectors());
}

/// Every job, its answer and its plane.
fn results() -> Vec<(UnpackJob, Answer, Vec<i32>)> {
    unpack_jobs()
        .into_iter()
        .map(|job| {
            let (answer, plane) = run(&job);
            (job, answer, plane)
        })
        .collect()
}

#[test]
fn every_kind_of_job_is_there() {
    let results = results();
    let count = |kind: &dyn Fn(&UnpackJob, Answer) -> bool| {
        results
            .iter()
            .filter(|(job, given, _)| kind(job, *given))
            .count()
    };
    for status in [1, 2, 4, 5] {
        assert!(
            count(&|_, given| given == answer(status, 0)) >= 4,
            "status {status}"
        );
    }
    // Faults of headers, at the first subband, the last, and between.
    for status in [6, 7, 8] {
        for (depth, place) in [(0, 0), (1, 1), (1, 3), (2, 6), (3, 0), (3, 4), (4, 12)] {
            let refused = count(&|job, given| {
                job.parameters.depth == depth && given == answer(status, place)
            });
            assert!(refused >= 3, "status {status} depth {depth} place {place}");
        }
    }
    for place in 0..4 {
        assert!(count(&|_, given| given == answer(9, place)) > 0);
    }
    for depth in 0..=4 {
        for intra in [false, true] {
            let accepted = count(&|job, given| {
                let p = &job.parameters;
                p.depth == depth && p.intra == intra && given.status == 0
            });
            assert!(accepted >= 7, "depth {depth} intra {intra}");
        }
    }
    let no_bytes = |job: &UnpackJob, given| job.bytes.is_empty() && given == answer(6, 0);
    assert!(count(&no_bytes) > 0);
    let bytes_behind =
        |job: &UnpackJob, given: Answer| given.status == 0 && given.place < job.bytes.len() as u64;
    assert!(count(&bytes_behind) > 10);
    let many_codeblocks = |job: &UnpackJob, given: Answer| {
        job.parameters.codeblocks_across[0] == 255
            && job.parameters.codeblocks_down[0] == 255
            && given.status == 0
    };
    assert_eq!(count(&many_codeblocks), 4);
    // No job is above what the program has room for.
    let above = |job: &UnpackJob, _| job.plane_length > MAX_ENTRIES || job.bytes.len() > MAX_BYTES;
    assert_eq!(count(&above), 0);
}

#[test]
fn planes_are_as_document_01_says() {
    let results = results();
    for (_, given, plane) in &results {
        match given.status {
            0 => {}
            1..=5 => assert!(plane.iter().all(|&entry| entry == INITIAL_ENTRY)),
            _ => assert!(plane.iter().all(|&entry| entry == 0)),
        }
    }
    for extreme in [i32::MIN, i32::MAX] {
        for intra in [false, true] {
            assert!(results
                .iter()
                .any(|(job, _, plane)| job.parameters.intra == intra && plane.contains(&extreme)));
        }
    }
}

/// A number of an accepted job whose value stands in the job's plane, and whether the picture is intra.
struct Shown {
    intra: bool,
    number: Number,
}

/// Every such number.
fn shown_numbers() -> Vec<Shown> {
    let mut list = Vec::new();
    for (job, given, plane) in results() {
        if given.status == 0 {
            let p = &job.parameters;
            for number in stated(p, &job.bytes).unwrap().not_predicted(p) {
                let value = i128::from(plane[number.entry]);
                assert_eq!(value, number.value(p.intra));
                list.push(Shown {
                    intra: p.intra,
                    number,
                });
            }
        }
    }
    list
}

/// The indices of the numbers of a kind, in pictures that are intra or aren't.
fn indices_of(list: &[Shown], intra: bool, is: impl Fn(i64, u32) -> bool) -> Vec<u32> {
    let indices: BTreeSet<u32> = list
        .iter()
        .filter(|shown| shown.intra == intra && is(shown.number.number, shown.number.index))
        .map(|shown| shown.number.index)
        .collect();
    Vec::from_iter(indices)
}

#[test]
fn every_factor_is_shown_by_a_job() {
    let list = shown_numbers();
    for intra in [false, true] {
        let shown = indices_of(&list, intra, |number, index| {
            shows_factor(number, index, intra)
        });
        assert_eq!(shown, Vec::from_iter(0..=115), "intra {intra}");
    }
}

#[test]
fn every_offset_is_shown_by_a_job() {
    let list = shown_numbers();
    for intra in [false, true] {
        // The other rule's offset, wherever some number shows it.
        let indices = indices_of(&list, intra, shows_rule);
        assert_eq!(indices, indices_that_show_rule(), "intra {intra}");
        // An offset that is one less, and one that is one more, likewise.
        for more in [-1, 1] {
            let shows = |number, index| shows_offset(number, index, intra, more);
            let possible: Vec<u32> = (0..=115)
                .filter(|&index| MAGNITUDES.iter().any(|&m| shows(m, index)))
                .collect();
            assert!(possible.len() >= 50, "{} of {more}", possible.len());
            assert_eq!(indices_of(&list, intra, shows), possible, "intra {intra}");
        }
    }
}

#[test]
fn the_index_above_the_range_is_refused_by_both_rules() {
    let results = results();
    // In level 0 of a picture that isn't intra, and in level 1 of one that is, behind a subband of length 0.
    for (intra, place) in [(false, 0), (true, 1)] {
        let index = |job: &UnpackJob| {
            let bytes = job.bytes.get(place..)?;
            let mut header = BitReader::new(bytes, PastEnd::Missing);
            header.number().ok()?;
            header.number().ok()
        };
        assert!(results.iter().any(|(job, given, _)| {
            job.parameters.intra == intra
                && *given == answer(8, place as u64)
                && index(job) == Some(116)
        }));
    }
}

/// A job that is accepted or refused 9, with the numbers it states.
struct Read {
    job: UnpackJob,
    given: Answer,
    numbers: Vec<Number>,
}

/// Every such job.
fn read_jobs() -> Vec<Read> {
    let mut list = Vec::new();
    for (job, given, _) in results() {
        if [0, 9].contains(&given.status) {
            let numbers = stated(&job.parameters, &job.bytes).map(|s| s.all(&job.parameters));
            list.extend(numbers.map(|numbers| Read {
                job,
                given,
                numbers,
            }));
        }
    }
    list
}

/// Fails unless a job, of a picture that is intra or isn't, has a number at an index and is accepted; or, where its
/// value doesn't fit 32 bits, has that number alone and is refused 9.
fn assert_border(list: &[Read], index: u32, intra: bool, number: i64) {
    let fits = fits_32_bits(dequantise(number, index, intra));
    let status = if fits { 0 } else { 9 };
    let has = |stated: &Number| (stated.index, stated.number) == (index, number);
    let is = |read: &Read| {
        read.job.parameters.intra == intra
            && read.given.status == status
            && read.numbers.iter().any(has)
            && (fits || read.numbers.len() == 1)
    };
    assert!(list.iter().any(is), "{number} index {index} intra {intra}");
}

#[test]
fn the_border_of_32_bits_is_shown_by_both_rules() {
    let list = read_jobs();
    for index in indices_with_two_borders() {
        for (negative, sign) in [(false, 1), (true, -1)] {
            for intra in [false, true] {
                let most = largest_that_fits(index, intra, negative);
                assert_border(&list, index, intra, sign * most);
                assert_border(&list, index, intra, sign * (most + 1));
            }
        }
    }
    for index in 107..=115 {
        for number in (-16..=16).filter(|&number| number != 0) {
            for intra in [false, true] {
                assert_border(&list, index, intra, number);
            }
        }
    }
}

#[test]
fn a_number_fits_in_each_subband_by_one_rule_alone() {
    let list = read_jobs();
    // 13 and -13 at index 109.
    for subband in 0..7 {
        let has = |stated: &Number| {
            stated.subband == subband && (stated.index, stated.number.abs()) == (109, 13)
        };
        let given = |intra| -> Vec<Answer> {
            list.iter()
                .filter(|read| {
                    let p = &read.job.parameters;
                    (p.depth, p.intra) == (2, intra) && read.numbers.iter().any(has)
                })
                .map(|read| read.given)
                .collect()
        };
        assert_eq!(given(true), [answer(9, subband as u64)]);
        assert_eq!(given(false).len(), 1);
        assert_eq!(given(false)[0].status, 0);
    }
}

/// The subbands that have numbers which show the rule, and their indices.
fn showing_rule(read: &Read) -> BTreeMap<usize, u32> {
    read.numbers
        .iter()
        .filter(|stated| shows_rule(stated.number, stated.index))
        .map(|stated| (stated.subband, stated.index))
        .collect()
}

/// The accepted jobs of a depth whose pictures are intra or aren't.
fn accepted_of(list: &[Read], depth: u32, intra: bool) -> Vec<&Read> {
    let is = |read: &&Read| {
        let p = &read.job.parameters;
        (p.depth, p.intra, read.given.status) == (depth, intra, 0)
    };
    list.iter().filter(is).collect()
}

#[test]
fn the_flag_matters_in_each_subband_alone() {
    let list = read_jobs();
    for (depth, subbands) in [(2, 7), (4, 13)] {
        for intra in [false, true] {
            let jobs = accepted_of(&list, depth, intra);
            for subband in 0..subbands {
                let is = |read: &&Read| {
                    read.numbers.iter().all(|stated| stated.subband == subband)
                        && showing_rule(read).contains_key(&subband)
                };
                let kind = format!("depth {depth} intra {intra} subband {subband}");
                assert!(jobs.iter().any(is), "{kind}");
            }
        }
    }
}

#[test]
fn the_flag_matters_in_all_subbands_each_at_another_index() {
    let list = read_jobs();
    for (depth, subbands) in [(2, 7), (4, 13)] {
        for (intra, codeblocks) in [(false, 1), (false, 6), (true, 1), (true, 6)] {
            let is = |read: &&Read| {
                let p = &read.job.parameters;
                let shown = showing_rule(read);
                let indices: BTreeSet<&u32> = shown.values().collect();
                p.codeblocks_across[0] * p.codeblocks_down[0] == codeblocks
                    && shown.len() == subbands
                    && indices.len() == subbands
            };
            let kind = format!("depth {depth} intra {intra} codeblocks {codeblocks}");
            assert!(accepted_of(&list, depth, intra).iter().any(is), "{kind}");
        }
    }
}
