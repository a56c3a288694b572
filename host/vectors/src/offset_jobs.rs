//! Stored jobs of unpack for the offset that depends on the intra flag (document 02, "Difference pictures
//! have another offset"): the flag in every subband, and the border of 32 bits by both rules.
//!
//! Where a picture is intra, prediction adds nothing but 0.

use crate::offsets::{
    indices_that_show_rule, indices_with_two_borders, largest_that_fits, least_that_shows_rule,
};
use crate::pieces::{signed_numbers, subband_bytes, with_codeblocks};
use crate::unpack_vectors::{job, plain, UnpackJob};
use reference::encode::{encode_body, EncodeOptions, SubbandOptions};
use reference::params::{padded_area, padded_width, subbands, Parameters};

/// Every job of this module.
pub(crate) fn offset_jobs() -> Vec<UnpackJob> {
    [
        subband_jobs(),
        border_jobs(),
        small_magnitude_jobs(),
        one_rule_jobs(),
    ]
    .into_iter()
    .flatten()
    .collect()
}

/// Depths 2 and 4, intra and not: numbers that show the rule in one subband alone, then in all of them, each at
/// an index of its own, in one codeblock and in several.
fn subband_jobs() -> Vec<UnpackJob> {
    let mut jobs = Vec::new();
    for depth in [2, 4] {
        for intra in [false, true] {
            let p = plain(1 << depth, 1 << depth, depth, intra);
            for number in 0..subbands(&p).len() {
                jobs.push(job(&p, body_with_numbers(&p, |k| k == number)));
            }
            for p in [p.clone(), with_codeblocks(&p, 2, 3)] {
                jobs.push(job(&p, body_with_numbers(&p, |_| true)));
            }
        }
    }
    jobs
}

/// A body with the least number that shows the rule, its negative and 0 in turn, in each subband that is to
/// have numbers. The subbands' indices are the lowest that show the rule.
fn body_with_numbers(p: &Parameters, has: impl Fn(usize) -> bool) -> Vec<u8> {
    let mut plane = vec![0; padded_area(p)];
    let mut options = EncodeOptions::uniform(p, SubbandOptions::default());
    for (k, (band, index)) in subbands(p).iter().zip(indices_that_show_rule()).enumerate() {
        options.subbands[k].quantiser = u64::from(index);
        let number = least_that_shows_rule(index).expect("an index that shows the rule");
        for entry in 0..band.width * band.height {
            let (x, y) = (entry % band.width, entry / band.width);
            plane[(band.top + y) * padded_width(p) + band.left + x] =
                i64::from(has(k)) * [number, -number, 0][entry % 3];
        }
    }
    encode_body(p, &plane, &options)
}

/// A job of one number.
fn number_job(index: u32, intra: bool, number: i64) -> UnpackJob {
    let data = signed_numbers(&[number]);
    job(
        &plain(1, 1, 0, intra),
        subband_bytes(u64::from(index), &data),
    )
}

/// The largest magnitude that fits 32 bits and the next, of both signs and by both rules, at every index where
/// the rules differ in it.
fn border_jobs() -> Vec<UnpackJob> {
    let mut jobs = Vec::new();
    for index in indices_with_two_borders() {
        for intra in [false, true] {
            for (negative, sign) in [(false, 1), (true, -1)] {
                let most = largest_that_fits(index, intra, negative);
                for m in [most, most + 1] {
                    jobs.push(number_job(index, intra, sign * m));
                }
            }
        }
    }
    jobs
}

/// The magnitudes 1 to 16 at the indices 107 to 115, of both signs and by both rules: those that fit 32 bits side
/// by side, each of the others in a job of its own.
fn small_magnitude_jobs() -> Vec<UnpackJob> {
    let mut jobs = Vec::new();
    for index in 107..=115 {
        for intra in [false, true] {
            let p = plain(32, 2, 1, intra);
            let mut body = vec![0x80];
            for (negative, sign) in [(false, 1), (true, -1)] {
                let most = largest_that_fits(index, intra, negative);
                let fits = |m: i64| if m <= most { sign * m } else { 0 };
                let list: Vec<i64> = (1..=16).map(fits).collect();
                body.extend(subband_bytes(u64::from(index), &signed_numbers(&list)));
                jobs.extend((most + 1..=16).map(|m| number_job(index, intra, sign * m)));
            }
            body.push(0x80);
            jobs.push(job(&p, body));
        }
    }
    jobs
}

/// 13 or -13 at index 109, which fit 32 bits only where the picture isn't intra, as the first number of each
/// subband of a depth of 2: refusal 9 at every place by one of the rules.
fn one_rule_jobs() -> Vec<UnpackJob> {
    let mut jobs = Vec::new();
    for intra in [false, true] {
        let p = plain(4, 4, 2, intra);
        for (k, band) in subbands(&p).iter().enumerate() {
            let list = [[13, 1, 0, -1], [-13, 0, 1, 1]][k % 2];
            let data = signed_numbers(&list[..band.width * band.height]);
            let mut bands = vec![vec![0x80]; 7];
            bands[k] = subband_bytes(109, &data);
            jobs.push(job(&p, bands.concat()));
        }
    }
    jobs
}
