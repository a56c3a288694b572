//! A plain reference decoder for Dirac wavelet pictures.
//!
//! It states the rules of document 01, and of document 02's requests One, Three and Four, as directly as it
//! can, and is used to judge other decoders: clarity comes before speed. Intermediate numbers have 64 or 128
//! bits and never wrap.
//!
//! The three jobs are [`unpack()`], [`synthesise`] and [`decode`]; [`unpack_low_delay`] is a fourth, for
//! pictures of slices; [`analyse`] is the forward transform; [`mod@encode`] makes bodies for tests and
//! [`mod@encode_low_delay`] slices; [`recording`] reads and writes recordings; [`jobs`] is the command's plain
//! text job format. It depends on nothing: what chooses stored jobs and recordings is the crate `vectors` above
//! it.

pub mod codes;
pub mod encode;
pub mod encode_low_delay;
pub mod jobs;
pub mod low_delay;
pub mod params;
pub mod recording;
pub mod transform;
pub mod unpack;

pub use encode::{encode_body, quantise, quantise_plane, EncodeOptions, Rounding, SubbandOptions};
pub use encode_low_delay::{encode_low_delay, quantise_low_delay, QuantisedPicture, SliceOptions};
pub use low_delay::{unpack_low_delay, LowDelay, SlicedPicture};
pub use params::{Answer, Parameters};
pub use recording::{read_recording, write_recording, Entry};
pub use transform::Analysis;

use params::{
    check_codeblocks, check_depth, check_length, check_size, check_wavelet, padded_area,
    sample_area,
};

/// Numbers given to [`analyse`] may be as large as 2^80 in magnitude.
///
/// A level multiplies the largest magnitude by 2 at most, and each of its two directions by less
/// than 8; inside a step the sum is less than 2^14 times a number. Four levels stay below 2^80 times
/// 2^28 times 2^14, which 128 bits hold.
pub const ANALYSIS_LIMIT: i128 = 1 << 80;

/// The first refusal 1, 2, 4 or 5 of unpack (document 01, "Refusal numbers").
fn check_unpack(p: &Parameters, coefficients: &[i32]) -> Result<(), Answer> {
    check_size(p)?;
    check_depth(p)?;
    check_codeblocks(p)?;
    check_length(coefficients.len(), padded_area(p))
}

/// The first refusal 1, 2, 3 or 5 of synthesise (document 01, "Refusal numbers").
fn check_synthesise(
    p: &Parameters,
    coefficients: &[i32],
    work: &[i32],
    samples: &[i32],
) -> Result<(), Answer> {
    check_size(p)?;
    check_depth(p)?;
    check_wavelet(p)?;
    check_length(coefficients.len(), padded_area(p))?;
    check_length(work.len(), padded_area(p))?;
    check_length(samples.len(), sample_area(p))
}

/// The first refusal 1 to 5 of decode (document 01, "Refusal numbers").
fn check_decode(
    p: &Parameters,
    coefficients: &[i32],
    work: &[i32],
    samples: &[i32],
) -> Result<(), Answer> {
    check_size(p)?;
    check_depth(p)?;
    check_wavelet(p)?;
    check_codeblocks(p)?;
    check_length(coefficients.len(), padded_area(p))?;
    check_length(work.len(), padded_area(p))?;
    check_length(samples.len(), sample_area(p))
}

/// Unpacks bytes to coefficients; answers 0, 1, 2, 4, 5 or 6 to 9 (document 01, "Refusal numbers"). Bytes
/// after the last subband are not looked at: an accepted answer says how many were used.
pub fn unpack(p: &Parameters, bytes: &[u8], coefficients: &mut [i32]) -> Answer {
    if let Err(answer) = check_unpack(p, coefficients) {
        return answer;
    }
    match unpack::unpack_plane(p, bytes) {
        Ok((unpacked, bytes_used)) => {
            coefficients.copy_from_slice(&unpacked);
            Answer::accepted(bytes_used)
        }
        Err(answer) => {
            coefficients.fill(0);
            answer
        }
    }
}

/// Synthesises samples from coefficients; answers 0, 1, 2, 3, 5 or 10 (document 01, "Refusal
/// numbers").
pub fn synthesise(
    p: &Parameters,
    coefficients: &[i32],
    work: &mut [i32],
    samples: &mut [i32],
) -> Answer {
    if let Err(answer) = check_synthesise(p, coefficients, work, samples) {
        return answer;
    }
    work.fill(0);
    match transform::synthesise_plane(p, coefficients) {
        Ok(synthesised) => {
            samples.copy_from_slice(&synthesised);
            Answer::accepted(0)
        }
        Err(answer) => {
            samples.fill(0);
            answer
        }
    }
}

/// Unpacks bytes and synthesises samples; answers 0 to 10 (document 01, "Refusal numbers"). Bytes after
/// the last subband are not looked at, as in [`unpack()`]; only in a recording are they a fault (document
/// 02, "Left-over bytes are a fault").
pub fn decode(
    p: &Parameters,
    bytes: &[u8],
    coefficients: &mut [i32],
    work: &mut [i32],
    samples: &mut [i32],
) -> Answer {
    if let Err(answer) = check_decode(p, coefficients, work, samples) {
        return answer;
    }
    work.fill(0);
    let decoded = unpack::unpack_plane(p, bytes).and_then(|(unpacked, bytes_used)| {
        let synthesised = transform::synthesise_plane(p, &unpacked)?;
        Ok((unpacked, synthesised, bytes_used))
    });
    match decoded {
        Ok((unpacked, synthesised, bytes_used)) => {
            coefficients.copy_from_slice(&unpacked);
            samples.copy_from_slice(&synthesised);
            Answer::accepted(bytes_used)
        }
        Err(answer) => {
            coefficients.fill(0);
            samples.fill(0);
            answer
        }
    }
}

/// The analysis of a padded plane, or refusal 1, 2, 3 or 5 as of synthesise (document 01,
/// "Synthesis and analysis"). Panics on a number beyond [`ANALYSIS_LIMIT`].
pub fn analyse(p: &Parameters, plane: &[i128]) -> Result<Analysis, Answer> {
    check_size(p)?;
    check_depth(p)?;
    check_wavelet(p)?;
    check_length(plane.len(), padded_area(p))?;
    assert!(
        plane
            .iter()
            .all(|v| v.unsigned_abs() <= ANALYSIS_LIMIT as u128),
        "a number beyond the limit of analysis"
    );
    Ok(transform::analyse_plane(p, plane))
}
