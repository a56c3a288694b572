//! Pictures as bodies: analysed by the reference, then quantised. Parameters must be in range.

use reference::params::{padded_height, padded_width};
use reference::{analyse, encode_body, quantise_plane, EncodeOptions, Parameters, Rounding};

/// The body of a coefficient plane, each subband quantised with the index of its options, which must
/// be in range, to the nearest value.
pub fn encode_coefficients(
    p: &Parameters,
    coefficients: &[i32],
    options: &EncodeOptions,
) -> Vec<u8> {
    let indices: Vec<u32> = options
        .subbands
        .iter()
        .map(|options| options.quantiser as u32)
        .collect();
    let quantised = quantise_plane(p, coefficients, &indices, Rounding::Nearest);
    encode_body(p, &quantised, options)
}

/// The coefficients of a picture: its samples, repeated into the padding, analysed. They must fit 32
/// bits.
pub fn picture_coefficients(p: &Parameters, samples: &[i64]) -> Vec<i32> {
    let (width, height) = (p.width as usize, p.height as usize);
    let mut plane = Vec::new();
    for y in 0..padded_height(p) {
        for x in 0..padded_width(p) {
            let sample = samples[y.min(height - 1) * width + x.min(width - 1)];
            plane.push(i128::from(sample));
        }
    }
    let analysis = analyse(p, &plane).expect("parameters in range");
    analysis
        .coefficients
        .iter()
        .map(|&c| i32::try_from(c).expect("a coefficient in range"))
        .collect()
}
