//! The jobs of the reference on planes of the right lengths, which are full of [`INITIAL_ENTRY`] before. The
//! size and the depth must be in range.

use reference::jobs::INITIAL_ENTRY;
use reference::params::{padded_area, sample_area};
use reference::{decode, synthesise, unpack, unpack_low_delay, Answer, LowDelay, Parameters};

/// Unpack: the answer and the plane.
pub fn run_unpack(p: &Parameters, bytes: &[u8]) -> (Answer, Vec<i32>) {
    let mut coefficients = vec![INITIAL_ENTRY; padded_area(p)];
    let answer = unpack(p, bytes, &mut coefficients);
    (answer, coefficients)
}

/// Synthesise: the answer, work and samples.
pub fn run_synthesise(p: &Parameters, coefficients: &[i32]) -> (Answer, Vec<i32>, Vec<i32>) {
    let mut work = vec![INITIAL_ENTRY; padded_area(p)];
    let mut samples = vec![INITIAL_ENTRY; sample_area(p)];
    let answer = synthesise(p, coefficients, &mut work, &mut samples);
    (answer, work, samples)
}

/// Decode: the answer, coefficients, work and samples.
pub fn run_decode(p: &Parameters, bytes: &[u8]) -> (Answer, Vec<i32>, Vec<i32>, Vec<i32>) {
    let mut coefficients = vec![INITIAL_ENTRY; padded_area(p)];
    let mut work = vec![INITIAL_ENTRY; padded_area(p)];
    let mut samples = vec![INITIAL_ENTRY; sample_area(p)];
    let answer = decode(p, bytes, &mut coefficients, &mut work, &mut samples);
    (answer, coefficients, work, samples)
}

/// Unpack of low delay slices: the answer and the planes of luma, C1 and C2.
pub fn run_low_delay(p: &LowDelay, bytes: &[u8]) -> (Answer, [Vec<i32>; 3]) {
    let plane = |component| vec![INITIAL_ENTRY; padded_area(component)];
    let mut planes = p.picture.components().each_ref().map(plane);
    let [luma, first_chroma, second_chroma] = &mut planes;
    let answer = unpack_low_delay(p, bytes, luma, first_chroma, second_chroma);
    (answer, planes)
}
