//! The reasons to set a component aside that lie in its parameters and its coefficients.

use ffmpeg::eligibility::{expected_samples, Aside};
use ffmpeg::proved::{self, Decoded};
use ffmpeg::setting::Setting;
use ffmpeg::stream::BitDepth;
use reference::encode::{encode_body, EncodeOptions, SubbandOptions};
use reference::params::padded_area;
use reference::Parameters;
use vectors::pieces::plain;

/// FFmpeg without its SIMD code.
fn in_plain_c(bit_depth: BitDepth) -> Setting {
    Setting {
        bit_depth,
        simd: false,
    }
}

/// FFmpeg with its SIMD code.
fn simd(bit_depth: BitDepth) -> Setting {
    Setting {
        bit_depth,
        simd: true,
    }
}

/// A component of which these are the first coefficients.
fn decoded(p: &Parameters, first: &[i32]) -> Decoded {
    let mut plane = vec![0; padded_area(p)];
    plane[..first.len()].copy_from_slice(first);
    // Level 0 is not predicted here, so that the coefficients are those given.
    let inter = Parameters {
        intra: false,
        ..p.clone()
    };
    let options = EncodeOptions::uniform(&inter, SubbandOptions::default());
    let decoded = proved::decode(&inter, &encode_body(&inter, &plane, &options)).unwrap();
    assert_eq!(decoded.coefficients, plane);
    decoded
}

/// Why a component with these first coefficients is set aside.
fn aside(p: &Parameters, setting: Setting, first: &[i32]) -> Option<Aside> {
    expected_samples(p, setting, decoded(p, first)).err()
}

#[test]
fn parameters_that_ffmpeg_has_not() {
    let eight = in_plain_c(BitDepth::Eight);
    let p = plain(16, 16, 2, 0, true);
    assert_eq!(aside(&p, eight, &[]), None);
    assert_eq!(
        aside(&plain(16, 16, 0, 0, true), eight, &[]),
        Some(Aside::Depth)
    );
    let split = |across, down| Parameters {
        codeblocks_across: [1, across, 1, 1, 1],
        codeblocks_down: [1, down, 1, 1, 1],
        ..p.clone()
    };
    assert_eq!(aside(&split(8, 8), eight, &[]), None);
    assert_eq!(aside(&split(9, 8), eight, &[]), Some(Aside::Codeblocks));
    assert_eq!(aside(&split(8, 9), eight, &[]), Some(Aside::Codeblocks));
}

#[test]
fn levels_too_narrow() {
    let setting = simd(BitDepth::Eight);
    assert_eq!(aside(&plain(16, 16, 2, 0, true), setting, &[]), None);
    assert_eq!(
        aside(&plain(16, 16, 3, 0, true), setting, &[]),
        Some(Aside::NarrowSimd)
    );
    let setting = in_plain_c(BitDepth::Eight);
    assert_eq!(aside(&plain(6, 16, 1, 2, true), setting, &[]), None);
    assert_eq!(
        aside(&plain(4, 16, 1, 2, true), setting, &[]),
        Some(Aside::NarrowWavelet2)
    );
}

#[test]
fn wavelet_6_has_another_halving_and_8_bits() {
    let p = plain(2, 2, 1, 6, true);
    assert_eq!(
        aside(&p, in_plain_c(BitDepth::Ten), &[]),
        Some(Aside::DeepWavelet6)
    );
    let component = decoded(&p, &[19, 4, -2, 1]);
    let samples = component.samples.clone();
    let expected = expected_samples(&p, in_plain_c(BitDepth::Eight), component).unwrap();
    assert!(!expected.proved);
    // Halving by floor((v + 1) / 2) gives one more than by floor(v / 2) where v is odd.
    let more: Vec<i32> = samples
        .iter()
        .zip(&expected.samples)
        .map(|(a, b)| a - b)
        .collect();
    assert!(more.contains(&0) && more.contains(&1), "{more:?}");
    assert!(more.iter().all(|d| (0..=1).contains(d)), "{more:?}");
}

#[test]
fn numbers_out_of_ffmpegs_range() {
    let twelve = in_plain_c(BitDepth::Twelve);
    let p = plain(8, 8, 1, 3, false);
    assert_eq!(aside(&p, twelve, &[(1 << 30) - 1]), None);
    assert_eq!(aside(&p, twelve, &[1 << 30]), Some(Aside::Dequantising));
    // This wavelet sums two neighbours.
    let p = plain(8, 8, 1, 1, false);
    assert_eq!(aside(&p, in_plain_c(BitDepth::Eight), &[32767]), None);
    assert_eq!(
        aside(&p, in_plain_c(BitDepth::Eight), &[32768]),
        Some(Aside::Range)
    );
    assert_eq!(aside(&p, simd(BitDepth::Eight), &[16000]), None);
    assert_eq!(
        aside(&p, simd(BitDepth::Eight), &[16383]),
        Some(Aside::Range)
    );
}

#[test]
fn a_prediction_that_ffmpeg_approximates() {
    let p = plain(4, 4, 1, 1, true);
    let twelve = in_plain_c(BitDepth::Twelve);
    let level_0 = |v: i32| [v, v, 0, 0, v, v];
    assert_eq!(aside(&p, twelve, &level_0(2000)), None);
    assert_eq!(aside(&p, twelve, &level_0(11_000)), Some(Aside::Prediction));
    assert_eq!(
        aside(&p, twelve, &level_0(-11_000)),
        Some(Aside::Prediction)
    );
    let inter = Parameters { intra: false, ..p };
    assert_ne!(
        aside(&inter, twelve, &level_0(11_000)),
        Some(Aside::Prediction)
    );
}
