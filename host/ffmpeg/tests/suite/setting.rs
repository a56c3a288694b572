//! What FFmpeg shows of samples.

use ffmpeg::setting::{Setting, Shown};
use ffmpeg::stream::BitDepth;
use reference::Parameters;
use vectors::pieces::plain;
use Shown::{Clipped, Nothing, Whole};

/// A row of so many samples.
fn row(width: usize, intra: bool) -> Parameters {
    plain(width as u32, 1, 1, 0, intra)
}

/// FFmpeg without its SIMD code.
fn setting(bit_depth: BitDepth) -> Setting {
    Setting {
        bit_depth,
        simd: false,
    }
}

/// What FFmpeg shows of a row of samples.
fn shown(intra: bool, bit_depth: BitDepth, samples: &[i32]) -> Vec<Shown> {
    setting(bit_depth).shown(&row(samples.len(), intra), samples)
}

#[test]
fn samples_have_an_offset_and_are_clipped() {
    for intra in [true, false] {
        let expected = [Whole(128), Whole(0), Whole(255), Clipped(0), Clipped(255)];
        let samples = [0, -128, 127, -129, 128];
        assert_eq!(shown(intra, BitDepth::Eight, &samples), expected);
    }
    let expected = [
        Whole(2048),
        Whole(0),
        Whole(4095),
        Clipped(0),
        Clipped(4095),
    ];
    let samples = [0, -2048, 2047, -2049, 2048];
    assert_eq!(shown(true, BitDepth::Twelve, &samples), expected);
}

#[test]
fn halves_are_shown_of_deep_samples_that_are_not_intra() {
    for bit_depth in [BitDepth::Ten, BitDepth::Twelve] {
        let samples = [0, -1, 127, -128, (3 << 16) + 5, -(1 << 23)];
        let numbers = [0x8080, 0x7F7F, 0x80FF, 0x7F00, 0x8385, 0x0080];
        for (sample, number) in samples.into_iter().zip(numbers) {
            // Five columns show two samples.
            let expected = [Whole(number), Whole(0x8080), Nothing, Nothing, Nothing];
            assert_eq!(shown(false, bit_depth, &[sample, 0, 0, 0, 0]), expected);
        }
        // Each half is clipped by itself.
        let samples = [
            128,
            -129,
            1 << 23,
            i32::MIN,
            i32::MAX,
            (1 << 15) - (1 << 24),
        ];
        let numbers = [0x80FF, 0x7F00, 0xFF80, 0x0080, 0xFF7F, 0x0000];
        for (sample, number) in samples.into_iter().zip(numbers) {
            let expected = [Clipped(number), Nothing];
            assert_eq!(shown(false, bit_depth, &[sample, 0]), expected);
        }
    }
}

#[test]
fn sums_of_simd_code_from_2_to_the_15_on_are_negative() {
    let first = |intra, bit_depth, simd, sample| {
        let setting = Setting { bit_depth, simd };
        setting.shown(&row(2, intra), &[sample, 0])[0]
    };
    for (bit_depth, end) in [(BitDepth::Eight, 0xFF), (BitDepth::Twelve, 0x80FF)] {
        assert_eq!(first(false, bit_depth, true, 32_639), Clipped(end));
        assert_eq!(first(false, bit_depth, true, 32_640), Clipped(end - 0xFF));
        assert_eq!(first(false, bit_depth, false, 32_640), Clipped(end));
    }
    assert_eq!(first(true, BitDepth::Ten, true, 32_255), Clipped(1023));
    assert_eq!(first(true, BitDepth::Ten, true, 32_256), Clipped(0));
    for (bit_depth, end) in [(BitDepth::Eight, 255), (BitDepth::Twelve, 4095)] {
        assert_eq!(first(true, bit_depth, true, 32_767), Clipped(end));
    }
}
