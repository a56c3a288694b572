//! The comparison, with pictures that FFmpeg might have given.

use ffmpeg::case::{Case, Picture, COMPONENTS_OF_CASE};
use ffmpeg::compare::{compare_with, Counts};
use ffmpeg::eligibility::Aside;
use ffmpeg::proved;
use ffmpeg::setting::{Setting, Shown};
use ffmpeg::stream::{BitDepth, COMPONENTS};
use reference::encode::{encode_body, EncodeOptions, SubbandOptions};
use vectors::pieces::plain;

/// The pictures that a faultless FFmpeg gives for a case, with zeros where it shows nothing.
fn faultless(case: &Case) -> Vec<[Vec<i32>; COMPONENTS]> {
    let number = |shown: Shown| shown.number().unwrap_or(0);
    let samples = |p, body: &Vec<u8>| -> Vec<i32> {
        let decoded = proved::decode(p, body).expect("an accepted body");
        let shown = case.setting.shown(p, &decoded.samples);
        shown.into_iter().map(number).collect()
    };
    case.pictures
        .iter()
        .map(|picture| {
            picture
                .bodies
                .each_ref()
                .map(|body| samples(&picture.parameters, body))
        })
        .collect()
}

/// The counts of a case that FFmpeg decodes without a fault.
fn faultless_counts(case: &Case) -> Counts {
    let mut counts = Counts::default();
    compare_with(case, &faultless(case), &mut counts).unwrap();
    counts
}

/// A case without wavelet 6 none of whose components is set aside, and some of which are not intra.
fn a_case() -> Case {
    let serves = |case: &Case| {
        let counts = faultless_counts(case);
        let is_mixed = (1..counts.compared()).contains(&counts.not_intra);
        is_mixed && counts.set_aside() == 0 && counts.wavelets[6] == 0
    };
    (1..)
        .map(Case::from_seed)
        .find(serves)
        .expect("there are many")
}

#[test]
fn faultless_pictures_are_equal() {
    let case = a_case();
    let mut counts = Counts::default();
    let differences = compare_with(&case, &faultless(&case), &mut counts).unwrap();
    assert!(differences.is_empty());
    assert_eq!(counts.compared(), COMPONENTS_OF_CASE as u64);
    assert_eq!((counts.different, counts.set_aside()), (0, 0));
}

#[test]
fn one_wrong_sample_is_named() {
    let case = a_case();
    let mut pictures = faultless(&case);
    let mut samples = pictures[3][1].iter_mut();
    *samples.find(|sample| **sample != 0).unwrap() ^= 1;
    let mut counts = Counts::default();
    let differences = compare_with(&case, &pictures, &mut counts).unwrap();
    assert_eq!(differences.len(), 1);
    assert_eq!((differences[0].picture, differences[0].component), (3, 1));
    assert_eq!(counts.different, 1);
    let text = differences[0].to_string();
    assert!(text.starts_with(&format!("seed {}, picture 3, component 1: ", case.seed)));
}

#[test]
fn a_missing_picture_is_an_error() {
    let case = a_case();
    let pictures = faultless(&case);
    let mut counts = Counts::default();
    assert!(compare_with(&case, &pictures[1..], &mut counts).is_err());
    assert_eq!(counts, Counts::default());
}

#[test]
fn pictures_that_are_not_intra_are_counted() {
    let case = a_case();
    let counts = faultless_counts(&case);
    let pictures = case.pictures.iter();
    let not_intra = pictures.filter(|picture| !picture.parameters.intra).count();
    assert_eq!(counts.not_intra, (COMPONENTS * not_intra) as u64);
    let indices = counts.told_apart.len();
    assert!(indices > 0);
    let line = format!(
        "  not intra: {} components, offsets told apart at {indices} indices\n",
        counts.not_intra
    );
    assert!(counts.to_string().contains(&line));
}

/// A picture that is not intra, whose components are flat: they have one number of index 12.
fn flat_case(number: i64, bit_depth: BitDepth) -> Case {
    let p = plain(2, 2, 1, 3, false);
    let subband = SubbandOptions {
        quantiser: 12,
        ..SubbandOptions::default()
    };
    let options = EncodeOptions::uniform(&p, subband);
    let body = encode_body(&p, &[number, 0, 0, 0], &options);
    let picture = Picture {
        parameters: p,
        bodies: [0; COMPONENTS].map(|_| body.clone()),
    };
    Case {
        seed: 1,
        setting: Setting {
            bit_depth,
            simd: false,
        },
        pictures: vec![picture],
    }
}

/// The counts of such a case of which FFmpeg shows this number everywhere.
fn flat_counts(case: &Case, shown: i32) -> Counts {
    let found = [[0; COMPONENTS].map(|_| vec![shown; 4])];
    let mut counts = Counts::default();
    compare_with(case, &found, &mut counts).unwrap();
    counts
}

#[test]
fn the_intra_offset_is_a_difference() {
    for (bit_depth, zero) in [(BitDepth::Eight, 0x80), (BitDepth::Twelve, 0x8080)] {
        let case = flat_case(1, bit_depth);
        for (sample, different) in [(11, 0), (12, 3)] {
            let counts = flat_counts(&case, zero + sample);
            assert_eq!((counts.not_intra, counts.different), (3, different));
            assert_eq!(counts.told_apart.contains(&12), different == 0);
        }
    }
}

#[test]
fn what_is_clipped_is_set_aside_unless_ffmpeg_shows_another_number() {
    for (bit_depth, clipped) in [(BitDepth::Eight, 0xFF), (BitDepth::Twelve, 0x80FF)] {
        let case = flat_case(16, bit_depth);
        let counts = flat_counts(&case, clipped);
        assert_eq!((counts.set_aside(), counts.compared()), (3, 0));
        // The next number, the other end of the range, and another byte above the end.
        for number in [clipped - 1, clipped ^ 0xFF, clipped ^ 0x100] {
            let counts = flat_counts(&case, number);
            assert_eq!((counts.set_aside(), counts.different), (0, 3));
        }
    }
}

#[test]
fn what_the_proved_library_refuses_is_set_aside() {
    let mut case = flat_case(1, BitDepth::Eight);
    case.pictures[0].bodies = Default::default();
    let counts = flat_counts(&case, 0x80);
    assert_eq!(
        (counts.aside[Aside::Refused as usize], counts.compared()),
        (3, 0)
    );
}
