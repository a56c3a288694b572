//! Low delay pictures: cases from seeds, the slices that FFmpeg misreads, and the comparison.

use ffmpeg::eligibility::Aside;
use ffmpeg::low_delay::case::LowDelayCase;
use ffmpeg::low_delay::compare::{compare_with, expected_components, LowDelayCounts};
use ffmpeg::low_delay::eligibility::check_slices;
use ffmpeg::low_delay::LowDelayPicture;
use ffmpeg::stream::{ChromaFormat, COMPONENTS};
use vectors::slices::{slice_bytes, sliced};

#[test]
fn a_seed_names_its_case() {
    let streams = [1, 2, 1].map(|seed| LowDelayCase::from_seed(seed).dirac_stream());
    assert_eq!(streams[0], streams[2]);
    assert_ne!(streams[0], streams[1]);
}

#[test]
fn most_components_are_eligible() {
    let (mut components, mut eligible) = (0, 0);
    let mut formats = [0; ChromaFormat::ALL.len()];
    for seed in 0..40 {
        let case = LowDelayCase::from_seed(seed);
        formats[case.format.chroma as usize] += 1;
        for picture in &case.pictures {
            let p = &picture.parameters;
            assert_eq!(p.slice_start(p.slice_count()), picture.bytes.len());
            let expected = expected_components(picture, case.setting());
            components += COMPONENTS;
            eligible += expected.iter().filter(|e| e.is_ok()).count();
        }
    }
    assert!(5 * eligible > 4 * components, "{eligible} of {components}");
    assert!(formats.iter().all(|&count| count > 3), "{formats:?}");
}

/// A picture of one luma sample and one of each chroma component, in a slice of three bytes whose luma length and
/// bits are given. Its index is 0.
fn one_slice(luma_length: usize, bits: &str) -> LowDelayPicture {
    LowDelayPicture {
        parameters: sliced((1, 1), (1, 1), 0, true, (1, 1), (3, 1)),
        wavelet: 0,
        bytes: slice_bytes(3, 0, luma_length, bits, false),
    }
}

#[test]
fn slices_that_ffmpeg_misreads() {
    let fine = Ok(());
    let cut = Err(Aside::CutNumber);
    let left_over = Err(Aside::LumaLeftOver);
    // The numbers 1, 0 and -1; 12 bits are there for values.
    for (length, bits, expected) in [
        (4, "0010 1 0011", [fine; 3]),
        (0, "1 0011", [fine; 3]),
        (5, "0010 0 1 0011", [fine, left_over, left_over]),
        (3, "001 1 0011", [cut; 3]),
        // Chroma ends inside its second number, or before it.
        (1, "1 00010100100", [fine, cut, cut]),
        (5, "00011 0000010", [cut; 3]),
        (8, "00000010 0010", [fine; 3]),
    ] {
        let found = check_slices(&one_slice(length, bits));
        assert_eq!(found, expected, "{length}, {bits}");
    }
}

#[test]
fn slices_of_a_power_of_two_are_set_aside() {
    for bytes in 1..=40 {
        let picture = LowDelayPicture {
            parameters: sliced((1, 1), (1, 1), 0, true, (1, 1), (bytes as u32, 1)),
            wavelet: 0,
            bytes: slice_bytes(bytes, 0, 0, "", true),
        };
        let is_aside = check_slices(&picture)[0] == Err(Aside::SliceLength);
        assert_eq!(is_aside, [1, 2, 4, 8, 16, 32].contains(&bytes), "{bytes}");
    }
}

/// The pictures that a faultless FFmpeg gives for a case, with zeros for components that are not eligible.
fn faultless(case: &LowDelayCase) -> Vec<[Vec<i32>; COMPONENTS]> {
    let shown = |picture| {
        expected_components(picture, case.setting()).map(|expected| {
            let shown = expected.map_or(Vec::new(), |expected| expected.shown);
            shown.iter().filter_map(|shown| shown.number()).collect()
        })
    };
    case.pictures.iter().map(shown).collect()
}

#[test]
fn one_wrong_sample_is_named_and_all_else_counted() {
    let case = LowDelayCase::from_seed(4);
    let mut pictures = faultless(&case);
    let mut counts = LowDelayCounts::default();
    assert!(compare_with(&case, &pictures, &mut counts)
        .unwrap()
        .is_empty());
    let components = &counts.components;
    let all = (COMPONENTS * case.pictures.len()) as u64;
    assert_eq!(components.compared() + components.set_aside(), all);
    assert_eq!(
        counts.chroma_formats[case.format.chroma as usize],
        components.compared()
    );
    assert!(counts.pictures > 0 && counts.slices >= counts.pictures);
    assert!(counts.to_string().contains("\ncompared of 4:4:4: "));

    let (number, picture) = pictures
        .iter_mut()
        .enumerate()
        .find(|(_, picture)| picture.iter().all(|samples| !samples.is_empty()))
        .expect("a picture that is compared");
    picture[2][0] ^= 1;
    let differences = compare_with(&case, &pictures, &mut counts).unwrap();
    assert_eq!(differences.len(), 1);
    let named = (differences[0].picture, differences[0].component);
    assert_eq!(named, (number, 2));
    assert_eq!(counts.components.different, 1);
    assert!(compare_with(&case, &pictures[1..], &mut counts).is_err());
}
