//! Cases from seeds.

use ffmpeg::case::{Case, Picture, PICTURES};
use ffmpeg::eligibility::expected_samples;
use ffmpeg::proved;
use ffmpeg::stream::BitDepth;

#[test]
fn a_seed_names_its_case() {
    for seed in [1, 2, 77, u64::MAX] {
        let (one, other) = (Case::from_seed(seed), Case::from_seed(seed));
        assert_eq!(one.pictures.len(), PICTURES);
        assert_eq!(one.dirac_stream(), other.dirac_stream());
    }
    assert_ne!(
        Case::from_seed(1).dirac_stream(),
        Case::from_seed(2).dirac_stream()
    );
}

#[test]
fn every_bit_depth_has_pictures_that_are_intra_and_that_are_not() {
    let mut counts = [[0; 2]; BitDepth::ALL.len()];
    for seed in 0..40 {
        let case = Case::from_seed(seed);
        for picture in &case.pictures {
            let intra = usize::from(picture.parameters.intra);
            counts[case.setting.bit_depth as usize][intra] += 1;
        }
    }
    for [not_intra, intra] in counts {
        let all = not_intra + intra;
        assert!(all < 4 * not_intra && 5 * not_intra < 2 * all, "{counts:?}");
    }
}

/// Whether a case is about the quantiser's factors and offsets.
fn is_of_factors(case: &Case) -> bool {
    let mut all = case.pictures.iter().map(|picture| &picture.parameters);
    all.all(|p| (p.height, p.depth, p.wavelet) == (2, 1, 3))
}

#[test]
fn high_factors_cancel() {
    let mut cases = (0..).map(Case::from_seed);
    let case = cases.find(is_of_factors).expect("there are many");
    for Picture { parameters, bodies } in &case.pictures {
        for body in bodies {
            let decoded = proved::decode(parameters, body).expect("an accepted body");
            let first_row = decoded.samples[..parameters.width as usize].iter();
            assert!(first_row.step_by(2).all(|sample| sample.abs() <= 8));
        }
    }
}

#[test]
fn pictures_of_a_case_have_one_size() {
    for seed in 0..30 {
        let case = Case::from_seed(seed);
        let size = |k: usize| {
            let p = &case.pictures[k].parameters;
            (p.width, p.height)
        };
        assert!((0..PICTURES).all(|k| size(k) == size(0)), "seed {seed}");
    }
}

#[test]
fn few_components_are_set_aside() {
    let (mut components, mut eligible) = (0, 0);
    for seed in 0..40 {
        let case = Case::from_seed(seed);
        for picture in &case.pictures {
            for body in &picture.bodies {
                components += 1;
                let decoded = proved::decode(&picture.parameters, body).expect("an accepted body");
                eligible +=
                    u32::from(expected_samples(&picture.parameters, case.setting, decoded).is_ok());
            }
        }
    }
    assert!(10 * eligible > 9 * components, "{eligible} of {components}");
}
