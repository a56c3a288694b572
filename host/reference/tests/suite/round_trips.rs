//! Analysis then synthesis, and encoding then unpacking.

use crate::common::*;
use reference::params::{padded_area, padded_height, padded_width, subbands, Orientation};
use reference::unpack::{codeblock_start, dequantise};
use reference::{
    analyse, encode_body, quantise, quantise_plane, EncodeOptions, Parameters, Rounding,
    SubbandOptions,
};

/// The first columns and rows of a padded plane.
fn crop(p: &Parameters, plane: &[i128]) -> Vec<i32> {
    let mut samples = Vec::new();
    for y in 0..p.height as usize {
        for x in 0..p.width as usize {
            samples.push(plane[y * padded_width(p) + x] as i32);
        }
    }
    samples
}

/// Synthesis must undo the analysis of this plane if that fits; answers whether it did fit.
fn assert_undone(p: &Parameters, plane: &[i128]) -> bool {
    let analysis = analyse(p, plane).unwrap();
    if analysis.fits {
        let coefficients: Vec<i32> = analysis.coefficients.iter().map(|&c| c as i32).collect();
        let (given, work, samples) = run_synthesise(p, &coefficients);
        assert_eq!(given, answer(0, 0), "{p:?}");
        assert_eq!(work, vec![0; padded_area(p)]);
        assert_eq!(samples, crop(p, plane), "{p:?}");
    }
    analysis.fits
}

#[test]
fn synthesis_undoes_analysis() {
    let mut random = Random::new(3);
    let mut sizes = vec![(1, 17), (19, 1), (16, 16), (13, 7), (31, 33), (40, 25)];
    for width in 1..=9 {
        for height in 1..=9 {
            sizes.push((width, height));
        }
    }
    for wavelet in 0..7 {
        for depth in 0..=4 {
            for &(width, height) in &sizes {
                let p = plain(width, height, depth, wavelet, false);
                for bound in [3, 1 << 15] {
                    let plane: Vec<i128> = (0..padded_area(&p))
                        .map(|_| i128::from(random.range(-bound, bound)))
                        .collect();
                    assert!(assert_undone(&p, &plane), "{p:?}");
                }
            }
        }
    }
}

#[test]
fn synthesis_undoes_analysis_wherever_that_fits() {
    // Numbers so large that some planes fit and some don't.
    let mut random = Random::new(4);
    let (mut fitting, mut others) = (0, 0);
    for wavelet in 0..7 {
        for depth in 1..=3 {
            let p = plain(3, 5, depth, wavelet, false);
            for power in 24..=31 {
                for _ in 0..3 {
                    let bound = 1 << power;
                    let plane: Vec<i128> = (0..padded_area(&p))
                        .map(|_| i128::from(random.range(-bound, bound)))
                        .collect();
                    if assert_undone(&p, &plane) {
                        fitting += 1;
                    } else {
                        others += 1;
                    }
                }
            }
        }
    }
    assert!(fitting > 100 && others > 50, "{fitting} and {others}");
}

#[test]
fn depth_0_is_the_padded_plane() {
    let p = plain(2, 1, 0, 0, false);
    let plane = [1 << 70, -5];
    let analysis = analyse(&p, &plane).unwrap();
    assert_eq!(analysis.coefficients, plane);
    // No number is assigned, so none fails to fit.
    assert!(analysis.fits);
}

#[test]
fn analysis_tells_of_every_assigned_number() {
    // Index 4 multiplies by 2; index 3 by 1, which counts too.
    let fits = |wavelet, plane: [i128; 4]| {
        let p = plain(2, 2, 1, wavelet, false);
        analyse(&p, &plane).unwrap().fits
    };
    let half = 1i128 << 30;
    assert!(fits(4, [half - 1; 4]));
    assert!(!fits(4, [half; 4]));
    assert!(fits(4, [-half; 4]));
    assert!(!fits(4, [-half - 1; 4]));
    let full = 1i128 << 31;
    assert!(fits(3, [full - 1; 4]));
    assert!(!fits(3, [full; 4]));
    // The rows' steps give numbers that fit, the number multiplied by 1 doesn't.
    assert!(!fits(3, [full, full - 4, full, full - 4]));
    assert_eq!(
        analyse(&plain(2, 2, 1, 3, false), &[full, full - 4, full, full - 4])
            .unwrap()
            .coefficients,
        [full - 2, -4, 0, 0]
    );
    // A difference between the extremes doesn't fit, though every given number does.
    assert!(!fits(3, [full - 1, -full, full - 1, -full]));
}

#[test]
fn analysis_of_large_numbers() {
    // A constant plane: index 3 keeps it in LL, index 4 doubles it at each level.
    for power in [40, 60, 80] {
        let constant = -(1i128 << power);
        let mut p = plain(8, 8, 3, 3, false);
        let analysis = analyse(&p, &[constant; 64]).unwrap();
        assert!(!analysis.fits);
        assert_eq!(analysis.coefficients[0], constant);
        assert!(analysis.coefficients[1..].iter().all(|&c| c == 0));
        p.wavelet = 4;
        let analysis = analyse(&p, &[constant; 64]).unwrap();
        assert_eq!(analysis.coefficients[0], 8 * constant);
        assert!(analysis.coefficients[1..].iter().all(|&c| c == 0));
    }
    // The largest numbers, with every wavelet.
    let mut random = Random::new(5);
    for wavelet in 0..7 {
        let p = plain(16, 16, 4, wavelet, false);
        let limit = reference::ANALYSIS_LIMIT;
        let plane: Vec<i128> = (0..256)
            .map(|_| if random.flag() { limit } else { -limit })
            .collect();
        assert!(!analyse(&p, &plane).unwrap().fits);
    }
}

#[test]
#[should_panic(expected = "beyond the limit")]
fn analysis_of_too_large_numbers_panics() {
    let p = plain(1, 1, 0, 0, false);
    let _ = analyse(&p, &[reference::ANALYSIS_LIMIT + 1]);
}

#[test]
fn subbands_in_stream_order_cover_the_plane() {
    for (width, height, depth) in [(1, 1, 0), (9, 5, 1), (17, 33, 3), (40, 1, 4)] {
        let p = plain(width, height, depth, 0, false);
        let mut covered = vec![0; padded_area(&p)];
        let bands = subbands(&p);
        assert_eq!(bands.len(), 1 + 3 * depth as usize);
        for band in &bands {
            for y in band.top..band.top + band.height {
                for x in band.left..band.left + band.width {
                    covered[y * padded_width(&p) + x] += 1;
                }
            }
        }
        assert!(covered.iter().all(|&times| times == 1));
    }
    let p = plain(13, 21, 2, 0, false);
    assert_eq!((padded_width(&p), padded_height(&p)), (16, 24));
    let list: Vec<_> = subbands(&p)
        .iter()
        .map(|band| {
            (
                band.level,
                band.orientation,
                (band.left, band.top),
                (band.width, band.height),
            )
        })
        .collect();
    use Orientation::{HH, HL, LH, LL};
    assert_eq!(
        list,
        [
            (0, LL, (0, 0), (4, 6)),
            (1, HL, (4, 0), (4, 6)),
            (1, LH, (0, 6), (4, 6)),
            (1, HH, (4, 6), (4, 6)),
            (2, HL, (8, 0), (8, 12)),
            (2, LH, (0, 12), (8, 12)),
            (2, HH, (8, 12), (8, 12)),
        ]
    );
}

#[test]
fn codeblocks_cover_a_subband_once() {
    for size in 1..40 {
        for count in 1..=255 {
            assert_eq!(codeblock_start(size, 0, count), 0);
            assert_eq!(codeblock_start(size, count, count), size);
            for k in 0..count {
                assert!(codeblock_start(size, k, count) <= codeblock_start(size, k + 1, count));
            }
        }
    }
    let starts: Vec<usize> = (0..=3).map(|k| codeblock_start(8, k, 3)).collect();
    assert_eq!(starts, [0, 2, 5, 8]);
    let starts: Vec<usize> = (0..=5).map(|k| codeblock_start(2, k, 5)).collect();
    assert_eq!(starts, [0, 0, 0, 1, 1, 2]);
}

/// Random parameters in range, of small pictures.
fn random_parameters(random: &mut Random) -> Parameters {
    let mut p = plain(
        random.range(1, 40) as u32,
        random.range(1, 40) as u32,
        random.range(0, 4) as u32,
        random.range(0, 6) as u32,
        random.flag(),
    );
    for level in 0..5 {
        p.codeblocks_across[level] = random.pick(&[1, 1, 2, 3, 4, 7, 30]);
        p.codeblocks_down[level] = random.pick(&[1, 1, 2, 3, 5, 8, 30]);
    }
    p
}

/// Random options for every subband.
fn random_options(random: &mut Random, indices: &[u32]) -> EncodeOptions {
    let mut one = |&index: &u32| SubbandOptions {
        quantiser: u64::from(index),
        skip_if_zero: random.flag(),
        flag_zero_codeblocks: random.flag(),
        drop_trailing_ones: random.flag(),
        slack: (0..random.pick(&[0, 0, 1, 3]))
            .map(|_| random.bits() as u8)
            .collect(),
        fill: random.flag(),
        stated_length: None,
    };
    let mut options: Vec<SubbandOptions> = indices.iter().map(&mut one).collect();
    for options in &mut options {
        // Slack bytes would be read where ones were left out.
        if options.drop_trailing_ones {
            options.slack.clear();
        }
    }
    EncodeOptions { subbands: options }
}

/// Random coefficients, many of them 0, none so large that a residual doesn't fit.
fn random_coefficients(random: &mut Random, p: &Parameters) -> Vec<i32> {
    let bound = random.pick(&[1, 3, 200, 100_000, 1 << 29]);
    let zeros = random.range(0, 6);
    (0..padded_area(p))
        .map(|_| {
            if random.range(0, 6) < zeros {
                0
            } else {
                random.range(-bound, bound) as i32
            }
        })
        .collect()
}

#[test]
fn bodies_at_index_0_unpack_to_their_coefficients() {
    let mut random = Random::new(8);
    for _ in 0..300 {
        let p = random_parameters(&mut random);
        let indices = vec![0; 1 + 3 * p.depth as usize];
        let coefficients = random_coefficients(&mut random, &p);
        let quantised = quantise_plane(&p, &coefficients, &indices, Rounding::Floor);
        let options = random_options(&mut random, &indices);
        let mut body = encode_body(&p, &quantised, &options);
        let length = body.len() as u64;
        body.extend([0xA5, 0x5A]);
        assert_eq!(
            run_unpack(&p, &body),
            (answer(0, length), coefficients),
            "{p:?}"
        );
    }
}

#[test]
fn bodies_with_the_most_codeblocks() {
    let mut random = Random::new(9);
    let mut p = plain(20, 11, 2, 0, true);
    p.codeblocks_across = [255, 1, 255, 1, 1];
    p.codeblocks_down = [255, 255, 1, 1, 1];
    let coefficients = random_coefficients(&mut random, &p);
    let indices = [0; 7];
    let quantised = quantise_plane(&p, &coefficients, &indices, Rounding::Nearest);
    for flag_zero_codeblocks in [false, true] {
        let options = EncodeOptions::uniform(
            &p,
            SubbandOptions {
                flag_zero_codeblocks,
                ..SubbandOptions::default()
            },
        );
        let body = encode_body(&p, &quantised, &options);
        assert_eq!(
            run_unpack(&p, &body),
            (answer(0, body.len() as u64), coefficients.clone())
        );
    }
}

/// A quantised plane unpacked another way: each number by itself, then level 0 predicted.
fn unpacked(p: &Parameters, quantised: &[i64], indices: &[u32]) -> Vec<i32> {
    let row = padded_width(p);
    let mut plane = vec![0i64; quantised.len()];
    for (band, &index) in subbands(p).iter().zip(indices) {
        for y in band.top..band.top + band.height {
            for x in band.left..band.left + band.width {
                plane[y * row + x] = dequantise(quantised[y * row + x], index, p.intra) as i64;
            }
        }
    }
    if p.intra {
        let band = subbands(p)[0];
        for x in 1..band.width {
            plane[x] += plane[x - 1];
        }
        for y in 1..band.height {
            plane[y * row] += plane[(y - 1) * row];
            for x in 1..band.width {
                let here = y * row + x;
                let sum = plane[here - 1] + plane[here - row - 1] + plane[here - row];
                plane[here] += (sum as f64 / 3.0 + 1.0 / 3.0 + 1e-6).floor() as i64;
            }
        }
    }
    plane.iter().map(|&value| value as i32).collect()
}

#[test]
fn quantised_bodies_unpack_to_dequantised_values() {
    let mut random = Random::new(10);
    for _ in 0..200 {
        let p = random_parameters(&mut random);
        let indices: Vec<u32> = (0..=3 * p.depth)
            .map(|_| random.range(0, 40) as u32)
            .collect();
        let rounding = random.pick(&[Rounding::Floor, Rounding::Nearest]);
        let coefficients: Vec<i32> = random_coefficients(&mut random, &p)
            .iter()
            .map(|c| c % 100_000)
            .collect();
        let quantised = quantise_plane(&p, &coefficients, &indices, rounding);
        let options = random_options(&mut random, &indices);
        let body = encode_body(&p, &quantised, &options);
        let (given, plane) = run_unpack(&p, &body);
        assert_eq!(given, answer(0, body.len() as u64));
        assert_eq!(plane, unpacked(&p, &quantised, &indices), "{p:?}");
        // No value is further from its coefficient than a whole step.
        for (band, &index) in subbands(&p).iter().zip(&indices) {
            let step = dequantise(1, index, p.intra) as i64;
            for y in band.top..band.top + band.height {
                for x in band.left..band.left + band.width {
                    let entry = y * padded_width(&p) + x;
                    let error = i64::from(plane[entry]) - i64::from(coefficients[entry]);
                    assert!(error.abs() <= step);
                }
            }
        }
    }
}

#[test]
fn quantising_dequantised_values_changes_nothing() {
    for index in 0..=115 {
        for (m, intra) in [0, 1, 2, 3, 10, 1000]
            .map(|m| [(m, false), (m, true)])
            .concat()
        {
            let value = dequantise(m, index, intra) as i64;
            for number in [m, -m] {
                for rounding in [Rounding::Floor, Rounding::Nearest] {
                    let value = number.signum() * value;
                    assert_eq!(quantise(value, index, intra, rounding), number);
                }
            }
        }
    }
}

#[test]
fn the_nearest_value_is_chosen_by_the_rule_of_the_picture() {
    for (index, intra) in (0..=20).flat_map(|index| [(index, false), (index, true)]) {
        let values: Vec<i64> = (0..=300)
            .map(|m| dequantise(m, index, intra) as i64)
            .collect();
        for value in 0..=250 {
            let nearest = (0..=300)
                .min_by_key(|&m| (values[m] - value).abs())
                .expect("never empty") as i64;
            for sign in [1, -1] {
                let number = quantise(sign * value, index, intra, Rounding::Nearest);
                assert_eq!(
                    number,
                    sign * nearest,
                    "{value} index {index} intra {intra}"
                );
            }
        }
    }
    // At index 16 the numbers 0, 1 and 2 are 0, 24 and 40 in intra, and 0, 22 and 38 otherwise.
    assert_eq!(quantise(12, 16, true, Rounding::Nearest), 0);
    assert_eq!(quantise(12, 16, false, Rounding::Nearest), 1);
    // A number rounded down doesn't depend on the rule.
    for value in -300..=300 {
        let [intra, other] = [true, false].map(|intra| quantise(value, 16, intra, Rounding::Floor));
        assert_eq!(intra, other);
    }
}

#[test]
fn whole_pictures_encode_and_decode_exactly() {
    let mut random = Random::new(11);
    for _ in 0..100 {
        let p = random_parameters(&mut random);
        let plane: Vec<i128> = (0..padded_area(&p))
            .map(|_| i128::from(random.range(-128, 127)))
            .collect();
        let analysis = analyse(&p, &plane).unwrap();
        assert!(analysis.fits);
        let coefficients: Vec<i32> = analysis.coefficients.iter().map(|&c| c as i32).collect();
        let indices = vec![0; 1 + 3 * p.depth as usize];
        let quantised = quantise_plane(&p, &coefficients, &indices, Rounding::Floor);
        let options = random_options(&mut random, &indices);
        let body = encode_body(&p, &quantised, &options);
        assert_eq!(
            run_decode(&p, &body),
            (
                answer(0, body.len() as u64),
                coefficients,
                vec![0; padded_area(&p)],
                crop(&p, &plane)
            )
        );
    }
}
