//! The offset of pictures that aren't intra (document 02, "Difference pictures have another offset").

use crate::common::*;
use reference::params::{padded_area, padded_width, subbands};
use reference::transform::fits_32_bits;
use reference::unpack::{dequantise, quantiser_factor, quantiser_offset};
use reference::{
    encode_body, read_recording, write_recording, EncodeOptions, Entry, Parameters, SubbandOptions,
};
use vectors::pieces::signed_numbers;

/// The offsets of the indices 0 to 8.
fn first_offsets(intra: bool) -> Vec<i64> {
    (0..=8)
        .map(|index| quantiser_offset(index, intra))
        .collect()
}

/// Whether a number's value tells an intra picture from another.
fn tells(number: i64, index: u32) -> bool {
    dequantise(number, index, true) != dequantise(number, index, false)
}

#[test]
fn the_stated_value() {
    assert_eq!(quantiser_factor(12), 32);
    assert_eq!(quantiser_offset(12, true), 16);
    assert_eq!(quantiser_offset(12, false), 12);
    assert_eq!(dequantise(1, 12, true), 12);
    assert_eq!(dequantise(1, 12, false), 11);
    assert_eq!(dequantise(-1, 12, true), -12);
    assert_eq!(dequantise(-1, 12, false), -11);
}

#[test]
fn the_stated_value_in_a_recording() {
    let entry = |intra| Entry {
        parameters: plain(1, 1, 0, 0, intra),
        body: subband_bytes(12, &bits("0010")),
    };
    let file = write_recording(&[entry(true), entry(false)]);
    assert_eq!(
        read_recording(&file),
        "entry 0: 1 x 1\n12\nentry 1: 1 x 1\n11\n"
    );
}

#[test]
fn offsets_by_both_rules() {
    // The factors are 4, 5, 6, 7, 8, 10, 11, 13 and 16.
    assert_eq!(first_offsets(true), [1, 2, 3, 4, 4, 5, 6, 7, 8]);
    assert_eq!(first_offsets(false), [1, 2, 2, 3, 3, 4, 4, 5, 6]);
    // Only index 0 is an exception: at index 1 the formula gives floor((15 + 4) / 8).
    for index in 1..=115 {
        let factor = quantiser_factor(index);
        assert_eq!(quantiser_offset(index, false), (3 * factor + 4) / 8);
    }
    assert_eq!(quantiser_offset(0, false), 1);
    assert_ne!(quantiser_offset(0, false), (3 * 4 + 4) / 8);
    // The offset is never the larger one, and both keep a value within its step.
    for index in 0..=115 {
        let [intra, other] = [true, false].map(|intra| quantiser_offset(index, intra));
        assert!(other <= intra, "index {index}");
        assert!(index == 0 || 3 <= other + 2 && intra + 2 < quantiser_factor(index));
    }
}

#[test]
fn small_values_by_the_rule_of_difference_pictures() {
    let values = |index| [1, 2, 3, 4].map(|m| dequantise(m, index, false));
    // floor((7m + 5) / 4), floor((11m + 6) / 4), floor((32m + 14) / 4).
    assert_eq!(values(3), [3, 4, 6, 8]);
    assert_eq!(values(6), [4, 7, 9, 12]);
    assert_eq!(values(12), [11, 19, 27, 35]);
    for index in 0..=115 {
        assert_eq!(dequantise(0, index, false), 0);
        for m in 1..=20 {
            let value = dequantise(m, index, false);
            assert!(value > 0 && value <= dequantise(m, index, true));
            assert_eq!(dequantise(-m, index, false), -value);
        }
    }
}

#[test]
fn the_flag_matters_in_every_subband() {
    // A component of depth 2 with a 1 at index 12 in one subband alone, then in all of them.
    let values = |intra: bool, with: &dyn Fn(usize) -> bool| {
        let p = plain(4, 4, 2, 1, intra);
        let (plane, body) = ones(&p, with);
        let (given, unpacked) = run_unpack(&p, &body);
        assert_eq!(given, answer(0, body.len() as u64));
        let value = if intra { 12 } else { 11 };
        let expected: Vec<i32> = plane.iter().map(|&number| value * number as i32).collect();
        assert_eq!(unpacked, expected);
        unpacked
    };
    for number in 0..7 {
        let [intra, other] = [true, false].map(|intra| values(intra, &|k| k == number));
        assert_ne!(intra, other, "subband {number}");
    }
    for intra in [true, false] {
        values(intra, &|_| true);
    }
}

/// A plane with a 1 at the first position of some subbands, and its body, all at index 12.
fn ones(p: &Parameters, with: &dyn Fn(usize) -> bool) -> (Vec<i64>, Vec<u8>) {
    let mut plane = vec![0; padded_area(p)];
    for (k, band) in subbands(p).iter().enumerate() {
        plane[band.top * padded_width(p) + band.left] = i64::from(with(k));
    }
    let options = SubbandOptions {
        quantiser: 12,
        ..SubbandOptions::default()
    };
    let body = encode_body(p, &plane, &EncodeOptions::uniform(p, options));
    (plane, body)
}

#[test]
fn each_subband_has_its_own_index() {
    // Values of 1 at the indices 12 to 18 of a component of depth 2: floor((factor + offset + 2) / 4).
    let mut body = Vec::new();
    for index in 12..=18 {
        body.extend(subband_bytes(index, &bits("0010 1 1 1")));
    }
    let firsts = |intra| {
        let p = plain(4, 4, 2, 1, intra);
        let (given, plane) = run_unpack(&p, &body);
        assert_eq!(given.status, 0);
        let first = |place: usize| plane[place];
        [0, 1, 4, 5, 2, 8, 10].map(first)
    };
    assert_eq!(firsts(true), [12, 14, 17, 20, 24, 29, 34]);
    assert_eq!(firsts(false), [11, 13, 16, 19, 22, 26, 31]);
}

#[test]
fn indices_at_which_no_magnitude_tells_the_rules_apart() {
    // A magnitude 4 larger has a value one factor larger by both rules, so four magnitudes decide for all.
    for index in 0..=115 {
        let factor = i128::from(quantiser_factor(index));
        for intra in [false, true] {
            for m in (1..=64).chain([1 << 20, (1 << 32) - 6]) {
                let value = |m| dequantise(m, index, intra);
                assert_eq!(value(m + 4), value(m) + factor);
            }
        }
    }
    let never = |index: &u32| (1..=4).all(|m| !tells(m, *index));
    let indices: Vec<u32> = (0..=115).filter(never).collect();
    assert_eq!(indices, [0, 1, 2, 4, 5, 8]);
    // At the lowest of the others only some magnitudes tell; from 11 on all do.
    let telling = |index| -> Vec<i64> { (1..=4).filter(|&m| tells(m, index)).collect() };
    assert_eq!(telling(3), [2]);
    assert_eq!(telling(6), [3, 4]);
    assert_eq!(telling(7), [3, 4]);
    assert_eq!(telling(9), [2, 3, 4]);
    assert_eq!(telling(10), [1, 2, 4]);
    for index in 11..=115 {
        assert_eq!(telling(index), [1, 2, 3, 4]);
    }
}

/// The largest magnitude of a sign whose value fits 32 bits.
fn largest_that_fits(index: u32, intra: bool, sign: i64) -> i64 {
    let fits = |m: i64| fits_32_bits(dequantise(sign * m, index, intra));
    // The values go up with the magnitude: the border is between `low`, which fits, and `high`.
    let (mut low, mut high) = (0, 1 << 32);
    while high - low > 1 {
        let middle = (low + high) / 2;
        if fits(middle) {
            low = middle;
        } else {
            high = middle;
        }
    }
    low
}

#[test]
fn small_magnitudes_that_fit_32_bits_by_one_rule_alone() {
    let mut pairs = Vec::new();
    for index in 0..=115 {
        for m in 1..16 {
            for number in [m, -m] {
                let [intra, other] =
                    [true, false].map(|intra| fits_32_bits(dequantise(number, index, intra)));
                assert!(other || !intra);
                if intra != other {
                    pairs.push((index, number));
                }
            }
        }
    }
    assert_eq!(pairs, [(109, 13), (109, -13)]);
    for (number, value) in [(13, 2_134_819_555), (-13, -2_134_819_555)] {
        let body = subband_bytes(109, &signed_numbers(&[number]));
        let unpacked = |intra| run_unpack(&plain(1, 1, 0, 0, intra), &body);
        assert_eq!(unpacked(true), (answer(9, 0), vec![0]));
        assert_eq!(unpacked(false), (answer(0, body.len() as u64), vec![value]));
    }
}

#[test]
fn indices_at_which_the_rules_differ_in_the_largest_magnitude_that_fits() {
    let mut differ = Vec::new();
    for index in 0..=115 {
        for sign in [1, -1] {
            let [intra, other] = [true, false].map(|intra| largest_that_fits(index, intra, sign));
            assert!(other == intra || other == intra + 1);
            if other != intra {
                differ.push((index, sign * other));
            }
        }
    }
    assert_eq!(
        differ,
        [
            (6, 780_903_144),
            (7, -660_764_199),
            (9, 452_101_820),
            (14, -190_887_435),
            (19, 79_536_431),
            (19, -79_536_431),
            (33, 7_052_491),
            (33, -7_052_491),
            (45, 881_742),
            (45, -881_742),
            (46, 741_470),
            (46, -741_470),
            (65, 27_554),
            (65, -27_554),
            (66, 23_170),
            (66, -23_170),
            (79, 2435),
            (79, -2435),
            (91, 304),
            (91, -304),
            (109, 13),
            (109, -13),
        ]
    );
}
