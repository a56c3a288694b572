//! The cases meet the borders of a fast reader and of a transform in 32 bits, again and again.

use crate::codes::{cases, codes, first_cases, unpack_status};
use compare::{safe_size, Kind, PlaneKind};
use std::collections::{BTreeMap, BTreeSet};

#[test]
fn runs_of_zeros_cross_the_ends_of_rows() {
    let mut crossed = BTreeSet::new();
    let mut before_codes = BTreeSet::new();
    for case in cases(Kind::Runs) {
        for (_, codes) in codes(&case.parameters, &case.bytes) {
            let mut run = 0;
            let mut room = 0;
            for code in codes {
                if code.number == 0 {
                    if run == 0 {
                        room = code.row_left();
                    }
                    run += 1;
                    if run == room + 1 {
                        crossed.insert(room);
                    }
                } else {
                    before_codes.insert((run, code.bits));
                    run = 0;
                }
            }
        }
    }
    // So many values before the end of the row.
    assert!((1..=40).all(|room| crossed.contains(&room)), "{crossed:?}");
    for bits in [4, 6, 8, 10] {
        assert!((0..=33).all(|run| before_codes.contains(&(run, bits))));
    }
}

#[test]
fn codes_of_every_length_stand_at_every_bit_of_a_byte() {
    let mut inside = BTreeMap::new();
    for case in cases(Kind::Codes) {
        for (_, codes) in codes(&case.parameters, &case.bytes) {
            for code in codes.iter().filter(|code| code.at + code.bits <= code.end) {
                *inside.entry((code.bits, code.at % 8)).or_insert(0) += 1;
            }
        }
    }
    for bits in (4..=64).step_by(2) {
        for at in 0..8 {
            assert!(inside.get(&(bits, at)) > Some(&5), "{bits} bits at {at}");
        }
    }
}

#[test]
fn data_ends_behind_and_inside_its_last_code() {
    let mut bytes_behind = BTreeSet::new();
    let mut bits_inside = BTreeSet::new();
    for case in cases(Kind::Ends) {
        assert!(matches!(unpack_status(case), 0 | 9));
        for (_, codes) in codes(&case.parameters, &case.bytes) {
            let Some(last) = codes.last() else {
                continue;
            };
            let next = last.at + last.bits;
            if next <= last.end {
                bytes_behind.insert((last.end - next) / 8);
            } else {
                bits_inside.insert(last.end - last.at);
            }
        }
    }
    assert_eq!(Vec::from_iter(bytes_behind), Vec::from_iter(0..=10));
    assert!(
        (1..=40).all(|bits| bits_inside.contains(&bits)),
        "{bits_inside:?}"
    );
}

#[test]
fn numbers_that_just_fit_are_accepted_and_others_refused() {
    let mut answers = BTreeMap::new();
    for kind in [Kind::JustFits, Kind::LookedUp] {
        for case in cases(kind) {
            let key = (kind, case.parameters.intra, unpack_status(case));
            *answers.entry(key).or_insert(0) += 1;
        }
    }
    // Accepted and refused 9, whether intra or not.
    assert_eq!(answers.len(), 8);
    for ((kind, _, _), count) in &answers {
        // Most of those about a lookup have a number that is too large.
        let least = if *kind == Kind::LookedUp { 50 } else { 300 };
        assert!(*count > least, "{answers:?}");
    }
}

#[test]
fn planes_have_every_size_at_which_a_path_may_end() {
    let mut kinds = BTreeSet::new();
    let mut seen = BTreeSet::new();
    let mut brink = BTreeMap::new();
    for case in first_cases() {
        let p = &case.parameters;
        kinds.insert(case.plane_kind);
        if matches!(case.kind, Kind::Parameters | Kind::Planes) {
            continue;
        }
        if case.plane_kind == PlaneKind::Brink {
            let mut planes = [vec![0; case.work_length], vec![0; case.samples_length]];
            let [work, samples] = &mut planes;
            let answer = reference::synthesise(p, &case.coefficients, work, samples);
            *brink.entry((p.wavelet, answer.status)).or_insert(0) += 1;
        }
        if case.plane_kind == PlaneKind::Sized {
            let size = |&number: &i32| i64::from(number.max(!number));
            let largest = case.coefficients.iter().map(size).max().unwrap();
            let powers = (10..=31).map(|power| 1 << power);
            for (k, bound) in powers.chain([safe_size(p.wavelet)]).enumerate() {
                if (largest - bound).abs() <= 4 {
                    seen.insert((p.wavelet, k, largest >= bound));
                }
            }
        }
    }
    assert_eq!(kinds.len(), 6);
    // Below each bound and above it, but nothing is above 2^31.
    assert_eq!(seen.len(), 7 * (2 * 23 - 1));
    // Accepted and refused, with each wavelet.
    assert_eq!(brink.len(), 14);
    assert!(brink.values().all(|&count| count > 100), "{brink:?}");
}
