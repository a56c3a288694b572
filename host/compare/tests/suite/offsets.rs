//! The cases show the rule of the offset, that it is another in pictures that are not intra, again and again:
//! by values, at every index and level, and by refusals. And small numbers stand about the border of a lookup.

use crate::codes::{bands_read, cases, dequantised, unpack_answer, unpack_status};
use crate::wrong_decoders::inverted;
use compare::{Buffers, Case, Job, Kind};
use reference::params::{subbands, COEFFICIENT_RANGE};
use reference::Answer;
use std::collections::{BTreeMap, BTreeSet};
use vectors::offsets::{
    indices_that_show_rule, indices_with_two_borders, largest_that_fits, shows_rule,
};

/// The quantiser indices at which a body in order shows the rule, each with whether it does so in level 0.
fn indices_shown(case: &Case) -> BTreeSet<(u32, bool)> {
    let read = bands_read(&case.parameters, &case.bytes).into_iter();
    read.map(|read| (read.index as u32, read))
        .filter(|(index, read)| {
            read.codes
                .iter()
                .any(|code| shows_rule(code.number, *index))
        })
        .map(|(index, read)| (index, read.band.level == 0))
        .collect()
}

#[test]
fn accepted_bodies_show_the_rule_at_every_index_and_level() {
    const KINDS: [Kind; 6] = [
        Kind::Valid,
        Kind::Runs,
        Kind::JustFits,
        Kind::LookedUp,
        Kind::Offsets,
        Kind::Data,
    ];
    let mut counts = BTreeMap::new();
    for case in KINDS.into_iter().flat_map(cases) {
        if unpack_status(case) == 0 {
            for (index, in_level_0) in indices_shown(case) {
                let key = (index, case.parameters.intra, in_level_0);
                *counts.entry(key).or_insert(0) += 1;
            }
        }
    }
    for index in indices_that_show_rule() {
        for (intra, in_level_0) in [(false, false), (false, true), (true, false), (true, true)] {
            let count = counts.get(&(index, intra, in_level_0));
            // `./test` compares five times as many cases.
            let least = if in_level_0 { 5 } else { 50 };
            let key = format!("index {index}, intra {intra}, level 0 {in_level_0}");
            assert!(count >= Some(&least), "{key}: {count:?}");
        }
    }
}

/// What unpack answers with the offset of the other kind of picture.
fn inverted_answer(case: &Case) -> Answer {
    let buffers = Buffers {
        bytes: &case.bytes,
        coefficients: &mut vec![0; case.coefficients.len()],
        work: &mut [],
        samples: &mut [],
    };
    inverted(&case.parameters, Job::Unpack, buffers)
}

/// The quantiser index of the subband that is refused with one of the offsets and not with the other.
fn index_of_shown_refusal(case: &Case) -> Option<u32> {
    let answers = [unpack_answer(case), inverted_answer(case)];
    if answers[0] == answers[1] {
        return None;
    }
    let refusals = answers.iter().filter(|a| a.status == COEFFICIENT_RANGE);
    let place = refusals.map(|answer| answer.place).min()?;
    let band = subbands(&case.parameters)[place as usize];
    let mut read = bands_read(&case.parameters, &case.bytes).into_iter();
    read.find(|read| read.band == band)
        .map(|read| read.index as u32)
}

#[test]
fn refusals_show_the_rule() {
    let mut counts = BTreeMap::new();
    for case in cases(Kind::JustFits) {
        if let Some(index) = index_of_shown_refusal(case) {
            let key = (index, case.parameters.intra);
            *counts.entry(key).or_insert(0) += 1;
        }
    }
    // One that is not intra has a refusal too many with the other offset, one that is intra lacks one.
    for index in indices_with_two_borders() {
        for intra in [false, true] {
            let count = counts.get(&(index, intra));
            assert!(count >= Some(&5), "{index}, {intra}: {count:?}");
        }
    }
}

/// How many cases of a kind have numbers of a size dequantised, by index, whether intra, and size.
fn dequantised_sizes(kind: Kind) -> BTreeMap<(u32, bool, i64), usize> {
    let mut counts = BTreeMap::new();
    for case in cases(kind) {
        let numbers = dequantised(case).into_iter();
        let sizes: BTreeSet<_> = numbers.map(|(index, n)| (index, n.abs())).collect();
        for (index, size) in sizes {
            let key = (index, case.parameters.intra, size);
            *counts.entry(key).or_insert(0) += 1;
        }
    }
    counts
}

#[test]
fn the_largest_that_fit_either_kind_of_picture_and_the_next_are_dequantised() {
    let counts = dequantised_sizes(Kind::JustFits);
    for index in indices_with_two_borders().into_iter().chain(104..=115) {
        let largest = |intra| largest_that_fits(index, intra, false);
        for size in largest(true)..=largest(false) + 1 {
            for key in [(index, false, size), (index, true, size)] {
                let count = counts.get(&key);
                assert!(count >= Some(&3), "{key:?}: {count:?}");
            }
        }
    }
}

/// The values of sizes up to 14 are looked up where all fit, with indices up to 108.
#[test]
fn small_numbers_stand_about_the_border_of_a_lookup() {
    let counts = dequantised_sizes(Kind::LookedUp);
    for index in 106..=115 {
        for size in 12..=16 {
            for key in [(index, false, size), (index, true, size)] {
                let count = counts.get(&key);
                assert!(count >= Some(&5), "{key:?}: {count:?}");
            }
        }
    }
}
