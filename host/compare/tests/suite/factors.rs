//! The cases show every factor of the quantiser, again and again: one that is one off would be found.

use crate::codes::{cases, codes, unpack_status};
use compare::{Case, Kind};
use std::collections::BTreeSet;
use vectors::factors::shows_factor;

/// The quantiser indices whose factors a body in order shows.
fn shown(case: &Case) -> BTreeSet<u64> {
    codes(&case.parameters, &case.bytes)
        .into_iter()
        .filter(|(index, codes)| {
            let mut numbers = codes.iter().map(|code| code.number);
            numbers.any(|number| shows_factor(number, *index as u32, case.parameters.intra))
        })
        .map(|(index, _)| index)
        .collect()
}

#[test]
fn accepted_bodies_show_every_factor() {
    let mut counts = [0; 116];
    for kind in [Kind::Valid, Kind::Runs, Kind::JustFits, Kind::Offsets] {
        for case in cases(kind).filter(|case| unpack_status(case) == 0) {
            for index in shown(case) {
                counts[index as usize] += 1;
            }
        }
    }
    // `./test` compares five times as many cases.
    assert!(counts.iter().all(|&count| count >= 5), "{counts:?}");
}
