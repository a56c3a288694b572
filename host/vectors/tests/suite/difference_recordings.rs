//! The recordings of difference pictures: the offset depends on the intra flag (document 02, "Difference
//! pictures have another offset").

use crate::common::{stated, stored_recordings, Number, Stored};
use reference::params::{padded_area, subbands};
use reference::recording::parse;
use reference::Entry;
use std::collections::{BTreeMap, BTreeSet};
use vectors::offsets::{indices_that_show_rule, shows_rule};
use vectors::runs::{run_decode, run_synthesise, run_unpack};

/// The recording of a name.
fn recording(name: &str) -> Stored {
    let mut recordings = stored_recordings("vectors/recordings");
    recordings.retain(|recording| recording.name == name);
    recordings.pop().unwrap()
}

/// The entries of the recording of a name.
fn entries(name: &str) -> Vec<Entry> {
    parse(&recording(name).file).unwrap()
}

/// The numbers other than 0 that an entry states.
fn numbers(entry: &Entry) -> Vec<Number> {
    let p = &entry.parameters;
    stated(p, &entry.body).unwrap().all(p)
}

/// An entry's samples, one subband of which has the values of the other rule. Prediction must add 0 to every
/// number.
fn samples_with_other_rule(entry: &Entry, subband: usize) -> Vec<i32> {
    let p = &entry.parameters;
    let (_, mut plane) = run_unpack(p, &entry.body);
    for number in numbers(entry) {
        let (right, other) = (number.value(p.intra), number.value(!p.intra));
        assert_eq!(i128::from(plane[number.entry]), right);
        if number.subband == subband {
            plane[number.entry] = other.try_into().unwrap();
        }
    }
    let (given, _, samples) = run_synthesise(p, &plane);
    assert_eq!(given.status, 0);
    samples
}

/// An entry's samples; it must be accepted.
fn samples(entry: &Entry) -> Vec<i32> {
    let (given, _, _, samples) = run_decode(&entry.parameters, &entry.body);
    assert_eq!(given.status, 0);
    samples
}

#[test]
fn the_stated_value() {
    assert_eq!(
        recording("difference-stated-value").text,
        "entry 0: 1 x 1\n12\nentry 1: 1 x 1\n11\nentry 2: 1 x 1\n-12\nentry 3: 1 x 1\n-11\n"
    );
    for (k, entry) in entries("difference-stated-value").iter().enumerate() {
        assert_eq!(entry.parameters.intra, k % 2 == 0);
        assert_eq!(numbers(entry)[0].index, 12);
        assert_eq!(numbers(entry)[0].number, [1, 1, -1, -1][k]);
    }
}

#[test]
fn every_index_by_both_rules() {
    let lists = [
        (false, entries("difference-every-index")),
        (true, entries("difference-every-index-as-intra")),
    ];
    let bodies =
        |list: &[Entry]| -> Vec<Vec<u8>> { list.iter().map(|entry| entry.body.clone()).collect() };
    assert_eq!(bodies(&lists[0].1), bodies(&lists[1].1));
    for (intra, list) in lists {
        let mut indices = Vec::new();
        for entry in &list {
            assert_eq!(entry.parameters.intra, intra);
            // Every subband has a number, and shows in the samples by which rule it was read, if any number can.
            for (subband, number) in numbers(entry).iter().enumerate() {
                assert_eq!(number.subband, subband);
                let shows = indices_that_show_rule().contains(&number.index);
                assert_eq!(shows_rule(number.number, number.index), shows);
                let differ = samples_with_other_rule(entry, subband) != samples(entry);
                assert_eq!(differ, shows, "index {} intra {intra}", number.index);
                indices.push(number.index);
            }
        }
        assert_eq!(indices, Vec::from_iter(0..=115));
    }
}

#[test]
fn another_index_in_each_subband() {
    let mut depths = Vec::new();
    for entry in entries("difference-index-for-each-subband") {
        let p = &entry.parameters;
        assert!(!p.intra);
        depths.push(p.depth);
        let stated = stated(p, &entry.body).unwrap();
        let indices: BTreeSet<u32> = stated.indices.iter().flatten().copied().collect();
        let count = subbands(p).len();
        assert_eq!(indices.len(), count);
        for subband in 0..count {
            let other = samples_with_other_rule(&entry, subband);
            assert_ne!(other, samples(&entry), "depth {} {subband}", p.depth);
        }
    }
    assert_eq!(depths, [2, 2, 3, 3, 4, 4]);
}

#[test]
fn the_same_body_as_intra_and_not() {
    let list = entries("difference-same-body-as-intra");
    let depths: Vec<u32> = list.iter().map(|entry| entry.parameters.depth).collect();
    assert_eq!(depths, [0, 0, 1, 1, 2, 2, 3, 3, 4, 4]);
    for pair in list.chunks(2) {
        let [intra, other] = [&pair[0], &pair[1]];
        assert!(intra.parameters.intra && !other.parameters.intra);
        assert_eq!(intra.body, other.body);
        assert_ne!(samples(intra), samples(other));
        // Every level has a number that shows the rule; so above level 0 not only prediction differs.
        let bands = subbands(&intra.parameters);
        let levels: BTreeSet<u32> = numbers(intra)
            .iter()
            .filter(|number| shows_rule(number.number, number.index))
            .map(|number| bands[number.subband].level)
            .collect();
        assert_eq!(
            levels,
            BTreeSet::from_iter(0..=intra.parameters.depth),
            "depth {}",
            intra.parameters.depth
        );
    }
}

#[test]
fn refusal_9_in_intra_alone() {
    let name = "difference-9-in-intra-alone";
    let mut first_lines = Vec::new();
    for line in recording(name).text.lines() {
        first_lines.extend(line.strip_prefix("entry ").map(str::to_string));
    }
    let list = entries(name);
    let mut expected = Vec::new();
    for (k, pair) in list.chunks(2).enumerate() {
        assert!(pair[0].parameters.intra && !pair[1].parameters.intra);
        assert_eq!(pair[0].body, pair[1].body);
        assert_eq!(numbers(&pair[0])[0].subband, k % 7);
        expected.push(format!("{}: refused 9 place {}", 2 * k, k % 7));
        expected.push(format!("{}: 4 x 4", 2 * k + 1));
    }
    assert_eq!(first_lines, expected);
    let found: Vec<(u32, i64)> = list
        .iter()
        .step_by(2)
        .map(|entry| (numbers(entry)[0].index, numbers(entry)[0].number))
        .collect();
    assert_eq!(
        found,
        [
            (6, 780_903_144),
            (7, -660_764_199),
            (9, 452_101_820),
            (14, -190_887_435),
            (33, 7_052_491),
            (91, -304),
            (109, 13),
            (109, -13),
        ]
    );
}

/// The subbands of an accepted entry that have numbers which show the rule; none where it is refused.
fn showing_rule(entry: &Entry) -> BTreeSet<usize> {
    let p = &entry.parameters;
    let in_range = |size| (1..=4096).contains(&size);
    if !in_range(p.width) || !in_range(p.height) || p.depth > 4 || padded_area(p) > 16_384 {
        return BTreeSet::new();
    }
    if run_decode(p, &entry.body).0.status != 0 {
        return BTreeSet::new();
    }
    let mut numbers = numbers(entry);
    numbers.retain(|number| shows_rule(number.number, number.index));
    numbers.iter().map(|number| number.subband).collect()
}

#[test]
fn every_subband_of_every_depth_shows_the_rule() {
    let mut counts: BTreeMap<(u32, bool, usize), usize> = BTreeMap::new();
    for recording in stored_recordings("vectors/recordings") {
        for entry in parse(&recording.file).unwrap_or_default() {
            let p = &entry.parameters;
            for subband in showing_rule(&entry) {
                *counts.entry((p.depth, p.intra, subband)).or_default() += 1;
            }
        }
    }
    for depth in 0..=4 {
        for intra in [false, true] {
            for subband in 0..=3 * depth as usize {
                let kind = (depth, intra, subband);
                let count = counts.get(&kind).copied().unwrap_or_default();
                assert!(count >= 3, "{kind:?}: {count} of at least 3");
            }
        }
    }
}
