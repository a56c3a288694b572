//! Stored recordings of difference pictures, which aren't intra and so have another offset (document 02,
//! "Difference pictures have another offset"), beside intra entries of the same bodies.

use crate::offsets::{indices_that_show_rule, largest_that_fits, least_that_shows_rule};
use crate::pieces::{bits, plain, random_options, subband_bytes, with_random_codeblocks};
use crate::random::Random;
use crate::recording_vectors::{entries_of_every_index, entry_of, picture_entry, Recording};
use reference::encode::{encode_body, EncodeOptions, SubbandOptions};
use reference::params::{padded_area, padded_width, subbands, Parameters};
use reference::recording::Entry;

/// Every recording of this module.
pub fn difference_recordings() -> Vec<Recording> {
    let mut random = Random::new(34);
    vec![
        Recording::new("difference-stated-value", &stated_value()),
        Recording::new("difference-every-index", &every_index(false)),
        Recording::new("difference-every-index-as-intra", &every_index(true)),
        Recording::new(
            "difference-index-for-each-subband",
            &index_for_each_subband(&mut random),
        ),
        Recording::new("difference-same-body-as-intra", &same_body(&mut random)),
        Recording::new("difference-9-in-intra-alone", &refused_in_intra_alone()),
    ]
}

/// The same body in an intra entry and in one that isn't.
fn both(p: &Parameters, body: &[u8]) -> [Entry; 2] {
    [true, false].map(|intra| entry_of(&Parameters { intra, ..p.clone() }, body.to_vec()))
}

/// The magnitude 1 at index 12, of either sign, intra and not.
fn stated_value() -> Vec<Entry> {
    ["0010", "0011"]
        .map(|text| both(&plain(1, 1, 0, 3, true), &subband_bytes(12, &bits(text))))
        .concat()
}

/// Every quantiser index. Each subband has the least magnitude that shows the rule, or 1, at its first position;
/// level 0 is a single value, to which prediction adds 0.
fn every_index(intra: bool) -> Vec<Entry> {
    entries_of_every_index(1, intra, |_, index| {
        (0, 0, least_that_shows_rule(index).unwrap_or(1))
    })
}

/// Difference pictures of the depths 2 to 4, with another index in each subband, in one codeblock and in
/// several.
fn index_for_each_subband(random: &mut Random) -> Vec<Entry> {
    let indices = indices_that_show_rule();
    let mut entries = Vec::new();
    for (k, depth) in (0..).zip([2, 2, 3, 3, 4, 4]) {
        let mut p = plain(24, 17, depth, k % 7, false);
        if k % 2 == 1 {
            p = with_random_codeblocks(random, &p);
        }
        let samples = difference_samples(random, &p);
        let mut options = EncodeOptions::uniform(&p, SubbandOptions::default());
        for (number, options) in options.subbands.iter_mut().enumerate() {
            // 5 and 13 have no common factor, so no index comes twice. The lowest ones, which few numbers show,
            // are those of subbands with many values.
            options.quantiser = u64::from(indices[(5 * number + 6) % 13]);
        }
        entries.push(picture_entry(&p, &samples, &options));
    }
    entries
}

/// The samples of a difference picture: an edge that moved by two columns, and much noise.
fn difference_samples(random: &mut Random, p: &Parameters) -> Vec<i64> {
    let mut samples = Vec::new();
    for y in 0..i64::from(p.height) {
        for x in 0..i64::from(p.width) {
            let edge = i64::from((0..2).contains(&(x - 9 - y / 3)));
            samples.push(100 * edge + random.range(-60, 60));
        }
    }
    samples
}

/// Bodies of every depth, each in an intra entry and in one that isn't. From index 11 on every number shows the
/// rule.
fn same_body(random: &mut Random) -> Vec<Entry> {
    let mut entries = Vec::new();
    for depth in 0..=4 {
        let p = with_random_codeblocks(random, &plain(9, 7, depth, depth + 1, true));
        let plane: Vec<i64> = (0..padded_area(&p)).map(|_| random.range(-4, 4)).collect();
        let mut options = EncodeOptions::uniform(&p, SubbandOptions::default());
        for options in &mut options.subbands {
            *options = SubbandOptions {
                quantiser: random.range(11, 40) as u64,
                ..random_options(random)
            };
        }
        entries.extend(both(&p, &encode_body(&p, &plane, &options)));
    }
    entries
}

/// Numbers that fit 32 bits only where the picture isn't intra, each in an intra entry and in one that isn't: one
/// in each subband of a depth of 2.
fn refused_in_intra_alone() -> Vec<Entry> {
    let p = plain(4, 4, 2, 3, true);
    let bands = subbands(&p);
    let borders = [
        (6, false),
        (7, true),
        (9, false),
        (14, true),
        (33, false),
        (91, true),
        (109, false),
        (109, true),
    ];
    let mut entries = Vec::new();
    for (k, (index, negative)) in borders.into_iter().enumerate() {
        let most = largest_that_fits(index, false, negative);
        let mut plane = vec![0; padded_area(&p)];
        let band = &bands[k % bands.len()];
        plane[band.top * padded_width(&p) + band.left] = if negative { -most } else { most };
        let options = SubbandOptions {
            quantiser: u64::from(index),
            ..SubbandOptions::default()
        };
        let options = EncodeOptions::uniform(&p, options);
        entries.extend(both(&p, &encode_body(&p, &plane, &options)));
    }
    entries
}
