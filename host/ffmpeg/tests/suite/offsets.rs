//! Indices at which the offset of a component that is not intra shows.

use ffmpeg::eligibility::expected_samples;
use ffmpeg::offsets::told_apart;
use ffmpeg::proved;
use ffmpeg::setting::Setting;
use ffmpeg::stream::BitDepth;
use reference::encode::{encode_body, EncodeOptions, SubbandOptions};
use reference::params::padded_area;
use std::collections::BTreeSet;
use vectors::pieces::plain;

/// The indices at which a component shows its offset, but for those known: its first four subbands have
/// these indices, and each starts with that number.
fn shown(indices: [u64; 4], number: i64, known: &[u32]) -> Vec<u32> {
    let p = plain(8, 8, 1, 3, false);
    let mut plane = vec![0; padded_area(&p)];
    for first in [0, 4, 32, 36] {
        plane[first] = number;
    }
    let subbands = indices.map(|quantiser| SubbandOptions {
        quantiser,
        ..SubbandOptions::default()
    });
    let options = EncodeOptions {
        subbands: subbands.to_vec(),
    };
    let body = encode_body(&p, &plane, &options);
    let setting = Setting {
        bit_depth: BitDepth::Twelve,
        simd: false,
    };
    let decoded = proved::decode(&p, &body).expect("an accepted body");
    let expected = expected_samples(&p, setting, decoded).expect("it is eligible");
    let known = BTreeSet::from_iter(known.iter().copied());
    told_apart(&p, setting, &body, &expected, &known)
}

#[test]
fn indices_whose_values_are_others_are_told_apart() {
    assert_eq!(shown([12, 0, 8, 11], 1, &[]), [12, 11]);
    assert_eq!(shown([12, 0, 8, 11], -1, &[12]), [11]);
    // A 1 of index 9 is the same with either offset, a 2 is not.
    assert_eq!(shown([9, 9, 4, 5], 1, &[]), []);
    assert_eq!(shown([9, 4, 5, 3], 2, &[]), [9, 3]);
    assert_eq!(shown([3, 3, 3, 3], 0, &[]), []);
}

#[test]
fn what_is_clipped_tells_nothing() {
    assert_eq!(shown([0, 60, 0, 0], 1, &[]), []);
}
