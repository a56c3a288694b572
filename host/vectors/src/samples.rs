//! The recordings in `samples/`, for a first look at the program.

use crate::pieces::{plain, with_codeblocks};
use crate::random::Random;
use crate::recording_vectors::{entry_of, picture_entry, Recording};
use reference::encode::{encode_body, EncodeOptions, SubbandOptions};
use reference::params::{subbands, Parameters, Subband};
use reference::recording::Entry;

/// The samples: document 01's whole case, the edge of a pad, the two faults of document 02, "Left-over bytes are
/// a fault", and two frames as the second camera of document 02, "Difference pictures have another offset",
/// stores them.
pub fn samples() -> Vec<Recording> {
    vec![
        Recording::new("whole-case", &[whole_case()]),
        Recording::new("pad-edge", &[pad_edge()]),
        Recording::new("cut-at-the-wrong-entry", &cut_at_the_wrong_entry()),
        Recording::new("padded-by-old-firmware", &padded_by_old_firmware()),
        Recording::new("frame-and-difference", &frame_and_difference()),
    ]
}

/// The entry of the whole case, every count the default (document 01, "A recording").
pub fn whole_case() -> Entry {
    let p = plain(2, 2, 1, 3, true);
    let options = EncodeOptions::uniform(&p, SubbandOptions::default());
    // The coefficients are 10 4 / -2 1, and at the corner prediction adds 0.
    let body = encode_body(&p, &[10, 4, -2, 1], &options);
    entry_of(&with_codeblocks(&p, 0, 0), body)
}

/// Three small pictures as they should be stored: the whole case, and two of the same form.
pub fn three_pictures() -> [Entry; 3] {
    let p = plain(2, 2, 1, 3, true);
    let options = EncodeOptions::uniform(&p, SubbandOptions::default());
    [
        whole_case(),
        picture_entry(&p, &[6, 9, 5, 12], &options),
        picture_entry(&p, &[10, 8, 3, 2], &options),
    ]
}

/// The bytes that a wrong cut takes from the second body: its first subband.
pub const CUT_LATE: usize = 2;

/// The three pictures, but the first body goes on into the second.
fn cut_at_the_wrong_entry() -> [Entry; 3] {
    let mut entries = three_pictures();
    let cut: Vec<u8> = entries[1].body.drain(..CUT_LATE).collect();
    entries[0].body.extend(cut);
    entries
}

/// What the old firmware fills up a body to a multiple of, with zeros.
pub const PADDED_TO: usize = 16;

/// The whole case in a body that the old firmware filled up, and a small edge whose body it left as it was.
fn padded_by_old_firmware() -> [Entry; 2] {
    let p = plain(4, 3, 1, 3, true);
    let options = EncodeOptions::uniform(&p, SubbandOptions::default());
    let edge = [10, 11, 12, 30, 10, 12, 30, 31, 11, 30, 31, 31];
    let mut entries = [whole_case(), picture_entry(&p, &edge, &options)];
    for entry in &mut entries {
        let bytes = entry.body.len().next_multiple_of(PADDED_TO);
        entry.body.resize(bytes, 0);
    }
    entries
}

/// The parameters of the picture of a pad.
pub fn pad_edge_parameters() -> Parameters {
    Parameters {
        codeblocks_across: [1, 2, 4, 8, 1],
        codeblocks_down: [1, 1, 3, 6, 1],
        ..plain(64, 48, 3, 1, true)
    }
}

/// The picture of a pad before it is coded: a bright, even part that is stiff beside a dark part that
/// sags, with a sharp edge between them that leans a little; and a grain of a step or two.
pub fn pad_edge_picture() -> Vec<i64> {
    let p = pad_edge_parameters();
    let mut random = Random::new(32);
    let mut samples = Vec::new();
    for y in 0..i64::from(p.height) {
        for x in 0..i64::from(p.width) {
            let grain = random.range(-1, 1);
            let stiff = 8 * x >= 8 * 35 + y;
            samples.push(if stiff {
                74 - (x - 40) / 6 + grain
            } else {
                (x - 16) * (x - 16) / 24 + (y - 24) * (y - 24) / 32 - 58 + grain
            });
        }
    }
    samples
}

/// The entry of that picture: coarser steps for finer levels.
fn pad_edge() -> Entry {
    let p = pad_edge_parameters();
    let options = options_by_level(&p, &[0, 4, 8, 10]);
    picture_entry(&p, &pad_edge_picture(), &options)
}

/// The quantiser index of each level, in every subband of it.
fn options_by_level(p: &Parameters, indices: &[u64]) -> EncodeOptions {
    let options = |band: &Subband| SubbandOptions {
        quantiser: indices[band.level as usize],
        ..SubbandOptions::default()
    };
    EncodeOptions {
        subbands: subbands(p).iter().map(options).collect(),
    }
}

/// The parameters of a frame of the second camera, or of the difference of two.
pub fn frame_parameters(intra: bool) -> Parameters {
    plain(16, 8, 2, 1, intra)
}

/// Two frames before they are coded: a dark part on the left and a bright one on the right, with a grain of a
/// step or none. In the second the lower half of the edge between them is a column further right.
pub fn two_frames() -> [Vec<i64>; 2] {
    let p = frame_parameters(true);
    let mut random = Random::new(35);
    [0, 1].map(|moved| {
        let mut samples = Vec::new();
        for y in 0..i64::from(p.height) {
            for x in 0..i64::from(p.width) {
                let edge = if y < 4 { 7 } else { 7 + moved };
                let grain = random.range(0, 1);
                samples.push(grain + if x < edge { -40 } else { 60 });
            }
        }
        samples
    })
}

/// The second frame less the first.
pub fn difference_of_frames() -> Vec<i64> {
    let [first, second] = two_frames();
    second.iter().zip(&first).map(|(b, a)| b - a).collect()
}

/// The first frame, which is intra, and the difference to the second, which isn't and has coarser steps.
fn frame_and_difference() -> [Entry; 2] {
    let (intra, other) = (frame_parameters(true), frame_parameters(false));
    [
        picture_entry(
            &intra,
            &two_frames()[0],
            &options_by_level(&intra, &[0, 2, 4]),
        ),
        picture_entry(
            &other,
            &difference_of_frames(),
            &options_by_level(&other, &[8, 14, 16]),
        ),
    ]
}
