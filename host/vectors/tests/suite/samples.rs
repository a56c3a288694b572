//! The recordings in `samples`.

use crate::common::*;
use reference::recording::parse;
use reference::{read_recording, write_recording};
use vectors::runs::{run_decode, run_synthesise};
use vectors::samples::{
    difference_of_frames, frame_parameters, pad_edge_parameters, pad_edge_picture, three_pictures,
    two_frames, CUT_LATE, PADDED_TO,
};

/// The bytes that document 01 gives for the whole case.
#[rustfmt::skip]
const WHOLE_CASE: [u8; 35] = [
    0x01, 0x00, 0x02, 0x00, 0x02, 0x01, 0x03, 0x01, 0x00,
    0, 0, 0, 0, 0, 0, 0, 0, 0, 0,
    0x00, 0x00, 0x00, 0x1B, 0x00, 0x00, 0x00, 0x08,
    0x30, 0x16, 0x30, 0x18, 0x30, 0x70, 0x30, 0x20,
];

#[test]
fn the_command_writes_the_stored_files() {
    assert_writes_folder("samples", "samples");
}

/// The sample of a name; its text must be what it decodes to.
fn sample(name: &str) -> Stored {
    let sample = stored_recordings("samples")
        .into_iter()
        .find(|sample| sample.name == name)
        .unwrap();
    assert_eq!(read_recording(&sample.file), sample.text);
    sample
}

#[test]
fn the_whole_case() {
    let sample = sample("whole-case");
    assert_eq!(sample.file, WHOLE_CASE);
    assert_eq!(sample.text, "entry 0: 2 x 2\n9 12\n7 11\n");
}

#[test]
fn the_edge_of_a_pad() {
    let sample = sample("pad-edge");
    let entries = parse(&sample.file).unwrap();
    assert_eq!(entries.len(), 1);
    let p = &entries[0].parameters;
    assert_eq!(*p, pad_edge_parameters());
    assert_eq!((p.width, p.height, p.depth, p.wavelet), (64, 48, 3, 1));
    assert!(p.intra);
    let (given, _, _, samples) = run_decode(p, &entries[0].body);
    assert_eq!(given, answer(0, entries[0].body.len() as u64));
    // Coding changes a sample by a few steps only, and the edge stays sharp in every row.
    let picture = pad_edge_picture();
    assert_eq!(samples.len(), picture.len());
    let mut changed = 0;
    for (&sample, &before) in samples.iter().zip(&picture) {
        assert!((i64::from(sample) - before).abs() <= 12);
        changed += usize::from(i64::from(sample) != before);
    }
    assert!(changed > 0);
    for row in samples.chunks(64) {
        let largest = row.windows(2).map(|pair| pair[1] - pair[0]).max();
        assert!(largest >= Some(60), "{largest:?}");
    }
}

#[test]
fn a_body_cut_at_the_wrong_entry() {
    let sample = sample("cut-at-the-wrong-entry");
    assert_eq!(
        sample.text,
        "entry 0: refused 12 place 8\nentry 1: refused 6 place 3\nentry 2: 2 x 2\n10 8\n3 2\n"
    );
    // The bytes are those of three pictures; only the table says otherwise.
    let whole = write_recording(&three_pictures());
    let table = 1 + 3 * 26;
    assert_eq!(sample.file[table..], whole[table..]);
    let entries = parse(&sample.file).unwrap();
    let lengths: Vec<usize> = entries.iter().map(|entry| entry.body.len()).collect();
    assert_eq!(lengths, [8 + CUT_LATE, 8 - CUT_LATE, 8]);
    assert_eq!(
        read_recording(&whole),
        "entry 0: 2 x 2\n9 12\n7 11\nentry 1: 2 x 2\n6 9\n5 12\nentry 2: 2 x 2\n10 8\n3 2\n"
    );
}

#[test]
fn a_body_padded_by_old_firmware() {
    let sample = sample("padded-by-old-firmware");
    assert_eq!(
        sample.text,
        "entry 0: refused 12 place 8\nentry 1: 4 x 3\n10 11 12 30\n10 12 30 31\n11 30 31 31\n"
    );
    let entries = parse(&sample.file).unwrap();
    for entry in &entries {
        assert_eq!(entry.body.len(), PADDED_TO);
    }
    assert_eq!(entries[0].body[8..], [0; 8]);
}

/// The largest distance between samples and what they should be.
fn error(samples: &[i32], expected: &[i64]) -> i64 {
    assert_eq!(samples.len(), expected.len());
    let distances = samples.iter().zip(expected);
    distances
        .map(|(&sample, expected)| (i64::from(sample) - expected).abs())
        .max()
        .unwrap()
}

#[test]
fn a_frame_and_a_difference() {
    let sample = sample("frame-and-difference");
    let entries = parse(&sample.file).unwrap();
    let parameters: Vec<_> = entries.iter().map(|entry| &entry.parameters).collect();
    assert_eq!(
        parameters,
        [&frame_parameters(true), &frame_parameters(false)]
    );
    let samples = |k: usize| run_decode(parameters[k], &entries[k].body).3;
    let [first, second] = two_frames();
    assert!(error(&samples(0), &first) <= 2);
    assert!(error(&samples(1), &difference_of_frames()) <= 4);
    let sum = samples(0).into_iter().zip(samples(1)).map(|(a, b)| a + b);
    assert!(error(&Vec::from_iter(sum), &second) <= 5);
    // The difference has nothing but the part of the edge that moved.
    for (place, sample) in samples(1).into_iter().enumerate() {
        let moved = (place / 16 >= 4) && place % 16 == 7;
        assert_eq!(sample < -90, moved);
        assert!(moved || sample.abs() <= 4);
    }
}

#[test]
fn the_edge_of_the_difference_would_be_too_strong_by_the_other_rule() {
    let entry = &parse(&sample("frame-and-difference").file).unwrap()[1];
    let p = &entry.parameters;
    let numbers = stated(p, &entry.body).unwrap().all(p);
    let edge = |intra: bool| -> Vec<i32> {
        let mut plane = vec![0; 16 * 8];
        for number in &numbers {
            plane[number.entry] = number.value(intra).try_into().unwrap();
        }
        let (_, _, samples) = run_synthesise(p, &plane);
        samples.chunks(16).skip(4).map(|row| row[7]).collect()
    };
    assert_eq!(edge(false), [-102, -100, -99, -99]);
    assert_eq!(edge(true), [-104, -102, -100, -100]);
}
