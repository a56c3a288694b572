//! The worked whole case of document 01, "A recording".

use crate::common::*;
use reference::transform::{interleave, Grid, FILTERS};
use reference::{
    analyse, encode_body, quantise_plane, read_recording, write_recording, EncodeOptions, Entry,
    Rounding, SubbandOptions,
};

const BODY: [u8; 8] = [0x30, 0x16, 0x30, 0x18, 0x30, 0x70, 0x30, 0x20];

/// The whole file, byte by byte.
pub fn file() -> Vec<u8> {
    let mut file = vec![1, 0, 2, 0, 2, 1, 3, 1, 0];
    file.extend([0; 10]);
    file.extend([0, 0, 0, 0x1B, 0, 0, 0, 8]);
    file.extend(BODY);
    file
}

#[test]
fn output_text() {
    assert_eq!(read_recording(&file()), "entry 0: 2 x 2\n9 12\n7 11\n");
}

#[test]
fn written_recording_is_the_file() {
    let mut p = plain(2, 2, 1, 3, true);
    p.codeblocks_across = [0; 5];
    p.codeblocks_down = [0; 5];
    let entry = Entry {
        parameters: p,
        body: BODY.to_vec(),
    };
    assert_eq!(write_recording(&[entry]), file());
}

#[test]
fn coefficients_and_samples() {
    let p = plain(2, 2, 1, 3, true);
    assert_eq!(run_unpack(&p, &BODY), (answer(0, 8), vec![10, 4, -2, 1]));
    assert_eq!(
        run_synthesise(&p, &[10, 4, -2, 1]),
        (answer(0, 0), vec![0; 4], vec![9, 12, 7, 11])
    );
    assert_eq!(
        run_decode(&p, &BODY),
        (
            answer(0, 8),
            vec![10, 4, -2, 1],
            vec![0; 4],
            vec![9, 12, 7, 11]
        )
    );
}

#[test]
fn rows_before_columns_would_differ() {
    let one = |number| Grid {
        width: 1,
        height: 1,
        numbers: vec![number],
    };
    let steps = FILTERS[3].steps;
    let start = interleave(&one(10), &one(4), &one(-2), &one(1));
    let mut columns_first = start.clone();
    columns_first.filter_columns(steps);
    columns_first.filter_rows(steps);
    assert_eq!(columns_first.numbers, [9, 12, 7, 11]);
    let mut rows_first = start;
    rows_first.filter_rows(steps);
    rows_first.filter_columns(steps);
    assert_eq!(rows_first.numbers, [9, 13, 6, 11]);
}

#[test]
fn analysis_and_encoding_lead_back() {
    let p = plain(2, 2, 1, 3, true);
    let analysis = analyse(&p, &[9, 12, 7, 11]).unwrap();
    assert_eq!(analysis.coefficients, [10, 4, -2, 1]);
    assert!(analysis.fits);
    let quantised = quantise_plane(&p, &[10, 4, -2, 1], &[0; 4], Rounding::Floor);
    let options = EncodeOptions::uniform(&p, SubbandOptions::default());
    assert_eq!(encode_body(&p, &quantised, &options), BODY);
}
