//! The slips named at the end of document 01, "Bench readings", and those that document 02, "Difference
//! pictures have another offset", invites: each test's result would change under its slip.

use crate::common::*;
use reference::transform::{filter_line, shift_down, FILTERS};
use reference::unpack::{
    dequantise, predict_from_three, quantiser_factor, quantiser_offset, scaled,
};

#[test]
fn rows_before_columns() {
    let p = plain(2, 2, 1, 3, true);
    let samples = run_synthesise(&p, &[10, 4, -2, 1]).2;
    assert_eq!(samples, [9, 12, 7, 11]);
    assert_ne!(samples, [9, 13, 6, 11]);
}

#[test]
fn division_toward_zero() {
    // In the shift: -3 / 2.
    assert_eq!(shift_down(-4), -2);
    // In prediction: -1 / 3 and -4 / 3.
    assert_eq!(predict_from_three(-1, -1, 0), -1);
    assert_eq!(predict_from_three(-1, -2, -2), -2);
    // In a step: -1 / 2.
    let mut line = [7, -2];
    filter_line(FILTERS[3].steps, &mut line);
    assert_eq!(line, [8, 6]);
    // In a whole unpacked level: residuals -1 0 / 0 0, predicted -1 -1 / -1 -1.
    let p = plain(2, 2, 0, 3, true);
    let body = subband_bytes(0, &bits("0011 1 1 1"));
    assert_eq!(run_unpack(&p, &body).1, [-1, -1, -1, -1]);
    // And -1 0 / 1 0, predicted -1 -1 / 0 -1: floor((0 - 1 - 1 + 1) / 3) = -1.
    let body = subband_bytes(0, &bits("0011 1 0010 1"));
    assert_eq!(run_unpack(&p, &body).1, [-1, -1, 0, -1]);
}

#[test]
fn missing_bits_read_as_zero() {
    let p = plain(8, 1, 0, 3, false);
    // After five zeros 001 is a 1, whose sign lies past the length: minus. Then zeros.
    let body = subband_bytes(0, &bits("11111 001"));
    assert_eq!(
        run_unpack(&p, &body),
        (answer(0, 2), vec![0, 0, 0, 0, 0, -1, 0, 0])
    );
    // A data bit past the length is 1: v = 3, so -2.
    let body = subband_bytes(0, &bits("1111111 0"));
    assert_eq!(
        run_unpack(&p, &body),
        (answer(0, 2), vec![0, 0, 0, 0, 0, 0, 0, -2])
    );
    // A flag past the length is 1: the second codeblock is left zero.
    let p = with_codeblocks(&p, 0, 2, 1);
    let body = subband_bytes(0, &bits("0 0010 1 1 1"));
    assert_eq!(
        run_unpack(&p, &body),
        (answer(0, 2), vec![1, 0, 0, 0, 0, 0, 0, 0])
    );
}

#[test]
fn missing_bits_are_those_past_the_length_not_the_bytes() {
    // Level 0 has one byte of data; the next subband's bytes follow and aren't read as its data.
    let p = plain(2, 2, 1, 3, false);
    let mut body = subband_bytes(0, &bits("0000 0001"));
    body.extend([0x80, 0x80, 0x80]);
    // Data bits 0 0 0 1 give v = 17; the end and the minus lie past the length.
    assert_eq!(run_unpack(&p, &body), (answer(0, 5), vec![-16, 0, 0, 0]));
}

#[test]
fn the_longest_value_may_end_past_the_length() {
    // Two zeros, then 31 data bits that end with the eighth byte: v = 2^31 + 1, and minus.
    let p = plain(3, 1, 0, 3, false);
    let body = subband_bytes(0, &bits(&("11".to_string() + &"00".repeat(30) + "01")));
    assert_eq!(run_unpack(&p, &body), (answer(0, 9), vec![0, 0, i32::MIN]));
}

#[test]
fn prediction_passing_over_a_flagged_block() {
    // Two codeblocks: 5, and a flagged one that is predicted all the same.
    let p = with_codeblocks(&plain(2, 1, 0, 3, true), 0, 2, 1);
    let body = subband_bytes(0, &bits("0 01001 0 1"));
    assert_eq!(run_unpack(&p, &body).1, [5, 5]);
    // Three in a column: 5, flagged, 1.
    let p = with_codeblocks(&plain(1, 3, 0, 3, true), 0, 1, 3);
    let body = subband_bytes(0, &bits("0 01001 0 1 0 0010"));
    assert_eq!(run_unpack(&p, &body).1, [5, 5, 6]);
    // Not intra, the flagged block stays zero.
    let p = with_codeblocks(&plain(1, 3, 0, 3, false), 0, 1, 3);
    assert_eq!(run_unpack(&p, &body).1, [5, 0, 1]);
}

#[test]
fn no_flag_read_for_an_empty_block() {
    // One column in three codeblocks: only the last has it, and three flags are read.
    let p = with_codeblocks(&plain(1, 1, 0, 3, false), 0, 3, 1);
    let body = subband_bytes(0, &bits("0 1 0 0010"));
    assert_eq!(run_unpack(&p, &body), (answer(0, 2), vec![1]));
    let body = subband_bytes(0, &bits("1 1 0 0010"));
    assert_eq!(run_unpack(&p, &body), (answer(0, 2), vec![1]));
    // Two by two codeblocks of one position: the last one has it.
    let p = with_codeblocks(&plain(1, 1, 0, 3, false), 0, 2, 2);
    let body = subband_bytes(0, &bits("0 0 0 0 0110"));
    assert_eq!(run_unpack(&p, &body), (answer(0, 2), vec![2]));
}

#[test]
fn one_edge_rule_for_odd_and_even_positions() {
    // Index 1 on [0, 8, 0, 16]. Step 1: A0 takes (8 + 8 + 2) >> 2 = 4, A2 (8 + 16 + 2) >> 2 = 6.
    // Step 2: A1 gets (-4 - 6 + 1) >> 1 = -5, A3 gets (-6 - 6 + 1) >> 1 = -6.
    let mut line = [0, 8, 0, 16];
    filter_line(FILTERS[1].steps, &mut line);
    assert_eq!(line, [-4, 3, -6, 10]);
    // Clamped to 0..N - 1 alike, A0 would read A0 (0) and A3 would read A3 (16).
    // Index 5 on a line shorter than its taps, where nearly every position is clamped: with the even
    // positions 0 step 1 adds floor(128 / 256) = 0, and step 2 takes from A0 and A2
    // A0: taps at -7 -5 -3 -1 1 are clamped to 1 and sum to 289; at 3 and beyond: -46 + 21 - 8 = -33.
    // A2: taps -8 21 -46 161 at 1 sum to 128, as do those at 3.
    let mut line = [0, 1000, 0, 2000];
    filter_line(FILTERS[5].steps, &mut line);
    let first = (289 * 1000 - 33 * 2000 + 128i128) >> 8;
    let second = (128 * 1000 + 128 * 2000 + 128i128) >> 8;
    assert_eq!(line, [-first, 1000, -second, 2000]);
}

#[test]
fn edge_rules_in_a_picture() {
    // Index 1, depth 1, one row of HL 8 16 on LL 0: columns change only by the row below.
    let p = plain(4, 2, 1, 1, false);
    let coefficients = [0, 0, 8, 16, 0, 0, 0, 0];
    let samples = run_synthesise(&p, &coefficients).2;
    // The row is [-4, 3, -6, 10] shifted down, twice.
    assert_eq!(samples, [-2, 2, -3, 5, -2, 2, -3, 5]);
}

/// The values of 1, 2, 3 and 4 at an index with an offset.
fn values_with_offset(index: u32, offset: i64) -> [i128; 4] {
    [1, 2, 3, 4].map(|m| scaled(m, quantiser_factor(index), offset))
}

#[test]
fn the_flag_inverted() {
    let body = subband_bytes(12, &bits("0010"));
    assert_eq!(run_unpack(&plain(1, 1, 0, 0, true), &body).1, [12]);
    assert_eq!(run_unpack(&plain(1, 1, 0, 0, false), &body).1, [11]);
    // In a picture with a prediction too: 1 and 1 are 12 and 24 in intra, 11 and 11 otherwise.
    let body = subband_bytes(12, &bits("0010 0010"));
    assert_eq!(run_unpack(&plain(2, 1, 0, 0, true), &body).1, [12, 24]);
    assert_eq!(run_unpack(&plain(2, 1, 0, 0, false), &body).1, [11, 11]);
}

#[test]
fn the_flag_looked_at_in_level_0_only() {
    // Every subband of depth 1 has a 1 at index 12. The intra offset in all levels above 0 would give 12
    // there in a picture that isn't intra, the other offset 11 in one that is.
    let body = subband_bytes(12, &bits("0010")).repeat(4);
    assert_eq!(run_unpack(&plain(2, 2, 1, 0, true), &body).1, [12; 4]);
    assert_eq!(run_unpack(&plain(2, 2, 1, 0, false), &body).1, [11; 4]);
    // Depth 2, the level above that: only its last subband has values.
    let zeros = [0x80; 6];
    let body = [&zeros[..], &subband_bytes(12, &bits("0010 0011 1 1"))].concat();
    let last = |intra| run_unpack(&plain(4, 4, 2, 0, intra), &body).1[10..12].to_vec();
    assert_eq!(last(true), [12, -12]);
    assert_eq!(last(false), [11, -11]);
}

#[test]
fn three_eighths_of_the_factor_without_the_4() {
    // Index 7: floor((39 + 4) / 8) = 5, and floor(39 / 8) = 4 would make 1 a 4.
    assert_eq!(quantiser_factor(7), 13);
    assert_eq!(quantiser_offset(7, false), 5);
    assert_eq!(values_with_offset(7, 4)[0], 4);
    assert_eq!(dequantise(1, 7, false), 5);
    let body = subband_bytes(7, &bits("0011"));
    assert_eq!(run_unpack(&plain(1, 1, 0, 0, false), &body).1, [-5]);
    // At index 12 both are 12, so the stated value doesn't show the slip; these indices do.
    let differ = |index: &u32| {
        let slip = values_with_offset(*index, 3 * quantiser_factor(*index) / 8);
        slip != values_with_offset(*index, quantiser_offset(*index, false))
    };
    let shown: Vec<u32> = (1..=115).filter(differ).collect();
    assert_eq!(shown[..8], [1, 3, 5, 7, 10, 14, 22, 23]);
    assert_eq!(shown.len(), 32);
}
