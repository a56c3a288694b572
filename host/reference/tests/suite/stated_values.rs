//! Every row of document 01, "Bench readings", and the rest the program runs there.

use crate::common::*;
use reference::codes::{BitReader, BitWriter, PastEnd};
use reference::transform::{filter_line, shift_down, FILTERS};
use reference::unpack::{dequantise, predict_from_three, quantiser_factor, quantiser_offset};

/// The number read from a text of bits, no bit of which may be left over.
fn read_number(text: &str) -> u64 {
    let bytes = bits(text);
    BitReader::new(&bytes, PastEnd::Missing).number().unwrap()
}

/// A line after the synthesis filter of an index.
fn filtered(index: usize, line: [i128; 2]) -> [i128; 2] {
    let mut line = line;
    filter_line(FILTERS[index].steps, &mut line);
    line
}

#[test]
fn twelve_rows() {
    assert_eq!(read_number("1"), 0);
    assert_eq!(read_number("001"), 1);
    assert_eq!(read_number("011"), 2);
    assert_eq!(read_number("00001"), 3);
    assert_eq!(read_number("00011"), 4);
    let minus_one = bits("0011");
    let mut reader = BitReader::new(&minus_one, PastEnd::Missing);
    assert_eq!(reader.signed_number(), Ok(-1));
    let factors: Vec<i64> = (0..=8).map(quantiser_factor).collect();
    assert_eq!(factors, [4, 5, 6, 7, 8, 10, 11, 13, 16]);
    // The row doesn't say of which picture: it holds for both.
    for intra in [false, true] {
        assert_eq!(dequantise(-3, 5, intra), -9);
    }
    assert_eq!(filtered(1, [10, 4]), [8, 12]);
    assert_eq!(filtered(3, [7, -2]), [8, 6]);
    assert_eq!(shift_down(-5), -2);
    assert_eq!(predict_from_three(-1, -1, 0), -1);
}

#[test]
fn factors_are_the_nearest_to_powers_of_two() {
    // The factor f of index q is the whole number nearest to 2^((8 + q) / 4):
    // (2f - 1)^4 < 2^4 2^(8 + q) < (2f + 1)^4.
    for index in 0..=115 {
        let f = quantiser_factor(index) as u128;
        let power = 1u128 << (12 + index);
        assert!((2 * f - 1).pow(4) < power && power < (2 * f + 1).pow(4));
    }
}

#[test]
fn offsets_and_small_values() {
    let offsets: Vec<i64> = (0..=8).map(|index| quantiser_offset(index, true)).collect();
    assert_eq!(offsets, [1, 2, 3, 4, 4, 5, 6, 7, 8]);
    for intra in [false, true] {
        // Index 0 changes no number.
        for number in [-4_294_967_294, -5, -1, 0, 1, 2, 1000, 4_294_967_294] {
            assert_eq!(dequantise(number, 0, intra), i128::from(number));
        }
        // Index 1: floor((5m + 4) / 4).
        let values: Vec<i128> = (1..=4).map(|m| dequantise(m, 1, intra)).collect();
        assert_eq!(values, [2, 3, 4, 6]);
        // The sign is put on after rounding down.
        assert_eq!(dequantise(-1, 1, intra), -2);
        assert_eq!(dequantise(0, 115, intra), 0);
    }
}

#[test]
fn quantiser_index_115_and_116() {
    assert_eq!(quantiser_factor(115), 1_805_811_301);
    let (four, minus_one, five) = (bits("00011 0"), bits("001 1"), bits("01001 0"));
    for (intra, value_of_four, value_of_minus_one) in [
        (true, 2_031_537_714, -677_179_238),
        (false, 1_975_106_111, -620_747_635),
    ] {
        let p = plain(1, 1, 0, 0, intra);
        let unpacked = |index, data| run_unpack(&p, &subband_bytes(index, data));
        assert_eq!(unpacked(115, &four), (answer(0, 3), vec![value_of_four]));
        assert_eq!(unpacked(115, &minus_one).1, [value_of_minus_one]);
        assert_eq!(unpacked(115, &five), (answer(9, 0), vec![0]));
        assert_eq!(unpacked(116, &four), (answer(8, 0), vec![0]));
        assert_eq!(unpacked(4_294_967_294, &four), (answer(8, 0), vec![0]));
    }
}

#[test]
fn number_codes_of_31_and_32_data_bits() {
    let longest = "01".repeat(31) + "1";
    assert_eq!(read_number(&longest), (1 << 32) - 2);
    assert_eq!(read_number(&("00".repeat(31) + "1")), (1 << 31) - 1);
    let too_long = bits(&("00".repeat(32) + "1"));
    assert_eq!(BitReader::new(&too_long, PastEnd::Missing).number(), Err(7));
    // The zero after the 31st data bit is enough, be it the last bit there is.
    let eight_bytes = bits(&("01".repeat(31) + "00"));
    let mut reader = BitReader::new(&eight_bytes, PastEnd::Missing);
    assert_eq!(reader.number(), Err(7));
    let all_zero = [0; 8];
    assert_eq!(BitReader::new(&all_zero, PastEnd::Missing).number(), Err(7));
    assert_eq!(
        BitReader::new(&all_zero[..7], PastEnd::Missing).number(),
        Err(6)
    );
    // After the writer.
    for (number, expected) in [
        ((1 << 32) - 2, Ok((1 << 32) - 2)),
        ((1 << 32) - 1, Err(7)),
        (u64::MAX, Err(7)),
    ] {
        let mut writer = BitWriter::new();
        writer.number(number);
        let bytes = writer.to_bytes(true);
        assert_eq!(BitReader::new(&bytes, PastEnd::Missing).number(), expected);
    }
}

#[test]
fn too_long_codes_in_a_body() {
    let p = plain(1, 1, 0, 0, false);
    // As a length, as an index, as a value.
    assert_eq!(run_unpack(&p, &[0; 9]), (answer(7, 0), vec![0]));
    assert_eq!(run_unpack(&p, &[0; 7]), (answer(6, 0), vec![0]));
    let index = bits(&("001".to_string() + &"00".repeat(32) + "1"));
    assert_eq!(run_unpack(&p, &index), (answer(7, 0), vec![0]));
    assert_eq!(
        run_unpack(&p, &subband_bytes(0, &[0; 9])),
        (answer(7, 0), vec![0])
    );
    // Seven bytes of zeros: 28 data bits of 0, and the bits past the length end the number.
    assert_eq!(
        run_unpack(&p, &subband_bytes(0, &[0; 7])),
        (answer(0, 8), vec![-((1 << 28) - 1)])
    );
    // The longest length is read, and then found not to remain.
    let longest = bits(&("01".repeat(31) + "1" + "1"));
    assert_eq!(run_unpack(&p, &longest), (answer(6, 0), vec![0]));
}

#[test]
fn empty_bytes() {
    let p = plain(3, 2, 2, 1, true);
    assert_eq!(run_unpack(&p, &[]), (answer(6, 0), vec![0; 16]));
    assert_eq!(
        run_decode(&p, &[]),
        (answer(6, 0), vec![0; 16], vec![0; 16], vec![0; 6])
    );
}

/// The data of one signed number.
fn value(number: i64) -> Vec<u8> {
    let mut writer = BitWriter::new();
    writer.signed_number(number);
    writer.to_bytes(false)
}

#[test]
fn extremes_of_32_bits_unpacked() {
    let p = plain(1, 1, 0, 0, true);
    let unpacked = |number| run_unpack(&p, &subband_bytes(0, &value(number)));
    let largest = i64::from(i32::MAX);
    let smallest = i64::from(i32::MIN);
    assert_eq!(unpacked(largest).0.status, 0);
    assert_eq!(unpacked(largest).1, [i32::MAX]);
    assert_eq!(unpacked(smallest).0.status, 0);
    assert_eq!(unpacked(smallest).1, [i32::MIN]);
    assert_eq!(unpacked(largest + 1), (answer(9, 0), vec![0]));
    assert_eq!(unpacked(smallest - 1), (answer(9, 0), vec![0]));
    assert_eq!(unpacked((1 << 32) - 2), (answer(9, 0), vec![0]));
    assert_eq!(unpacked((1 << 32) - 1), (answer(7, 0), vec![0]));
}

/// A subband of these numbers at index 0, in one codeblock.
fn numbers(list: &[i64]) -> Vec<u8> {
    let mut writer = BitWriter::new();
    for &number in list {
        writer.signed_number(number);
    }
    subband_bytes(0, &writer.to_bytes(false))
}

#[test]
fn extremes_of_32_bits_predicted() {
    let p = plain(2, 1, 0, 0, true);
    let largest = i64::from(i32::MAX);
    let smallest = i64::from(i32::MIN);
    assert_eq!(run_unpack(&p, &numbers(&[largest, 0])).1, [i32::MAX; 2]);
    assert_eq!(
        run_unpack(&p, &numbers(&[smallest, largest])).1,
        [i32::MIN, -1]
    );
    assert_eq!(
        run_unpack(&p, &numbers(&[largest, 1])),
        (answer(9, 0), vec![0; 2])
    );
    assert_eq!(
        run_unpack(&p, &numbers(&[smallest, -1])),
        (answer(9, 0), vec![0; 2])
    );
    // Without prediction both stand.
    let p = plain(2, 1, 0, 0, false);
    assert_eq!(run_unpack(&p, &numbers(&[largest, 1])).1, [i32::MAX, 1]);
    // A sum of three extremes is taken whole: floor((3 largest + 1) / 3) is the largest.
    let p = plain(2, 2, 0, 0, true);
    assert_eq!(
        run_unpack(&p, &numbers(&[largest, 0, 0, 0])).1,
        [i32::MAX; 4]
    );
    assert_eq!(
        run_unpack(&p, &numbers(&[smallest, 0, 0, 0])).1,
        [i32::MIN; 4]
    );
}

#[test]
fn extremes_of_32_bits_synthesised() {
    // Depth 0 assigns nothing.
    let p = plain(2, 1, 0, 3, false);
    assert_eq!(
        run_synthesise(&p, &[i32::MIN, i32::MAX]),
        (answer(0, 0), vec![0; 2], vec![i32::MIN, i32::MAX])
    );
    let p = plain(2, 2, 1, 3, false);
    assert_eq!(run_synthesise(&p, &[i32::MAX, 0, 0, 0]).2, [i32::MAX; 4]);
    assert_eq!(run_synthesise(&p, &[i32::MIN, 0, 0, 0]).2, [i32::MIN; 4]);
    // LH 1 takes 1 from the even row, -2 adds 1 to it.
    assert_eq!(
        run_synthesise(&p, &[i32::MIN, 0, 1, 0]),
        (answer(10, 1), vec![0; 4], vec![0; 4])
    );
    assert_eq!(
        run_synthesise(&p, &[i32::MAX, 0, -2, 0]),
        (answer(10, 1), vec![0; 4], vec![0; 4])
    );
    // LH -1 leaves the even row and the odd row gets one less.
    assert_eq!(
        run_synthesise(&p, &[i32::MAX, 0, -1, 0]).2,
        [i32::MAX, i32::MAX, i32::MAX - 1, i32::MAX - 1]
    );
}

#[test]
fn sums_inside_a_step_may_be_larger() {
    // Index 1: each odd number is the mean of two largest ones; then the shift adds 1 first.
    let p = plain(4, 4, 1, 1, false);
    let mut coefficients = [0; 16];
    for place in [0, 1, 4, 5] {
        coefficients[place] = i32::MAX;
    }
    assert_eq!(
        run_synthesise(&p, &coefficients),
        (answer(0, 0), vec![0; 16], vec![1 << 30; 16])
    );
}

#[test]
fn numbers_before_the_shift_count() {
    // Index 4: 2 + (largest - 1) is too large, though shifted down it would fit.
    let p = plain(2, 2, 1, 4, false);
    assert_eq!(run_synthesise(&p, &[i32::MAX, 2, 0, 0]).0, answer(10, 1));
    assert_eq!(
        run_synthesise(&p, &[i32::MAX, 1, 0, 0]).2,
        [(1 << 30) - 1, 1 << 30, (1 << 30) - 1, 1 << 30]
    );
}

#[test]
fn numbers_between_the_steps_count() {
    // Index 6: step 2 takes nearly 1.77 times the largest number from 0, which doesn't fit; steps 3
    // and 4 lead back to numbers that do.
    let mut line = [i128::from(i32::MAX), 0];
    assert!(!filter_line(FILTERS[6].steps, &mut line));
    assert!(line.iter().all(|&number| i32::try_from(number).is_ok()));
    let p = plain(2, 2, 1, 6, false);
    assert_eq!(
        run_synthesise(&p, &[i32::MAX, 0, 0, 0]),
        (answer(10, 1), vec![0; 4], vec![0; 4])
    );
    assert_eq!(run_synthesise(&p, &[1 << 30, 0, 0, 0]).0, answer(0, 0));
}

#[test]
fn numbers_outside_the_crop_count() {
    // Column 1 of the padded picture doesn't fit and isn't kept.
    let p = plain(1, 1, 1, 3, false);
    assert_eq!(
        run_synthesise(&p, &[i32::MAX, i32::MAX, 0, 0]),
        (answer(10, 1), vec![0; 4], vec![0])
    );
    assert_eq!(run_synthesise(&p, &[5, 4, 3, 2]).2, [1]);
}

#[test]
fn the_first_level_that_does_not_fit_is_the_place() {
    let p = plain(4, 4, 2, 3, false);
    let mut coefficients = [0; 16];
    coefficients[0] = i32::MAX;
    assert_eq!(run_synthesise(&p, &coefficients).2, [i32::MAX; 16]);
    // HL of level 2 (columns 2 and 3) is -2 at its first place.
    coefficients[2] = -2;
    assert_eq!(
        run_synthesise(&p, &coefficients),
        (answer(10, 2), vec![0; 16], vec![0; 16])
    );
    // HL of level 1 (column 1) as well.
    coefficients[1] = -2;
    assert_eq!(run_synthesise(&p, &coefficients).0, answer(10, 1));
}
