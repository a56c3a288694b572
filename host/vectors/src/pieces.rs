//! Pieces that stored vectors, recordings and tests are put together from.

use crate::random::Random;
use reference::codes::BitWriter;
use reference::encode::{encode_body, EncodeOptions, SubbandOptions};
use reference::params::{padded_area, subbands, Parameters};

/// The largest number a code can state: 31 data bits, all of them 1.
pub const LARGEST_NUMBER: u64 = (1 << 32) - 2;

/// Data for one codeblock that ends before a number, before a sign, before a data bit, or before the
/// bit that may end a number.
pub const EARLY_ENDS_OF_ONE: [&str; 9] = [
    "0010 0011",
    "11111 001",
    "1 00 00 00 1",
    "1111111 0",
    "1 00 01 01 0",
    "01010101",
    "00 00 01 00",
    "00000000 00000000",
    "0010 0010 0010 00 00",
];

/// The same for two codeblocks, the first of 4 values, and data that ends before the second flag; the
/// first codeblock is flagged or not.
pub const EARLY_ENDS_OF_TWO: [&str; 9] = [
    "0 0010 011",
    "0 1111 001",
    "0 00 00 00 1",
    "0 1111 0 1 0",
    "0 1111 0 00",
    "0 1 0010 1 1",
    "0 1111 1 11",
    "1 0 0010 1 0",
    "1 0 111111 0010 1010",
];

/// Parameters with one codeblock at every level.
pub fn plain(width: u32, height: u32, depth: u32, wavelet: u32, intra: bool) -> Parameters {
    Parameters {
        width,
        height,
        depth,
        wavelet,
        intra,
        codeblocks_across: [1; 5],
        codeblocks_down: [1; 5],
    }
}

/// The same parameters with these codeblock counts at every level.
pub fn with_codeblocks(p: &Parameters, across: u32, down: u32) -> Parameters {
    Parameters {
        codeblocks_across: [across; 5],
        codeblocks_down: [down; 5],
        ..p.clone()
    }
}

/// The same parameters with 1 to 4 codeblocks each way at every level.
pub fn with_random_codeblocks(random: &mut Random, p: &Parameters) -> Parameters {
    Parameters {
        codeblocks_across: [0; 5].map(|_| random.range(1, 4) as u32),
        codeblocks_down: [0; 5].map(|_| random.range(1, 4) as u32),
        ..p.clone()
    }
}

/// The bytes of a text of 0s and 1s, spaces passed over, the last byte filled up with 0s.
pub fn bits(text: &str) -> Vec<u8> {
    let mut writer = BitWriter::new();
    for digit in text.chars().filter(|digit| *digit != ' ') {
        writer.bit(digit == '1');
    }
    writer.to_bytes(false)
}

/// The bytes of numbers' codes, one after the other, the last byte filled up with 0s.
pub fn numbers(list: &[u64]) -> Vec<u8> {
    let mut writer = BitWriter::new();
    for &number in list {
        writer.number(number);
    }
    writer.to_bytes(false)
}

/// The bytes of signed numbers' codes, one after the other, the last byte filled up with 0s.
pub fn signed_numbers(list: &[i64]) -> Vec<u8> {
    let mut writer = BitWriter::new();
    for &number in list {
        writer.signed_number(number);
    }
    writer.to_bytes(false)
}

/// One subband's bytes: a header for this data and index, then the data.
pub fn subband_bytes(index: u64, data: &[u8]) -> Vec<u8> {
    joined(numbers(&[data.len() as u64, index]), data)
}

/// One subband's bytes of index 0 that begin with two bytes of 0: the code of a length of 255. The data is
/// filled up with 0s to that length.
pub fn zeros_first(data: &[u8]) -> Vec<u8> {
    let mut data = data.to_vec();
    data.resize(255, 0);
    subband_bytes(0, &data)
}

/// A body whose subbands all have length 0, at a depth.
pub fn body_of_zeros(depth: u32) -> Vec<u8> {
    vec![0x80; 1 + 3 * depth as usize]
}

/// Bytes, then others.
pub fn joined(mut first: Vec<u8>, then: &[u8]) -> Vec<u8> {
    first.extend(then);
    first
}

/// A body in order, of numbers up to a magnitude, half of them 0.
pub fn random_body(random: &mut Random, p: &Parameters, bound: i64) -> Vec<u8> {
    let plane: Vec<i64> = (0..padded_area(p))
        .map(|_| i64::from(random.flag()) * random.range(-bound, bound))
        .collect();
    let options = EncodeOptions {
        subbands: subbands(p).iter().map(|_| random_options(random)).collect(),
    };
    encode_body(p, &plane, &options)
}

/// Some way to write a subband.
pub fn random_options(random: &mut Random) -> SubbandOptions {
    SubbandOptions {
        quantiser: random.range(0, 40) as u64,
        skip_if_zero: random.flag(),
        flag_zero_codeblocks: random.flag(),
        drop_trailing_ones: random.flag(),
        slack: vec![0xA5; random.range(0, 2) as usize],
        fill: random.flag(),
        stated_length: None,
    }
}

/// A body whose numbers are small and half of them 0.
pub fn sparse_body(random: &mut Random, p: &Parameters, options: SubbandOptions) -> Vec<u8> {
    let plane: Vec<i64> = (0..padded_area(p))
        .map(|_| random.pick(&[0, 0, 0, 1, -1, 9]))
        .collect();
    encode_body(p, &plane, &EncodeOptions::uniform(p, options))
}
