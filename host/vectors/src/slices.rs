//! Pieces that pictures of low delay slices are put together from.

use crate::pictures::picture_coefficients;
use crate::random::Random;
use reference::codes::BitWriter;
use reference::low_delay::{luma_length_bits, INDEX_BITS};
use reference::params::padded_area;
use reference::{
    encode_low_delay, quantise_low_delay, LowDelay, Parameters, Rounding, SliceOptions,
    SlicedPicture,
};

/// A picture of these sizes (width and height), slices (across and down) and fraction of bytes, with a matrix of
/// zeros.
pub fn sliced(
    luma: (u32, u32),
    chroma: (u32, u32),
    depth: u32,
    intra: bool,
    slices: (u32, u32),
    fraction: (u32, u32),
) -> LowDelay {
    LowDelay {
        picture: SlicedPicture {
            luma_width: luma.0,
            luma_height: luma.1,
            chroma_width: chroma.0,
            chroma_height: chroma.1,
            depth,
            intra,
            slices_across: slices.0,
            slices_down: slices.1,
            matrix: [0; 13],
        },
        numerator: fraction.0,
        denominator: fraction.1,
    }
}

/// The same picture with these first entries of the matrix, and zeros behind them.
pub fn with_matrix(p: &LowDelay, entries: &[u32]) -> LowDelay {
    let mut p = p.clone();
    p.picture.matrix = [0; 13];
    p.picture.matrix[..entries.len()].copy_from_slice(entries);
    p
}

/// A slice of so many bytes: the index, the stated luma length, then the bits of a text of 0s and 1s, spaces
/// passed over; the rest is filled up with a bit, and what is too long is cut off.
pub fn slice_bytes(
    bytes: usize,
    index: u32,
    luma_length: usize,
    text: &str,
    fill: bool,
) -> Vec<u8> {
    let mut writer = BitWriter::new();
    writer.bits(u64::from(index), INDEX_BITS);
    writer.bits(luma_length as u64, luma_length_bits(bytes));
    for digit in text.chars().filter(|digit| *digit != ' ') {
        writer.bit(digit == '1');
    }
    writer.cut_or_fill(8 * bytes, fill);
    writer.to_bytes(fill)
}

/// The same options for every slice of a picture.
pub fn uniform_slices(p: &LowDelay, options: SliceOptions) -> Vec<SliceOptions> {
    vec![options; p.slice_count()]
}

/// Planes of numbers up to a magnitude, half of them 0.
pub fn random_planes(random: &mut Random, p: &LowDelay, bound: i64) -> [Vec<i64>; 3] {
    p.picture.components().map(|component| {
        (0..padded_area(&component))
            .map(|_| i64::from(random.flag()) * random.range(-bound, bound))
            .collect()
    })
}

/// The bits of signed numbers' codes, one after the other, as a text of 0s and 1s.
pub fn code_text(list: &[i64]) -> String {
    let mut writer = BitWriter::new();
    for &number in list {
        writer.signed_number(number);
    }
    let bytes = writer.to_bytes(false);
    let mut text: String = bytes.iter().map(|byte| format!("{byte:08b}")).collect();
    text.truncate(writer.count());
    text
}

/// A slice of so many bytes with these luma numbers, their length stated, and these chroma numbers, of C1 and C2
/// in turn; the rest is filled up with 1s.
pub fn slice_of_numbers(bytes: usize, index: u32, luma: &[i64], chroma: &[i64]) -> Vec<u8> {
    let luma = code_text(luma);
    let text = luma.clone() + &code_text(chroma);
    slice_bytes(bytes, index, luma.len(), &text, true)
}

/// Some way to write a slice: an index up to one, and now and then another luma length than the true one.
pub fn random_slice(random: &mut Random, most_index: u32) -> SliceOptions {
    SliceOptions {
        index: random.range(0, i64::from(most_index)) as u32,
        luma_length: (random.range(0, 9) == 0).then_some(random.range(0, 20) as u64),
        fill: random.flag(),
        drop_trailing_ones: random.flag(),
    }
}

/// The bytes of a picture of numbers up to a magnitude, half of them 0, each slice written in some way.
pub fn random_slices(random: &mut Random, p: &LowDelay, bound: i64) -> Vec<u8> {
    let [luma, first_chroma, second_chroma] = random_planes(random, p, bound);
    let slices: Vec<SliceOptions> = (0..p.slice_count())
        .map(|_| random_slice(random, 40))
        .collect();
    encode_low_delay(p, &luma, &first_chroma, &second_chroma, &slices)
}

/// Bytes at random for every slice, more of them 1s than 0s, each with an index up to one; a luma length is small
/// as often as not.
pub fn noise_slices(random: &mut Random, p: &LowDelay, most_index: u32) -> Vec<u8> {
    let mut bytes = Vec::new();
    for k in 0..p.slice_count() {
        let count = p.slice_range(k).len();
        let index = random.range(0, i64::from(most_index)) as u32;
        let luma_length = random.bits() as usize >> random.pick(&[0, 0, 62, 63]);
        let text: String = (0..8 * count)
            .map(|_| if random.range(0, 4) < 3 { '1' } else { '0' })
            .collect();
        bytes.extend(slice_bytes(count, index, luma_length, &text, true));
    }
    bytes
}

/// The bytes of a slope with some noise in each component, quantised so that every slice has room; none where no
/// index gives a slice room.
pub fn slope_slices(random: &mut Random, p: &LowDelay) -> Option<Vec<u8>> {
    let [luma, first, second] = p
        .picture
        .components()
        .map(|component| slope(random, &component));
    let rounding = random.pick(&[Rounding::Floor, Rounding::Nearest]);
    let picture = quantise_low_delay(p, &luma, &first, &second, |_| 0, rounding)?;
    let slices: Vec<SliceOptions> = picture
        .indices
        .iter()
        .map(|&index| SliceOptions {
            index,
            ..SliceOptions::default()
        })
        .collect();
    Some(encode_low_delay(
        p,
        &picture.luma,
        &picture.first_chroma,
        &picture.second_chroma,
        &slices,
    ))
}

/// The coefficients of a slope with noise on it, by wavelet 0.
fn slope(random: &mut Random, component: &Parameters) -> Vec<i32> {
    let (width, height) = (i64::from(component.width), i64::from(component.height));
    let samples: Vec<i64> = (0..width * height)
        .map(|k| 5 * (k % width) - 9 * (k / width) + random.range(-6, 6))
        .collect();
    picture_coefficients(component, &samples)
}
