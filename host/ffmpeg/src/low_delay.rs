//! Low delay pictures (document 02, "Low delay slices") for FFmpeg and the proved library.
//!
//! A [`case::LowDelayCase`] is a stream's worth of them; its seed names it. [`eligibility`] tells whose slices
//! FFmpeg reads as they are meant, and [`compare`] compares and counts. [`stored`] keeps pictures that FFmpeg
//! confirmed.

pub mod case;
pub mod compare;
pub mod eligibility;
pub mod stored;

use crate::stream::COMPONENTS;
use reference::encode_low_delay::code_bits;
use reference::low_delay::bits_for_values;
use reference::params::{padded_width, subbands};
use reference::{
    encode_low_delay, quantise_low_delay, LowDelay, Parameters, Rounding, SliceOptions,
    SlicedPicture,
};

/// A low delay picture.
#[derive(Clone, Debug, PartialEq, Eq)]
pub struct LowDelayPicture {
    pub parameters: LowDelay,
    pub wavelet: u32,
    /// The bytes of its slices.
    pub bytes: Vec<u8>,
}

impl LowDelayPicture {
    /// A picture of these coefficients, none of whose slices ends inside a number, each with the least
    /// quantiser index that fits; none where no index does. Its parameters must have slices of two bytes and
    /// more.
    ///
    /// It is quantised for slices of a byte less. What is cut off there is 1s at the end of a part, and of these
    /// no more than three are of a number that is not 0.
    pub fn of_coefficients(
        p: &LowDelay,
        wavelet: u32,
        coefficients: &[Vec<i32>; COMPONENTS],
    ) -> Option<LowDelayPicture> {
        let shorter = LowDelay {
            numerator: p.numerator - p.denominator,
            ..p.clone()
        };
        let [luma, first, second] = coefficients;
        let quantised = quantise_low_delay(&shorter, luma, first, second, |_| 0, Rounding::Floor)?;
        let slice = |&index: &u32| SliceOptions {
            index,
            ..SliceOptions::default()
        };
        let slices: Vec<SliceOptions> = quantised.indices.iter().map(slice).collect();
        let bytes = encode_low_delay(
            p,
            &quantised.luma,
            &quantised.first_chroma,
            &quantised.second_chroma,
            &slices,
        );
        Some(LowDelayPicture {
            parameters: p.clone(),
            wavelet,
            bytes,
        })
    }

    /// Luma, C1 and C2 as the other jobs take them.
    pub fn components(&self) -> [Parameters; COMPONENTS] {
        components(&self.parameters, self.wavelet)
    }

    /// The quantiser index of each slice.
    pub fn indices(&self) -> Vec<u32> {
        let p = &self.parameters;
        // It is the upper seven bits of the first byte.
        let index = |k| u32::from(self.bytes[p.slice_start(k)] >> 1);
        (0..p.slice_count()).map(index).collect()
    }
}

/// Luma, C1 and C2 of a picture with a wavelet, as the other jobs take them.
pub fn components(p: &LowDelay, wavelet: u32) -> [Parameters; COMPONENTS] {
    p.picture.components().map(|component| Parameters {
        wavelet,
        ..component
    })
}

/// The entries of a component's plane that a slice has, in stream order.
pub fn slice_entries(picture: &SlicedPicture, component: &Parameters, slice: usize) -> Vec<usize> {
    let row_width = padded_width(component);
    let mut entries = Vec::new();
    for band in subbands(component) {
        let (columns, rows) = picture.rectangle(&band, slice);
        for y in rows {
            let start = (band.top + y) * row_width + band.left;
            entries.extend(columns.clone().map(|x| start + x));
        }
    }
    entries
}

/// The bits of the numbers that a slice has of the planes of components of one size, and the bits of all up to
/// the last that is not 0.
pub fn part_bits(
    picture: &SlicedPicture,
    component: &Parameters,
    slice: usize,
    planes: &[&Vec<i64>],
) -> [usize; 2] {
    let (mut all, mut needed) = (0, 0);
    for entry in slice_entries(picture, component, slice) {
        for plane in planes {
            all += code_bits(plane[entry]).0;
            if plane[entry] != 0 {
                needed = all;
            }
        }
    }
    [all, needed]
}

/// The least bytes of a slice that has so many bits of numbers.
pub fn bytes_for(bits: usize) -> usize {
    (bits / 8 + 1..)
        .find(|&bytes| bits_for_values(bytes) >= bits)
        .expect("there are larger slices")
}

/// The matrix that Dirac has for a wavelet where a picture brings none, at depth 4; those of lesser depths
/// start alike, but for wavelet 3.
pub fn default_matrix(wavelet: u32) -> [u32; 13] {
    match wavelet {
        0 | 2 => [5, 3, 3, 0, 4, 4, 1, 5, 5, 2, 6, 6, 3],
        1 => [4, 2, 2, 0, 4, 4, 2, 5, 5, 3, 7, 7, 5],
        3 => [20, 16, 16, 12, 12, 12, 8, 8, 8, 4, 4, 4, 0],
        4 => [8, 4, 4, 0, 4, 4, 0, 4, 4, 0, 4, 4, 0],
        5 => [0, 4, 4, 8, 8, 8, 12, 13, 13, 17, 17, 17, 21],
        _ => [3, 1, 1, 0, 4, 4, 2, 6, 6, 5, 9, 9, 7],
    }
}
