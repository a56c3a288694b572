//! An encoder of low delay slices, for tests.
//!
//! [`encode_low_delay`] writes planes of quantised numbers as they are; [`quantise_low_delay`] makes such planes
//! from coefficients, so that every slice has room for its values. Both need parameters in range and panic
//! otherwise.

use crate::codes::BitWriter;
use crate::encode::Rounding;
use crate::low_delay::{bits_for_values, luma_length_bits, LowDelay, SlicedPicture, INDEX_BITS};
use crate::params::{
    padded_area, padded_width, subbands, Orientation, Parameters, Subband, MAX_QUANTISER,
};
use crate::unpack::{prediction, quantiser_factor, quantiser_offset};

/// How one slice is written.
#[derive(Clone, Debug, PartialEq, Eq)]
pub struct SliceOptions {
    /// The index, 0..127, also one that will be refused.
    pub index: u32,
    /// A length to state in place of the luma values' true number of bits; its low bits are written, as many as
    /// the slice has for it. The luma part is cut off there, or filled up to there.
    pub luma_length: Option<u64>,
    /// The value of the bits that no value takes.
    pub fill: bool,
    /// Leave out the ones at the end of the luma part, which are read as ones all the same. With a stated
    /// [`SliceOptions::luma_length`] this isn't looked at.
    pub drop_trailing_ones: bool,
}

impl Default for SliceOptions {
    /// Index 0, the true luma length, nothing else.
    fn default() -> SliceOptions {
        SliceOptions {
            index: 0,
            luma_length: None,
            fill: false,
            drop_trailing_ones: false,
        }
    }
}

/// The longest luma length that can be stated in a slice of this many bytes and isn't refused.
pub fn longest_luma_length(bytes: usize) -> usize {
    let largest_stated = (1 << luma_length_bits(bytes)) - 1;
    bits_for_values(bytes).min(largest_stated)
}

/// The bytes of a picture whose planes of quantised numbers, laid out as coefficient planes, are given (document
/// 02, "Low delay slices"). Level 0 must already be without its prediction.
///
/// What doesn't fit a slice is cut off: luma values at the longest luma length that fits (or at the stated one),
/// chroma values at the slice's end. Bits are cut, not values: the last code may be cut inside.
pub fn encode_low_delay(
    p: &LowDelay,
    luma: &[i64],
    first_chroma: &[i64],
    second_chroma: &[i64],
    slices: &[SliceOptions],
) -> Vec<u8> {
    let planes = [luma, first_chroma, second_chroma];
    for (plane, component) in planes.iter().zip(p.picture.components()) {
        assert_eq!(plane.len(), padded_area(&component));
    }
    assert_eq!(slices.len(), p.slice_count());
    slices
        .iter()
        .enumerate()
        .flat_map(|(k, options)| encode_slice(p, planes, k, options))
        .collect()
}

/// The bytes of slice k.
fn encode_slice(p: &LowDelay, planes: [&[i64]; 3], k: usize, options: &SliceOptions) -> Vec<u8> {
    let bytes = p.slice_range(k).len();
    let length_bits = luma_length_bits(bytes);
    let room = bits_for_values(bytes);
    let mut luma = encode_part(&p.picture, &p.luma(), k, &planes[..1]);
    let stated = match options.luma_length {
        Some(length) => (length & ((1 << length_bits) - 1)) as usize,
        None => {
            if options.drop_trailing_ones {
                luma.drop_trailing_ones();
            }
            luma.count().min(longest_luma_length(bytes))
        }
    };
    luma.cut_or_fill(stated.min(room), options.fill);
    let mut chroma = encode_part(&p.picture, &p.chroma(), k, &planes[1..]);
    chroma.cut_or_fill(room - luma.count(), options.fill);
    let mut writer = BitWriter::new();
    writer.bits(u64::from(options.index), INDEX_BITS);
    writer.bits(stated as u64, length_bits);
    writer.append(&luma);
    writer.append(&chroma);
    writer.to_bytes(options.fill)
}

/// The bits of the values of one part of a slice, whole, the components alternating per value.
fn encode_part(
    picture: &SlicedPicture,
    component: &Parameters,
    slice: usize,
    planes: &[&[i64]],
) -> BitWriter {
    let row_width = padded_width(component);
    let mut writer = BitWriter::new();
    for band in subbands(component) {
        let (columns, rows) = picture.rectangle(&band, slice);
        for y in rows {
            for x in columns.clone() {
                for plane in planes {
                    writer.signed_number(plane[(band.top + y) * row_width + band.left + x]);
                }
            }
        }
    }
    writer
}

/// Planes of quantised numbers for [`encode_low_delay`], and the index of each slice.
#[derive(Clone, Debug, PartialEq, Eq)]
pub struct QuantisedPicture {
    pub luma: Vec<i64>,
    pub first_chroma: Vec<i64>,
    pub second_chroma: Vec<i64>,
    pub indices: Vec<u32>,
}

/// Three coefficient planes quantised for such an encoder: for each slice in raster order the least index, from
/// `least` of its number on, that fits. There is none where no index fits a slice, up to the largest that isn't
/// refused: 115 and the least matrix entry that is used, but no more than 127.
///
/// An index fits where unpacking finds the values just as they were quantised: no code is cut off (but for ones
/// at the end of a part, which are read all the same) and no value is outside 32 bits. This is so for the true
/// luma length and for the one without its ones, so [`SliceOptions::drop_trailing_ones`] may be either.
///
/// If intra, level 0 is quantised without its prediction, which is made from the values that unpacking will
/// find: those to the left and above are in this slice or in an earlier one.
pub fn quantise_low_delay(
    p: &LowDelay,
    luma: &[i32],
    first_chroma: &[i32],
    second_chroma: &[i32],
    least: impl Fn(usize) -> u32,
    rounding: Rounding,
) -> Option<QuantisedPicture> {
    let mut luma = Component::new(p.luma(), luma);
    let mut pair = [first_chroma, second_chroma].map(|plane| Component::new(p.chroma(), plane));
    let steps: Vec<Step> = (0..=MAX_QUANTISER as u32)
        .map(|index| Step::new(index, p.picture.intra, rounding))
        .collect();
    let least_entry = p.picture.used_matrix().iter().min().expect("never empty");
    let largest_index = 127.min(MAX_QUANTISER as u32 + least_entry);
    let mut indices = Vec::new();
    for k in 0..p.slice_count() {
        let bytes = p.slice_range(k).len();
        let index = (least(k)..=largest_index).find(|&index| {
            let steps: Vec<&Step> = p
                .picture
                .subband_indices(index)
                .iter()
                .map(|&index| &steps[index as usize])
                .collect();
            let mut luma_part = Part::new(longest_luma_length(bytes));
            if !fill_part(&p.picture, k, &steps, &mut luma_part, &mut [&mut luma]) {
                return false;
            }
            let mut chroma_part = Part::new(bits_for_values(bytes) - luma_part.length());
            let [first, second] = &mut pair;
            fill_part(
                &p.picture,
                k,
                &steps,
                &mut chroma_part,
                &mut [first, second],
            )
        })?;
        indices.push(index);
    }
    let [first_chroma, second_chroma] = pair.map(|component| component.quantised);
    Some(QuantisedPicture {
        luma: luma.quantised,
        first_chroma,
        second_chroma,
        indices,
    })
}

/// Quantises one part of a slice with a step for each subband; whether it fits. Where it doesn't, later values
/// are left as they were.
fn fill_part(
    picture: &SlicedPicture,
    slice: usize,
    steps: &[&Step],
    part: &mut Part,
    components: &mut [&mut Component],
) -> bool {
    for (k, step) in steps.iter().enumerate() {
        let band = components[0].bands[k];
        let (columns, rows) = picture.rectangle(&band, slice);
        for y in rows {
            for x in columns.clone() {
                for component in components.iter_mut() {
                    let number = component.quantise(&band, x, y, step);
                    if !number.is_some_and(|number| part.take(number)) {
                        return false;
                    }
                }
            }
        }
    }
    true
}

/// A part of a slice that is being filled.
struct Part {
    /// How many bits the part can have.
    room: usize,
    /// How many bits its codes have so far.
    taken: usize,
}

impl Part {
    /// A part with no bits.
    fn new(room: usize) -> Part {
        Part { room, taken: 0 }
    }

    /// Adds a number's code; whether the part can have every bit of it up to its last 0.
    fn take(&mut self, number: i64) -> bool {
        let (bits, last_zero) = code_bits(number);
        let fits = last_zero == 0 || self.taken + last_zero <= self.room;
        self.taken += bits;
        fits
    }

    /// The part's length once its codes are cut off at its end.
    fn length(&self) -> usize {
        self.taken.min(self.room)
    }
}

/// The bits of a signed number's code, and those up to its last 0 (document 01, "Number codes").
pub fn code_bits(number: i64) -> (usize, usize) {
    let v = number.unsigned_abs() + 1;
    let pairs = 2 * v.ilog2() as usize;
    match number {
        0 => (1, 0),
        // The sign bit is the last 0; or else the last data bit is, or the bit before that.
        1.. => (pairs + 2, pairs + 2),
        _ => (pairs + 2, pairs - (v & 1) as usize),
    }
}

/// A component that is being quantised.
struct Component<'a> {
    p: Parameters,
    row_width: usize,
    bands: Vec<Subband>,
    coefficients: &'a [i32],
    quantised: Vec<i64>,
    /// Level 0 as it will be unpacked and predicted.
    unpacked: Vec<i32>,
}

impl Component<'_> {
    /// A component of which nothing is quantised.
    fn new(p: Parameters, coefficients: &[i32]) -> Component<'_> {
        assert_eq!(coefficients.len(), padded_area(&p));
        Component {
            row_width: padded_width(&p),
            bands: subbands(&p),
            coefficients,
            quantised: vec![0; coefficients.len()],
            unpacked: vec![0; coefficients.len()],
            p,
        }
    }

    /// The quantised number of a position of a subband, unless it would be refused when read.
    fn quantise(&mut self, band: &Subband, x: usize, y: usize, step: &Step) -> Option<i64> {
        let entry = (band.top + y) * self.row_width + band.left + x;
        let is_predicted = self.p.intra && band.orientation == Orientation::LL;
        let predicted = if is_predicted {
            prediction(x, y, |x, y| {
                i64::from(self.unpacked[y * self.row_width + x])
            })
        } else {
            0
        };
        let (number, value) = step.quantise(i64::from(self.coefficients[entry]) - predicted);
        self.quantised[entry] = number;
        i32::try_from(value).ok()?;
        if is_predicted {
            self.unpacked[entry] = i32::try_from(value + predicted).ok()?;
        }
        Some(number)
    }
}

/// What is known of an index: [`crate::quantise`] and [`crate::unpack::dequantise`] of numbers that 64 bits
/// hold, made quick.
pub struct Step {
    factor: i64,
    offset: i64,
    rounding: Rounding,
}

impl Step {
    /// The step of an index 0..115, in a picture that is intra or isn't.
    pub fn new(index: u32, intra: bool, rounding: Rounding) -> Step {
        Step {
            factor: quantiser_factor(index),
            offset: quantiser_offset(index, intra),
            rounding,
        }
    }

    /// The value of a magnitude (document 01, "Dequantising").
    fn value(&self, m: i64) -> i64 {
        if m == 0 {
            0
        } else {
            (m * self.factor + self.offset + 2) / 4
        }
    }

    /// The quantised number of a value of up to 34 bits, and the value that it will be read as.
    pub fn quantise(&self, value: i64) -> (i64, i64) {
        let magnitude = value.abs();
        let floor = if 4 * magnitude < self.factor {
            0
        } else {
            4 * magnitude / self.factor
        };
        let m = match self.rounding {
            Rounding::Floor => floor,
            Rounding::Nearest => self.nearest(magnitude, floor),
        };
        if value < 0 {
            (-m, -self.value(m))
        } else {
            (m, self.value(m))
        }
    }

    /// The number around this one whose value is nearest to a magnitude, the smallest of several.
    fn nearest(&self, magnitude: i64, around: i64) -> i64 {
        let distance = |m| (self.value(m) - magnitude).abs();
        let mut best = 0.max(around - 1);
        for m in best + 1..=around + 1 {
            if distance(m) < distance(best) {
                best = m;
            }
        }
        best
    }
}
