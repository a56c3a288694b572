//! The slices of a picture to the coefficients of its three components.
//!
//! States document 02, "Low delay slices" (request Four), whose sentences are quoted here. What it shares with the other jobs (sizes, number
//! codes, dequantising, prediction) is document 01's, with the offset of request Three.

use crate::codes::BitReader;
use crate::params::{
    check_depth, check_length, check_size, padded_area, padded_width, subbands, Answer, Parameters,
    Subband, BAD_LUMA_LENGTH, BAD_QUANTISER, BAD_SLICES, BYTES_END, COEFFICIENT_RANGE,
    MAX_QUANTISER,
};
use crate::unpack::{codeblock_start, dequantise, predict};
use std::ops::Range;

/// The bits of a slice's index: "Each begins with 7 bits of index".
pub const INDEX_BITS: usize = 7;

/// The largest entry of the matrix: "its matrix entry (0..127, one per subband, the same for all
/// components)".
pub const MAX_MATRIX_ENTRY: u32 = 127;

/// A picture that is divided into slices. The fields may have values out of range.
///
/// "Unpack all three components into three coefficient planes, luma with its own size, the chroma pair with
/// another, all sharing a depth and the intra flag".
#[derive(Clone, Debug, PartialEq, Eq)]
pub struct SlicedPicture {
    pub luma_width: u32,
    pub luma_height: u32,
    pub chroma_width: u32,
    pub chroma_height: u32,
    pub depth: u32,
    pub intra: bool,
    pub slices_across: u32,
    pub slices_down: u32,
    /// One entry for each subband in stream order; those above the depth don't matter.
    pub matrix: [u32; 13],
}

/// What a picture of low delay slices is unpacked with: "bytes are a fraction num/den". The fields may have
/// values out of range.
#[derive(Clone, Debug, PartialEq, Eq)]
pub struct LowDelay {
    pub picture: SlicedPicture,
    pub numerator: u32,
    pub denominator: u32,
}

impl SlicedPicture {
    /// One component as the other jobs take it.
    fn component(&self, width: u32, height: u32) -> Parameters {
        Parameters {
            width,
            height,
            depth: self.depth,
            wavelet: 0,
            intra: self.intra,
            codeblocks_across: [1; 5],
            codeblocks_down: [1; 5],
        }
    }

    /// Luma as the other jobs take it: one codeblock at each level, wavelet 0.
    pub fn luma(&self) -> Parameters {
        self.component(self.luma_width, self.luma_height)
    }

    /// Either chroma component as the other jobs take it: one codeblock at each level, wavelet 0.
    pub fn chroma(&self) -> Parameters {
        self.component(self.chroma_width, self.chroma_height)
    }

    /// Luma, C1 and C2.
    pub fn components(&self) -> [Parameters; 3] {
        [self.luma(), self.chroma(), self.chroma()]
    }

    /// How many slices there are.
    pub fn slice_count(&self) -> usize {
        self.slices_across as usize * self.slices_down as usize
    }

    /// The matrix entries that are used; the depth must be in range.
    pub fn used_matrix(&self) -> &[u32] {
        &self.matrix[..1 + 3 * self.depth as usize]
    }

    /// The index of each subband in stream order, in a slice of an index: "A subband's index is the slice's
    /// less its matrix entry (..), not below 0". The depth must be in range.
    pub fn subband_indices(&self, index: u32) -> Vec<u32> {
        self.used_matrix()
            .iter()
            .map(|&entry| index.saturating_sub(entry))
            .collect()
    }

    /// The columns and the rows of a subband that a slice has: "Slice rectangles divide a subband as blocks
    /// do"; "Slices come in raster order."
    pub fn rectangle(&self, band: &Subband, slice: usize) -> (Range<usize>, Range<usize>) {
        let (across, down) = (self.slices_across as usize, self.slices_down as usize);
        let (x, y) = (slice % across, slice / across);
        (
            codeblock_start(band.width, x, across)..codeblock_start(band.width, x + 1, across),
            codeblock_start(band.height, y, down)..codeblock_start(band.height, y + 1, down),
        )
    }
}

impl LowDelay {
    /// How many slices there are.
    pub fn slice_count(&self) -> usize {
        self.picture.slice_count()
    }

    /// The first byte of slice k, which is also the end of the one before: "slice k has floor((k+1)num/den)
    /// − floor(k·num/den) bytes". The denominator must not be 0.
    pub fn slice_start(&self, k: usize) -> usize {
        k * self.numerator as usize / self.denominator as usize
    }

    /// The bytes of slice k.
    pub fn slice_range(&self, k: usize) -> Range<usize> {
        self.slice_start(k)..self.slice_start(k + 1)
    }

    /// Luma as the other jobs take it: one codeblock at each level, wavelet 0.
    pub fn luma(&self) -> Parameters {
        self.picture.luma()
    }

    /// Either chroma component as the other jobs take it: one codeblock at each level, wavelet 0.
    pub fn chroma(&self) -> Parameters {
        self.picture.chroma()
    }
}

/// The bits that a luma length takes in a slice of this many bytes, from 1 up: "the least n with
/// 2^n ≥ 8·bytes − 7".
pub fn luma_length_bits(bytes: usize) -> usize {
    (0..)
        .find(|&n| 1 << n >= 8 * bytes - INDEX_BITS)
        .expect("some power is as large")
}

/// The bits left for values in a slice of this many bytes, from 1 up, behind its index and its luma length.
pub fn bits_for_values(bytes: usize) -> usize {
    8 * bytes - INDEX_BITS - luma_length_bits(bytes)
}

/// Status 13: "for a bad count or fraction, num below den, or a used matrix entry above 127". The depth must
/// be in range.
fn check_slices(p: &LowDelay) -> Result<(), Answer> {
    let (counts, fraction) = (1..=255, 1..=65_535);
    let good = counts.contains(&p.picture.slices_across)
        && counts.contains(&p.picture.slices_down)
        && fraction.contains(&p.numerator)
        && fraction.contains(&p.denominator)
        && p.numerator >= p.denominator
        && p.picture
            .used_matrix()
            .iter()
            .all(|&entry| entry <= MAX_MATRIX_ENTRY);
    if good {
        Ok(())
    } else {
        Err(Answer::refused(BAD_SLICES, 0))
    }
}

/// The first refusal 1, 2, 13 or 5: 13 comes "after 2 and before 5 (3 and 4 don't arise)".
fn check_low_delay(p: &LowDelay, lengths: [usize; 3]) -> Result<(), Answer> {
    check_size(&p.luma())?;
    check_size(&p.chroma())?;
    check_depth(&p.luma())?;
    check_slices(p)?;
    for (component, length) in p.picture.components().iter().zip(lengths) {
        check_length(length, padded_area(component))?;
    }
    Ok(())
}

/// Unpacks the slices of a picture to the coefficients of its three components; answers 0, 1, 2, 5, 6 to 9, 13
/// or 14 (document 02, "Low delay slices"). Bytes after the last slice are not looked at.
pub fn unpack_low_delay(
    p: &LowDelay,
    bytes: &[u8],
    luma: &mut [i32],
    first_chroma: &mut [i32],
    second_chroma: &mut [i32],
) -> Answer {
    let lengths = [luma.len(), first_chroma.len(), second_chroma.len()];
    if let Err(answer) = check_low_delay(p, lengths) {
        return answer;
    }
    let lent = [luma, first_chroma, second_chroma];
    match unpack_planes(p, bytes) {
        Ok(planes) => {
            for (lent, plane) in lent.into_iter().zip(&planes) {
                lent.copy_from_slice(plane);
            }
            // "Bytes used end with the last slice."
            Answer::accepted(p.slice_start(p.slice_count()) as u64)
        }
        Err(answer) => {
            for lent in lent {
                lent.fill(0);
            }
            answer
        }
    }
}

/// The three coefficient planes, or the first refusal 6 to 9 or 14; the parameters must be in range.
///
/// "Place is the slice number; for a refusal in prediction it is the number of slices."
fn unpack_planes(p: &LowDelay, bytes: &[u8]) -> Result<[Vec<i32>; 3], Answer> {
    let components = p.picture.components();
    let mut planes = [0, 1, 2].map(|c| vec![0; padded_area(&components[c])]);
    for k in 0..p.slice_count() {
        unpack_slice(p, k, bytes, &mut planes)
            .map_err(|status| Answer::refused(status, k as u64))?;
    }
    // "prediction, if intra, comes after all slices".
    if p.picture.intra {
        for (component, plane) in components.iter().zip(&mut planes) {
            predict(component, &subbands(component)[0], plane)
                .map_err(|status| Answer::refused(status, p.slice_count() as u64))?;
        }
    }
    Ok(planes)
}

/// Puts the values of slice k into planes of zeros, or a status.
fn unpack_slice(
    p: &LowDelay,
    k: usize,
    bytes: &[u8],
    planes: &mut [Vec<i32>; 3],
) -> Result<(), u32> {
    // "a slice short of bytes is 6, checked first".
    let slice = bytes.get(p.slice_range(k)).ok_or(BYTES_END)?;
    let end = 8 * slice.len();
    let mut header = BitReader::of_part(slice, 0..end);
    let index = header.bits(INDEX_BITS)?;
    let luma_length = header.bits(luma_length_bits(slice.len()))?;
    // "14 when the luma length exceeds the bits left, before 8".
    if luma_length > bits_for_values(slice.len()) as u64 {
        return Err(BAD_LUMA_LENGTH);
    }
    // "8 looks at every subband's index before any value is read".
    let indices = p.picture.subband_indices(index as u32);
    if indices
        .iter()
        .any(|&index| u64::from(index) > MAX_QUANTISER)
    {
        return Err(BAD_QUANTISER);
    }
    // The chroma part starts where the stated luma length ends, however few bits luma used.
    let luma_start = end - bits_for_values(slice.len());
    let chroma_start = luma_start + luma_length as usize;
    let [luma, first_chroma, second_chroma] = planes;
    let mut reader = BitReader::of_part(slice, luma_start..chroma_start);
    unpack_part(&p.picture, &p.luma(), k, &indices, &mut reader, &mut [luma])?;
    let mut reader = BitReader::of_part(slice, chroma_start..end);
    let pair = &mut [first_chroma, second_chroma];
    unpack_part(&p.picture, &p.chroma(), k, &indices, &mut reader, pair)
}

/// Puts the values of one part of a slice into the planes of the components that share it, or a status:
/// subbands in stream order, each rectangle in raster order, the components "alternating per value".
fn unpack_part(
    picture: &SlicedPicture,
    component: &Parameters,
    slice: usize,
    indices: &[u32],
    reader: &mut BitReader,
    planes: &mut [&mut Vec<i32>],
) -> Result<(), u32> {
    let row_width = padded_width(component);
    for (band, &index) in subbands(component).iter().zip(indices) {
        let (columns, rows) = picture.rectangle(band, slice);
        for y in rows {
            for x in columns.clone() {
                for plane in planes.iter_mut() {
                    let value = dequantise(reader.signed_number()?, index, picture.intra);
                    plane[(band.top + y) * row_width + band.left + x] =
                        i32::try_from(value).map_err(|_| COEFFICIENT_RANGE)?;
                }
            }
        }
    }
    Ok(())
}
