//! Bytes to coefficients.
//!
//! States document 01, "One subband" and "Dequantising", and document 02, "Difference pictures have another
//! offset" (request Three).

use crate::codes::{BitReader, PastEnd};
use crate::params::{
    padded_area, padded_width, subbands, Answer, Parameters, Subband, BAD_QUANTISER, BYTES_END,
    COEFFICIENT_RANGE, MAX_QUANTISER,
};

/// The coefficient plane and the bytes used, or the first refusal 6 to 9; the parameters must be in
/// range (document 01, "Refusal numbers" and "One subband").
pub fn unpack_plane(p: &Parameters, bytes: &[u8]) -> Result<(Vec<i32>, u64), Answer> {
    let mut plane = vec![0; padded_area(p)];
    let mut start = 0;
    for (number, band) in subbands(p).iter().enumerate() {
        start = unpack_subband(p, band, bytes, start, &mut plane)
            .map_err(|status| Answer::refused(status, number as u64))?;
    }
    Ok((plane, start as u64))
}

/// Where the subband that starts at a byte ends, its values put into a plane of zeros; or a status
/// (document 01, "One subband").
fn unpack_subband(
    p: &Parameters,
    band: &Subband,
    bytes: &[u8],
    start: usize,
    plane: &mut [i32],
) -> Result<usize, u32> {
    let mut header = BitReader::new(&bytes[start..], PastEnd::Missing);
    let length = header.number()?;
    let end = if length == 0 {
        start + header.align()
    } else {
        let quantiser = header.number()?;
        let data = start + header.align();
        if quantiser > MAX_QUANTISER {
            return Err(BAD_QUANTISER);
        }
        let remaining = bytes.len() - data;
        if length > remaining as u64 {
            return Err(BYTES_END);
        }
        let end = data + usize::try_from(length).expect("so many bytes remain");
        let quantiser = u32::try_from(quantiser).expect("it was checked");
        unpack_codeblocks(p, band, quantiser, &bytes[data..end], plane)?;
        end
    };
    if p.intra && band.level == 0 {
        predict(p, band, plane)?;
    }
    Ok(end)
}

/// Puts the values of a subband's codeblocks into the plane, or a status (document 01, "One
/// subband").
fn unpack_codeblocks(
    p: &Parameters,
    band: &Subband,
    quantiser: u32,
    data: &[u8],
    plane: &mut [i32],
) -> Result<(), u32> {
    let across = p.codeblocks_across[band.level as usize] as usize;
    let down = p.codeblocks_down[band.level as usize] as usize;
    let row_width = padded_width(p);
    let mut reader = BitReader::new(data, PastEnd::One);
    for block_y in 0..down {
        for block_x in 0..across {
            let has_flag = across * down > 1;
            if has_flag && reader.bit()? == 1 {
                continue;
            }
            for y in codeblock_start(band.height, block_y, down)
                ..codeblock_start(band.height, block_y + 1, down)
            {
                for x in codeblock_start(band.width, block_x, across)
                    ..codeblock_start(band.width, block_x + 1, across)
                {
                    let value = dequantise(reader.signed_number()?, quantiser, p.intra);
                    plane[(band.top + y) * row_width + band.left + x] =
                        i32::try_from(value).map_err(|_| COEFFICIENT_RANGE)?;
                }
            }
        }
    }
    Ok(())
}

/// The first column (or row) of codeblock k of a count in a subband of a size: floor(size k / count)
/// (document 01, "One subband").
pub fn codeblock_start(size: usize, k: usize, count: usize) -> usize {
    size * k / count
}

/// Predicts level 0 in place, or status 9 (document 01, "One subband").
pub fn predict(p: &Parameters, band: &Subband, plane: &mut [i32]) -> Result<(), u32> {
    let row_width = padded_width(p);
    for y in 0..band.height {
        for x in 0..band.width {
            let add = prediction(x, y, |x, y| i64::from(plane[y * row_width + x]));
            let value = i64::from(plane[y * row_width + x]) + add;
            plane[y * row_width + x] = i32::try_from(value).map_err(|_| COEFFICIENT_RANGE)?;
        }
    }
    Ok(())
}

/// What prediction adds at a column and row, from values already predicted (document 01, "One
/// subband").
pub fn prediction(x: usize, y: usize, value: impl Fn(usize, usize) -> i64) -> i64 {
    match (x, y) {
        (0, 0) => 0,
        (_, 0) => value(x - 1, y),
        (0, _) => value(x, y - 1),
        _ => predict_from_three(value(x - 1, y), value(x - 1, y - 1), value(x, y - 1)),
    }
}

/// floor((left + upper left + upper + 1) / 3) (document 01, "One subband").
pub fn predict_from_three(left: i64, upper_left: i64, upper: i64) -> i64 {
    (left + upper_left + upper + 1).div_euclid(3)
}

/// The factor of a quantiser index 0..115 (document 01, "Dequantising").
pub fn quantiser_factor(index: u32) -> i64 {
    assert!(u64::from(index) <= MAX_QUANTISER);
    let b = 1i64 << (index / 4);
    match index % 4 {
        0 => 4 * b,
        1 => (503829 * b + 52958) / 105917,
        2 => (665857 * b + 58854) / 117708,
        _ => (440253 * b + 32722) / 65444,
    }
}

/// The offset of a quantiser index 0..115, in every subband of a picture that is intra or isn't.
///
/// Document 01, "Dequantising": "Offset: 1 for q = 0, 2 for q = 1, else floor((factor + 1)/2)." Document 02,
/// "Difference pictures have another offset": "For a picture that isn't intra, the offset is 1 at index 0,
/// else floor((3·factor + 4)/8)."
pub fn quantiser_offset(index: u32, intra: bool) -> i64 {
    let factor = quantiser_factor(index);
    match (index, intra) {
        (0, _) => 1,
        (1, true) => 2,
        (_, true) => (factor + 1) / 2,
        (_, false) => (3 * factor + 4) / 8,
    }
}

/// The value of a quantised number, which may lie outside 32 bits, in a picture that is intra or isn't.
///
/// Document 02, "Difference pictures have another offset": "A magnitude 1 at index 12 reads 12 in intra and
/// 11 otherwise."
pub fn dequantise(quantised: i64, index: u32, intra: bool) -> i128 {
    let offset = quantiser_offset(index, intra);
    scaled(quantised, quantiser_factor(index), offset)
}

/// The value of a quantised number by a factor and an offset.
///
/// Document 01, "Dequantising": "Magnitude m > 0 becomes floor((m·factor + offset + 2)/4); 0 stays 0; the
/// sign is kept."
pub fn scaled(quantised: i64, factor: i64, offset: i64) -> i128 {
    let m = i128::from(quantised).abs();
    if m == 0 {
        return 0;
    }
    let magnitude = (m * i128::from(factor) + i128::from(offset) + 2) / 4;
    if quantised < 0 {
        -magnitude
    } else {
        magnitude
    }
}
