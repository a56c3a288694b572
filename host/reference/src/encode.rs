//! An encoder of bodies, for tests.
//!
//! [`encode_body`] writes a plane of quantised numbers as they are; [`quantise_plane`] makes such a
//! plane from coefficients. With every quantiser index 0, unpacking the body of the quantised plane
//! gives the coefficients back exactly. Both need parameters in range and panic otherwise.

use crate::codes::BitWriter;
use crate::params::{padded_area, padded_width, subbands, Parameters, Subband};
use crate::unpack::{codeblock_start, dequantise, prediction, quantiser_factor};

/// How one subband is written.
#[derive(Clone, Debug, PartialEq, Eq)]
pub struct SubbandOptions {
    /// The quantiser index written in the header; any number, also one that will be refused.
    pub quantiser: u64,
    /// Where every number is 0: write length 0 and nothing more.
    pub skip_if_zero: bool,
    /// Where every number of a codeblock is 0 (also an empty one) and the level has flags: write
    /// flag 1, rather than flag 0 and zeros.
    pub flag_zero_codeblocks: bool,
    /// Leave out the ones at the end of the data, which are read as ones all the same.
    pub drop_trailing_ones: bool,
    /// Bytes put after the data and counted in the length.
    pub slack: Vec<u8>,
    /// The value of the bits that are skipped before a byte boundary.
    pub fill: bool,
    /// A length to write in place of the true one.
    pub stated_length: Option<u64>,
}

impl Default for SubbandOptions {
    /// Index 0, zero subbands skipped, zero codeblocks flagged, nothing else.
    fn default() -> SubbandOptions {
        SubbandOptions {
            quantiser: 0,
            skip_if_zero: true,
            flag_zero_codeblocks: true,
            drop_trailing_ones: false,
            slack: Vec::new(),
            fill: false,
            stated_length: None,
        }
    }
}

/// How a body is written: one entry for each subband in stream order.
#[derive(Clone, Debug, PartialEq, Eq)]
pub struct EncodeOptions {
    pub subbands: Vec<SubbandOptions>,
}

impl EncodeOptions {
    /// The same options for every subband of these parameters.
    pub fn uniform(p: &Parameters, options: SubbandOptions) -> EncodeOptions {
        EncodeOptions {
            subbands: vec![options; 1 + 3 * p.depth as usize],
        }
    }
}

/// The body that states a plane of quantised numbers, laid out as a coefficient plane (document 01,
/// "One subband"). Level 0 must already be without its prediction.
pub fn encode_body<T: Copy + Into<i64>>(
    p: &Parameters,
    quantised: &[T],
    options: &EncodeOptions,
) -> Vec<u8> {
    encode_subbands(p, quantised, options).concat()
}

/// The bytes of each subband of that body, in stream order.
pub fn encode_subbands<T: Copy + Into<i64>>(
    p: &Parameters,
    quantised: &[T],
    options: &EncodeOptions,
) -> Vec<Vec<u8>> {
    let numbers: Vec<i64> = quantised.iter().map(|&number| number.into()).collect();
    let bands = subbands(p);
    assert_eq!(numbers.len(), padded_area(p));
    assert_eq!(options.subbands.len(), bands.len());
    bands
        .iter()
        .zip(&options.subbands)
        .map(|(band, options)| encode_subband(p, band, &numbers, options))
        .collect()
}

/// The bytes of one subband (document 01, "One subband").
fn encode_subband(
    p: &Parameters,
    band: &Subband,
    numbers: &[i64],
    options: &SubbandOptions,
) -> Vec<u8> {
    let row_width = padded_width(p);
    let mut all_zero = true;
    for y in 0..band.height {
        for x in 0..band.width {
            all_zero &= numbers[(band.top + y) * row_width + band.left + x] == 0;
        }
    }
    let mut data = Vec::new();
    if !(all_zero && options.skip_if_zero) {
        data = encode_codeblocks(p, band, numbers, options);
        data.extend(&options.slack);
    }
    let length = options.stated_length.unwrap_or(data.len() as u64);
    let mut header = BitWriter::new();
    header.number(length);
    if length > 0 {
        header.number(options.quantiser);
    }
    let mut bytes = header.to_bytes(options.fill);
    bytes.extend(data);
    bytes
}

/// The data of a subband's codeblocks (document 01, "One subband").
fn encode_codeblocks(
    p: &Parameters,
    band: &Subband,
    numbers: &[i64],
    options: &SubbandOptions,
) -> Vec<u8> {
    let across = p.codeblocks_across[band.level as usize] as usize;
    let down = p.codeblocks_down[band.level as usize] as usize;
    let row_width = padded_width(p);
    let mut writer = BitWriter::new();
    for block_y in 0..down {
        for block_x in 0..across {
            let mut block = Vec::new();
            for y in codeblock_start(band.height, block_y, down)
                ..codeblock_start(band.height, block_y + 1, down)
            {
                for x in codeblock_start(band.width, block_x, across)
                    ..codeblock_start(band.width, block_x + 1, across)
                {
                    block.push(numbers[(band.top + y) * row_width + band.left + x]);
                }
            }
            let has_flag = across * down > 1;
            let skip =
                has_flag && options.flag_zero_codeblocks && block.iter().all(|&number| number == 0);
            if has_flag {
                writer.bit(skip);
            }
            if !skip {
                for &number in &block {
                    writer.signed_number(number);
                }
            }
        }
    }
    if options.drop_trailing_ones {
        // The last byte is filled with ones, as bits left out are read from it.
        writer.drop_trailing_ones();
        writer.to_bytes(true)
    } else {
        writer.to_bytes(options.fill)
    }
}

/// How a magnitude is quantised.
#[derive(Clone, Copy, Debug, PartialEq, Eq)]
pub enum Rounding {
    /// floor(4 magnitude / factor).
    Floor,
    /// The number whose dequantised value is nearest, the smaller of two.
    Nearest,
}

/// A value quantised with an index 0..115, in a picture that is intra or isn't; [`Rounding::Floor`] doesn't
/// look at that.
pub fn quantise(value: i64, index: u32, intra: bool, rounding: Rounding) -> i64 {
    let magnitude = i128::from(value).abs();
    let floor = i64::try_from(4 * magnitude / i128::from(quantiser_factor(index)))
        .expect("the factor is 4 or more");
    let m = match rounding {
        Rounding::Floor => floor,
        Rounding::Nearest => (0.max(floor - 1)..=floor + 1)
            .min_by_key(|&m| (dequantise(m, index, intra) - magnitude).abs())
            .expect("never empty"),
    };
    if value < 0 {
        -m
    } else {
        m
    }
}

/// A coefficient plane quantised with one index for each subband in stream order, for the values that
/// unpacking will find in a picture of these parameters. If intra, level 0 is quantised without its
/// prediction, which is made from those values.
///
/// Near the extremes of 32 bits the quantised plane may unpack to a value outside them (status 9).
pub fn quantise_plane(
    p: &Parameters,
    coefficients: &[i32],
    indices: &[u32],
    rounding: Rounding,
) -> Vec<i64> {
    let bands = subbands(p);
    let row_width = padded_width(p);
    assert_eq!(coefficients.len(), padded_area(p));
    assert_eq!(indices.len(), bands.len());
    let mut quantised = vec![0; coefficients.len()];
    let mut unpacked = vec![0; coefficients.len()];
    for (band, &index) in bands.iter().zip(indices) {
        for y in 0..band.height {
            for x in 0..band.width {
                let entry = (band.top + y) * row_width + band.left + x;
                let predicted = if p.intra && band.level == 0 {
                    prediction(x, y, |x, y| unpacked[y * row_width + x])
                } else {
                    0
                };
                let residual = i64::from(coefficients[entry]) - predicted;
                quantised[entry] = quantise(residual, index, p.intra, rounding);
                let value = i64::try_from(dequantise(quantised[entry], index, p.intra))
                    .expect("a value near a coefficient");
                unpacked[entry] = value + predicted;
            }
        }
    }
    quantised
}
