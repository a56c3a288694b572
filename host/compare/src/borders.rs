//! Bodies for the borders of a fast reader: one that reads runs of zeros and short codes many bits at a
//! time, and all else one value at a time. So rows end inside runs, codes of every length stand at every
//! bit of a byte, data ends right behind its last code or inside it, and numbers, often small ones, have
//! quantisers with which they just fit 32 bits or just do not, or show the rule of the offset.

use crate::bodies::{fill_subband, random_bytes, random_entry, Body};
use crate::scale::{
    number_at_a_border, number_that_fits, number_that_shows_rule, small_number_that_fits,
    small_number_too_large, Scale,
};
use reference::codes::{BitReader, PastEnd};
use reference::encode::{EncodeOptions, SubbandOptions};
use reference::params::{padded_area, padded_width, subbands, Parameters, Subband};
use reference::unpack::codeblock_start;
use vectors::offsets::indices_with_two_borders;
use vectors::pieces::{self, subband_bytes};
use vectors::random::Random;

/// The most bits of a signed number's code.
const LONGEST_CODE: i64 = 64;

/// The indices of a subband's values in the coefficient plane, in the order in which they are read.
fn reading_order(p: &Parameters, band: &Subband) -> Vec<usize> {
    let across = p.codeblocks_across[band.level as usize] as usize;
    let down = p.codeblocks_down[band.level as usize] as usize;
    let span =
        |size, k, count| codeblock_start(size, k, count)..codeblock_start(size, k + 1, count);
    let mut indices = Vec::new();
    for block_y in 0..down {
        for block_x in 0..across {
            for y in span(band.height, block_y, down) {
                for x in span(band.width, block_x, across) {
                    indices.push((band.top + y) * padded_width(p) + band.left + x);
                }
            }
        }
    }
    indices
}

/// How many zeros stand before the next number: none, a few, or up to 41, often about as many as the
/// bits of some bytes.
fn random_run(random: &mut Random) -> usize {
    let bytes = 8 * random.range(1, 5);
    let about = bytes + random.range(-2, 1);
    let (few, any) = (random.range(0, 3), random.range(0, 41));
    random.pick(&[0, few, few, about, any]) as usize
}

/// A number whose signed code takes so many bits: 4, 6 and on to 64. Of those with 64 bits, one that
/// fits 32 bits where the quantiser index is 0.
pub fn number_of_code(random: &mut Random, bits: i64) -> i64 {
    if bits == LONGEST_CODE {
        return random.pick(&[i32::MAX, -i32::MAX, i32::MIN]).into();
    }
    let low = (1 << (bits / 2 - 1)) - 1;
    let high = 2 * low;
    let any = random.range(low, high);
    random.pick(&[-1, 1]) * random.pick(&[low, high, any])
}

/// Fills a subband with runs of zeros and numbers between them.
pub fn put_runs(
    random: &mut Random,
    indices: &[usize],
    quantised: &mut [i64],
    mut number: impl FnMut(&mut Random) -> i64,
) {
    let mut k = random_run(random);
    while k < indices.len() {
        quantised[indices[k]] = number(random);
        k += 1 + random_run(random);
    }
}

/// A body of runs, with numbers of a kind and quantiser indices of a kind.
fn body_of_runs(
    random: &mut Random,
    p: &Parameters,
    index: fn(&mut Random) -> u32,
    number: fn(&mut Random) -> i64,
) -> Body {
    body_of_bands(random, p, index, |random, band, _, quantised| {
        let indices = reading_order(p, band);
        put_runs(random, &indices, quantised, number);
    })
}

/// A body whose subbands have a quantiser index of a kind, filled by a function of the subband and of what
/// its numbers are dequantised by.
pub fn body_of_bands(
    random: &mut Random,
    p: &Parameters,
    index: impl Fn(&mut Random) -> u32,
    fill: impl Fn(&mut Random, &Subband, Scale, &mut [i64]),
) -> Body {
    let mut quantised = vec![0; padded_area(p)];
    let mut options = Vec::new();
    for band in subbands(p) {
        let index = index(random);
        let scale = Scale {
            index,
            intra: p.intra,
        };
        fill(random, &band, scale, &mut quantised);
        let mut option = SubbandOptions {
            quantiser: index.into(),
            ..pieces::random_options(random)
        };
        if option.drop_trailing_ones {
            // Bytes behind the data would be read in place of the ones.
            option.slack.clear();
        }
        options.push(option);
    }
    Body {
        quantised,
        options: EncodeOptions { subbands: options },
    }
}

/// A body of short codes with runs of zeros between them.
pub fn runs_body(random: &mut Random, p: &Parameters) -> Body {
    let index = |random: &mut Random| random.range(0, 40) as u32;
    body_of_runs(random, p, index, short_number)
}

/// A number with a short code.
pub fn short_number(random: &mut Random) -> i64 {
    let bits = random.pick(&[4, 4, 6, 6, 8, 8, 10, 12]);
    number_of_code(random, bits)
}

/// A body of codes of every length.
pub fn codes_body(random: &mut Random, p: &Parameters) -> Body {
    body_of_runs(random, p, |_| 0, number_of_any_code)
}

/// A number with a code of any length.
pub fn number_of_any_code(random: &mut Random) -> i64 {
    let any = 2 * random.range(2, LONGEST_CODE / 2);
    let bits = random.pick(&[any, any, 8, 10, 62, 64]);
    number_of_code(random, bits)
}

/// Fills a subband with runs of zeros and large numbers between them. One that is predicted most often has
/// one number, as prediction takes more of them out of 32 bits.
fn put_large(
    random: &mut Random,
    p: &Parameters,
    band: &Subband,
    quantised: &mut [i64],
    mut number: impl FnMut(&mut Random) -> i64,
) {
    let indices = reading_order(p, band);
    if p.intra && band.level == 0 && random.range(0, 3) > 0 {
        quantised[random.pick(&indices)] = number(random);
    } else {
        put_runs(random, &indices, quantised, number);
    }
}

/// Puts a number of a kind at some entry of some subband. In one that is predicted it is the only one, so
/// that prediction refuses none that fits.
fn put_one(
    random: &mut Random,
    p: &Parameters,
    body: &mut Body,
    number: fn(&mut Random, Scale) -> i64,
) {
    let bands = subbands(p);
    let k = random.range(0, bands.len() as i64 - 1) as usize;
    let scale = Scale {
        index: body.options.subbands[k].quantiser as u32,
        intra: p.intra,
    };
    if p.intra && k == 0 {
        fill_subband(&mut body.quantised, p, &bands[k], || 0);
    }
    let entry = random_entry(random, p, &bands[k]);
    body.quantised[entry] = number(random, scale);
}

/// A body of numbers that just fit 32 bits with their quantiser indices; or all but one of them do, or one
/// is about the largest that fits in a picture of the other kind. Some of the indices are any; more are so
/// large that the numbers are small, and as many those with which the intra flag decides what fits.
pub fn just_fits_body(random: &mut Random, p: &Parameters) -> Body {
    let two_borders = indices_with_two_borders();
    let index = |random: &mut Random| {
        let (any, large) = (random.range(0, 115) as u32, random.range(104, 115) as u32);
        let differs = random.pick(&two_borders);
        random.pick(&[any, large, large, differs, differs])
    };
    let mut body = body_of_bands(random, p, index, |random, band, scale, quantised| {
        put_large(random, p, band, quantised, |random| {
            number_that_fits(random, scale)
        });
    });
    if random.range(0, 3) > 0 {
        put_one(random, p, &mut body, number_at_a_border);
    }
    body
}

/// A body for a reader that looks up the values of magnitudes up to 14 where all of them fit 32 bits, which
/// is so with indices up to 108. About that index it has small numbers that fit, and one of a magnitude of
/// 12 to 16 that most often does not.
pub fn looked_up_body(random: &mut Random, p: &Parameters) -> Body {
    let index = |random: &mut Random| {
        let least = random.pick(&[106, 108]);
        random.range(least, 115) as u32
    };
    let mut body = body_of_bands(random, p, index, |random, band, scale, quantised| {
        put_large(random, p, band, quantised, |random| {
            small_number_that_fits(random, scale)
        });
    });
    put_one(random, p, &mut body, small_number_too_large);
    body
}

/// A body of numbers that show the rule, wherever a number can. The indices are any, but most of them above
/// 40, which few bodies of other kinds have.
pub fn offsets_body(random: &mut Random, p: &Parameters) -> Body {
    let index = |random: &mut Random| {
        let least = random.pick(&[0, 41, 41, 41]);
        random.range(least, 115) as u32
    };
    body_of_bands(random, p, index, |random, band, scale, quantised| {
        let indices = reading_order(p, band);
        // Prediction takes several out of 32 bits.
        if !p.intra || band.level > 0 {
            put_runs(random, &indices, quantised, |random| {
                number_that_shows_rule(random, scale)
            });
        }
        quantised[random.pick(&indices)] = number_that_shows_rule(random, scale);
    })
}

/// The bytes of a body whose data ends up to 10 bytes behind the last code of a subband, or before it
/// ends.
pub fn ends_bytes(random: &mut Random, p: &Parameters) -> Vec<u8> {
    let mut body = if random.flag() {
        runs_body(random, p)
    } else {
        codes_body(random, p)
    };
    for (band, options) in subbands(p).iter().zip(&mut body.options.subbands) {
        options.slack.clear();
        options.drop_trailing_ones = false;
        let last = reading_order(p, band).pop().expect("a subband has values");
        // Short enough for any index that a body of runs has.
        let bits = 2 * random.range(2, 8);
        body.quantised[last] = number_of_code(random, bits);
    }
    let parts = body.subbands(p);
    parts
        .iter()
        .flat_map(|part| with_other_end(random, part))
        .collect()
}

/// The bytes of a subband with up to 10 bytes of data more or fewer, and a header that says so.
pub fn with_other_end(random: &mut Random, part: &[u8]) -> Vec<u8> {
    with_other_data(part, |data| {
        if random.flag() {
            data.extend(random_bytes(random, 10));
        } else {
            let fewer = data.len().saturating_sub(random.range(0, 10) as usize);
            // A length of 0 would skip the subband.
            data.truncate(fewer.max(1));
        }
    })
}

/// The bytes of a subband with its data changed, and a header that says so. One that is skipped stays
/// so.
pub fn with_other_data(part: &[u8], change: impl FnOnce(&mut Vec<u8>)) -> Vec<u8> {
    let mut header = BitReader::new(part, PastEnd::Missing);
    let mut number = || header.number().expect("a body in order");
    if number() == 0 {
        return part.to_vec();
    }
    let index = number();
    let mut data = part[header.align()..].to_vec();
    change(&mut data);
    subband_bytes(index, &data)
}

#[cfg(test)]
mod tests {
    use super::*;
    use reference::codes::BitWriter;

    #[test]
    fn numbers_have_codes_of_the_length_asked_for() {
        let mut random = Random::new(1);
        for bits in (4..=64).step_by(2) {
            for _ in 0..50 {
                let number = number_of_code(&mut random, bits);
                let mut writer = BitWriter::new();
                writer.signed_number(number);
                // One bit more tells a code that ends at a byte boundary.
                writer.bit(true);
                assert_eq!(writer.to_bytes(false).len() as i64, bits / 8 + 1);
                assert!(i32::try_from(number).is_ok());
            }
        }
    }
}
