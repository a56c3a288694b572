//! Bodies at random.

use reference::codes::{BitReader, BitWriter, PastEnd};
use reference::encode::{encode_subbands, EncodeOptions, SubbandOptions};
use reference::params::{padded_area, padded_width, subbands, Parameters, Subband, MAX_QUANTISER};
use reference::unpack::quantiser_factor;
use reference::{quantise_plane, Rounding};
use vectors::pieces::{self, LARGEST_NUMBER};
use vectors::random::Random;
use vectors::recording_vectors::random_picture;

/// The quantised numbers of a component, and how each subband is written.
pub struct Body {
    pub quantised: Vec<i64>,
    pub options: EncodeOptions,
}

impl Body {
    /// The bytes of each subband.
    pub fn subbands(&self, p: &Parameters) -> Vec<Vec<u8>> {
        encode_subbands(p, &self.quantised, &self.options)
    }

    /// The bytes.
    pub fn bytes(&self, p: &Parameters) -> Vec<u8> {
        self.subbands(p).concat()
    }
}

/// Some way to write a subband, with any quantiser.
fn random_options(random: &mut Random) -> SubbandOptions {
    let most = random.pick(&[0, 12, 40, MAX_QUANTISER as i64]);
    SubbandOptions {
        quantiser: random.range(0, most) as u64,
        ..pieces::random_options(random)
    }
}

/// Up to so many bytes.
pub fn random_bytes(random: &mut Random, most: i64) -> Vec<u8> {
    (0..random.range(0, most))
        .map(|_| random.bits() as u8)
        .collect()
}

/// The entry of the coefficient plane at some position of a subband.
pub fn random_entry(random: &mut Random, p: &Parameters, band: &Subband) -> usize {
    let x = random.range(0, band.width as i64 - 1) as usize;
    let y = random.range(0, band.height as i64 - 1) as usize;
    (band.top + y) * padded_width(p) + band.left + x
}

/// Gives each position of a subband a new number.
pub fn fill_subband<T>(
    plane: &mut [T],
    p: &Parameters,
    band: &Subband,
    mut number: impl FnMut() -> T,
) {
    for y in band.top..band.top + band.height {
        for x in band.left..band.left + band.width {
            plane[y * padded_width(p) + x] = number();
        }
    }
}

/// A body in order whose coefficients have up to so many bits, or a quantiser so large that the number
/// 1 has more.
pub fn random_body(random: &mut Random, p: &Parameters) -> Body {
    let bits = random.pick(&[2, 4, 8, 8, 12, 16, 20, 29]);
    let mut quantised = vec![0; padded_area(p)];
    let mut options = Vec::new();
    for band in subbands(p) {
        let option = random_options(random);
        let most = (4 << bits) / quantiser_factor(option.quantiser as u32);
        let most = most.max(random.pick(&[0, 0, 0, 1]));
        // In 16 positions, how many are not 0.
        let density = random.pick(&[0, 1, 4, 8, 16]);
        fill_subband(&mut quantised, p, &band, || {
            if random.range(1, 16) <= density {
                random.range(-most, most)
            } else {
                0
            }
        });
        options.push(option);
    }
    Body {
        quantised,
        options: EncodeOptions { subbands: options },
    }
}

/// A body that states a picture with an edge, analysed and quantised.
pub fn picture_body(random: &mut Random, p: &Parameters) -> Vec<u8> {
    let height_of_edge = random.range(-200, 200);
    random_picture(random, p, height_of_edge).body
}

/// The bytes of these coefficients, unpacked without loss.
pub fn lossless_body(p: &Parameters, coefficients: &[i32]) -> Vec<u8> {
    let indices = vec![0; subbands(p).len()];
    let body = Body {
        quantised: quantise_plane(p, coefficients, &indices, Rounding::Floor),
        options: EncodeOptions::uniform(p, SubbandOptions::default()),
    };
    body.bytes(p)
}

/// Headers in order, each followed by as many bytes at random as it says.
pub fn random_data(random: &mut Random, p: &Parameters) -> Vec<u8> {
    let mut bytes = Vec::new();
    for _ in subbands(p) {
        let data = random_bytes(random, 12);
        let mut header = BitWriter::new();
        header.number(data.len() as u64);
        if !data.is_empty() {
            header.number(random.range(0, 118) as u64);
        }
        bytes.extend(header.to_bytes(random.flag()));
        bytes.extend(data);
    }
    bytes
}

/// Bytes at random: of any bits, or many of them skipped subbands, or mostly 0.
pub fn noise(random: &mut Random) -> Vec<u8> {
    let common = random.pick(&[None, Some(0x80), Some(0x00), Some(0x30)]);
    random_bytes(random, 60)
        .into_iter()
        .map(|byte| match common {
            Some(common) if random.range(0, 3) > 0 => common,
            _ => byte,
        })
        .collect()
}

/// Turns over one bit or a few.
pub fn flip_bits(random: &mut Random, bytes: &mut [u8]) {
    if bytes.is_empty() {
        return;
    }
    for _ in 0..random.range(1, 4) {
        let bit = random.range(0, 8 * bytes.len() as i64 - 1) as usize;
        bytes[bit / 8] ^= 1 << (bit % 8);
    }
}

/// Has one subband state another length than its own.
pub fn change_length(random: &mut Random, p: &Parameters, body: &mut Body) {
    let k = random_subband(random, body.options.subbands.len());
    let parts = body.subbands(p);
    let mut header = BitReader::new(&parts[k], PastEnd::Missing);
    let length = header.number().expect("a body in order");
    body.options.subbands[k].stated_length = Some(random.pick(&[
        0,
        1,
        length / 2,
        length.saturating_sub(1),
        length + 1,
        length + 2,
        2 * length + 20,
        // The same in the low bits, also of 8 times the length.
        length + (1 << 29),
        length + (1 << 31),
        LARGEST_NUMBER,
        LARGEST_NUMBER + 1,
    ]));
}

/// A body that is refused at some subband, or nearly so. A second fault there, in the next subband or
/// anywhere shows which of the two is given.
pub fn faulty_bytes(random: &mut Random, p: &Parameters) -> Vec<u8> {
    let mut body = random_body(random, p);
    let count = subbands(p).len();
    let mut k = random_subband(random, count);
    if p.intra && random.range(0, 3) == 0 {
        enlarge_level_0(random, p, &mut body);
    }
    if random.range(0, 4) > 0 {
        put_fault(random, p, &mut body, k);
        if random.range(0, 2) == 0 {
            let any = random_subband(random, count);
            k = random.pick(&[k, (k + 1) % count, any]);
            put_fault(random, p, &mut body, k);
        }
        if random.range(0, 7) > 0 {
            return body.bytes(p);
        }
    }
    let parts = body.subbands(p);
    let start: usize = parts[..k].iter().map(Vec::len).sum();
    let kept = random.range(0, parts[k].len() as i64 - 1) as usize;
    let mut bytes = parts.concat();
    bytes.truncate(start + kept);
    bytes
}

/// Gives level 0 values that fit 32 bits until prediction adds them up.
fn enlarge_level_0(random: &mut Random, p: &Parameters, body: &mut Body) {
    let factor = quantiser_factor(body.options.subbands[0].quantiser as u32);
    let limit = (4 << 31) / factor;
    let sign = random.pick(&[-1, 1]);
    fill_subband(&mut body.quantised, p, &subbands(p)[0], || {
        sign * random.range(limit / 2, limit - 1)
    });
}

/// The number of one of so many subbands.
fn random_subband(random: &mut Random, count: usize) -> usize {
    random.range(0, count as i64 - 1) as usize
}

/// Puts a fault into a subband, or nearly one: a header's code, its index, a number or a coefficient
/// too large.
fn put_fault(random: &mut Random, p: &Parameters, body: &mut Body, k: usize) {
    let option = &mut body.options.subbands[k];
    option.skip_if_zero = false;
    // So that the length isn't 0.
    option.slack.push(random.bits() as u8);
    let quantiser = option.quantiser.min(MAX_QUANTISER) as u32;
    let too_long = LARGEST_NUMBER + 1 + random.range(0, 1 << 40) as u64;
    let number = match random.range(0, 8) {
        0 => {
            option.stated_length = Some(random.pick(&[too_long, LARGEST_NUMBER, 100_000]));
            return;
        }
        1 => {
            option.quantiser = too_long;
            return;
        }
        2 | 3 => {
            let low_bits_right = u64::from(quantiser) + random.pick(&[1 << 8, 1 << 16, 1 << 31]);
            option.quantiser = random.pick(&[116, 116, 117, 255, low_bits_right, LARGEST_NUMBER]);
            return;
        }
        4 | 5 => random.pick(&[LARGEST_NUMBER + 1, too_long]) as i64,
        _ => {
            let limit = (4 << 31) / quantiser_factor(quantiser);
            let number = limit + random.pick(&[-2, -1, 0, 1, 2, limit / 2, limit]);
            number.clamp(0, LARGEST_NUMBER as i64)
        }
    };
    let entry = random_entry(random, p, &subbands(p)[k]);
    body.quantised[entry] = random.pick(&[-1, 1]) * number;
}
