//! Streams of pictures at random, named by a seed.

use crate::setting::Setting;
use crate::stream::{BitDepth, Format, Stream, COMPONENTS};
use reference::encode::{encode_body, EncodeOptions, SubbandOptions};
use reference::params::{padded_area, sample_area, subbands};
use reference::unpack::dequantise;
use reference::Parameters;
use vectors::pictures::{encode_coefficients, picture_coefficients};
use vectors::pieces::{plain, random_options};
use vectors::random::Random;

/// How many pictures a stream has, without its reference picture.
pub const PICTURES: usize = 8;

/// How many components a stream has.
pub const COMPONENTS_OF_CASE: usize = PICTURES * COMPONENTS;

/// A picture: the parameters of its components, and their bodies.
pub struct Picture {
    pub parameters: Parameters,
    pub bodies: [Vec<u8>; COMPONENTS],
}

/// A stream of pictures of one size.
pub struct Case {
    pub seed: u64,
    pub setting: Setting,
    pub pictures: Vec<Picture>,
}

impl Case {
    /// The case of a seed. One in eight is about the quantiser's factors and offsets.
    pub fn from_seed(seed: u64) -> Case {
        let mut random = Random::new(seed);
        if random.range(0, 7) == 0 {
            factors_case(&mut random, seed)
        } else {
            mixed_case(&mut random, seed)
        }
    }

    /// The form of its pictures.
    pub fn format(&self) -> Format {
        let p = &self.pictures[0].parameters;
        Format::full(p.width, p.height, self.setting.bit_depth)
    }

    /// The data units of the Dirac stream, whose first picture is the reference picture.
    pub fn dirac_stream(&self) -> Vec<Vec<u8>> {
        let mut stream = Stream::new(self.format());
        stream.add_reference();
        for (number, picture) in (1..).zip(&self.pictures) {
            let bodies = picture.bodies.each_ref().map(Vec::as_slice);
            stream.add_picture(number, &picture.parameters, bodies);
        }
        stream.end()
    }
}

/// Whether a picture is intra: two of three are.
fn random_intra(random: &mut Random) -> bool {
    random.range(0, 2) > 0
}

/// Pictures of all kinds.
fn mixed_case(random: &mut Random, seed: u64) -> Case {
    let largest = random.pick(&[16, 40, 70, 70, 160]);
    let width = random.range(2, largest) as u32;
    let height = random.range(2, largest) as u32;
    let setting = Setting {
        bit_depth: random.pick(&BitDepth::ALL),
        simd: width >= 8 && random.flag(),
    };
    let mut pictures = Vec::new();
    while pictures.len() < PICTURES {
        let p = random_parameters(random, width, height, setting);
        let bodies = [0; COMPONENTS].map(|_| random_body(random, &p, setting.shown_bits(&p)));
        pictures.push(Picture {
            parameters: p,
            bodies,
        });
    }
    Case {
        seed,
        setting,
        pictures,
    }
}

/// Parameters of a size that FFmpeg takes: no level is too narrow for its SIMD code, and wavelet 6 has 8
/// bits.
fn random_parameters(random: &mut Random, width: u32, height: u32, setting: Setting) -> Parameters {
    let wavelet = random_wavelet(random, setting.bit_depth);
    let most = width.min(height).ilog2().min(4);
    let depth = allowed_depth(setting, width, random.range(1, most.into()) as u32);
    let mut p = plain(width, height, depth, wavelet, random_intra(random));
    let split = random.flag();
    for level in 0..=p.depth {
        let mut count = |size: u32| match (split, size >> (p.depth - level)) {
            (true, most) => random.range(1, i64::from(most.min(255))) as u32,
            _ => 1,
        };
        let (across, down) = (count(width), count(height));
        p.codeblocks_across[level as usize] = across;
        p.codeblocks_down[level as usize] = down;
    }
    p
}

/// A wavelet; 6 has 8 bits.
pub fn random_wavelet(random: &mut Random, bit_depth: BitDepth) -> u32 {
    let last = if bit_depth == BitDepth::Eight { 6 } else { 5 };
    random.range(0, last) as u32
}

/// The largest depth up to one at which no level of a component of a width is too narrow for FFmpeg's SIMD code,
/// if that decodes it; the width is then 8 or more.
pub fn allowed_depth(setting: Setting, width: u32, depth: u32) -> u32 {
    let narrowest = |depth: u32| width.next_multiple_of(1 << depth) >> (depth - 1);
    let is_allowed = |depth: &u32| !setting.simd || narrowest(*depth) >= 8;
    (1..=depth).rev().find(is_allowed).expect("depth 1")
}

/// A body of random numbers, or of a picture whose samples have so many bits.
fn random_body(random: &mut Random, p: &Parameters, bit_depth: BitDepth) -> Vec<u8> {
    let largest_index = random.pick(&[0, 4, 10, 20, 32]);
    let options = EncodeOptions {
        subbands: subbands(p)
            .iter()
            .map(|_| SubbandOptions {
                quantiser: random.range(0, largest_index) as u64,
                // FFmpeg reads on where the data end inside a number.
                drop_trailing_ones: false,
                ..random_options(random)
            })
            .collect(),
    };
    if random.range(0, 2) == 0 {
        let bound = random.pick(&[1, 2, 9, 40]);
        let plane: Vec<i64> = (0..padded_area(p))
            .map(|_| i64::from(random.flag()) * random.range(-bound, bound))
            .collect();
        return encode_body(p, &plane, &options);
    }
    let samples = random_samples(random, p, bit_depth);
    encode_coefficients(p, &picture_coefficients(p, &samples), &options)
}

/// Samples of so many bits: noise, or a slope with an edge.
pub fn random_samples(random: &mut Random, p: &Parameters, bit_depth: BitDepth) -> Vec<i64> {
    let magnitude = i64::from(bit_depth.offset()) / random.pick(&[2, 3, 5, 20]);
    if random.flag() {
        noise(random, p, magnitude)
    } else {
        slope_and_edge(random, p, magnitude)
    }
}

/// Samples up to a magnitude.
fn noise(random: &mut Random, p: &Parameters, magnitude: i64) -> Vec<i64> {
    (0..sample_area(p))
        .map(|_| random.range(-magnitude, magnitude))
        .collect()
}

/// A slope with a sharp edge that leans, and a grain, up to a magnitude.
fn slope_and_edge(random: &mut Random, p: &Parameters, magnitude: i64) -> Vec<i64> {
    let (width, height) = (i64::from(p.width), i64::from(p.height));
    let edge = random.range(0, width - 1);
    let lean = random.range(-8, 8);
    let mut samples = Vec::new();
    for y in 0..height {
        for x in 0..width {
            let slope = magnitude * (x + y) / (2 * (width + height));
            let beyond = 8 * (x - edge) >= lean * y;
            let step = if beyond {
                magnitude / 3
            } else {
                -magnitude / 3
            };
            samples.push(slope + step + random.range(-1, 1));
        }
    }
    samples
}

/// The index of level 0 in pictures made for the factors; its values are 8 apart.
const FACTORS_LEVEL_0_INDEX: u32 = 12;

/// Pictures of two rows that show factors and offsets far above the range of samples.
fn factors_case(random: &mut Random, seed: u64) -> Case {
    let width = 2 * random.range(1, 20) as u32;
    let mut picture = || {
        let p = plain(width, 2, 1, 3, random_intra(random));
        let bodies = [0; COMPONENTS].map(|_| factors_body(random, &p));
        Picture {
            parameters: p,
            bodies,
        }
    };
    Case {
        seed,
        pictures: (0..PICTURES).map(|_| picture()).collect(),
        setting: Setting {
            bit_depth: BitDepth::Twelve,
            simd: false,
        },
    }
}

/// A body in which HL and LH have 1 or -1 of any index everywhere, and LL stands against both, so that all
/// but a few units cancels.
///
/// Wavelet 3 at depth 1 makes LL - floor((LH + 1) / 2) - floor((HL + 1) / 2) of them in the even columns of
/// the even row. If intra, prediction carries the first value of LL along its only row.
fn factors_body(random: &mut Random, p: &Parameters) -> Vec<u8> {
    let half = p.width as usize / 2;
    let mut plane = vec![0; padded_area(p)];
    let mut indices = [FACTORS_LEVEL_0_INDEX, 0, 0, 0];
    let mut level_0 = 0;
    for (subband, start) in [(1, half), (2, 2 * half)] {
        let number = random.pick(&[1, -1]);
        let index = random.range(0, 115) as u32;
        let value = dequantise(number, index, p.intra) as i64;
        plane[start..start + half].fill(number);
        indices[subband] = index;
        level_0 += (value + 1).div_euclid(2);
    }
    let stated = if p.intra { 1 } else { half };
    plane[..stated].fill(level_0 / 8);
    let subbands = indices.map(|index| SubbandOptions {
        quantiser: index.into(),
        ..SubbandOptions::default()
    });
    let options = EncodeOptions {
        subbands: subbands.to_vec(),
    };
    encode_body(p, &plane, &options)
}
