//! Streams of low delay pictures at random, named by a seed.

use super::{bytes_for, components, default_matrix, part_bits, LowDelayPicture};
use crate::case::{allowed_depth, random_samples, random_wavelet, PICTURES};
use crate::setting::Setting;
use crate::stream::{BitDepth, ChromaFormat, Format, Stream};
use reference::params::sample_area;
use reference::{encode_low_delay, LowDelay, SliceOptions};
use vectors::pictures::picture_coefficients;
use vectors::random::Random;
use vectors::slices::{random_planes, random_slices, sliced};

/// The largest numerator.
const LARGEST_NUMERATOR: u32 = 65_535;

/// A stream of low delay pictures of one form.
pub struct LowDelayCase {
    pub seed: u64,
    pub format: Format,
    pub simd: bool,
    pub pictures: Vec<LowDelayPicture>,
}

impl LowDelayCase {
    /// The case of a seed.
    pub fn from_seed(seed: u64) -> LowDelayCase {
        let mut random = Random::new(seed);
        let largest = random.pick(&[16, 40, 70, 70, 120]);
        let chroma = random.pick(&ChromaFormat::ALL);
        let (across, down) = chroma.divisors();
        let format = Format {
            width: (random.range(2, largest) as u32).next_multiple_of(across),
            height: (random.range(2, largest) as u32).next_multiple_of(down),
            chroma,
            bit_depth: random.pick(&BitDepth::ALL),
        };
        let mut case = LowDelayCase {
            seed,
            format,
            simd: format.chroma_size().0 >= 8 && random.flag(),
            pictures: Vec::new(),
        };
        while case.pictures.len() < PICTURES {
            let picture = random_picture(&mut random, format, case.setting());
            case.pictures.push(picture);
        }
        case
    }

    /// How FFmpeg decodes it.
    pub fn setting(&self) -> Setting {
        Setting {
            bit_depth: self.format.bit_depth,
            simd: self.simd,
        }
    }

    /// The data units of the Dirac stream.
    pub fn dirac_stream(&self) -> Vec<Vec<u8>> {
        let mut stream = Stream::new(self.format);
        for (number, picture) in (0..).zip(&self.pictures) {
            let LowDelayPicture {
                parameters,
                wavelet,
                bytes,
            } = picture;
            stream.add_low_delay(number, parameters, *wavelet, bytes);
        }
        stream.end()
    }
}

/// A picture of random numbers or of samples; one of 16 is written without regard to FFmpeg.
fn random_picture(random: &mut Random, format: Format, setting: Setting) -> LowDelayPicture {
    let wavelet = random_wavelet(random, setting.bit_depth);
    let p = random_parameters(random, format, wavelet, setting);
    let bound = random.pick(&[1, 2, 9, 40]);
    match random.range(0, 15) {
        0 => {
            let p = with_bytes(random, &p, 20);
            let bytes = random_slices(random, &p, bound);
            LowDelayPicture {
                parameters: p,
                wavelet,
                bytes,
            }
        }
        1..=5 => picture_of_numbers(random, &p, wavelet, bound),
        _ => picture_of_samples(random, &p, wavelet, setting.bit_depth),
    }
}

/// Parameters of a format, with slices of a byte.
fn random_parameters(
    random: &mut Random,
    format: Format,
    wavelet: u32,
    setting: Setting,
) -> LowDelay {
    let [luma, chroma, _] = format.sizes();
    let depth = allowed_depth(setting, chroma.0, random.range(1, 4) as u32);
    let slices = (
        random_count(random, format.width),
        random_count(random, format.height),
    );
    let mut p = sliced(luma, chroma, depth, true, slices, (1, 1));
    p.picture.matrix = random_matrix(random, wavelet);
    p
}

/// How many slices divide a size; FFmpeg refuses more than that size.
fn random_count(random: &mut Random, size: u32) -> u32 {
    let most = random.pick(&[1, size.div_ceil(16), size.div_ceil(4), size]);
    random.range(1, most.into()) as u32
}

/// The default matrix of a wavelet, zeros, or entries up to some number.
fn random_matrix(random: &mut Random, wavelet: u32) -> [u32; 13] {
    if random.range(0, 2) == 0 {
        return default_matrix(wavelet);
    }
    let largest = random.pick(&[0, 3, 12, 40, 127]);
    [0; 13].map(|_| random.range(0, largest) as u32)
}

/// The same parameters with slices of so many bytes or a few more, often a fraction. But for one of 16 no
/// slice's bytes are a power of two.
fn with_bytes(random: &mut Random, p: &LowDelay, bytes: usize) -> LowDelay {
    let mut bytes = (bytes as u32).clamp(2, LARGEST_NUMERATOR - 3);
    let careful = random.range(0, 15) > 0;
    while careful && (bytes.is_power_of_two() || (bytes + 1).is_power_of_two()) {
        bytes += 1;
    }
    let largest = (LARGEST_NUMERATOR / (bytes + 1)).max(1);
    let denominator = random.pick(&[1, 2, 3, 7, 100, 1000]).min(largest);
    LowDelay {
        numerator: bytes * denominator + random.range(0, i64::from(denominator) - 1) as u32,
        denominator,
        ..p.clone()
    }
}

/// A picture of samples, with as many bytes for its slices as some rate gives them, or as they need.
fn picture_of_samples(
    random: &mut Random,
    p: &LowDelay,
    wavelet: u32,
    bit_depth: BitDepth,
) -> LowDelayPicture {
    let components = components(p, wavelet);
    let samples: usize = components.iter().map(sample_area).sum();
    let tenths_of_bits = random.pick(&[2, 6, 15, 30, 60]);
    let mut bytes = samples * tenths_of_bits / 80 / p.slice_count();
    let coefficients = components.map(|component| {
        let samples = random_samples(random, &component, bit_depth);
        picture_coefficients(&component, &samples)
    });
    loop {
        let p = with_bytes(random, p, bytes);
        if let Some(picture) = LowDelayPicture::of_coefficients(&p, wavelet, &coefficients) {
            return picture;
        }
        bytes = 2 * bytes + 1;
    }
}

/// A picture of numbers up to a magnitude, half of them 0. Its slices have any indices, and bytes for all their
/// numbers.
fn picture_of_numbers(
    random: &mut Random,
    p: &LowDelay,
    wavelet: u32,
    bound: i64,
) -> LowDelayPicture {
    let planes = random_planes(random, p, bound);
    let largest_index = random.pick(&[0, 4, 10, 20, 32]);
    let least_entry = p.picture.used_matrix().iter().min().expect("never empty");
    let mut most_bytes = 0;
    let slices: Vec<SliceOptions> = (0..p.slice_count())
        .map(|slice| {
            let luma = part_bits(&p.picture, &p.luma(), slice, &planes.each_ref()[..1]);
            let chroma = part_bits(&p.picture, &p.chroma(), slice, &planes.each_ref()[1..]);
            most_bytes = most_bytes.max(bytes_for(luma[0] + chroma[0]));
            let index = random.range(0, largest_index) as u32 + least_entry;
            SliceOptions {
                index: index.min(127),
                // Zeros at the end of luma may be left out.
                luma_length: Some(random.pick(&luma) as u64),
                fill: random.flag(),
                drop_trailing_ones: false,
            }
        })
        .collect();
    let p = with_bytes(random, p, most_bytes);
    let [luma, first_chroma, second_chroma] = &planes;
    LowDelayPicture {
        bytes: encode_low_delay(&p, luma, first_chroma, second_chroma, &slices),
        parameters: p,
        wavelet,
    }
}
