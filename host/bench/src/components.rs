//! What is measured: components made by the reference's encoder.

use crate::picture;
use ffmpeg::stream::{BitDepth, Format, Stream, COMPONENTS};
use reference::encode::{encode_body, quantise_plane, EncodeOptions, Rounding, SubbandOptions};
use reference::params::{sample_area, subbands};
use reference::Parameters;
use std::fmt::{self, Display, Formatter};
use vectors::pictures::picture_coefficients;
use vectors::pieces::{plain, with_codeblocks};

/// The seed of the picture.
const SEED: u64 = 1;

/// A picture to encode, and how.
#[derive(Clone, Copy, Debug)]
pub struct Plan {
    pub width: u32,
    pub height: u32,
    pub depth: u32,
    pub wavelet: u32,
    pub intra: bool,
    pub codeblocks: Codeblocks,
}

/// The codeblocks of a subband, the same at every level.
#[derive(Clone, Copy, Debug, PartialEq, Eq)]
pub struct Codeblocks {
    pub across: u32,
    pub down: u32,
    /// Whether a codeblock of zeros is flagged; otherwise its zeros are written out.
    pub flag_zeros: bool,
}

/// A rate to come near to, and the quantiser index to try first.
#[derive(Clone, Copy, Debug, PartialEq)]
pub struct Rate {
    pub bits_a_sample: f64,
    pub first_index: u32,
}

/// The size of most rows.
pub const FULL_SIZE: (u32, u32) = (1920, 1080);

/// The wavelets that are measured.
pub const WAVELETS: [u32; 4] = [0, 1, 5, 6];

/// The rates that each is measured at.
pub const RATES: [Rate; 2] = [about(1.1, 14), about(3.7, 4)];

/// The wavelet of the tables of sizes and rates.
pub const ONE_WAVELET: u32 = 1;

/// The rate that it is measured at without being intra, too. Its index is one at which the offset changes
/// values.
pub const NOT_INTRA_RATE: Rate = RATES[0];

/// The other sizes that are measured at the first rate: add one for another row. The first is so small that
/// what is done once a call and once a subband shows; its instructions are counted, too.
pub const OTHER_SIZES: [(u32, u32); 5] =
    [(64, 48), (240, 136), (480, 270), (960, 540), (4096, 2160)];

/// The other rates that are measured at the full size.
pub const OTHER_RATES: [Rate; 3] = [about(0.5, 22), about(2.0, 10), about(6.0, 0)];

/// The codeblocks of the table of many codeblocks, at the full size; the first are one.
pub const MANY_CODEBLOCKS: [Codeblocks; 7] = [
    Codeblocks::ONE,
    Codeblocks::written_out(4, 3),
    Codeblocks::written_out(16, 12),
    Codeblocks::written_out(60, 34),
    Codeblocks::written_out(120, 68),
    Codeblocks::written_out(255, 255),
    Codeblocks::flagged(120, 68),
];

/// The rate that they are measured at.
pub const MANY_CODEBLOCKS_RATE: Rate = about(1.8, 10);

/// The size whose instructions are counted.
pub const COUNTED_SIZE: (u32, u32) = (480, 270);

/// The codeblocks whose instructions are counted at the rate of many codeblocks.
pub const COUNTED_CODEBLOCKS: [Codeblocks; 3] = [
    Codeblocks::ONE,
    Codeblocks::written_out(30, 17),
    Codeblocks::written_out(64, 64),
];

/// A rate to come near to, and the index to try first.
const fn about(bits_a_sample: f64, first_index: u32) -> Rate {
    Rate {
        bits_a_sample,
        first_index,
    }
}

impl Codeblocks {
    /// One codeblock, which never has a flag.
    pub const ONE: Codeblocks = Codeblocks::written_out(1, 1);

    /// So many across and down, with all zeros written out.
    pub const fn written_out(across: u32, down: u32) -> Codeblocks {
        Codeblocks {
            across,
            down,
            flag_zeros: false,
        }
    }

    /// So many across and down, with codeblocks of zeros flagged.
    pub const fn flagged(across: u32, down: u32) -> Codeblocks {
        Codeblocks {
            across,
            down,
            flag_zeros: true,
        }
    }
}

impl Display for Codeblocks {
    fn fmt(&self, f: &mut Formatter) -> fmt::Result {
        write!(f, "{} x {}", self.across, self.down)
    }
}

impl Display for Plan {
    fn fmt(&self, f: &mut Formatter) -> fmt::Result {
        let Codeblocks { flag_zeros, .. } = self.codeblocks;
        let zeros = if flag_zeros { ", zeros flagged" } else { "" };
        let intra = if self.intra { "" } else { ", not intra" };
        write!(
            f,
            "{} x {}, depth {}, wavelet {}{intra}, codeblocks {}{zeros}",
            self.width, self.height, self.depth, self.wavelet, self.codeblocks
        )
    }
}

impl Plan {
    /// An intra picture of a size with a wavelet, and one codeblock for each subband.
    pub const fn new((width, height): (u32, u32), wavelet: u32) -> Plan {
        Plan {
            width,
            height,
            depth: 4,
            wavelet,
            intra: true,
            codeblocks: Codeblocks::ONE,
        }
    }
}

/// An encoded component.
pub struct Component {
    pub parameters: Parameters,
    /// The codeblocks of its subbands.
    pub codeblocks: Codeblocks,
    /// The rate that it comes near to with one codeblock.
    pub rate: Rate,
    /// The quantiser index of every subband.
    pub index: u32,
    pub body: Vec<u8>,
}

impl Component {
    /// The components of a plan, one for each rate. Codeblocks do not change the index. One that is not intra
    /// has the body of the intra one: it is read in another way.
    pub fn of(plan: Plan, rates: &[Rate]) -> Vec<Component> {
        let p = plain(plan.width, plan.height, plan.depth, plan.wavelet, true);
        let samples = picture::samples(plan.width, plan.height, SEED);
        let coefficients = picture_coefficients(&p, &samples);
        let encode = |&rate: &Rate| {
            let index = nearest_index(&p, &coefficients, rate);
            let mut component = encode_with(&p, &coefficients, plan.codeblocks, rate, index);
            component.parameters.intra = plan.intra;
            component
        };
        rates.iter().map(encode).collect()
    }

    /// Its width and height.
    pub fn size(&self) -> (u32, u32) {
        (self.parameters.width, self.parameters.height)
    }

    /// The samples of the component.
    pub fn samples(&self) -> usize {
        sample_area(&self.parameters)
    }

    /// The bits of the body for each sample.
    pub fn bits_a_sample(&self) -> f64 {
        8.0 * self.body.len() as f64 / self.samples() as f64
    }

    /// A sequence header and a picture of 8 bits that has this component, an intra one, three times, and
    /// where the picture's number stands.
    pub fn packet(&self) -> (Vec<u8>, usize) {
        let p = &self.parameters;
        let mut stream = Stream::new(Format::full(p.width, p.height, BitDepth::Eight));
        let number_offset = stream.add_picture(0, p, [&self.body; COMPONENTS]);
        (stream.bytes(), number_offset)
    }
}

/// The index that comes nearest to a rate with one codeblock: the first index that is not above the rate,
/// or the one before it.
fn nearest_index(p: &Parameters, coefficients: &[i32], rate: Rate) -> u32 {
    let miss = |index| {
        let component = encode_with(p, coefficients, Codeblocks::ONE, rate, index);
        component.bits_a_sample() - rate.bits_a_sample
    };
    let mut index = rate.first_index;
    let mut above = miss(index);
    while above < 0.0 && index > 0 {
        index -= 1;
        above = miss(index);
    }
    loop {
        let next = miss(index + 1);
        if next <= 0.0 {
            let nearer = next.abs() < above.abs();
            return if nearer { index + 1 } else { index };
        }
        index += 1;
        above = next;
    }
}

/// Encodes coefficients in codeblocks with one index for every subband.
fn encode_with(
    p: &Parameters,
    coefficients: &[i32],
    codeblocks: Codeblocks,
    rate: Rate,
    index: u32,
) -> Component {
    let p = with_codeblocks(p, codeblocks.across, codeblocks.down);
    let indices = vec![index; subbands(&p).len()];
    let quantised = quantise_plane(&p, coefficients, &indices, Rounding::Floor);
    let options = SubbandOptions {
        quantiser: index.into(),
        flag_zero_codeblocks: codeblocks.flag_zeros,
        ..SubbandOptions::default()
    };
    let body = encode_body(&p, &quantised, &EncodeOptions::uniform(&p, options));
    Component {
        parameters: p,
        codeblocks,
        rate,
        index,
        body,
    }
}
