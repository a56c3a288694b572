//! Which components FFmpeg's samples can confirm, and which samples are expected of it there.
//!
//! FFmpeg works in 16 bits where document 01 has 32, and has slips of its own. A component that meets
//! one of them is set aside, with the reason.

use crate::proved::Decoded;
use crate::setting::{Setting, Shown};
use crate::stream::BitDepth;
use reference::params::{padded_width, subband_at, Orientation, Parameters};
use reference::transform::{shift_down, Grid, Step, FILTERS};
use reference::unpack::prediction;
use std::slice;
use vectors::levels::{build_picture, crop, halve};

/// Why a component is not eligible: FFmpeg's samples of it confirm nothing.
#[derive(Clone, Copy, Debug, PartialEq, Eq)]
pub enum Aside {
    /// The proved library refuses it, so there are no samples.
    Refused,
    /// In a slice of 1, 2, 4, 8.. bytes FFmpeg's luma length has a bit more, or four in one of 1 byte.
    SliceLength,
    /// FFmpeg reads on where the luma or chroma bits of a slice end inside a number.
    CutNumber,
    /// FFmpeg skips luma bits that no number takes in the wrong direction, so it reads chroma elsewhere.
    LumaLeftOver,
    /// FFmpeg refuses more codeblocks than the width or height, halved once for each level above.
    Codeblocks,
    /// FFmpeg has no depth 0.
    Depth,
    /// FFmpeg's SIMD code spoils levels of fewer than 8 columns.
    NarrowSimd,
    /// FFmpeg's wavelet 2 goes wrong at the edge of levels of up to 4 columns.
    NarrowWavelet2,
    /// FFmpeg's wavelet 6 spoils the last column in its 32-bit code.
    DeepWavelet6,
    /// FFmpeg dequantises in 32 bits.
    Dequantising,
    /// FFmpeg divides the sum of three neighbours by an approximation, good up to some 32,767.
    Prediction,
    /// FFmpeg keeps numbers of 8-bit pictures, and its SIMD code sums, in 16 bits; other sums in 32.
    Range,
    /// FFmpeg clips every sample that it shows, as it should.
    Clipped,
}

impl Aside {
    /// Every reason, in the order in which they are looked for.
    pub const ALL: [Aside; 13] = [
        Aside::Refused,
        Aside::SliceLength,
        Aside::CutNumber,
        Aside::LumaLeftOver,
        Aside::Codeblocks,
        Aside::Depth,
        Aside::NarrowSimd,
        Aside::NarrowWavelet2,
        Aside::DeepWavelet6,
        Aside::Dequantising,
        Aside::Prediction,
        Aside::Range,
        Aside::Clipped,
    ];

    /// The reason in a few words.
    pub fn reason(self) -> &'static str {
        match self {
            Aside::Refused => "refused by the proved library",
            Aside::SliceLength => "a slice whose bytes are a power of two",
            Aside::CutNumber => "bits of a slice that end inside a number",
            Aside::LumaLeftOver => "chroma behind luma bits that are left over",
            Aside::Codeblocks => "more codeblocks than FFmpeg allows",
            Aside::Depth => "depth 0",
            Aside::NarrowSimd => "SIMD, a level of fewer than 8 columns",
            Aside::NarrowWavelet2 => "wavelet 2, a level of up to 4 columns",
            Aside::DeepWavelet6 => "wavelet 6 with more than 8 bits",
            Aside::Dequantising => "a product outside 32 bits",
            Aside::Prediction => "a sum of three neighbours beyond 32,766",
            Aside::Range => "a number outside the bits that FFmpeg has for it",
            Aside::Clipped => "every sample clipped",
        }
    }
}

/// What is expected of FFmpeg for a component.
pub struct Expected {
    /// The proved library's coefficients.
    pub coefficients: Vec<i32>,
    /// The samples before the offset and clipping.
    pub samples: Vec<i32>,
    /// Whether the samples are the proved library's; otherwise its coefficients were synthesised with
    /// FFmpeg's halving of wavelet 6.
    pub proved: bool,
    /// What FFmpeg shows of them.
    pub shown: Vec<Shown>,
}

impl Expected {
    /// How many samples FFmpeg shows as they are.
    pub fn samples_shown(&self) -> usize {
        let is_whole = |shown: &&Shown| matches!(shown, Shown::Whole(_));
        self.shown.iter().filter(is_whole).count()
    }
}

/// What is expected of FFmpeg for a component that the proved library decoded, or why it is not eligible.
pub fn expected_samples(
    p: &Parameters,
    setting: Setting,
    decoded: Decoded,
) -> Result<Expected, Aside> {
    check_codeblocks(p)?;
    expected_without_codeblocks(p, setting, decoded)
}

/// The same for a component without codeblocks, whose counts are not looked at.
pub fn expected_without_codeblocks(
    p: &Parameters,
    setting: Setting,
    decoded: Decoded,
) -> Result<Expected, Aside> {
    check_transform(p, setting)?;
    check_dequantising(p, &decoded.coefficients)?;
    check_prediction(p, &decoded.coefficients)?;
    let synthesised = synthesise(p, setting, &decoded.coefficients)?;
    let proved = p.wavelet != 6;
    let samples = if proved { decoded.samples } else { synthesised };
    Ok(Expected {
        shown: setting.shown(p, &samples),
        coefficients: decoded.coefficients,
        samples,
        proved,
    })
}

/// The columns of level 1, the narrowest that a transform makes.
fn narrowest_level(p: &Parameters) -> usize {
    padded_width(p) >> (p.depth - 1)
}

/// Whether FFmpeg has SIMD code for a wavelet.
fn has_simd(wavelet: u32) -> bool {
    wavelet < 5
}

/// Whether FFmpeg takes so many codeblocks.
fn check_codeblocks(p: &Parameters) -> Result<(), Aside> {
    for level in 0..=p.depth {
        let most = |size: u32| size >> (p.depth - level);
        if p.codeblocks_across[level as usize] > most(p.width)
            || p.codeblocks_down[level as usize] > most(p.height)
        {
            return Err(Aside::Codeblocks);
        }
    }
    Ok(())
}

/// The reasons that lie in the size, the depth and the wavelet.
fn check_transform(p: &Parameters, setting: Setting) -> Result<(), Aside> {
    if p.depth == 0 {
        return Err(Aside::Depth);
    }
    if setting.simd && narrowest_level(p) < 8 {
        return Err(Aside::NarrowSimd);
    }
    if p.wavelet == 2 && narrowest_level(p) <= 4 {
        return Err(Aside::NarrowWavelet2);
    }
    if p.wavelet == 6 && setting.bit_depth != BitDepth::Eight {
        return Err(Aside::DeepWavelet6);
    }
    Ok(())
}

/// What prediction added to each value of level 0.
fn predictions<'a>(
    p: &Parameters,
    coefficients: &'a [i32],
) -> impl Iterator<Item = (usize, usize, i64)> + 'a {
    let row_width = padded_width(p);
    let band = subband_at(p, 0, Orientation::LL);
    (0..band.height).flat_map(move |y| {
        (0..band.width).map(move |x| {
            let value = |x, y| i64::from(coefficients[y * row_width + x]);
            (x, y, prediction(x, y, value))
        })
    })
}

/// Whether FFmpeg's products of numbers and factors fit 32 bits: a quarter of them is the coefficient.
fn check_dequantising(p: &Parameters, coefficients: &[i32]) -> Result<(), Aside> {
    let row_width = padded_width(p);
    let mut residuals: Vec<i64> = coefficients.iter().map(|&c| c.into()).collect();
    if p.intra {
        for (x, y, added) in predictions(p, coefficients) {
            residuals[y * row_width + x] -= added;
        }
    }
    if residuals.iter().all(|r| r.abs() < 1 << 30) {
        Ok(())
    } else {
        Err(Aside::Dequantising)
    }
}

/// Whether FFmpeg's division by 3 is exact for every sum of neighbours.
fn check_prediction(p: &Parameters, coefficients: &[i32]) -> Result<(), Aside> {
    let inexact = |(x, y, added): (usize, usize, i64)| x > 0 && y > 0 && added.abs() > 32_766 / 3;
    if p.intra && predictions(p, coefficients).any(inexact) {
        Err(Aside::Prediction)
    } else {
        Ok(())
    }
}

/// The largest magnitudes that FFmpeg's arithmetic has room for.
struct Limits {
    numbers: i128,
    sums: i128,
}

impl Limits {
    /// The limits for a component.
    fn of(p: &Parameters, setting: Setting) -> Limits {
        let (short, long) = (i16::MAX.into(), i32::MAX.into());
        let is_short = setting.bit_depth == BitDepth::Eight;
        let sums_are_short = is_short && setting.simd && has_simd(p.wavelet);
        Limits {
            numbers: if is_short { short } else { long },
            sums: if sums_are_short { short } else { long },
        }
    }

    /// Whether a step on this picture stays within the limits.
    fn allow(&self, picture: &Grid, step: &Step) -> bool {
        let largest = picture.numbers.iter().map(|v| v.abs()).max().unwrap_or(0);
        let taps: i128 = step.taps.iter().map(|tap| tap.abs()).sum();
        largest <= self.numbers && largest * taps + (1 << step.scale) <= self.sums
    }
}

/// The samples of a coefficient plane, as document 01 has them but for FFmpeg's halving of wavelet 6, if
/// every number and every sum stays within FFmpeg's limits.
pub fn synthesise(
    p: &Parameters,
    setting: Setting,
    coefficients: &[i32],
) -> Result<Vec<i32>, Aside> {
    let filter = &FILTERS[p.wavelet as usize];
    let limits = Limits::of(p, setting);
    let half = if p.wavelet == 6 {
        |v: i128| v.div_euclid(2)
    } else {
        shift_down
    };
    let mut within = true;
    let picture = build_picture(p, coefficients, |mut picture| {
        for filter_lines in [Grid::filter_columns, Grid::filter_rows] {
            for step in filter.steps {
                within &= limits.allow(&picture, step);
                filter_lines(&mut picture, slice::from_ref(step));
            }
        }
        within &= picture.numbers.iter().all(|v| v.abs() <= limits.numbers);
        halve(filter, &mut picture, half);
        picture
    });
    if !within {
        return Err(Aside::Range);
    }
    let fitting = |number| i32::try_from(number).expect("within the limits");
    Ok(crop(p, &picture).into_iter().map(fitting).collect())
}
