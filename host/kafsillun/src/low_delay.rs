//! The parameters of a picture of low delay slices, and the lengths of its planes.

use crate::error::Error;
use crate::foreign;
use crate::parameters::Parameters;

/// The parameters of a picture of low delay slices: luma, and two chroma components, C1 and C2, of one size.
/// Any value may be passed: a job refuses what is out of range.
///
/// ```
/// use kafsillun::LowDelay;
///
/// let p = LowDelay {
///     depth: 3,
///     intra: true,
///     slices_across: 120,
///     slices_down: 68,
///     numerator: 301,
///     denominator: 4,
///     ..LowDelay::new((1920, 1080), (960, 540))
/// };
/// assert_eq!(p.padded_areas(), Ok([1920 * 1080, 960 * 544, 960 * 544]));
/// assert_eq!(p.luma(1).sample_area(), Ok(1920 * 1080));
/// assert_eq!(p.chroma(1).sample_area(), Ok(960 * 540));
/// ```
#[derive(Clone, Debug, PartialEq, Eq, Hash)]
pub struct LowDelay {
    /// The width of luma in samples, 1..=4096.
    pub luma_width: u32,
    /// The height of luma in samples, 1..=4096.
    pub luma_height: u32,
    /// The width of C1 and of C2 in samples, 1..=4096.
    pub chroma_width: u32,
    /// The height of C1 and of C2 in samples, 1..=4096.
    pub chroma_height: u32,
    /// How many levels the transform of each component has, 0..=4.
    pub depth: u32,
    /// Whether the picture is intra: then level 0 of each component is predicted. A picture that isn't also has
    /// another offset in dequantising, in every subband.
    pub intra: bool,
    /// Slices across, 1..=255.
    pub slices_across: u32,
    /// Slices down, 1..=255.
    pub slices_down: u32,
    /// The numerator of the bytes of a slice, 1..=65535 and not below the denominator: slice k has
    /// floor((k + 1) numerator / denominator) - floor(k numerator / denominator) bytes.
    pub numerator: u32,
    /// The denominator of the bytes of a slice, 1..=65535.
    pub denominator: u32,
    /// For each subband in stream order what its quantiser index is below the slice's, 0..=127. Those above the
    /// depth are not looked at.
    pub matrix: [u32; 13],
}

impl LowDelay {
    /// A picture with luma and chroma of these widths and heights, of depth 0, not intra, in one slice of one
    /// byte, with a matrix of zeros.
    pub fn new(luma: (u32, u32), chroma: (u32, u32)) -> LowDelay {
        LowDelay {
            luma_width: luma.0,
            luma_height: luma.1,
            chroma_width: chroma.0,
            chroma_height: chroma.1,
            depth: 0,
            intra: false,
            slices_across: 1,
            slices_down: 1,
            numerator: 1,
            denominator: 1,
            matrix: [0; 13],
        }
    }

    /// Luma as [`crate::synthesise`] takes it. The slices don't state the wavelet.
    pub fn luma(&self, wavelet: u32) -> Parameters {
        self.component(self.luma_width, self.luma_height, wavelet)
    }

    /// C1, and C2, as [`crate::synthesise`] takes it. The slices don't state the wavelet.
    pub fn chroma(&self, wavelet: u32) -> Parameters {
        self.component(self.chroma_width, self.chroma_height, wavelet)
    }

    /// How many entries the coefficient planes of luma, C1 and C2 need. Or the refusal 1 or 2 that
    /// [`crate::unpack_low_delay`] gives.
    pub fn padded_areas(&self) -> Result<[usize; 3], Error> {
        let (luma, chroma) = (self.luma(0), self.chroma(0));
        // A size of either is refused before the depth.
        chroma.sample_area()?;
        let (luma, chroma) = (luma.padded_area()?, chroma.padded_area()?);
        Ok([luma, chroma, chroma])
    }

    /// A component of this size.
    fn component(&self, width: u32, height: u32, wavelet: u32) -> Parameters {
        Parameters {
            depth: self.depth,
            wavelet,
            intra: self.intra,
            ..Parameters::new(width, height)
        }
    }

    /// How many slices there are.
    pub(crate) fn slice_count(&self) -> usize {
        self.slices_across as usize * self.slices_down as usize
    }

    /// The parameters as C takes them.
    pub(crate) fn to_foreign(&self) -> foreign::LowDelay {
        foreign::LowDelay {
            luma_width: self.luma_width,
            luma_height: self.luma_height,
            chroma_width: self.chroma_width,
            chroma_height: self.chroma_height,
            depth: self.depth,
            intra: u32::from(self.intra),
            slices_across: self.slices_across,
            slices_down: self.slices_down,
            numerator: self.numerator,
            denominator: self.denominator,
            matrix: self.matrix,
        }
    }
}

#[cfg(test)]
mod tests {
    use super::*;

    #[test]
    fn areas_are_of_luma_and_chroma() {
        let areas = |luma, chroma, depth| {
            LowDelay {
                depth,
                ..LowDelay::new(luma, chroma)
            }
            .padded_areas()
        };
        assert_eq!(areas((3, 5), (2, 1), 1), Ok([4 * 6, 4, 4]));
        assert_eq!(areas((1, 1), (17, 3), 4), Ok([256, 512, 512]));
        for (luma, chroma, depth, number) in [
            ((0, 1), (1, 1), 0, 1),
            ((1, 1), (1, 4097), 5, 1),
            ((1, 4097), (1, 1), 5, 1),
            ((1, 1), (1, 1), 5, 2),
        ] {
            assert_eq!(areas(luma, chroma, depth).unwrap_err().number(), number);
        }
    }
}
