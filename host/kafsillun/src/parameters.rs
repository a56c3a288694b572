//! The parameters of a component, and the lengths of its planes.

use crate::error::{Error, Refusal};
use crate::foreign;

/// The parameters of a component. Any value may be passed: a job refuses what is out of range.
///
/// ```
/// use kafsillun::Parameters;
///
/// let p = Parameters {
///     depth: 4,
///     wavelet: 1,
///     intra: true,
///     codeblocks_across: [1, 1, 2, 4, 8],
///     codeblocks_down: [1, 1, 2, 3, 6],
///     ..Parameters::new(1920, 1080)
/// };
/// assert_eq!(p.padded_area(), Ok(1920 * 1088));
/// assert_eq!(p.sample_area(), Ok(1920 * 1080));
/// ```
#[derive(Clone, Debug, PartialEq, Eq, Hash)]
pub struct Parameters {
    /// The width in samples, 1..=4096.
    pub width: u32,
    /// The height in samples, 1..=4096.
    pub height: u32,
    /// How many levels the transform has, 0..=4.
    pub depth: u32,
    /// The wavelet index, 0..=6: Deslauriers-Dubuc (9,7), LeGall (5,3), Deslauriers-Dubuc (13,7), Haar
    /// without a shift, Haar with a shift, Fidelity, Daubechies (9,7).
    pub wavelet: u32,
    /// Whether the picture is intra: then level 0 is predicted. A picture that isn't, such as a difference
    /// between frames, also has another offset in dequantising, in every subband.
    pub intra: bool,
    /// Codeblocks across for each level, 1..=255. Those above the depth are not looked at.
    pub codeblocks_across: [u32; 5],
    /// Codeblocks down for each level, 1..=255. Those above the depth are not looked at.
    pub codeblocks_down: [u32; 5],
}

impl Parameters {
    /// A component of this size with depth 0, wavelet 0, not intra, and one codeblock at every level.
    pub fn new(width: u32, height: u32) -> Parameters {
        Parameters {
            width,
            height,
            depth: 0,
            wavelet: 0,
            intra: false,
            codeblocks_across: [1; 5],
            codeblocks_down: [1; 5],
        }
    }

    /// How many entries a coefficient or work plane needs: the padded width times the padded height,
    /// each rounded up to a multiple of 2^depth. Or the refusal 1 or 2 that every job gives.
    pub fn padded_area(&self) -> Result<usize, Error> {
        self.sample_area()?;
        if self.depth > 4 {
            return Err(Error::new(Refusal::Depth, 0));
        }
        let padded = |size: u32| (size as usize).next_multiple_of(1 << self.depth);
        Ok(padded(self.width) * padded(self.height))
    }

    /// How many entries a sample plane needs: the width times the height. Or the refusal 1 that every
    /// job gives.
    pub fn sample_area(&self) -> Result<usize, Error> {
        let range = 1..=4096;
        if range.contains(&self.width) && range.contains(&self.height) {
            Ok(self.width as usize * self.height as usize)
        } else {
            Err(Error::new(Refusal::Size, 0))
        }
    }

    /// The parameters as C takes them.
    pub(crate) fn to_foreign(&self) -> foreign::Parameters {
        foreign::Parameters {
            width: self.width,
            height: self.height,
            depth: self.depth,
            wavelet: self.wavelet,
            intra: u32::from(self.intra),
            codeblocks_across: self.codeblocks_across,
            codeblocks_down: self.codeblocks_down,
        }
    }
}

#[cfg(test)]
mod tests {
    use super::*;

    #[test]
    fn areas_are_padded_to_a_multiple() {
        let area = |width, height, depth| {
            Parameters {
                depth,
                ..Parameters::new(width, height)
            }
            .padded_area()
        };
        assert_eq!(area(3, 5, 0), Ok(15));
        assert_eq!(area(3, 5, 1), Ok(4 * 6));
        assert_eq!(area(1, 17, 4), Ok(16 * 32));
        assert_eq!(area(4096, 4095, 4), Ok(4096 * 4096));
        for (width, height, depth, number) in [
            (0, 1, 0, 1),
            (1, 0, 0, 1),
            (4097, 1, 9, 1),
            (1, u32::MAX, 0, 1),
            (1, 1, 5, 2),
            (1, 1, u32::MAX, 2),
        ] {
            assert_eq!(area(width, height, depth).unwrap_err().number(), number);
        }
    }
}
