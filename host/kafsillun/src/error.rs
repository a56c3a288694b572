//! What a job answers when it refuses.

use std::fmt;

/// Why a job refused, in the order of its checks but for 13 and 14: the first that applies is given.
///
/// The numbers are those of the C interface.
#[derive(Clone, Copy, Debug, PartialEq, Eq, PartialOrd, Ord, Hash)]
#[non_exhaustive]
pub enum Refusal {
    /// 1: the width or the height is not in 1..=4096.
    Size = 1,
    /// 2: the depth is not in 0..=4.
    Depth = 2,
    /// 3: the wavelet index is not in 0..=6. Unpack doesn't look at it.
    Wavelet = 3,
    /// 4: a codeblock count of a level up to the depth is not in 1..=255. Synthesise doesn't look at
    /// them.
    Codeblocks = 4,
    /// 5: a plane hasn't exactly the length it needs.
    PlaneLength = 5,
    /// 6: the bytes end early.
    BytesEnd = 6,
    /// 7: an exp-Golomb code has more than 31 data bits.
    CodeTooLong = 7,
    /// 8: a quantiser index is above 115.
    Quantiser = 8,
    /// 9: an unpacked or predicted coefficient doesn't fit 32 bits.
    CoefficientRange = 9,
    /// 10: a number that synthesis assigns doesn't fit 32 bits.
    SynthesisRange = 10,
    /// 13: a slice count is not in 1..=255, the fraction of bytes is not of numbers in 1..=65535 or is below
    /// 1, or a matrix entry of a subband is above 127. It is checked after the depth and before the planes.
    Slices = 13,
    /// 14: a slice states more luma bits than it has left.
    LumaLength = 14,
}

impl Refusal {
    /// Every refusal, in the order of their numbers.
    const ALL: [Refusal; 12] = [
        Refusal::Size,
        Refusal::Depth,
        Refusal::Wavelet,
        Refusal::Codeblocks,
        Refusal::PlaneLength,
        Refusal::BytesEnd,
        Refusal::CodeTooLong,
        Refusal::Quantiser,
        Refusal::CoefficientRange,
        Refusal::SynthesisRange,
        Refusal::Slices,
        Refusal::LumaLength,
    ];

    /// The refusal with this number, if there is one.
    pub fn from_number(number: u32) -> Option<Refusal> {
        Refusal::ALL
            .into_iter()
            .find(|refusal| refusal.number() == number)
    }

    /// Its number: 1 to 10, 13 or 14.
    pub fn number(self) -> u32 {
        self as u32
    }

    /// What it means, in a few words.
    fn meaning(self) -> &'static str {
        match self {
            Refusal::Size => "the width or the height is not in 1..=4096",
            Refusal::Depth => "the depth is not in 0..=4",
            Refusal::Wavelet => "the wavelet index is not in 0..=6",
            Refusal::Codeblocks => "a codeblock count is not in 1..=255",
            Refusal::PlaneLength => "a plane has not the length that it needs",
            Refusal::BytesEnd => "the bytes end early",
            Refusal::CodeTooLong => "an exp-Golomb code has more than 31 data bits",
            Refusal::Quantiser => "the quantiser index is above 115",
            Refusal::CoefficientRange => "a coefficient does not fit 32 bits",
            Refusal::SynthesisRange => "a number does not fit 32 bits",
            Refusal::Slices => {
                "a slice count, the fraction of bytes or a matrix entry is out of range"
            }
            Refusal::LumaLength => "the luma length exceeds the bits left",
        }
    }
}

/// A job's refusal, and where it arose.
///
/// ```
/// use kafsillun::{unpack, Parameters, Refusal};
///
/// // Subbands 0 to 3 are skipped, and the fifth is not there.
/// let p = Parameters { depth: 2, ..Parameters::new(4, 4) };
/// let error = unpack(&p, &[0x80; 4], &mut [0; 16]).unwrap_err();
/// assert_eq!(error.refusal(), Refusal::BytesEnd);
/// assert_eq!(error.number(), 6);
/// assert_eq!(error.place(), 4);
/// assert_eq!(error.level(), Some(2));
/// assert_eq!(
///     error.to_string(),
///     "refused 6: the bytes end early, in subband 4 (HL of level 2)"
/// );
/// ```
#[derive(Clone, Copy, Debug, PartialEq, Eq, Hash)]
pub struct Error {
    refusal: Refusal,
    place: usize,
    part: Part,
}

/// What a refusal's place names.
#[derive(Clone, Copy, Debug, PartialEq, Eq, Hash)]
enum Part {
    /// Nothing: the place is 0.
    Nothing,
    /// A subband, counted from 0 in stream order.
    Subband,
    /// A slice, counted from 0 in raster order.
    Slice,
    /// Prediction, which comes after all slices: the place is their number.
    Prediction,
    /// A level of synthesis, counted from 1.
    Level,
}

impl Error {
    /// A refusal at a place, of a job on one component.
    pub(crate) fn new(refusal: Refusal, place: usize) -> Error {
        let part = match refusal.number() {
            6..=9 => Part::Subband,
            10 => Part::Level,
            _ => Part::Nothing,
        };
        Error {
            refusal,
            place,
            part,
        }
    }

    /// A refusal at a place, of a job on a picture of so many slices.
    pub(crate) fn of_slices(refusal: Refusal, place: usize, slices: usize) -> Error {
        let part = match refusal.number() {
            6..=9 | 14 if place < slices => Part::Slice,
            6..=9 | 14 => Part::Prediction,
            _ => Part::Nothing,
        };
        Error {
            refusal,
            place,
            part,
        }
    }

    /// Why the job refused.
    pub fn refusal(&self) -> Refusal {
        self.refusal
    }

    /// The refusal's number: 1 to 10, 13 or 14.
    pub fn number(&self) -> u32 {
        self.refusal.number()
    }

    /// The place: for 6 to 9 the subband, counted from 0 in stream order; for 10 the level, counted
    /// from 1; otherwise 0. Of [`crate::unpack_low_delay`], for 6 to 9 and 14 the slice, counted from 0 in
    /// raster order, or the number of slices where prediction gives 9.
    pub fn place(&self) -> usize {
        self.place
    }

    /// The subband of a refusal 6 to 9, counted from 0 in stream order: LL, then HL, LH and HH of each
    /// level from 1 up. None of [`crate::unpack_low_delay`].
    pub fn subband(&self) -> Option<usize> {
        self.place_of(Part::Subband)
    }

    /// The slice of a refusal 6 to 9 or 14 of [`crate::unpack_low_delay`], counted from 0 in raster order;
    /// none where prediction gives 9.
    pub fn slice(&self) -> Option<usize> {
        self.place_of(Part::Slice)
    }

    /// The level of a refusal 6 to 10: that of the subband, or the first level of synthesis with a
    /// number that doesn't fit. None of [`crate::unpack_low_delay`].
    pub fn level(&self) -> Option<usize> {
        match self.part {
            Part::Level => Some(self.place),
            _ => self.subband().map(|subband| subband.div_ceil(3)),
        }
    }

    /// The place, if that is what it names.
    fn place_of(&self, part: Part) -> Option<usize> {
        (self.part == part).then_some(self.place)
    }
}

impl fmt::Display for Error {
    fn fmt(&self, f: &mut fmt::Formatter) -> fmt::Result {
        write!(f, "refused {}: {}", self.number(), self.refusal.meaning())?;
        let place = self.place;
        match self.part {
            Part::Nothing => Ok(()),
            Part::Subband if place == 0 => write!(f, ", in subband 0 (LL)"),
            Part::Subband => {
                let orientation = ["HL", "LH", "HH"][(place - 1) % 3];
                let level = place.div_ceil(3);
                write!(f, ", in subband {place} ({orientation} of level {level})")
            }
            Part::Slice => write!(f, ", in slice {place}"),
            Part::Prediction => write!(f, ", in prediction"),
            Part::Level => write!(f, ", in the synthesis of level {place}"),
        }
    }
}

impl std::error::Error for Error {}

#[cfg(test)]
mod tests {
    use super::*;

    #[test]
    fn numbers_are_in_order() {
        let numbers: Vec<u32> = Refusal::ALL
            .iter()
            .map(|refusal| refusal.number())
            .collect();
        assert_eq!(numbers, [1, 2, 3, 4, 5, 6, 7, 8, 9, 10, 13, 14]);
        for refusal in Refusal::ALL {
            assert_eq!(Refusal::from_number(refusal.number()), Some(refusal));
        }
        for number in [0, 11, 12, 15] {
            assert_eq!(Refusal::from_number(number), None);
        }
    }

    #[test]
    fn messages_name_the_subband_or_the_level() {
        let message = |refusal, place| Error::new(refusal, place).to_string();
        assert_eq!(
            message(Refusal::Size, 0),
            "refused 1: the width or the height is not in 1..=4096"
        );
        assert_eq!(
            message(Refusal::CodeTooLong, 0),
            "refused 7: an exp-Golomb code has more than 31 data bits, in subband 0 (LL)"
        );
        let bands = [
            "HL of level 1",
            "LH of level 1",
            "HH of level 1",
            "HL of level 2",
            "LH of level 2",
            "HH of level 2",
            "HL of level 3",
            "LH of level 3",
            "HH of level 3",
            "HL of level 4",
            "LH of level 4",
            "HH of level 4",
        ];
        for (k, band) in bands.into_iter().enumerate() {
            let subband = k + 1;
            assert_eq!(
                message(Refusal::Quantiser, subband),
                format!(
                    "refused 8: the quantiser index is above 115, in subband {subband} ({band})"
                )
            );
        }
        assert_eq!(
            message(Refusal::SynthesisRange, 3),
            "refused 10: a number does not fit 32 bits, in the synthesis of level 3"
        );
    }

    #[test]
    fn messages_name_the_slice() {
        let message = |refusal, place| Error::of_slices(refusal, place, 4).to_string();
        for (refusal, place, text) in [
            (
                Refusal::Slices,
                0,
                "refused 13: a slice count, the fraction of bytes or a matrix entry is out of range",
            ),
            (
                Refusal::LumaLength,
                3,
                "refused 14: the luma length exceeds the bits left, in slice 3",
            ),
            (
                Refusal::BytesEnd,
                0,
                "refused 6: the bytes end early, in slice 0",
            ),
            (
                Refusal::CoefficientRange,
                4,
                "refused 9: a coefficient does not fit 32 bits, in prediction",
            ),
        ] {
            assert_eq!(message(refusal, place), text);
        }
    }

    #[test]
    fn only_refusals_6_to_10_have_a_place() {
        for refusal in Refusal::ALL {
            let error = Error::new(refusal, 4);
            let number = refusal.number();
            let subband = (6..=9).contains(&number).then_some(4);
            assert_eq!(error.subband(), subband);
            let level = match number {
                10 => Some(4),
                _ => subband.map(|_| 2),
            };
            assert_eq!(error.level(), level);
            assert_eq!(error.slice(), None);
            for (slices, place) in [(5, Some(4)), (4, None)] {
                let error = Error::of_slices(refusal, 4, slices);
                let is_in_slices = matches!(number, 6..=9 | 14);
                assert_eq!(error.slice(), place.filter(|_| is_in_slices));
                assert_eq!((error.subband(), error.level()), (None, None));
            }
        }
    }
}
