//! How FFmpeg decodes a picture, and what it shows of the samples.
//!
//! It adds half of their range to samples and clips them, so what it shows of a clipped one is known, too.
//! Pictures that are not intra it adds to their prediction as if all had 8 bits. Where they have more, each
//! half of a sample's 32 bits is taken for a sample, and both are shown as bytes where one sample of 16 bits
//! was to be, the lower half first; there are bytes for half of the columns.

use crate::stream::BitDepth;
use reference::Parameters;

/// How FFmpeg decodes a picture.
#[derive(Clone, Copy, Debug)]
pub struct Setting {
    pub bit_depth: BitDepth,
    pub simd: bool,
}

/// What FFmpeg shows of a sample.
#[derive(Clone, Copy, Debug, PartialEq, Eq)]
pub enum Shown {
    /// All of it, as this number.
    Whole(i32),
    /// This number, an end of the range in one byte or all, since it is clipped.
    Clipped(i32),
    /// Nothing.
    Nothing,
}

impl Shown {
    /// The number that FFmpeg gives, if it shows one.
    pub fn number(self) -> Option<i32> {
        match self {
            Shown::Whole(number) | Shown::Clipped(number) => Some(number),
            Shown::Nothing => None,
        }
    }
}

impl Setting {
    /// Whether FFmpeg shows the halves of a component's samples.
    fn shows_halves(self, p: &Parameters) -> bool {
        !p.intra && self.bit_depth != BitDepth::Eight
    }

    /// The bits that FFmpeg shows of a component's sample.
    pub fn shown_bits(self, p: &Parameters) -> BitDepth {
        if self.shows_halves(p) {
            BitDepth::Eight
        } else {
            self.bit_depth
        }
    }

    /// What FFmpeg shows of a component's samples.
    pub fn shown(self, p: &Parameters, samples: &[i32]) -> Vec<Shown> {
        let width = p.width as usize;
        let halves = self.shows_halves(p);
        let columns = if halves { width / 2 } else { width };
        let shown = |(entry, &sample): (usize, &i32)| {
            if entry % width >= columns {
                return Shown::Nothing;
            }
            let (number, is_whole) = if halves {
                self.halves_with_offset(p, sample)
            } else {
                self.with_offset(p, sample)
            };
            if is_whole {
                Shown::Whole(number)
            } else {
                Shown::Clipped(number)
            }
        };
        samples.iter().enumerate().map(shown).collect()
    }

    /// Whether FFmpeg takes sums with the offset from 2^15 on for negative ones. Its SIMD code does, but for that
    /// of intra pictures of 8 bits; those of 12 bits have none.
    fn wraps(self, p: &Parameters) -> bool {
        self.simd && (!p.intra || self.bit_depth == BitDepth::Ten)
    }

    /// A sample or half of one with FFmpeg's offset, clipped, and whether it is whole so.
    fn with_offset(self, p: &Parameters, sample: i32) -> (i32, bool) {
        let offset = self.shown_bits(p).offset();
        if self.wraps(p) && sample >= (1 << 15) - offset {
            return (0, false);
        }
        let clipped = sample.clamp(-offset, offset - 1);
        (clipped + offset, clipped == sample)
    }

    /// The two bytes that FFmpeg shows of a sample, as a number, and whether both are whole.
    fn halves_with_offset(self, p: &Parameters, sample: i32) -> (i32, bool) {
        let (low, low_is_whole) = self.with_offset(p, (sample as i16).into());
        let (high, high_is_whole) = self.with_offset(p, sample >> 16);
        (high << 8 | low, low_is_whole && high_is_whole)
    }
}
