//! One picture of low delay slices at random, with everything that its job is given.

mod check;
mod draft;
mod headers;
mod parameters;
mod slices;
mod statistics;

pub use check::{
    check_low_delay, low_delay_result, proved_low_delay, proved_slices, reference_low_delay,
    LowDelayDecoder,
};
pub use headers::{slice_headers, SliceHeader};
pub use statistics::LowDelayStatistics;

use crate::case::{hex, kind_by_share};
use parameters::{put_out_of_range, random_parameters};
use slices::random_bytes;
use std::fmt::Write;
use vectors::low_delay_vectors::{job, LowDelayJob};
use vectors::random::Random;

/// What a picture is made for.
#[derive(Clone, Copy, Debug, PartialEq, Eq, PartialOrd, Ord)]
pub enum LowDelayKind {
    /// Slices in order, some of which may lack room for their values, perhaps with bytes behind them.
    Valid,
    /// The slices of a slope, quantised so that all have room.
    Picture,
    /// Slices in order, cut at some byte.
    Cut,
    /// Slices in order with bits turned over.
    Flipped,
    /// Bytes at random, in slices or not.
    Noise,
    /// Slices of one byte, or of one and two.
    OneByte,
    /// More slices than columns or rows.
    ManySlices,
    /// Luma lengths of 0, of the bits left, about these and the largest.
    LumaLength,
    /// Parts that end right behind their last code, or inside it.
    Ends,
    /// Short codes, and runs of zeros that cross the ends of rows and of rectangles.
    Runs,
    /// Codes of every length, at every bit of a byte.
    Codes,
    /// Indices about the matrix entries, and about those that are refused, with numbers whose value the intra
    /// flag decides.
    Index,
    /// One fault in a slice, or two in one or in two.
    Fault,
    /// Numbers that just fit 32 bits with their quantiser index, or just do not.
    JustFits,
    /// Numbers that fit 32 bits until prediction adds them up, or just still.
    Prediction,
    /// Slices of many bytes, most of which no value takes.
    LongSlices,
    /// Slices with many values, or many columns or rows.
    Large,
    /// Parameters out of range, and now and then planes of other lengths too.
    Parameters,
    /// Planes too short or too long.
    Planes,
}

/// How many of a hundred pictures are of a kind.
const SHARES: [(LowDelayKind, u32); 19] = [
    (LowDelayKind::Valid, 10),
    (LowDelayKind::Picture, 2),
    (LowDelayKind::Cut, 5),
    (LowDelayKind::Flipped, 5),
    (LowDelayKind::Noise, 4),
    (LowDelayKind::OneByte, 6),
    (LowDelayKind::ManySlices, 6),
    (LowDelayKind::LumaLength, 6),
    (LowDelayKind::Ends, 5),
    (LowDelayKind::Runs, 5),
    (LowDelayKind::Codes, 4),
    (LowDelayKind::Index, 7),
    (LowDelayKind::Fault, 12),
    (LowDelayKind::JustFits, 5),
    (LowDelayKind::Prediction, 5),
    (LowDelayKind::LongSlices, 1),
    (LowDelayKind::Large, 1),
    (LowDelayKind::Parameters, 7),
    (LowDelayKind::Planes, 4),
];

/// One picture: a call of its job.
#[derive(Clone, Debug)]
pub struct LowDelayCase {
    pub seed: u64,
    pub kind: LowDelayKind,
    pub job: LowDelayJob,
}

impl LowDelayCase {
    /// The picture that a seed names.
    pub fn from_seed(seed: u64) -> LowDelayCase {
        let mut random = Random::new(seed);
        let kind = kind_by_share(&mut random, &SHARES);
        let picture = random_parameters(&mut random, kind);
        let (p, bytes) = random_bytes(&mut random, kind, picture);
        let mut job = job(&p, bytes);
        match kind {
            LowDelayKind::Parameters => {
                put_out_of_range(&mut random, &mut job.parameters);
                if random.range(0, 2) == 0 {
                    change_lengths(&mut random, &mut job.lengths);
                }
            }
            LowDelayKind::Planes => change_lengths(&mut random, &mut job.lengths),
            _ => (),
        }
        LowDelayCase { seed, kind, job }
    }

    /// The call as a job of the reference's command.
    pub fn job_text(&self) -> String {
        let LowDelayJob {
            parameters: p,
            lengths,
            bytes,
        } = &self.job;
        let picture = &p.picture;
        let sizes = [
            picture.luma_width,
            picture.luma_height,
            picture.chroma_width,
            picture.chroma_height,
            picture.depth,
            u32::from(picture.intra),
            picture.slices_across,
            picture.slices_down,
            p.numerator,
            p.denominator,
        ];
        let mut text = "low_delay".to_string();
        for number in sizes.iter().chain(&picture.matrix) {
            write!(text, " {number}").expect("a text grows");
        }
        for length in lengths {
            write!(text, " {length}").expect("a text grows");
        }
        format!("{text} {}\n", hex(bytes))
    }
}

/// Has one plane or more too short or too long.
fn change_lengths(random: &mut Random, lengths: &mut [usize; 3]) {
    let [luma, chroma, _] = *lengths;
    for _ in 0..random.pick(&[1, 1, 1, 2, 3]) {
        let length = &mut lengths[random.range(0, 2) as usize];
        let (short, long) = (length.saturating_sub(1), *length + 1);
        *length = random.pick(&[short, short, long, long, 2 * *length, 0, luma, chroma]);
    }
}

#[cfg(test)]
mod tests {
    use super::*;

    #[test]
    fn the_shares_are_a_hundred() {
        assert_eq!(SHARES.iter().map(|(_, share)| share).sum::<u32>(), 100);
    }

    #[test]
    fn a_seed_names_one_picture() {
        let text = |seed| LowDelayCase::from_seed(seed).job_text();
        for seed in [0, 1, 77, u64::MAX] {
            assert_eq!(text(seed), text(seed));
        }
        assert_ne!(text(1), text(2));
    }
}
