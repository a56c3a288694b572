//! One component at random, with everything that the three jobs are given.

use crate::bodies::{
    change_length, faulty_bytes, flip_bits, lossless_body, noise, picture_body, random_body,
    random_data,
};
use crate::borders::{
    codes_body, ends_bytes, just_fits_body, looked_up_body, offsets_body, runs_body,
};
use crate::parameters::{
    put_out_of_range, random_parameters, rectangle_parameters, row_parameters,
};
use crate::planes::{extreme_at_a_level, plane_of_kind, random_coefficients, PlaneKind};
use crate::rectangles::rectangles_bytes;
use reference::params::{padded_area, sample_area};
use reference::Parameters;
use std::fmt::Write;
use vectors::random::Random;

/// What a case is made for.
#[derive(Clone, Copy, Debug, PartialEq, Eq, PartialOrd, Ord)]
pub enum Kind {
    /// A body in order, perhaps with bytes behind it.
    Valid,
    /// The body of a picture.
    Picture,
    /// A body in order, cut at some byte.
    Cut,
    /// A body in order with bits turned over.
    Flipped,
    /// A body in order but for one stated length.
    Length,
    /// A fault in some subband.
    Fault,
    /// Coefficients of which one level has extremes.
    Extreme,
    /// Coefficients about as large as a filter lifts in 32 bits, or as synthesis accepts.
    Sized,
    /// Short codes, and runs of zeros that cross the ends of rows.
    Runs,
    /// Codes of every length, at every bit of a byte.
    Codes,
    /// Data that ends right behind its last code, or inside it.
    Ends,
    /// Numbers that just fit 32 bits with their quantiser index, or just do not, in the picture or in one
    /// of the other kind, intra or not: any index, often one so large that the numbers are small, and often
    /// one with which the intra flag decides.
    JustFits,
    /// Numbers about the last whose value a reader may look up, with quantiser indices about the last with
    /// which all such values fit 32 bits.
    LookedUp,
    /// Numbers whose value the intra flag decides, with any quantiser index, at every level.
    Offsets,
    /// Codeblocks whose rows are read many at once or just are not, and zeros about their ends.
    Rectangles,
    /// Headers in order, data at random.
    Data,
    /// Bytes at random.
    Noise,
    /// Parameters out of range.
    Parameters,
    /// Planes too short or too long.
    Planes,
}

/// How many of a hundred cases are of a kind.
const SHARES: [(Kind, u32); 19] = [
    (Kind::Valid, 8),
    (Kind::Picture, 4),
    (Kind::Cut, 5),
    (Kind::Flipped, 6),
    (Kind::Length, 4),
    (Kind::Fault, 10),
    (Kind::Extreme, 5),
    (Kind::Sized, 5),
    (Kind::Runs, 5),
    (Kind::Codes, 4),
    (Kind::Ends, 4),
    (Kind::JustFits, 6),
    (Kind::LookedUp, 4),
    (Kind::Offsets, 4),
    (Kind::Rectangles, 10),
    (Kind::Data, 4),
    (Kind::Noise, 2),
    (Kind::Parameters, 6),
    (Kind::Planes, 4),
];

/// One component: a call of each job.
#[derive(Clone, Debug)]
pub struct Case {
    pub seed: u64,
    pub kind: Kind,
    pub parameters: Parameters,
    /// What unpack and decode read.
    pub bytes: Vec<u8>,
    /// What synthesise reads; unpack and decode are given a plane of the same length.
    pub coefficients: Vec<i32>,
    pub plane_kind: PlaneKind,
    pub work_length: usize,
    pub samples_length: usize,
}

impl Case {
    /// The case that a seed names.
    pub fn from_seed(seed: u64) -> Case {
        let mut random = Random::new(seed);
        let kind = kind_by_share(&mut random, &SHARES);
        let least_depth = match kind {
            // So that refusal 10 is as frequent at the high levels.
            Kind::Extreme | Kind::Sized => random.range(1, 4) as u32,
            _ => 0,
        };
        let p = match kind {
            Kind::Runs | Kind::Codes | Kind::Ends => row_parameters(&mut random),
            Kind::JustFits | Kind::LookedUp => Parameters {
                intra: random.flag(),
                ..row_parameters(&mut random)
            },
            Kind::Rectangles => rectangle_parameters(&mut random),
            _ => random_parameters(&mut random, least_depth),
        };
        let (plane_kind, coefficients) = random_coefficients(&mut random, &p);
        let bytes = random_bytes(&mut random, kind, &p);
        let mut case = Case {
            seed,
            kind,
            work_length: padded_area(&p),
            samples_length: sample_area(&p),
            parameters: p,
            bytes,
            coefficients,
            plane_kind,
        };
        match kind {
            Kind::Parameters => put_out_of_range(&mut random, &mut case.parameters),
            Kind::Planes => case.change_lengths(&mut random),
            _ => (),
        }
        case
    }

    /// Has one plane or more too short or too long.
    fn change_lengths(&mut self, random: &mut Random) {
        let (padded, samples) = (self.work_length, self.samples_length);
        for _ in 0..random.pick(&[1, 1, 1, 2, 3]) {
            let plane = random.range(0, 2);
            let needed = if plane == 2 { samples } else { padded };
            let (short, long) = (needed - 1, needed + 1);
            let length = random.pick(&[short, short, long, long, 2 * needed, 0, padded, samples]);
            match plane {
                0 => self.coefficients.resize(length, -1),
                1 => self.work_length = length,
                _ => self.samples_length = length,
            }
        }
    }

    /// The three calls as jobs of the reference's command.
    pub fn jobs(&self) -> String {
        let p = &self.parameters;
        let mut counts = String::new();
        for (across, down) in p.codeblocks_across.iter().zip(&p.codeblocks_down) {
            write!(counts, " {across} {down}").expect("a text grows");
        }
        let sizes = format!("{} {} {} {}", p.width, p.height, p.depth, p.wavelet);
        let intra = u8::from(p.intra);
        let length = self.coefficients.len();
        let lengths = format!("{} {}", self.work_length, self.samples_length);
        let bytes = hex(&self.bytes);
        let coefficients: String = self.coefficients.iter().map(|c| format!(" {c}")).collect();
        format!(
            "unpack {sizes} {intra}{counts} {length} {bytes}\n\
             synthesise {sizes} {lengths}{coefficients}\n\
             decode {sizes} {intra}{counts} {length} {lengths} {bytes}\n"
        )
    }
}

/// Bytes in hexadecimal, as a job of the reference's command has them; none are a dash.
pub fn hex(bytes: &[u8]) -> String {
    if bytes.is_empty() {
        return "-".to_string();
    }
    bytes.iter().map(|byte| format!("{byte:02x}")).collect()
}

/// A kind by its share of a hundred.
pub fn kind_by_share<K: Copy>(random: &mut Random, shares: &[(K, u32)]) -> K {
    let mut rest = random.range(0, 99) as u32;
    for &(kind, share) in shares {
        if rest < share {
            return kind;
        }
        rest -= share;
    }
    unreachable!("the shares are a hundred")
}

/// The bytes of a case of a kind.
fn random_bytes(random: &mut Random, kind: Kind, p: &Parameters) -> Vec<u8> {
    match kind {
        Kind::Valid | Kind::Parameters | Kind::Planes => {
            let mut bytes = random_body(random, p).bytes(p);
            for _ in 0..random.pick(&[0, 0, 1, 5]) {
                bytes.push(random.bits() as u8);
            }
            bytes
        }
        Kind::Picture => picture_body(random, p),
        Kind::Cut => {
            let mut bytes = random_body(random, p).bytes(p);
            bytes.truncate(random.range(0, bytes.len() as i64 - 1) as usize);
            bytes
        }
        Kind::Flipped => {
            let mut bytes = random_body(random, p).bytes(p);
            flip_bits(random, &mut bytes);
            bytes
        }
        Kind::Length => {
            let mut body = random_body(random, p);
            change_length(random, p, &mut body);
            body.bytes(p)
        }
        Kind::Fault => faulty_bytes(random, p),
        Kind::Extreme => {
            let coefficients = extreme_at_a_level(random, p);
            lossless_body(p, &coefficients)
        }
        Kind::Sized => {
            let plane_kind = random.pick(&[PlaneKind::Sized, PlaneKind::Brink]);
            let coefficients = plane_of_kind(random, plane_kind, p);
            lossless_body(p, &coefficients)
        }
        Kind::Runs => runs_body(random, p).bytes(p),
        Kind::Codes => codes_body(random, p).bytes(p),
        Kind::Ends => ends_bytes(random, p),
        Kind::JustFits => just_fits_body(random, p).bytes(p),
        Kind::LookedUp => looked_up_body(random, p).bytes(p),
        Kind::Offsets => offsets_body(random, p).bytes(p),
        Kind::Rectangles => rectangles_bytes(random, p),
        Kind::Data => random_data(random, p),
        Kind::Noise => noise(random),
    }
}

#[cfg(test)]
mod tests {
    use super::*;

    #[test]
    fn the_shares_are_a_hundred() {
        assert_eq!(SHARES.iter().map(|(_, share)| share).sum::<u32>(), 100);
    }

    #[test]
    fn a_seed_names_one_case() {
        for seed in [0, 1, 77, u64::MAX] {
            let (first, second) = (Case::from_seed(seed), Case::from_seed(seed));
            assert_eq!(first.jobs(), second.jobs());
        }
        assert_ne!(Case::from_seed(1).jobs(), Case::from_seed(2).jobs());
    }
}
