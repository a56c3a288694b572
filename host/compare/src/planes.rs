//! Coefficient planes at random: for synthesise, and through bodies for decode.

use crate::bodies::{fill_subband, random_entry};
use reference::params::Orientation::{HH, HL, LH};
use reference::params::{padded_area, padded_width, subband_at, subbands, Parameters, Subband};
use reference::transform::{shift_down, Grid, FILTERS};
use std::slice;
use vectors::levels::{build_picture, halve};
use vectors::random::Random;

/// What a coefficient plane is made of.
#[derive(Clone, Copy, Debug, PartialEq, Eq, PartialOrd, Ord)]
pub enum PlaneKind {
    /// Numbers of up to 24 bits.
    FewBits,
    /// Numbers of 25 to 32 bits.
    ManyBits,
    /// Extremes of 32 bits alone.
    Extremes,
    /// Small numbers, but for extremes at one level.
    ExtremeLevel,
    /// The largest is near a power of two, or near the most that a filter can lift in 32 bits.
    Sized,
    /// The largest number that synthesis assigns is near the end of 32 bits.
    Brink,
}

/// How many of sixteen planes are of a kind.
const SHARES: [(PlaneKind, u32); 6] = [
    (PlaneKind::FewBits, 3),
    (PlaneKind::ManyBits, 2),
    (PlaneKind::Extremes, 2),
    (PlaneKind::ExtremeLevel, 2),
    (PlaneKind::Sized, 4),
    (PlaneKind::Brink, 3),
];

/// Coefficients for synthesise, and their kind.
pub fn random_coefficients(random: &mut Random, p: &Parameters) -> (PlaneKind, Vec<i32>) {
    let kind = random_kind(random);
    (kind, plane_of_kind(random, kind, p))
}

/// A kind by its share.
fn random_kind(random: &mut Random) -> PlaneKind {
    let mut rest = random.range(0, 15) as u32;
    for (kind, share) in SHARES {
        if rest < share {
            return kind;
        }
        rest -= share;
    }
    unreachable!("the shares are sixteen")
}

/// A coefficient plane of a kind.
pub fn plane_of_kind(random: &mut Random, kind: PlaneKind, p: &Parameters) -> Vec<i32> {
    match kind {
        PlaneKind::FewBits => {
            let bits = random.range(1, 24);
            plane_of_bits(random, p, bits)
        }
        PlaneKind::ManyBits => {
            let bits = random.range(25, 32);
            plane_of_bits(random, p, bits)
        }
        PlaneKind::Extremes if random.flag() => {
            let value = extreme(random);
            vec![value; padded_area(p)]
        }
        PlaneKind::Extremes => (0..padded_area(p)).map(|_| extreme(random)).collect(),
        PlaneKind::Sized => plane_of_size(random, p),
        // Depth 0 has no level, and nothing is assigned.
        _ if p.depth == 0 => plane_of_bits(random, p, 32),
        PlaneKind::ExtremeLevel => extreme_at_a_level(random, p),
        PlaneKind::Brink => plane_at_the_brink(random, p),
    }
}

/// A number of so many bits, sign included.
pub fn number_of_bits(random: &mut Random, bits: i64) -> i32 {
    (random.bits() as i32) >> (32 - bits)
}

/// A coefficient plane of numbers of so many bits.
fn plane_of_bits(random: &mut Random, p: &Parameters, bits: i64) -> Vec<i32> {
    (0..padded_area(p))
        .map(|_| number_of_bits(random, bits))
        .collect()
}

/// An extreme of 32 bits or nearly one.
fn extreme(random: &mut Random) -> i32 {
    let inside = random.range(0, 2) as i32;
    if random.flag() {
        i32::MAX - inside
    } else {
        i32::MIN + inside
    }
}

/// Coefficients that are small but for extremes at one level, at one position or more or everywhere; the
/// depth must not be 0.
pub fn extreme_at_a_level(random: &mut Random, p: &Parameters) -> Vec<i32> {
    let bits = random.range(1, 12);
    let mut plane = plane_of_bits(random, p, bits);
    let level = random.range(1, i64::from(p.depth)) as u32;
    let bands = [HL, LH, HH].map(|orientation| subband_at(p, level, orientation));
    match random.range(0, 3) {
        0 => {
            for _ in 0..random.range(1, 4) {
                let band = random.pick(&bands);
                plane[random_entry(random, p, &band)] = extreme(random);
            }
        }
        1 => {
            // The same position of all three, alike or not.
            let first = random_entry(random, p, &bands[0]);
            let value = extreme(random);
            let alike = random.flag();
            for band in bands {
                let entry = first + band.left + band.top * padded_width(p) - bands[0].left;
                plane[entry] = if alike { value } else { extreme(random) };
            }
        }
        _ => {
            let bits = random.range(30, 32);
            for band in bands {
                fill_subband(&mut plane, p, &band, || number_of_bits(random, bits));
            }
        }
    }
    plane
}

/// Whether every sum and every number of a filter's steps stays below 2^31 in size where a line's
/// numbers are at most so large, whatever their signs.
fn stays_in_32_bits(wavelet: u32, size: i128) -> bool {
    let mut even = size;
    let mut odd = size;
    for step in FILTERS[wavelet as usize].steps {
        let (target, source) = if step.step_type.changes_even() {
            (&mut even, odd)
        } else {
            (&mut odd, even)
        };
        let gain: i128 = step.taps.iter().map(|tap| tap.abs()).sum();
        // The rounding before the division is 2^11 at most.
        let sum = gain * source + (1 << 11);
        *target += (sum >> step.scale) + 1;
        if sum.max(*target) >= 1 << 31 {
            return false;
        }
    }
    true
}

/// The largest size of numbers whose lines a filter surely lifts in 32 bits.
pub fn safe_size(wavelet: u32) -> i64 {
    let with_bit = |size: i64, bit: u32| {
        let more = size + (1 << bit);
        if stays_in_32_bits(wavelet, more.into()) {
            more
        } else {
            size
        }
    };
    (0..31).rev().fold(0, with_bit)
}

/// A size near a power of two from 2^10 to 2^31, or near what a filter surely lifts in 32 bits. From 2^10 to
/// 2^14 the numbers of one step or another come to leave the 15 bits whose products are cheap.
fn random_size(random: &mut Random, wavelet: u32) -> i32 {
    let power = 1 << random.range(10, 31);
    let border = random.pick(&[power, power, safe_size(wavelet), 1 << 16]);
    let size = border + random.range(-3, 3);
    size.min(i32::MAX.into()) as i32
}

/// A number as large as the size, or one past it below 0.
fn of_size(random: &mut Random, size: i32) -> i32 {
    random.pick(&[size, -size, -size - 1])
}

/// A plane whose largest number has a size: one number alone, or all, with signs that make sums as
/// large as can be or signs at random.
fn plane_of_size(random: &mut Random, p: &Parameters) -> Vec<i32> {
    let size = random_size(random, p.wavelet);
    let mut plane = vec![0; padded_area(p)];
    match random.range(0, 3) {
        0 => {
            let bits = random.range(1, 14);
            plane = plane_of_bits(random, p, bits);
            let bands = subbands(p);
            let band: Subband = random.pick(&bands);
            plane[random_entry(random, p, &band)] = of_size(random, size);
        }
        1 => {
            for band in subbands(p) {
                let number = of_size(random, size);
                fill_subband(&mut plane, p, &band, || number);
            }
        }
        2 => {
            // A sign for each row and each column, so that the signs along a line may be those of taps.
            let columns: Vec<bool> = (0..padded_width(p)).map(|_| random.flag()).collect();
            for row in plane.chunks_mut(padded_width(p)) {
                let row_sign = random.flag();
                for (number, sign) in row.iter_mut().zip(&columns) {
                    *number = if row_sign == *sign { size } else { -size };
                }
            }
        }
        _ => {
            let most = i64::from(size);
            for number in &mut plane {
                let any = random.range(-most, most) as i32;
                *number = random.pick(&[size, -size, -size - 1, 0, any]);
            }
        }
    }
    plane
}

/// The size of the largest number that synthesis assigns, with a number below 0 as large as its
/// complement: 2^31 - 1 is the most that fits.
fn largest_assigned(p: &Parameters, coefficients: &[i32]) -> i128 {
    let filter = &FILTERS[p.wavelet as usize];
    let mut largest = 0;
    build_picture(p, coefficients, |mut picture| {
        for filter_lines in [Grid::filter_columns, Grid::filter_rows] {
            for step in filter.steps {
                filter_lines(&mut picture, slice::from_ref(step));
                let sizes = picture.numbers.iter().map(|&v| v.max(!v));
                largest = sizes.fold(largest, i128::max);
            }
        }
        halve(filter, &mut picture, shift_down);
        picture
    });
    largest
}

/// A plane whose synthesis just stays in 32 bits or just leaves them: noise or numbers of one size,
/// made larger until the largest number that is assigned is near 2^31. The depth must not be 0.
fn plane_at_the_brink(random: &mut Random, p: &Parameters) -> Vec<i32> {
    let plane = if random.flag() {
        let bits = random.range(4, 20);
        plane_of_bits(random, p, bits)
    } else {
        plane_of_size(random, p)
    };
    let largest = largest_assigned(p, &plane).max(1);
    let aim = i128::from(i32::MAX) + i128::from(random.range(-4, 4));
    let scaled = |&c: &i32| (i128::from(c) * aim).div_euclid(largest);
    let clamped = |c: i128| c.clamp(i32::MIN.into(), i32::MAX.into()) as i32;
    plane.iter().map(scaled).map(clamped).collect()
}

#[cfg(test)]
mod tests {
    use super::*;

    #[test]
    fn the_shares_are_sixteen() {
        assert_eq!(SHARES.iter().map(|(_, share)| share).sum::<u32>(), 16);
    }

    #[test]
    fn the_safe_size_is_the_last_that_stays() {
        for wavelet in 0..7 {
            let size = i128::from(safe_size(wavelet));
            assert!(stays_in_32_bits(wavelet, size));
            assert!(!stays_in_32_bits(wavelet, size + 1));
        }
        assert!((65_536..80_000).contains(&safe_size(6)), "{}", safe_size(6));
    }

    #[test]
    fn the_largest_number_of_a_synthesis_is_found() {
        let p = vectors::pieces::plain(2, 2, 1, 3, false);
        // Haar without a shift: 5 - floor((8 + 1) / 2) = 1, 8 + 1 = 9, down and then across.
        assert_eq!(largest_assigned(&p, &[5, 0, 8, 0]), 9);
        assert_eq!(largest_assigned(&p, &[-6, 0, 0, 0]), 5);
    }
}
