//! Synthesise on numbers too large for sums of 32 bits, beside the same numbers made small.

use crate::components::Component;
use crate::decoders::{Effort, Planes, PROVED};
use crate::timing::{take_turns, Timed};
use compare::safe_size;
use reference::params::{padded_width, subbands, Parameters};
use reference::transform::{shift_down, FILTERS};
use vectors::levels::{build_picture, crop, halve};

/// How many bits the small numbers have fewer.
const FEWER_BITS: u32 = 20;

/// Large coefficients, and the same made small.
pub struct LargeAndSmall<'a> {
    component: &'a Component,
    large: Planes,
    small: Planes,
    /// How many of a hundred rows, at all levels, have a number past those that the filter surely lifts
    /// in 32 bits.
    large_rows: f64,
}

/// Nanoseconds a sample of synthesise on large numbers and on small ones.
#[derive(Clone, Copy, Debug)]
pub struct ExactTimes {
    pub large: f64,
    pub small: f64,
}

impl ExactTimes {
    /// The best of each.
    pub fn best(self, other: ExactTimes) -> ExactTimes {
        ExactTimes {
            large: self.large.min(other.large),
            small: self.small.min(other.small),
        }
    }
}

/// The size of a plane's largest number.
fn largest(plane: &[i32]) -> u32 {
    plane.iter().map(|c| c.unsigned_abs()).max().unwrap_or(0)
}

/// Factors from 1 to nearly 2^31 in eighths, from small to large.
fn factors() -> Vec<i64> {
    (0..31)
        .flat_map(|power| (8..16).map(move |eighths| eighths << power))
        .collect()
}

/// Multiplies the coefficients of a level by a factor in eighths; answers whether they fit 32 bits still.
/// Level 1 takes level 0 with it.
fn scale(p: &Parameters, coefficients: &mut [i32], level: u32, factor: i64) -> bool {
    let bands = subbands(p);
    for band in bands.iter().filter(|band| band.level.max(1) == level) {
        for y in band.top..band.top + band.height {
            let row = &mut coefficients[y * padded_width(p) + band.left..][..band.width];
            for c in row {
                let Ok(product) = i32::try_from(i64::from(*c) * factor / 8) else {
                    return false;
                };
                *c = product;
            }
        }
    }
    true
}

/// A component's coefficients, level by level as large as synthesise accepts them.
fn enlarged(component: &Component) -> Planes {
    let [unpack, synthesise, _] = PROVED;
    let p = &component.parameters;
    let mut planes = Planes::new(component);
    unpack(component, &mut planes);
    let mut tried = planes.clone();
    let factors = factors();
    for level in 1..=p.depth {
        let count = factors.partition_point(|factor| {
            tried.coefficients.copy_from_slice(&planes.coefficients);
            scale(p, &mut tried.coefficients, level, *factor)
                && synthesise(component, &mut tried) == 0
        });
        // With the first factor, 1, they are as they were, and accepted.
        scale(p, &mut planes.coefficients, level, factors[count - 1]);
    }
    planes
}

/// Synthesis by the reference's steps: the samples, and how many of a hundred rows have a number above a
/// bound when the rows of their level are filtered.
fn synthesise_by_steps(p: &Parameters, coefficients: &[i32], bound: i128) -> (Vec<i128>, f64) {
    let filter = &FILTERS[p.wavelet as usize];
    let is_large = |row: &&[i128]| row.iter().any(|number| number.abs() > bound);
    let (mut rows, mut large_rows) = (0, 0);
    let picture = build_picture(p, coefficients, |mut picture| {
        picture.filter_columns(filter.steps);
        let lines = picture.numbers.chunks(picture.width);
        rows += picture.height;
        large_rows += lines.filter(is_large).count();
        picture.filter_rows(filter.steps);
        halve(filter, &mut picture, shift_down);
        picture
    });
    (crop(p, &picture), 100.0 * large_rows as f64 / rows as f64)
}

impl LargeAndSmall<'_> {
    /// The coefficients of a component, level by level as large as synthesise accepts them, and the same
    /// made small; or that synthesise gives other samples than the reference's steps.
    pub fn of(component: &Component) -> Result<LargeAndSmall<'_>, String> {
        let [_, synthesise, _] = PROVED;
        let p = &component.parameters;
        let mut large = enlarged(component);
        let mut small = large.clone();
        for c in &mut small.coefficients {
            *c >>= FEWER_BITS;
        }
        let bound = safe_size(p.wavelet);
        let (samples, large_rows) = synthesise_by_steps(p, &large.coefficients, bound.into());
        let status = synthesise(component, &mut large);
        if status != 0 || !large.samples.iter().map(|&v| i128::from(v)).eq(samples) {
            return Err("the reference differs on large numbers".to_string());
        }
        Ok(LargeAndSmall {
            component,
            large,
            small,
            large_rows,
        })
    }

    /// The wavelet.
    pub fn wavelet(&self) -> u32 {
        self.component.parameters.wavelet
    }

    /// The sizes of the largest of the large and of the small numbers.
    pub fn largest(&self) -> [u32; 2] {
        [&self.large, &self.small].map(|planes| largest(&planes.coefficients))
    }

    /// How many of a hundred rows have a number past those that the filter surely lifts in 32 bits.
    pub fn large_rows(&self) -> f64 {
        self.large_rows
    }

    /// How long synthesise takes on either.
    pub fn measure(&self, effort: Effort) -> ExactTimes {
        let [_, synthesise, _] = PROVED;
        let samples = self.component.samples();
        let mut timed = [&self.large, &self.small].map(|planes| {
            let mut planes = planes.clone();
            Timed::new(samples, effort.rounds, move || {
                assert_eq!(synthesise(self.component, &mut planes), 0, "checked");
            })
        });
        take_turns(&mut timed);
        let [large, small] = timed.map(|c| 1e9 * c.seconds() / samples as f64);
        ExactTimes { large, small }
    }
}
