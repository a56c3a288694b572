//! The filter table against the formulas the transform chapter writes out for each index.

use crate::common::Random;
use reference::transform::{
    analysis_steps, filter_line, fits_32_bits, lift, shift_down, StepType, FILTERS,
};

/// The entry at an odd position, the nearest odd one standing in beyond the ends.
fn odd(a: &[i64], position: i64) -> i64 {
    let last = a.len() as i64 - 1;
    a[if position < 1 {
        1
    } else if position > last {
        last
    } else {
        position
    } as usize]
}

/// The entry at an even position, the nearest even one standing in beyond the ends.
fn even(a: &[i64], position: i64) -> i64 {
    let last = a.len() as i64 - 2;
    a[if position < 0 {
        0
    } else if position > last {
        last
    } else {
        position
    } as usize]
}

/// A line after the synthesis filter of an index, by the written out formulas.
fn by_formulas(index: usize, a: &mut [i64]) {
    let half = a.len() as i64 / 2;
    let each_even = |a: &mut [i64], change: &dyn Fn(&[i64], i64) -> i64| {
        for n in 0..half {
            a[2 * n as usize] += change(a, 2 * n);
        }
    };
    let each_odd = |a: &mut [i64], change: &dyn Fn(&[i64], i64) -> i64| {
        for n in 0..half {
            a[2 * n as usize + 1] += change(a, 2 * n);
        }
    };
    // In each formula k is 2n.
    let two_by_quarter = |a: &[i64], k| -((odd(a, k - 1) + odd(a, k + 1) + 2) >> 2);
    let four_by_sixteenth = |a: &[i64], k| {
        (-even(a, k - 2) + 9 * even(a, k) + 9 * even(a, k + 2) - even(a, k + 4) + 8) >> 4
    };
    match index {
        0 => {
            each_even(a, &two_by_quarter);
            each_odd(a, &four_by_sixteenth);
        }
        1 => {
            each_even(a, &two_by_quarter);
            each_odd(a, &|a, k| (even(a, k) + even(a, k + 2) + 1) >> 1);
        }
        2 => {
            each_even(a, &|a, k| {
                -((-odd(a, k - 3) + 9 * odd(a, k - 1) + 9 * odd(a, k + 1) - odd(a, k + 3) + 16)
                    >> 5)
            });
            each_odd(a, &four_by_sixteenth);
        }
        3 | 4 => {
            each_even(a, &|a, k| -((odd(a, k + 1) + 1) >> 1));
            each_odd(a, &|a, k| even(a, k));
        }
        5 => {
            each_odd(a, &|a, k| {
                (-2 * (even(a, k - 6) + even(a, k + 8)) + 10 * (even(a, k - 4) + even(a, k + 6))
                    - 25 * (even(a, k - 2) + even(a, k + 4))
                    + 81 * (even(a, k) + even(a, k + 2))
                    + 128)
                    >> 8
            });
            each_even(a, &|a, k| {
                -((-8 * (odd(a, k - 7) + odd(a, k + 7)) + 21 * (odd(a, k - 5) + odd(a, k + 5))
                    - 46 * (odd(a, k - 3) + odd(a, k + 3))
                    + 161 * (odd(a, k - 1) + odd(a, k + 1))
                    + 128)
                    >> 8)
            });
        }
        6 => {
            each_even(a, &|a, k| {
                -((1817 * odd(a, k - 1) + 1817 * odd(a, k + 1) + 2048) >> 12)
            });
            each_odd(a, &|a, k| {
                -((3616 * even(a, k) + 3616 * even(a, k + 2) + 2048) >> 12)
            });
            each_even(a, &|a, k| {
                (217 * odd(a, k - 1) + 217 * odd(a, k + 1) + 2048) >> 12
            });
            each_odd(a, &|a, k| {
                (6497 * even(a, k) + 6497 * even(a, k + 2) + 2048) >> 12
            });
        }
        _ => unreachable!(),
    }
}

#[test]
fn every_filter_follows_its_formulas() {
    let mut random = Random::new(1);
    for (index, filter) in FILTERS.iter().enumerate() {
        for half in 1..=12 {
            for bound in [3, 1000, 1 << 31] {
                let start: Vec<i64> = (0..2 * half)
                    .map(|_| random.range(-bound, bound - 1))
                    .collect();
                let mut expected = start.clone();
                by_formulas(index, &mut expected);
                let mut line: Vec<i128> = start.iter().map(|&v| i128::from(v)).collect();
                filter_line(filter.steps, &mut line);
                let expected: Vec<i128> = expected.iter().map(|&v| i128::from(v)).collect();
                assert_eq!(line, expected, "filter {index} of {start:?}");
            }
        }
    }
}

#[test]
fn shifts_of_the_table() {
    let shifts: Vec<u32> = FILTERS.iter().map(|filter| filter.shift).collect();
    assert_eq!(shifts, [1, 1, 1, 0, 1, 0, 1]);
    let most_steps = FILTERS.iter().map(|filter| filter.steps.len()).max();
    assert_eq!(most_steps, Some(4));
}

#[test]
fn analysis_steps_are_reversed_and_exchanged() {
    let types: Vec<StepType> = analysis_steps(&FILTERS[6])
        .iter()
        .map(|step| step.step_type)
        .collect();
    assert_eq!(
        types,
        [
            StepType::Type4,
            StepType::Type2,
            StepType::Type3,
            StepType::Type1
        ]
    );
    assert_eq!(analysis_steps(&FILTERS[6])[0].taps, [6497, 6497]);
}

#[test]
fn analysis_and_synthesis_filters_cancel_at_any_size() {
    let mut random = Random::new(2);
    for filter in &FILTERS {
        for half in 1..=10 {
            for power in [0, 10, 31, 50, 80] {
                let start: Vec<i128> = (0..2 * half)
                    .map(|_| i128::from(random.range(-1000, 1000)) << power >> 3)
                    .collect();
                let mut line = start.clone();
                filter_line(&analysis_steps(filter), &mut line);
                filter_line(filter.steps, &mut line);
                assert_eq!(line, start);
                filter_line(filter.steps, &mut line);
                filter_line(&analysis_steps(filter), &mut line);
                assert_eq!(line, start);
            }
        }
    }
}

#[test]
fn lift_tells_of_each_new_number_only() {
    let subtract = &FILTERS[3].steps[0];
    let largest = i128::from(i32::MAX);
    // The odd position keeps its number, which isn't looked at.
    let mut line = [1 << 31, 1 << 31];
    assert!(lift(subtract, &mut line));
    assert_eq!(line, [1 << 30, 1 << 31]);
    let mut line = [largest, -2];
    assert!(!lift(subtract, &mut line));
    assert_eq!(line, [largest + 1, -2]);
    assert!(fits_32_bits(largest) && !fits_32_bits(largest + 1));
    assert!(fits_32_bits(-largest - 1) && !fits_32_bits(-largest - 2));
}

#[test]
fn shifting_down_rounds_down() {
    let shifted: Vec<i128> = (-5..=5).map(shift_down).collect();
    assert_eq!(shifted, [-2, -2, -1, -1, 0, 0, 1, 1, 2, 2, 3]);
}
