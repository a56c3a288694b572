//! Which numbers show the offset that dequantising adds (document 02, "Difference pictures have another
//! offset"): those whose value would be another with another offset, and those that fit 32 bits with one offset
//! alone.

use reference::params::MAX_QUANTISER;
use reference::unpack::{dequantise, quantiser_factor, quantiser_offset, scaled};

/// Magnitudes that stand for all: the value of one that is 4 more is a factor more, whatever the offset. So
/// either both show that an offset is wrong, or neither does.
pub const MAGNITUDES: [i64; 4] = [1, 2, 3, 4];

/// Whether a number has another value in an intra picture than in one that isn't.
pub fn shows_rule(number: i64, index: u32) -> bool {
    dequantise(number, index, true) != dequantise(number, index, false)
}

/// Whether a number becomes another value if the offset of an index is so much more, or less.
pub fn shows_offset(number: i64, index: u32, intra: bool, more: i64) -> bool {
    let offset = quantiser_offset(index, intra) + more;
    scaled(number, quantiser_factor(index), offset) != dequantise(number, index, intra)
}

/// The least magnitude that shows the rule at an index, or none where no magnitude does.
pub fn least_that_shows_rule(index: u32) -> Option<i64> {
    MAGNITUDES.into_iter().find(|&m| shows_rule(m, index))
}

/// The indices at which some magnitude shows the rule.
pub fn indices_that_show_rule() -> Vec<u32> {
    (0..=MAX_QUANTISER as u32)
        .filter(|&index| least_that_shows_rule(index).is_some())
        .collect()
}

/// The largest magnitude that fits 32 bits at an index, of positive numbers or of negative ones.
pub fn largest_that_fits(index: u32, intra: bool, negative: bool) -> i64 {
    let limit = i64::from(i32::MAX) + i64::from(negative);
    (4 * limit + 1 - quantiser_offset(index, intra)) / quantiser_factor(index)
}

/// The indices at which the largest magnitude that fits 32 bits, of one sign at least, depends on the rule.
pub fn indices_with_two_borders() -> Vec<u32> {
    let differs = |index, negative| {
        largest_that_fits(index, true, negative) != largest_that_fits(index, false, negative)
    };
    (0..=MAX_QUANTISER as u32)
        .filter(|&index| differs(index, false) || differs(index, true))
        .collect()
}
