//! The numbers that show an offset.

use reference::transform::fits_32_bits;
use reference::unpack::dequantise;
use vectors::offsets::{indices_that_show_rule, indices_with_two_borders, largest_that_fits};

#[test]
fn some_number_shows_the_rule_at_all_but_six_indices() {
    let mut indices = Vec::from_iter(0..=115);
    indices.retain(|index| ![0, 1, 2, 4, 5, 8].contains(index));
    assert_eq!(indices_that_show_rule(), indices);
}

#[test]
fn other_numbers_fit_at_thirteen_indices() {
    let indices = [6, 7, 9, 14, 19, 33, 45, 46, 65, 66, 79, 91, 109];
    assert_eq!(indices_with_two_borders(), indices);
}

#[test]
fn the_largest_number_that_fits_is_the_last() {
    for index in 0..=115 {
        for intra in [false, true] {
            for (negative, sign) in [(false, 1), (true, -1)] {
                let most = largest_that_fits(index, intra, negative);
                let fits = |m| fits_32_bits(dequantise(sign * m, index, intra));
                assert!(fits(most) && !fits(most + 1), "{index} intra {intra}");
            }
        }
    }
}
