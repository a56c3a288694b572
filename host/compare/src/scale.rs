//! Numbers for a quantiser index and the kind of a picture, intra or not, which decides the offset (document
//! 02, request Three): those that just fit 32 bits, and those that show the rule.

use vectors::offsets::{largest_that_fits, shows_rule, MAGNITUDES};
use vectors::random::Random;

/// What numbers are dequantised by: a quantiser index, and whether the picture is intra.
#[derive(Clone, Copy, Debug)]
pub struct Scale {
    pub index: u32,
    pub intra: bool,
}

impl Scale {
    /// The same index in a picture of the other kind.
    fn of_other_flag(self) -> Scale {
        Scale {
            intra: !self.intra,
            ..self
        }
    }

    /// The largest magnitude of a number with a sign, 1 or -1, whose value fits 32 bits.
    fn largest_that_fits(self, sign: i64) -> i64 {
        largest_that_fits(self.index, self.intra, sign < 0)
    }
}

/// Either sign.
fn random_sign(random: &mut Random) -> i64 {
    random.pick(&[-1, 1])
}

/// A number whose value fits 32 bits, often just so.
pub fn number_that_fits(random: &mut Random, scale: Scale) -> i64 {
    let sign = random_sign(random);
    let most = scale.largest_that_fits(sign);
    let any = random.range(1, most);
    sign * random.pick(&[1, most, any])
}

/// The next number behind those that fit 32 bits; or that one, or the last that fits, in a picture of the
/// other kind.
pub fn number_at_a_border(random: &mut Random, scale: Scale) -> i64 {
    let other = scale.of_other_flag();
    let largest = |sign| (scale.largest_that_fits(sign), other.largest_that_fits(sign));
    let differ = |sign| largest(sign).0 != largest(sign).1;
    let [first, second] = [(); 2].map(|()| random_sign(random));
    // With some indices the largest differ for one sign alone, which is taken more often.
    let sign = if differ(first) { first } else { second };
    let (most, most_of_other) = largest(sign);
    sign * random.pick(&[most + 1, most_of_other, most_of_other + 1])
}

/// A number of a magnitude of 12 to 16 that fits 32 bits; where there is none, another that fits.
pub fn small_number_that_fits(random: &mut Random, scale: Scale) -> i64 {
    let sign = random_sign(random);
    match scale.largest_that_fits(sign) {
        most @ 12.. => sign * random.range(12, most.min(16)),
        _ => number_that_fits(random, scale),
    }
}

/// A number of a magnitude of 12 to 16 that does not fit 32 bits; where all fit, any of them.
pub fn small_number_too_large(random: &mut Random, scale: Scale) -> i64 {
    let sign = random_sign(random);
    let least = match scale.largest_that_fits(sign) {
        most @ 12..=15 => most + 1,
        _ => 12,
    };
    sign * random.range(least, 16)
}

/// A number that fits 32 bits and shows the rule, of any size; where none does, one that fits.
pub fn number_that_shows_rule(random: &mut Random, scale: Scale) -> i64 {
    let mut showing = MAGNITUDES.to_vec();
    showing.retain(|&m| shows_rule(m, scale.index));
    if showing.is_empty() {
        return number_that_fits(random, scale);
    }
    let sign = random_sign(random);
    let least = random.pick(&showing);
    let most = (scale.largest_that_fits(sign) - least) / 4;
    let any = random.range(0, most);
    let few = any.min(random.range(0, 3));
    // One that is 4 more shows as much.
    sign * (least + 4 * random.pick(&[0, few, any]))
}

#[cfg(test)]
mod tests {
    use super::*;
    use reference::transform::fits_32_bits;
    use reference::unpack::dequantise;
    use vectors::offsets::indices_that_show_rule;

    /// Every index in a picture of either kind.
    fn scales() -> impl Iterator<Item = Scale> {
        let of_index = |index| [false, true].map(|intra| Scale { index, intra });
        (0..=115).flat_map(of_index)
    }

    /// Whether a number's value fits 32 bits.
    fn fits(number: i64, scale: Scale) -> bool {
        fits_32_bits(dequantise(number, scale.index, scale.intra))
    }

    #[test]
    fn numbers_are_as_asked_for() {
        let random = &mut Random::new(1);
        for scale in scales() {
            let some_shows = indices_that_show_rule().contains(&scale.index);
            for _ in 0..50 {
                assert!(fits(number_that_fits(random, scale), scale));
                assert!(fits(small_number_that_fits(random, scale), scale));
                let small = small_number_too_large(random, scale);
                assert!((12..=16).contains(&small.abs()));
                assert_eq!(fits(small, scale), scale.index < 108, "{scale:?}");
                let number = number_that_shows_rule(random, scale);
                assert!(fits(number, scale));
                assert_eq!(shows_rule(number, scale.index), some_shows, "{scale:?}");
            }
        }
    }
}
