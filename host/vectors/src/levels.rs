//! Synthesis by the reference's own steps, for those who look at what happens inside a level.

use reference::params::Orientation::{HH, HL, LH, LL};
use reference::params::{padded_height, padded_width, subband_at};
use reference::transform::{interleave, Filter, Grid};
use reference::Parameters;

/// The padded picture of a coefficient plane. The picture of each depth is what `level` makes of the level's
/// four bands interleaved, LL being the picture of the depth below.
pub fn build_picture(
    p: &Parameters,
    coefficients: &[i32],
    mut level: impl FnMut(Grid) -> Grid,
) -> Grid {
    let plane = Grid {
        width: padded_width(p),
        height: padded_height(p),
        numbers: coefficients.iter().map(|&c| c.into()).collect(),
    };
    let mut picture = plane.band(&subband_at(p, 0, LL));
    for n in 1..=p.depth {
        let [hl, lh, hh] = [HL, LH, HH].map(|band| plane.band(&subband_at(p, n, band)));
        picture = level(interleave(&picture, &hl, &lh, &hh));
    }
    picture
}

/// Ends a level: halves every number where the filter has a shift.
pub fn halve(filter: &Filter, picture: &mut Grid, half: fn(i128) -> i128) {
    if filter.shift == 1 {
        for number in &mut picture.numbers {
            *number = half(*number);
        }
    }
}

/// The rows and columns of a padded picture that are kept.
pub fn crop(p: &Parameters, picture: &Grid) -> Vec<i128> {
    let rows = picture.numbers.chunks(picture.width);
    rows.take(p.height as usize)
        .flat_map(|row| &row[..p.width as usize])
        .copied()
        .collect()
}
