//! Parameters at random, in range and out of range.

use reference::params::Orientation::{HL, LL};
use reference::params::{padded_area, subband_at, subbands};
use reference::Parameters;
use vectors::pieces;
use vectors::random::Random;

/// Parameters in range with a depth from a least one on: most sizes small, some up to 70, and now and
/// then the longest row or column.
pub fn random_parameters(random: &mut Random, least_depth: u32) -> Parameters {
    let depth = random.range(i64::from(least_depth), 4) as u32;
    let wavelet = random.range(0, 6) as u32;
    let intra = random.flag();
    if random.range(0, 499) == 0 {
        let (width, height) = random.pick(&[(4096, 1), (4095, 2), (1, 4096), (2, 4095)]);
        // A greater depth would pad them to many rows or columns.
        let depth = depth.min(least_depth.max(1));
        return pieces::plain(width, height, depth, wavelet, intra);
    }
    let (width, height) = (random_size(random), random_size(random));
    let mut p = pieces::plain(width, height, depth, wavelet, intra);
    for level in 0..=depth {
        let band = subband_at(&p, level, if level == 0 { LL } else { HL });
        p.codeblocks_across[level as usize] = random_count(random, band.width);
        p.codeblocks_down[level as usize] = random_count(random, band.height);
    }
    p
}

/// Parameters whose widest subbands have rows of up to 80 values in few rows, whole or in codeblocks.
pub fn row_parameters(random: &mut Random) -> Parameters {
    let depth = random.pick(&[0, 0, 1, 1, 2]);
    let halved = u32::from(depth > 0);
    let width = (random.range(1, 80) as u32) << halved;
    let height = (random.range(1, 4) as u32) << halved;
    let wavelet = random.range(0, 6) as u32;
    // Prediction takes large values out of 32 bits.
    let intra = random.range(0, 3) == 0;
    let mut p = pieces::plain(width, height, depth, wavelet, intra);
    for level in 0..=depth as usize {
        p.codeblocks_across[level] = random.pick(&[1, 1, 1, 2, 3, 5]);
        p.codeblocks_down[level] = random.pick(&[1, 1, 1, 2]);
    }
    p
}

/// Parameters whose codeblocks have sizes near those at which a reader may take their rows together,
/// or counts near the subband's sizes and above.
pub fn rectangle_parameters(random: &mut Random) -> Parameters {
    const WIDTHS: [u32; 10] = [1, 2, 15, 16, 17, 62, 63, 64, 65, 66];
    const HEIGHTS: [u32; 7] = [1, 1, 2, 3, 16, 33, 48];
    if random.range(0, 2) == 0 {
        return two_codeblocks(random);
    }
    let depth = random.pick(&[0, 0, 0, 1]);
    let most = random.pick(&[600, 1500, 2800]);
    loop {
        let (width, across) = random_split(random, &WIDTHS);
        let (height, down) = random_split(random, &HEIGHTS);
        let mut p = rectangle(random, width << depth, height << depth, depth);
        p.codeblocks_across[..2].copy_from_slice(&across);
        p.codeblocks_down[..2].copy_from_slice(&down);
        if padded_area(&p) <= most && codeblocks(&p) <= most {
            return p;
        }
    }
}

/// Parameters of such a picture with some wavelet.
fn rectangle(random: &mut Random, width: u32, height: u32, depth: u32) -> Parameters {
    let wavelet = random.range(0, 6) as u32;
    // Prediction takes large values out of 32 bits.
    let intra = random.range(0, 3) == 0;
    pieces::plain(width, height, depth, wavelet, intra)
}

/// Parameters of two codeblocks side by side, with about the longest rows that are read together, or any
/// shorter ones, and many rows.
fn two_codeblocks(random: &mut Random) -> Parameters {
    let (border, any) = (random.range(62, 66), random.range(1, 66));
    let width = 2 * random.pick(&[border, any, any]) + random.range(0, 1);
    let any = random.range(17, 32);
    let height = random.pick(&[16, 33, any]);
    let mut p = rectangle(random, width as u32, height as u32, 0);
    p.codeblocks_across[0] = 2;
    p
}

/// A subband's width or height, and for levels 0 and 1 how many codeblocks share it. Those of a level
/// have one of these sizes, often with one more in some; or there are about as many as the size has
/// room for, or far more.
fn random_split(random: &mut Random, sizes: &[u32]) -> (u32, [u32; 2]) {
    let size = match random.range(0, 2) {
        0 => random.range(1, 70) as u32,
        _ => random.pick(sizes),
    };
    if random.range(0, 3) > 0 {
        let count = random.pick(&[1, 1, 2, 2, 3]);
        let whole = size * count + random.range(0, i64::from(count) - 1) as u32;
        return (whole, [count, random.pick(&[1, count, count])]);
    }
    let counts = [(); 2].map(|()| {
        let about = random.pick(&[1, 1, 2, 3]) * i64::from(size) + random.range(-1, 1);
        random
            .pick(&[about, about, about, about, 1, 255])
            .clamp(1, 255) as u32
    });
    (size, counts)
}

/// How many codeblocks all subbands have.
fn codeblocks(p: &Parameters) -> usize {
    let count = |level| p.codeblocks_across[level] as usize * p.codeblocks_down[level] as usize;
    subbands(p)
        .iter()
        .map(|band| count(band.level as usize))
        .sum()
}

/// A width or height from 1 to 70.
pub fn random_size(random: &mut Random) -> u32 {
    let most = match random.range(0, 99) {
        0..=39 => 8,
        40..=69 => 20,
        70..=89 => 40,
        _ => 70,
    };
    random.range(1, most) as u32
}

/// A count of codeblocks or slices that share a size: most often few, sometimes more than the size, rarely any.
pub fn random_count(random: &mut Random, size: usize) -> u32 {
    let most = match random.range(0, 39) {
        0..=19 => 1,
        20..=31 => 4,
        32..=38 => (2 * size as i64 + 1).min(255),
        _ => 255,
    };
    random.range(1, most) as u32
}

/// Sizes that are refused.
pub const WRONG_SIZES: [u32; 8] = [0, 0, 4097, 4098, 5000, 1 << 16, 1 << 31, u32::MAX];

/// Depths that are refused.
pub const WRONG_DEPTHS: [u32; 9] = [5, 5, 6, 31, 32, 63, 64, 256, u32::MAX];

/// Counts of codeblocks or slices that are refused.
pub const WRONG_COUNTS: [u32; 6] = [0, 0, 256, 257, 1 << 16, u32::MAX];

/// Puts one or more parameters out of range; a count above the depth may be among them, which is not
/// looked at.
pub fn put_out_of_range(random: &mut Random, p: &mut Parameters) {
    for _ in 0..random.pick(&[1, 1, 1, 1, 2, 3]) {
        match random.range(0, 6) {
            0 => p.width = random.pick(&WRONG_SIZES),
            1 => p.height = random.pick(&WRONG_SIZES),
            2 => p.depth = random.pick(&WRONG_DEPTHS),
            3 => p.wavelet = random.pick(&[7, 7, 8, 255, 256, 1 << 16, u32::MAX]),
            // A right number in the low bits alone.
            4 => {
                let high = random.pick(&[1 << 8, 1 << 16, 1 << 24, 1 << 31]);
                let field = random.range(0, 3);
                *[&mut p.width, &mut p.height, &mut p.depth, &mut p.wavelet][field as usize] |=
                    high;
            }
            _ => {
                let level = random.range(0, 4) as usize;
                let counts = if random.flag() {
                    &mut p.codeblocks_across
                } else {
                    &mut p.codeblocks_down
                };
                counts[level] = random.pick(&WRONG_COUNTS);
            }
        }
    }
}
