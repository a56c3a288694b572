//! Parameters of pictures at random, in range and out of range.

use super::LowDelayKind;
use crate::parameters::{random_count, random_size, WRONG_COUNTS, WRONG_DEPTHS, WRONG_SIZES};
use reference::params::{subbands, Subband};
use reference::{LowDelay, SlicedPicture};
use vectors::random::Random;
use vectors::slices::sliced;

/// The most slices of a picture that is made for them.
const MANY_SLICES: i64 = 700;

/// The largest numerator and denominator.
const LARGEST_FRACTION: i64 = 65_535;

/// A picture in range, as its kind asks for: most sizes small, some up to 70.
pub fn random_parameters(random: &mut Random, kind: LowDelayKind) -> SlicedPicture {
    let depth = random.range(0, 4) as u32;
    let intra = kind == LowDelayKind::Prediction || random.flag();
    let luma = (random_size(random), random_size(random));
    let chroma = chroma_size(random, luma);
    let mut picture = sliced(luma, chroma, depth, intra, (1, 1), (1, 1)).picture;
    match kind {
        LowDelayKind::Runs | LowDelayKind::Codes => put_wide_sizes(random, &mut picture),
        LowDelayKind::Large => put_large_size(random, &mut picture),
        LowDelayKind::ManySlices => put_many_slices(random, &mut picture),
        LowDelayKind::LongSlices => picture.slices_across = random.range(1, 3) as u32,
        _ => put_slices(random, &mut picture),
    }
    picture.matrix = random_matrix(random, &picture);
    picture
}

/// The size of chroma: that of luma, half of it one way or both, as large again, or any.
fn chroma_size(random: &mut Random, (width, height): (u32, u32)) -> (u32, u32) {
    let any = (random_size(random), random_size(random));
    let half = width.div_ceil(2);
    random.pick(&[
        (width, height),
        (half, height),
        (half, height.div_ceil(2)),
        (half, height.div_ceil(2)),
        (width + half, height + 1),
        any,
        any,
    ])
}

/// Some slices: most often few, sometimes more than there are columns or rows, rarely any number.
fn put_slices(random: &mut Random, picture: &mut SlicedPicture) {
    picture.slices_across = random_count(random, picture.luma_width as usize);
    picture.slices_down = random_count(random, picture.luma_height as usize);
}

/// More slices across than columns, more slices down than rows, or both.
fn put_many_slices(random: &mut Random, picture: &mut SlicedPicture) {
    let more = |random: &mut Random, size: u32| {
        let least = i64::from(size) + 1;
        let about = random.range(least, 2 * least);
        let any = random.range(least, 255);
        random.pick(&[about, about, about, any, 255])
    };
    let (mut across, mut down) = (
        more(random, picture.luma_width.max(picture.chroma_width)),
        more(random, picture.luma_height.max(picture.chroma_height)),
    );
    if across * down > MANY_SLICES {
        let few = |slices: i64| (MANY_SLICES / slices).max(1);
        if random.flag() {
            down = random.range(1, few(across));
        } else {
            across = random.range(1, few(down));
        }
    }
    picture.slices_across = across as u32;
    picture.slices_down = down as u32;
}

/// Sizes whose slices have rows of up to 80 values, often of about as many as a reader may take together, in few
/// rows or many.
fn put_wide_sizes(random: &mut Random, picture: &mut SlicedPicture) {
    picture.depth = random.pick(&[0, 0, 1, 2]);
    // Prediction takes large values out of 32 bits.
    picture.intra = random.range(0, 3) == 0;
    picture.slices_across = random.pick(&[1, 1, 2, 3]);
    picture.slices_down = random.pick(&[1, 1, 2]);
    let halved = u32::from(picture.depth > 0);
    let size = |random: &mut Random, slices: u32| {
        let (border, any) = (random.range(62, 66) as u32, random.range(1, 80) as u32);
        let width = random.pick(&[border, any, any]) * if any < 40 { slices } else { 1 };
        let height = random.pick(&[1, 2, 3, 4, 16]);
        (width << halved, height << halved)
    };
    let across = picture.slices_across;
    (picture.luma_width, picture.luma_height) = size(random, across);
    (picture.chroma_width, picture.chroma_height) = size(random, across);
}

/// Sizes of a picture with many values in a slice, or many columns or rows, in few slices: most often of one
/// component, the others being small.
fn put_large_size(random: &mut Random, picture: &mut SlicedPicture) {
    const SIZES: [(u32, u32); 8] = [
        (128, 128),
        (91, 91),
        (200, 82),
        (130, 64),
        (65, 33),
        (4096, 1),
        (1, 4096),
        (4096, 2),
    ];
    let size = random.pick(&SIZES);
    let is_luma = random.flag();
    let (width, height) = if is_luma {
        (&mut picture.luma_width, &mut picture.luma_height)
    } else {
        (&mut picture.chroma_width, &mut picture.chroma_height)
    };
    (*width, *height) = size;
    // A greater depth would pad some of them to many rows or columns, and has smaller subbands.
    picture.depth = random.pick(&[0, 0, 0, 1]);
    let most = random.pick(&[1, 1, 1, 3]);
    picture.slices_across = random.range(1, most) as u32;
    picture.slices_down = random.range(1, most) as u32;
}

/// A matrix of zeros, of small entries or of any, and any number where no subband is.
fn random_matrix(random: &mut Random, picture: &SlicedPicture) -> [u32; 13] {
    let used = picture.used_matrix().len();
    let most = random.pick(&[0, 0, 12, 12, 40, 127]);
    let mut matrix = [0; 13];
    for (subband, entry) in matrix.iter_mut().enumerate() {
        *entry = if subband < used {
            random.range(0, most) as u32
        } else {
            random.pick(&[0, 1, 127, 128, 255, 256, u32::MAX])
        };
    }
    matrix
}

/// A fraction whose slices have so many bytes, or some of them one more: most often one that does not divide.
pub fn random_fraction(random: &mut Random, bytes: usize) -> (u32, u32) {
    let bytes = (bytes as i64).clamp(1, LARGEST_FRACTION);
    let most = (LARGEST_FRACTION / (bytes + 1)).max(1);
    if bytes == 1 && random.range(0, 7) == 0 {
        return (
            LARGEST_FRACTION as u32,
            random.range(most, LARGEST_FRACTION) as u32,
        );
    }
    let (few, any) = (random.range(1, most.min(7)), random.range(1, most));
    let denominator = random.pick(&[1, few, few, any]);
    let numerator = bytes * denominator + random.range(0, denominator - 1);
    (numerator as u32, denominator as u32)
}

/// The subbands of luma, or of either chroma component.
pub fn subbands_of(picture: &SlicedPicture, component: usize) -> Vec<Subband> {
    subbands(&picture.components()[component])
}

/// Puts one or more parameters out of range; a matrix entry above the depth may be among them, which is not looked
/// at.
pub fn put_out_of_range(random: &mut Random, p: &mut LowDelay) {
    const WRONG_FRACTIONS: [u32; 6] = [0, 0, 65_536, 65_537, 1 << 31, u32::MAX];
    const WRONG_ENTRIES: [u32; 6] = [128, 128, 129, 255, 256, u32::MAX];
    for _ in 0..random.pick(&[1, 1, 1, 1, 2, 3]) {
        let picture = &mut p.picture;
        match random.range(0, 15) {
            0 => picture.luma_width = random.pick(&WRONG_SIZES),
            1 => picture.luma_height = random.pick(&WRONG_SIZES),
            2 => picture.chroma_width = random.pick(&WRONG_SIZES),
            3 => picture.chroma_height = random.pick(&WRONG_SIZES),
            4..=7 => picture.depth = random.pick(&WRONG_DEPTHS),
            8 => picture.slices_across = random.pick(&WRONG_COUNTS),
            9 => picture.slices_down = random.pick(&WRONG_COUNTS),
            10 => p.numerator = random.pick(&WRONG_FRACTIONS),
            11 => p.denominator = random.pick(&WRONG_FRACTIONS),
            12 => p.denominator = p.numerator.saturating_add(1),
            // A right number in the low bits alone.
            13 => p.numerator |= random.pick(&[1 << 16, 1 << 24, 1 << 31]),
            _ => {
                let entry = random.range(0, 12) as usize;
                picture.matrix[entry] = random.pick(&WRONG_ENTRIES);
            }
        }
    }
}

#[cfg(test)]
mod tests {
    use super::*;

    #[test]
    fn fractions_give_slices_the_bytes_asked_for() {
        let random = &mut Random::new(1);
        for bytes in [1, 2, 3, 100, 20_000, 40_000, 65_534, 65_535] {
            for _ in 0..200 {
                let fraction = random_fraction(random, bytes);
                let p = sliced((1, 1), (1, 1), 0, false, (255, 255), fraction);
                assert!(fraction.0 <= 65_535 && (1..=fraction.0).contains(&fraction.1));
                let slice = random.range(0, 65_024) as usize;
                let found = p.slice_range(slice).len();
                assert!((bytes..=bytes + 1).contains(&found), "{fraction:?}");
            }
        }
    }
}
