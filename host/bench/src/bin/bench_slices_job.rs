//! The program whose instructions are counted on low delay pictures: unpacks slices in the proved library so many
//! times.

use ffmpeg::proved::unpack_low_delay;
use reference::params::padded_area;
use std::{env, fs};
use vectors::slices::{sliced, with_matrix};

/// The words after the bytes': the width and height of luma and of chroma, the depth, slices across and down, the
/// fraction of bytes, and the matrix. How often unpack runs comes last.
const NUMBERS: usize = 23;

fn main() {
    let mut words = env::args().skip(1);
    let bytes = fs::read(words.next().expect("the name of a file")).expect("the bytes of slices");
    let numbers: Vec<u32> = words.map(|word| word.parse().expect("a number")).collect();
    let numbers: [u32; NUMBERS] = numbers.try_into().expect("as many numbers");
    let pair = |k: usize| (numbers[k], numbers[k + 1]);
    let p = sliced(pair(0), pair(2), numbers[4], true, pair(5), pair(7));
    let p = with_matrix(&p, &numbers[9..22]);
    let components = p.picture.components();
    let mut planes = components.each_ref().map(|p| vec![0; padded_area(p)]);
    for _ in 0..numbers[22] {
        let lent = planes.each_mut().map(Vec::as_mut_slice);
        unpack_low_delay(&p, &bytes, lent).expect("slices in order");
    }
}
