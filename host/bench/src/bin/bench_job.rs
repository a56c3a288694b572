//! The program whose instructions are counted: runs unpack, synthesise and decode of the proved library on
//! a body, each so many times.

use kafsillun::Parameters;
use std::{env, fs};

/// The words after the body's: width, height, depth, wavelet, 1 if intra and 0 if not, codeblocks across
/// and down at every level, and how often each job runs.
const NUMBERS: usize = 10;

fn main() {
    let mut words = env::args().skip(1);
    let body = fs::read(words.next().expect("the name of a body")).expect("a body");
    let numbers: Vec<u32> = words.map(|word| word.parse().expect("a number")).collect();
    let numbers: [u32; NUMBERS] = numbers.try_into().expect("ten numbers");
    let [width, height, depth, wavelet, intra, across, down, unpacks, syntheses, decodes] = numbers;
    let p = Parameters {
        width,
        height,
        depth,
        wavelet,
        intra: intra == 1,
        codeblocks_across: [across; 5],
        codeblocks_down: [down; 5],
    };
    let padded = |size: u32| (size as usize).next_multiple_of(1 << depth);
    let area = padded(width) * padded(height);
    let (mut coefficients, mut work) = (vec![0; area], vec![0; area]);
    let mut samples = vec![0; width as usize * height as usize];
    for _ in 0..unpacks {
        kafsillun::unpack(&p, &body, &mut coefficients).expect("a body in order");
    }
    for _ in 0..syntheses {
        kafsillun::synthesise(&p, &coefficients, &mut work, &mut samples).expect("it fits");
    }
    for _ in 0..decodes {
        kafsillun::decode(&p, &body, &mut coefficients, &mut work, &mut samples)
            .expect("a body in order");
    }
}
