//! Stored vectors for synthesise: what the proved program `synthesis_vectors` reads, and what is expected of it.
//!
//! The input is a sequence of jobs, every number big-endian: width (2 bytes), height (2), depth (1),
//! wavelet (1), then the coefficient plane in raster order, each coefficient in two's complement (4).
//! Sizes and depths are in range; a wavelet need not be.
//!
//! The output has for each job a line and, where it was accepted, a line for each row of samples:
//!
//! ```text
//! WxH depth D wavelet V: status S place P
//! 1 -2 3
//! ```
//!
//! The coefficients come from a seeded generator, and every answer and sample from
//! [`reference::synthesise`], so
//! the vectors are the same in every run. The searches below only choose the coefficients.

use crate::levels::build_picture;
use crate::pieces;
use crate::random::Random;
use crate::runs::run_synthesise;
use crate::Vectors;
use reference::params::Orientation::{self, HH, HL, LH, LL};
use reference::params::{
    padded_area, padded_width, subband_at, Answer, Parameters, ACCEPTED, SYNTHESIS_RANGE,
};
use reference::transform::{fits_32_bits, Grid, FILTERS};

/// One call of synthesise.
pub struct SynthesisJob {
    pub parameters: Parameters,
    pub coefficients: Vec<i32>,
}

/// The stored vectors.
pub fn synthesis_vectors() -> Vectors {
    Vectors::of(&synthesis_jobs(), job_bytes, job_text)
}

/// Every job of the stored vectors, in order.
pub fn synthesis_jobs() -> Vec<SynthesisJob> {
    let mut random = Random::new(20);
    let mut jobs = random_jobs(&mut random);
    jobs.extend(longest_jobs(&mut random));
    jobs.extend(extreme_jobs());
    jobs.extend(edge_jobs());
    for wavelet in 0..7 {
        for level in 1..=4 {
            jobs.push(refused_at(&mut random, wavelet, level));
        }
        jobs.push(out_and_back(&mut random, wavelet));
    }
    for wavelet in [7, 255] {
        jobs.push(random_job(&mut random, plain(3, 2, 1, wavelet), 8));
    }
    jobs
}

/// The answer of synthesise to a job, and its samples.
pub fn run(job: &SynthesisJob) -> (Answer, Vec<i32>) {
    let (answer, _, samples) = run_synthesise(&job.parameters, &job.coefficients);
    (answer, samples)
}

/// A job as the program reads it.
fn job_bytes(job: &SynthesisJob) -> Vec<u8> {
    let p = &job.parameters;
    let mut bytes = Vec::new();
    bytes.extend(u16::to_be_bytes(p.width as u16));
    bytes.extend(u16::to_be_bytes(p.height as u16));
    bytes.extend([p.depth as u8, p.wavelet as u8]);
    for coefficient in &job.coefficients {
        bytes.extend(coefficient.to_be_bytes());
    }
    bytes
}

/// What is expected of the program for a job.
fn job_text(job: &SynthesisJob) -> String {
    let p = &job.parameters;
    let (answer, samples) = run(job);
    let mut text = format!(
        "{}x{} depth {} wavelet {}: status {} place {}\n",
        p.width, p.height, p.depth, p.wavelet, answer.status, answer.place
    );
    if answer.status == ACCEPTED {
        for row in samples.chunks(p.width as usize) {
            let numbers: Vec<String> = row.iter().map(i32::to_string).collect();
            text.push_str(&numbers.join(" "));
            text.push('\n');
        }
    }
    text
}

/// The parameters that synthesise looks at; the others are as for one codeblock a level.
fn plain(width: u32, height: u32, depth: u32, wavelet: u32) -> Parameters {
    pieces::plain(width, height, depth, wavelet, false)
}

/// A job whose coefficients are random numbers of so many bits.
fn random_job(random: &mut Random, parameters: Parameters, bits: u32) -> SynthesisJob {
    let bound = 1 << (bits - 1);
    let coefficients = (0..padded_area(&parameters))
        .map(|_| random.range(-bound, bound - 1) as i32)
        .collect();
    SynthesisJob {
        parameters,
        coefficients,
    }
}

/// Every wavelet and depth at small sizes, most of them padded, with numbers of 8 to 20 bits.
fn random_jobs(random: &mut Random) -> Vec<SynthesisJob> {
    let sizes = [(1, 1), (2, 1), (1, 2), (3, 5), (7, 6), (17, 9), (16, 8)];
    let mut jobs = Vec::new();
    for wavelet in 0..7 {
        for depth in 0..=4 {
            for (k, (width, height)) in sizes.into_iter().enumerate() {
                let bits = [8, 12, 16, 20][(wavelet as usize + depth as usize + k) % 4];
                let p = plain(width, height, depth, wavelet);
                jobs.push(random_job(random, p, bits));
            }
        }
    }
    jobs
}

/// The longest rows and columns there are.
fn longest_jobs(random: &mut Random) -> Vec<SynthesisJob> {
    [
        plain(4096, 1, 1, 0),
        plain(4096, 1, 1, 5),
        plain(4096, 1, 4, 6),
        plain(1, 4096, 1, 2),
        plain(1, 4096, 1, 6),
        plain(1, 4096, 4, 5),
    ]
    .map(|p| random_job(random, p, 8))
    .into()
}

/// Planes of the largest and the smallest coefficient, alike, alternating, or in LL alone.
fn extreme_jobs() -> Vec<SynthesisJob> {
    /// The coefficient at a column and row; the truth says whether that lies in LL.
    type Pattern = fn(usize, usize, bool) -> i32;
    let patterns: [Pattern; 7] = [
        |_, _, _| i32::MAX,
        |_, _, _| i32::MIN,
        |x, _, _| extreme(x % 2 == 0),
        |_, y, _| extreme(y % 2 == 0),
        |x, y, _| extreme((x + y) % 2 == 0),
        |_, _, low| if low { i32::MAX } else { 0 },
        |_, _, low| if low { i32::MIN } else { 0 },
    ];
    let mut jobs = Vec::new();
    for wavelet in 0..7 {
        for depth in 0..=3 {
            for pattern in patterns {
                let p = plain(5, 3, depth, wavelet);
                let low = subband_at(&p, 0, LL);
                let coefficients = (0..padded_area(&p))
                    .map(|index| (index % padded_width(&p), index / padded_width(&p)))
                    .map(|(x, y)| pattern(x, y, x < low.width && y < low.height))
                    .collect();
                jobs.push(SynthesisJob {
                    parameters: p,
                    coefficients,
                });
            }
        }
    }
    jobs
}

/// The largest or the smallest coefficient.
fn extreme(largest: bool) -> i32 {
    if largest {
        i32::MAX
    } else {
        i32::MIN
    }
}

/// The last number that fits and the first that doesn't, at both ends: the Haar filter takes LL, HL to
/// LL - floor((HL + 1) / 2) first.
pub fn edge_jobs() -> Vec<SynthesisJob> {
    [
        [i32::MAX, -1, 0, 0],
        [i32::MAX, -2, 0, 0],
        [i32::MIN, 0, 0, 0],
        [i32::MIN, 1, 0, 0],
    ]
    .map(|plane| SynthesisJob {
        parameters: plain(2, 2, 1, 3),
        coefficients: plane.into(),
    })
    .into()
}

/// A job of depth 4 that is refused at a level: small numbers, and one position of the level at which as
/// few bands as do it, from one up, hold an extreme.
pub fn refused_at(random: &mut Random, wavelet: u32, level: u32) -> SynthesisJob {
    let p = plain(9, 13, 4, wavelet);
    let quiet = random_job(random, p, 8);
    let p = &quiet.parameters;
    let size = subband_at(p, level, HL);
    let sets: [&[Orientation]; 7] = [
        &[HL],
        &[LH],
        &[HH],
        &[HL, LH],
        &[HL, HH],
        &[LH, HH],
        &[HL, LH, HH],
    ];
    for set in sets {
        for largest in [true, false] {
            for index in 0..size.width * size.height {
                let mut coefficients = quiet.coefficients.clone();
                for &orientation in set {
                    let band = subband_at(p, level, orientation);
                    let (x, y) = (index % size.width, index / size.width);
                    coefficients[(band.top + y) * padded_width(p) + band.left + x] =
                        extreme(largest);
                }
                let job = SynthesisJob {
                    parameters: p.clone(),
                    coefficients,
                };
                if run(&job).0 == Answer::refused(SYNTHESIS_RANGE, u64::from(level)) {
                    return job;
                }
            }
        }
    }
    panic!("no plane found that wavelet {wavelet} refuses at level {level}")
}

/// A job of depth 1 that is refused though every number at the level's end fits.
pub fn out_and_back(random: &mut Random, wavelet: u32) -> SynthesisJob {
    for _ in 0..100_000 {
        let p = plain(3, 2, 1, wavelet);
        let bits = random.pick(&[31, 32]);
        let job = random_job(random, p, bits);
        if run(&job).0.status == SYNTHESIS_RANGE && level_end_fits(&job) {
            return job;
        }
    }
    panic!("no plane found that leaves 32 bits and comes back with wavelet {wavelet}")
}

/// Whether every number fits after the filters of a job of depth 1, and so after the shift too. This
/// is a wrong reading of refusal 10, which looks at each lifting step.
pub fn level_end_fits(job: &SynthesisJob) -> bool {
    let picture = filtered_level(job);
    picture.numbers.iter().all(|&number| fits_32_bits(number))
}

/// The picture of a job of depth 1 after the filters and before the shift, with whatever numbers.
pub fn filtered_level(job: &SynthesisJob) -> Grid {
    let p = &job.parameters;
    let steps = FILTERS[p.wavelet as usize].steps;
    build_picture(p, &job.coefficients, |mut picture| {
        picture.filter_columns(steps);
        picture.filter_rows(steps);
        picture
    })
}
