//! Stored vectors for low delay slices: what the program `low_delay_vectors` reads, and what is expected of it.
//!
//! The input is a sequence of jobs, every number big-endian: luma width (2 bytes), luma height (2), chroma width
//! (2), chroma height (2), depth (1), intra (1, 0 or 1), slices across (2), slices down (2), numerator (4),
//! denominator (4), matrix (13, one byte each), the lengths of the planes of luma, C1 and C2 (2 each), the number
//! of bytes (2), then the bytes.
//!
//! The output has for each job a line, and a line with each whole plane, refused or not, which was full of 7s
//! before the call:
//!
//! ```text
//! WxH chroma WxH depth D intra I slices AxD of N/D bytes N: status S place P
//! 1 -2 3
//! 4
//! 5
//! ```
//!
//! The bytes come from [`mod@reference::encode_low_delay`], a seeded generator, or single bits, and every answer
//! and plane from [`reference::unpack_low_delay`], so the vectors are the same in every run.

use crate::pieces::joined;
use crate::random::Random;
use crate::slice_jobs::slice_jobs;
use crate::slices::{noise_slices, random_slices, slice_bytes, sliced, slope_slices, with_matrix};
use crate::Vectors;
use reference::jobs::INITIAL_ENTRY;
use reference::params::padded_area;
use reference::{unpack_low_delay, Answer, LowDelay};
use std::collections::BTreeSet;

/// The most entries a plane of a job may have.
pub const MAX_ENTRIES: usize = 4096;

/// The most bytes a job may have.
pub const MAX_BYTES: usize = 16384;

/// The bytes of a job before its own.
pub const HEADER: usize = 43;

/// One call of unpack.
#[derive(Clone, Debug, PartialEq, Eq)]
pub struct LowDelayJob {
    pub parameters: LowDelay,
    /// The lengths of the planes of luma, C1 and C2.
    pub lengths: [usize; 3],
    pub bytes: Vec<u8>,
}

/// The stored vectors.
pub fn low_delay_vectors() -> Vectors {
    Vectors::of(&low_delay_jobs(), job_bytes, job_text)
}

/// Every job of the stored vectors, in order.
pub fn low_delay_jobs() -> Vec<LowDelayJob> {
    let mut random = Random::new(17);
    let mut jobs = refused_before_reading();
    jobs.extend(matrix_range_jobs());
    jobs.extend(range_jobs());
    jobs.extend(slice_jobs());
    jobs.extend(large_jobs(&mut random));
    jobs.extend(random_jobs(&mut random));
    jobs.extend(picture_jobs(&mut random));
    jobs.extend(cut_jobs(&mut random));
    jobs.extend(noise_jobs(&mut random));
    jobs
}

/// The answer of unpack to a job, and its planes.
pub fn run(job: &LowDelayJob) -> (Answer, [Vec<i32>; 3]) {
    let mut planes = job.lengths.map(|length| vec![INITIAL_ENTRY; length]);
    let [luma, first_chroma, second_chroma] = &mut planes;
    let answer = unpack_low_delay(
        &job.parameters,
        &job.bytes,
        luma,
        first_chroma,
        second_chroma,
    );
    (answer, planes)
}

/// A job as the program reads it.
pub fn job_bytes(job: &LowDelayJob) -> Vec<u8> {
    let p = &job.parameters.picture;
    let mut bytes = Vec::new();
    for size in [p.luma_width, p.luma_height, p.chroma_width, p.chroma_height] {
        bytes.extend(u16::to_be_bytes(size as u16));
    }
    bytes.extend([p.depth as u8, u8::from(p.intra)]);
    bytes.extend(u16::to_be_bytes(p.slices_across as u16));
    bytes.extend(u16::to_be_bytes(p.slices_down as u16));
    bytes.extend(u32::to_be_bytes(job.parameters.numerator));
    bytes.extend(u32::to_be_bytes(job.parameters.denominator));
    bytes.extend(p.matrix.map(|entry| entry as u8));
    for length in job.lengths {
        bytes.extend(u16::to_be_bytes(length as u16));
    }
    bytes.extend(u16::to_be_bytes(job.bytes.len() as u16));
    bytes.extend(&job.bytes);
    bytes
}

/// The first job of such an input, and what follows it; none where it is cut off.
pub fn read_job(input: &[u8]) -> Option<(LowDelayJob, &[u8])> {
    let (header, rest) = input.split_at_checked(HEADER)?;
    let number = |start: usize, length: usize| {
        let bytes = header[start..start + length].iter();
        bytes.fold(0, |number, &byte| number << 8 | u32::from(byte))
    };
    let pair = |start| (number(start, 2), number(start + 2, 2));
    let fraction = (number(14, 4), number(18, 4));
    let intra = header[9] == 1;
    let mut p = sliced(pair(0), pair(4), number(8, 1), intra, pair(10), fraction);
    for (k, entry) in p.picture.matrix.iter_mut().enumerate() {
        *entry = number(22 + k, 1);
    }
    let (bytes, rest) = rest.split_at_checked(number(41, 2) as usize)?;
    let job = LowDelayJob {
        parameters: p,
        lengths: [35, 37, 39].map(|start| number(start, 2) as usize),
        bytes: bytes.to_vec(),
    };
    Some((job, rest))
}

/// What is expected of the program for a job.
fn job_text(job: &LowDelayJob) -> String {
    let p = &job.parameters.picture;
    let (answer, planes) = run(job);
    let mut text = format!(
        "{}x{} chroma {}x{} depth {} intra {} slices {}x{} of {}/{} bytes {}: status {} place {}\n",
        p.luma_width,
        p.luma_height,
        p.chroma_width,
        p.chroma_height,
        p.depth,
        u8::from(p.intra),
        p.slices_across,
        p.slices_down,
        job.parameters.numerator,
        job.parameters.denominator,
        job.bytes.len(),
        answer.status,
        answer.place,
    );
    for plane in planes {
        let numbers: Vec<String> = plane.iter().map(i32::to_string).collect();
        text.push_str(&numbers.join(" "));
        text.push('\n');
    }
    text
}

/// A job whose planes have the lengths they need.
pub fn job(p: &LowDelay, bytes: Vec<u8>) -> LowDelayJob {
    LowDelayJob {
        parameters: p.clone(),
        lengths: p.picture.components().each_ref().map(padded_area),
        bytes,
    }
}

/// A change that puts one fault into a job.
type Fault = fn(&mut LowDelayJob);

/// The faults of each refusal 1, 2, 13 and 5, in the order of the checks.
const FAULTS: [&[Fault]; 4] = [
    &[
        |job| job.parameters.picture.luma_width = 0,
        |job| job.parameters.picture.luma_height = 4097,
        |job| job.parameters.picture.chroma_width = 4097,
        |job| job.parameters.picture.chroma_height = 0,
    ],
    &[
        |job| job.parameters.picture.depth = 5,
        |job| job.parameters.picture.depth = 255,
    ],
    &[
        |job| job.parameters.picture.slices_across = 0,
        |job| job.parameters.picture.slices_down = 256,
        |job| job.parameters.numerator = 0,
        |job| job.parameters.denominator = 0,
        |job| job.parameters.numerator = job.parameters.denominator - 1,
        |job| job.parameters.picture.matrix[0] = 128,
    ],
    &[
        |job| job.lengths[0] += 1,
        |job| job.lengths[1] -= 1,
        |job| job.lengths[2] = 0,
    ],
];

/// A job without any fault before reading: two slices of one byte and of two.
fn faultless() -> LowDelayJob {
    job(
        &sliced((3, 2), (2, 5), 1, true, (2, 1), (3, 2)),
        vec![0xFF; 3],
    )
}

/// Each fault that is found before reading, alone, with and without bytes, and with another of each other
/// refusal; every set of refusals; and other values that are out of range. Slices would be refused too.
fn refused_before_reading() -> Vec<LowDelayJob> {
    let mut jobs = vec![faultless()];
    for (k, faults) in FAULTS.iter().enumerate() {
        for fault in *faults {
            let mut alone = faultless();
            fault(&mut alone);
            jobs.push(alone.clone());
            alone.bytes.clear();
            jobs.push(alone);
            for other in FAULTS[k + 1..].iter().copied().flatten() {
                let mut both = faultless();
                fault(&mut both);
                other(&mut both);
                jobs.push(both);
            }
        }
    }
    for set in 0..16 {
        let mut job = faultless();
        for (k, faults) in FAULTS.iter().enumerate() {
            if set >> k & 1 == 1 {
                faults[1](&mut job);
            }
        }
        jobs.push(job);
    }
    let others: [Fault; 12] = [
        |job| job.parameters.picture.luma_height = 0,
        |job| job.parameters.picture.chroma_width = 0,
        |job| job.parameters.picture.luma_width = 4097,
        |job| job.parameters.picture.chroma_height = 4097,
        |job| job.parameters.picture.luma_width = 65535,
        |job| job.parameters.picture.chroma_height = 65535,
        |job| job.lengths[0] -= 1,
        |job| job.lengths[1] += 1,
        |job| job.lengths[2] += 1,
        |job| job.lengths.swap(0, 1),
        |job| job.lengths = [6, 10, 10],
        |job| job.lengths = [0; 3],
    ];
    for fault in others {
        let mut job = faultless();
        fault(&mut job);
        jobs.push(job);
    }
    jobs
}

/// At every depth, a matrix entry of 127 and 128 in the first place that is used, the last, the first that isn't,
/// and the last of all.
fn matrix_range_jobs() -> Vec<LowDelayJob> {
    let mut jobs = Vec::new();
    for depth in 0..=4 {
        let p = sliced((1, 1), (1, 1), depth, false, (1, 1), (2, 1));
        let last = 3 * depth as usize;
        for place in BTreeSet::from([0, last, 12.min(last + 1), 12]) {
            for entry in [127, 128] {
                let mut p = p.clone();
                p.picture.matrix[place] = entry;
                jobs.push(job(&p, slice_bytes(2, 9, 0, "00100", true)));
            }
        }
    }
    jobs
}

/// Counts and fractions at the ends of their ranges and beyond.
fn range_jobs() -> Vec<LowDelayJob> {
    let p = |slices, fraction| sliced((2, 1), (1, 2), 0, true, slices, fraction);
    let mut jobs = Vec::new();
    for count in [0, 1, 2, 254, 255, 256, 257, 511, 512, 65535] {
        for slices in [(count, 1), (1, count)] {
            let bytes = slice_bytes(1, 5, 0, "0", false).repeat(count as usize % 256);
            jobs.push(job(&p(slices, (1, 1)), bytes));
        }
    }
    for slices in [(0, 0), (256, 256), (255, 255)] {
        jobs.push(job(&p(slices, (1, 1)), vec![0x0A; 20]));
    }
    for fraction in [
        (0, 0),
        (0, 1),
        (1, 0),
        (1, 1),
        (1, 2),
        (2, 1),
        (2, 3),
        (3, 2),
        (7, 7),
        (65534, 65535),
        (65535, 65534),
        (65535, 65535),
        (65535, 65536),
        (65536, 65535),
        (65536, 65536),
        (65537, 1),
        (65537, 65536),
        (1, 65536),
        (65535, 1),
        (65536, 1),
        (u32::MAX, 1),
        (u32::MAX, 65535),
        (1, u32::MAX),
        (u32::MAX, u32::MAX),
        (1 << 31, 1 << 31),
        (1 << 16 | 3, 2),
        (3, 1 << 16 | 2),
    ] {
        jobs.push(job(&p((2, 2), fraction), vec![0x0A; 9]));
    }
    jobs
}

/// The largest slice, the most slices, the largest planes, and as few bytes as there can be for many slices.
fn large_jobs(random: &mut Random) -> Vec<LowDelayJob> {
    let mut jobs = Vec::new();
    let one_slice = |bytes| sliced((5, 1), (1, 4), 1, true, (1, 1), (bytes, 1));
    // A luma part up to almost the end, whose values end long before.
    let p = one_slice(16384);
    let text = ["0010 0011 0110 1", &"0".repeat(130_980)].concat();
    jobs.push(job(&p, slice_bytes(16384, 6, 131_040, &text, true)));
    for bytes in [1000, 4096] {
        let p = one_slice(bytes);
        jobs.push(job(&p, random_slices(random, &p, 9)));
    }
    for slices in [(255, 64), (64, 255)] {
        let p = sliced((6, 5), (3, 7), 0, true, slices, (1, 1));
        let bytes: Vec<u8> = (0..p.slice_count())
            .map(|_| random.range(0, 30) as u8)
            .collect();
        jobs.push(job(&p, bytes));
    }
    let p = sliced((4096, 1), (1, 4096), 0, false, (9, 11), (41, 8));
    jobs.push(job(&p, random_slices(random, &p, 3)));
    let p = sliced((50, 60), (64, 64), 4, true, (4, 5), (203, 7));
    jobs.push(job(&p, random_slices(random, &p, 3)));
    jobs
}

/// Some picture of these sizes, with a matrix of small entries and up to 5 slices each way.
fn random_sliced(
    random: &mut Random,
    (luma, chroma): ((u32, u32), (u32, u32)),
    depth: u32,
    intra: bool,
) -> LowDelay {
    let denominator = random.range(1, 6);
    let numerator = random.range(denominator, 30 * denominator);
    let mut p = sliced(
        luma,
        chroma,
        depth,
        intra,
        (random.range(1, 5) as u32, random.range(1, 5) as u32),
        (numerator as u32, denominator as u32),
    );
    p.picture.matrix = [0; 13].map(|_| random.range(0, 12) as u32);
    p
}

/// Sizes of luma and of chroma: equal, half, odd, and larger chroma.
const SIZES: [((u32, u32), (u32, u32)); 6] = [
    ((1, 1), (1, 1)),
    ((3, 5), (2, 3)),
    ((8, 6), (4, 6)),
    ((7, 6), (9, 4)),
    ((16, 9), (16, 9)),
    ((5, 2), (11, 8)),
];

/// Every depth at several sizes, intra and not, with indices, matrices, slices and lengths at random, and with
/// bytes behind the last slice.
fn random_jobs(random: &mut Random) -> Vec<LowDelayJob> {
    let mut jobs = Vec::new();
    for depth in 0..=4 {
        for sizes in SIZES {
            for intra in [false, true] {
                let p = random_sliced(random, sizes, depth, intra);
                let bound = 1 << random.range(0, 8);
                let behind = random.range(0, 3) as usize;
                let bytes = random_slices(random, &p, bound);
                jobs.push(job(&p, joined(bytes, &vec![0x5A; behind])));
            }
        }
    }
    jobs
}

/// Pictures of a slope and some noise, analysed and quantised so that every slice has room.
fn picture_jobs(random: &mut Random) -> Vec<LowDelayJob> {
    let mut jobs = Vec::new();
    for depth in 0..=4 {
        for intra in [false, true] {
            let mut p = sliced((20, 12), (10, 12), depth, intra, (3, 2), (171, 4));
            p.picture.matrix = [3, 2, 2, 0, 1, 1, 0, 1, 1, 0, 1, 1, 0];
            let bytes = slope_slices(random, &p).expect("an index that fits");
            jobs.push(job(&p, bytes));
        }
    }
    jobs
}

/// Pictures whose bytes end at every byte: slices of one byte and of more.
fn cut_jobs(random: &mut Random) -> Vec<LowDelayJob> {
    let mut jobs = Vec::new();
    for (depth, slices, fraction) in [
        (1, (3, 2), (4, 3)),
        (0, (2, 2), (9, 2)),
        (2, (1, 2), (13, 1)),
    ] {
        let p = sliced((3, 4), (2, 4), depth, true, slices, fraction);
        let p = with_matrix(&p, &[2, 1, 1, 0]);
        let bytes = random_slices(random, &p, 3);
        for end in 0..=bytes.len() {
            jobs.push(job(&p, bytes[..end].to_vec()));
        }
    }
    jobs
}

/// Pictures in order with one bit turned over, and bytes at random.
fn noise_jobs(random: &mut Random) -> Vec<LowDelayJob> {
    let mut jobs = Vec::new();
    for k in 0..35 {
        let sizes = ((4, 3), (2 + k % 3, 3));
        let intra = random.flag();
        let p = random_sliced(random, sizes, k % 4, intra);
        let mut bytes = random_slices(random, &p, 1 << (k % 8));
        let bit = random.range(0, 8 * bytes.len() as i64 - 1) as usize;
        bytes[bit / 8] ^= 1 << (bit % 8);
        jobs.push(job(&p, bytes));
        let most_index = random.pick(&[20, 60, 127]);
        jobs.push(job(&p, noise_slices(random, &p, most_index)));
        let noise = (0..random.range(0, 60))
            .map(|_| random.range(0, 255) as u8)
            .collect();
        jobs.push(job(&p, noise));
    }
    jobs
}
