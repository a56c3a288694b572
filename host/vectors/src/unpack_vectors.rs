//! Stored vectors for unpack: what the proved program `unpack_vectors` reads, and what is expected of it.
//!
//! The input is a sequence of jobs, every number big-endian: width (2 bytes), height (2), depth (1),
//! wavelet (1), intra (1, 0 or 1), codeblocks across at levels 0 to 4 (5), codeblocks down (5), the
//! length of the plane (2), the number of bytes (2), then the bytes.
//!
//! The output has for each job a line, and a line with the whole plane, refused or not, which was full
//! of 7s before the call:
//!
//! ```text
//! WxH depth D wavelet V intra I bytes N: status S place P
//! 1 -2 3
//! ```
//!
//! The bytes come from [`mod@reference::encode`], a seeded generator, or single bits, and every answer and
//! plane from [`reference::unpack()`], so the vectors are the same in every run.

use crate::offset_jobs::offset_jobs;
use crate::pieces::{
    self, bits, joined, numbers, random_body, signed_numbers, sparse_body, subband_bytes,
    with_codeblocks, with_random_codeblocks, EARLY_ENDS_OF_ONE, EARLY_ENDS_OF_TWO, LARGEST_NUMBER,
};
use crate::random::Random;
use crate::Vectors;
use reference::encode::{encode_body, EncodeOptions, SubbandOptions};
use reference::jobs::INITIAL_ENTRY;
use reference::params::{padded_area, subbands, Answer, Parameters};
use reference::unpack;
use reference::unpack::quantiser_factor;

/// The most entries a plane of a job may have.
pub const MAX_ENTRIES: usize = 4096;

/// The most bytes a job may have.
pub const MAX_BYTES: usize = 16384;

/// One call of unpack.
pub struct UnpackJob {
    pub parameters: Parameters,
    pub plane_length: usize,
    pub bytes: Vec<u8>,
}

/// The stored vectors.
pub fn unpack_vectors() -> Vectors {
    Vectors::of(&unpack_jobs(), job_bytes, job_text)
}

/// Every job of the stored vectors, in order.
pub fn unpack_jobs() -> Vec<UnpackJob> {
    let mut random = Random::new(16);
    let mut jobs = refused_before_reading();
    for (p, number) in headers_at() {
        jobs.extend(header_jobs(&mut random, &p, number));
    }
    jobs.extend(code_jobs());
    jobs.extend(extreme_jobs());
    jobs.extend(prediction_jobs());
    jobs.extend(early_end_jobs());
    jobs.extend(codeblock_jobs(&mut random));
    jobs.extend(index_jobs());
    jobs.extend(offset_jobs());
    jobs.extend(random_jobs(&mut random));
    jobs.extend(cut_jobs(&mut random));
    jobs.extend(noise_jobs(&mut random));
    jobs
}

/// The answer of unpack to a job, and its plane.
pub fn run(job: &UnpackJob) -> (Answer, Vec<i32>) {
    let mut plane = vec![INITIAL_ENTRY; job.plane_length];
    let answer = unpack(&job.parameters, &job.bytes, &mut plane);
    (answer, plane)
}

/// A job as the program reads it.
fn job_bytes(job: &UnpackJob) -> Vec<u8> {
    let p = &job.parameters;
    let mut bytes = Vec::new();
    bytes.extend(u16::to_be_bytes(p.width as u16));
    bytes.extend(u16::to_be_bytes(p.height as u16));
    bytes.extend([p.depth as u8, p.wavelet as u8, u8::from(p.intra)]);
    bytes.extend(p.codeblocks_across.map(|count| count as u8));
    bytes.extend(p.codeblocks_down.map(|count| count as u8));
    bytes.extend(u16::to_be_bytes(job.plane_length as u16));
    bytes.extend(u16::to_be_bytes(job.bytes.len() as u16));
    bytes.extend(&job.bytes);
    bytes
}

/// What is expected of the program for a job.
fn job_text(job: &UnpackJob) -> String {
    let p = &job.parameters;
    let (answer, plane) = run(job);
    let numbers: Vec<String> = plane.iter().map(i32::to_string).collect();
    format!(
        "{}x{} depth {} wavelet {} intra {} bytes {}: status {} place {}\n{}\n",
        p.width,
        p.height,
        p.depth,
        p.wavelet,
        u8::from(p.intra),
        job.bytes.len(),
        answer.status,
        answer.place,
        numbers.join(" ")
    )
}

/// Parameters with one codeblock at every level; unpack doesn't look at the wavelet.
pub(crate) fn plain(width: u32, height: u32, depth: u32, intra: bool) -> Parameters {
    pieces::plain(width, height, depth, 0, intra)
}

/// A job whose plane has the length it needs.
pub(crate) fn job(p: &Parameters, bytes: Vec<u8>) -> UnpackJob {
    UnpackJob {
        parameters: p.clone(),
        plane_length: padded_area(p),
        bytes,
    }
}

/// Refusals 1, 2, 4 and 5, alone and together; a count above the depth and a wavelet don't matter.
fn refused_before_reading() -> Vec<UnpackJob> {
    /// A change that puts one fault into a job.
    type Fault = fn(&mut UnpackJob);
    let faults: [Fault; 4] = [
        |job| job.parameters.width = 0,
        |job| job.parameters.depth = 5,
        |job| job.parameters.codeblocks_down[1] = 0,
        |job| job.plane_length += 1,
    ];
    let base = || job(&plain(3, 2, 1, true), vec![0xFF; 6]);
    let mut jobs = Vec::new();
    for set in 0..16 {
        let mut job = base();
        for (k, fault) in faults.iter().enumerate() {
            if set >> k & 1 == 1 {
                fault(&mut job);
            }
        }
        jobs.push(job);
    }
    let others: [Fault; 14] = [
        |job| job.parameters.height = 0,
        |job| job.parameters.width = 4097,
        |job| job.parameters.height = 4097,
        |job| job.parameters.width = 65535,
        |job| job.parameters.height = 65535,
        |job| job.parameters.depth = 255,
        |job| job.parameters.codeblocks_across[0] = 0,
        |job| job.parameters.codeblocks_across[1] = 0,
        |job| job.parameters.codeblocks_down[0] = 0,
        |job| job.parameters.codeblocks_down[2] = 0,
        |job| job.parameters.wavelet = 7,
        |job| job.plane_length -= 1,
        |job| job.plane_length = 0,
        |job| job.plane_length = 6,
    ];
    for fault in others {
        let mut job = base();
        fault(&mut job);
        jobs.push(job);
    }
    jobs
}

/// Parameters and the number of a subband, for faults in its header: the first and the last, and the
/// ends of levels between.
fn headers_at() -> Vec<(Parameters, usize)> {
    let mut list = Vec::new();
    for (depth, number) in [(0, 0), (1, 1), (1, 3), (2, 6), (3, 0), (3, 4), (4, 12)] {
        let intra = number % 2 == 0;
        list.push((plain(5, 3, depth, intra), number));
    }
    list
}

/// Jobs that are in order up to a subband, and then have each fault of a header, or what just isn't
/// one; each with and without bytes behind it.
///
/// A header starts on a byte boundary and a number's code has an odd number of bits, so bytes can only
/// end inside a length before the bit that may end it, and inside an index before a data bit.
fn header_jobs(random: &mut Random, p: &Parameters, number: usize) -> Vec<UnpackJob> {
    let behind = vec![0x80; subbands(p).len() - number];
    let mut jobs = Vec::new();
    for header in [
        // A length that ends early, after 0, 4, 4, 8 and 28 data bits.
        vec![],
        vec![0x00],
        bits("01010101"),
        vec![0x00; 2],
        vec![0x00; 7],
        // A length of 31 data bits, and of more.
        joined(vec![0x00; 7], &bits("000000 1 1")),
        joined(vec![0x00; 7], &bits("000000 0 1")),
        numbers(&[LARGEST_NUMBER, 0]),
        numbers(&[LARGEST_NUMBER + 1, 0]),
        numbers(&[(1 << 40) - 1, 0]),
        // An index that ends early, after 0, 2, 4 and 6 data bits.
        bits("0001001 0"),
        bits("001 00 00 0"),
        bits("001 01 00 00 01 01 01 0"),
        bits("0101011 00 00 00 00 0"),
        // An index of 31 data bits, and of more.
        numbers(&[1, LARGEST_NUMBER]),
        numbers(&[1, LARGEST_NUMBER + 1]),
        // An index in range, and above it.
        numbers(&[1, 115]),
        numbers(&[1, 116]),
        numbers(&[1, 255]),
        // A length that overruns: by one byte or not at all, by many, and with an index above its range.
        numbers(&[behind.len() as u64, 0]),
        numbers(&[behind.len() as u64 + 1, 0]),
        numbers(&[1000, 115]),
        numbers(&[1000, 116]),
        numbers(&[(1 << 31) - 1, 7]),
        numbers(&[1 << 31, 7]),
        numbers(&[LARGEST_NUMBER, 115]),
        numbers(&[LARGEST_NUMBER, 116]),
        numbers(&[LARGEST_NUMBER + 1, 116]),
        // A length of 0, with other bits before the boundary.
        bits("1 0000000"),
        bits("1 1111111"),
        bits("1 0101010"),
    ] {
        let start = start_of_body(random, p, number);
        let bytes = joined(start, &header);
        jobs.push(job(p, bytes.clone()));
        jobs.push(job(p, joined(bytes, &behind)));
    }
    jobs
}

/// The bytes of the subbands before a number, some of them skipped, all of them small numbers.
fn start_of_body(random: &mut Random, p: &Parameters, number: usize) -> Vec<u8> {
    let mut bytes = Vec::new();
    for band in &subbands(p)[..number] {
        let data: Vec<i64> = (0..band.width * band.height)
            .map(|_| random.range(-2, 2))
            .collect();
        if random.flag() {
            bytes.push(0x80);
        } else {
            bytes.extend(subband_bytes(
                random.range(0, 8) as u64,
                &signed_numbers(&data),
            ));
        }
    }
    bytes
}

/// Numbers of 30, 31 and 32 data bits in a subband of three values, both signs, at the first value and
/// at the last.
fn code_jobs() -> Vec<UnpackJob> {
    let p = plain(3, 1, 0, false);
    let mut jobs = Vec::new();
    for magnitude in [
        (1 << 30) - 1,
        (1 << 31) - 2,
        (1 << 31) - 1,
        1 << 31,
        (1 << 32) - 2,
        (1 << 32) - 1,
        1 << 32,
        (1i64 << 33) - 2,
    ] {
        for number in [magnitude, -magnitude] {
            for list in [[number, 1, -2], [1, -2, number]] {
                for index in [0, 1] {
                    jobs.push(job(&p, subband_bytes(index, &signed_numbers(&list))));
                }
            }
        }
    }
    // 31 data bits that end the data: the bits that are missing end the number and make it negative.
    for last in ["00 00", "00 01", "01 00"] {
        let data = ["1 1", &"00".repeat(29), last].concat();
        jobs.push(job(&p, subband_bytes(0, &bits(&data))));
    }
    // Data of 0s: 28 data bits and the end of the data, then 31 and what follows them.
    jobs.push(job(&p, subband_bytes(0, &[0; 7])));
    for last in ["000000 1 0", "000000 1 1", "000000 0 0", "000000 0 1"] {
        let data = joined(vec![0; 7], &bits(last));
        jobs.push(job(&p, subband_bytes(0, &data)));
    }
    jobs.push(job(&p, subband_bytes(0, &[0; 100])));
    jobs
}

/// The largest and the smallest value, and one beyond, at every position of a subband of two values, and
/// in each subband of a depth of 1; and the same values through factors.
fn extreme_jobs() -> Vec<UnpackJob> {
    let values = [
        i64::from(i32::MAX),
        i64::from(i32::MAX) + 1,
        i64::from(i32::MIN) + 1,
        i64::from(i32::MIN),
        i64::from(i32::MIN) - 1,
    ];
    let mut jobs = Vec::new();
    for value in values {
        for intra in [false, true] {
            let p = plain(2, 1, 0, intra);
            for list in [[value, 0], [0, value], [-1, value], [value, 1], [value, -1]] {
                jobs.push(job(&p, subband_bytes(0, &signed_numbers(&list))));
            }
        }
        let p = plain(2, 2, 1, true);
        for index in 0..4 {
            let mut plane = [3, -4, 5, -6];
            plane[index] = value;
            let options = EncodeOptions::uniform(&p, SubbandOptions::default());
            jobs.push(job(&p, encode_body(&p, &plane, &options)));
        }
    }
    let p = plain(1, 1, 0, false);
    for index in [1, 2, 3, 4, 7, 50, 77, 102, 111, 112, 113, 114, 115] {
        let factor = i128::from(quantiser_factor(index));
        let limit = ((4i128 << 31) / factor) as i64;
        for m in limit - 1..=limit + 1 {
            for number in [m, -m] {
                let data = signed_numbers(&[number]);
                jobs.push(job(&p, subband_bytes(u64::from(index), &data)));
            }
        }
    }
    jobs
}

/// Predictions that round, that reach the extremes, and that leave 32 bits, in the top row, in the
/// left column and inside.
fn prediction_jobs() -> Vec<UnpackJob> {
    let (max, min) = (i64::from(i32::MAX), i64::from(i32::MIN));
    let rows: [[i64; 4]; 8] = [
        [max, 0, 0, 0],
        [max, 1, 0, 0],
        [min, 0, 0, -1],
        [min, -1, 0, 0],
        [1, max - 1, 0, 0],
        [1, max, 0, 0],
        [-1, min + 1, 1, 0],
        [-1, min, 0, 0],
    ];
    let squares: [[i64; 4]; 8] = [
        [-1, 0, 0, 0],
        [-1, 0, 1, 0],
        [max, 0, 0, 0],
        [max, 0, 0, 1],
        [min, 0, 0, 0],
        [min, 0, 0, -1],
        [max, min, min, min],
        [min, max, max, max],
    ];
    let mut jobs = Vec::new();
    for numbers in rows {
        for (width, height) in [(4, 1), (1, 4)] {
            let p = plain(width, height, 0, true);
            jobs.push(job(&p, subband_bytes(0, &signed_numbers(&numbers))));
        }
    }
    for numbers in squares {
        for intra in [false, true] {
            let p = plain(2, 2, 0, intra);
            jobs.push(job(&p, subband_bytes(0, &signed_numbers(&numbers))));
        }
    }
    // A value beyond 32 bits that prediction would bring back.
    for first in [-1, 1] {
        let beyond = if first < 0 { max + 1 } else { min - 1 };
        let p = plain(2, 1, 0, true);
        jobs.push(job(&p, subband_bytes(0, &signed_numbers(&[first, beyond]))));
    }
    // Level 0 skipped, with a depth and without.
    jobs.push(job(&plain(3, 3, 0, true), vec![0x80]));
    jobs.push(job(&plain(3, 3, 1, true), vec![0x80; 4]));
    // Prediction goes through a flagged codeblock.
    for intra in [false, true] {
        let p = with_codeblocks(&plain(4, 4, 0, intra), 2, 2);
        for data in ["0 0010 0011 1 1 1 1 1", "1 0 0010 1 1 1 1 1", "1 1 1 1"] {
            jobs.push(job(&p, subband_bytes(0, &bits(data))));
        }
    }
    // A refusal 9 of prediction comes after the whole subband was read.
    for list in [[max, 1, 1 << 40, 0], [max, 1, 0, max + 1]] {
        let p = plain(4, 1, 0, true);
        jobs.push(job(&p, subband_bytes(0, &signed_numbers(&list))));
    }
    jobs
}

/// Data that ends before a flag, before a number, inside a number, before its sign, and that has bits
/// or bytes more than it needs; each for one codeblock, and for one of 4 values and one of 6.
fn early_end_jobs() -> Vec<UnpackJob> {
    let one = plain(5, 2, 0, false);
    let two = with_codeblocks(&one, 2, 1);
    let more_than_needed = ["1111111111 000000 0000000000000000"];
    let mut jobs = Vec::new();
    for text in EARLY_ENDS_OF_ONE
        .iter()
        .chain(&EARLY_ENDS_OF_TWO)
        .chain(&more_than_needed)
    {
        for p in [&one, &two] {
            let bytes = subband_bytes(0, &bits(text));
            jobs.push(job(p, bytes.clone()));
            // What follows the stated data isn't read: neither 0s nor 1s.
            jobs.push(job(p, joined(bytes.clone(), &[0, 0, 0])));
            jobs.push(job(p, joined(bytes, &[0xFF, 0xFF])));
        }
    }
    jobs
}

/// Flags set and not, empty codeblocks, and 255 codeblocks each way over one value.
fn codeblock_jobs(random: &mut Random) -> Vec<UnpackJob> {
    let mut jobs = Vec::new();
    let sizes = [(1, 1), (2, 3), (5, 4), (8, 1)];
    let counts = [(1, 1), (2, 1), (1, 2), (3, 3), (7, 2), (2, 9)];
    for (width, height) in sizes {
        for (across, down) in counts {
            for flag_zero_codeblocks in [false, true] {
                let p = with_codeblocks(&plain(width, height, 1, random.flag()), across, down);
                let options = SubbandOptions {
                    skip_if_zero: false,
                    flag_zero_codeblocks,
                    ..SubbandOptions::default()
                };
                jobs.push(job(&p, sparse_body(random, &p, options)));
            }
        }
    }
    // Only the last of the codeblocks has the value, behind the flags of all the others.
    let p = with_codeblocks(&plain(1, 1, 0, true), 255, 255);
    let flags = |fill: u8, last: &[u8]| joined(vec![fill; 8128], last);
    for data in [
        vec![0xFF],
        vec![0x00],
        flags(0x00, &bits("0 011 1 000")),
        flags(0xFF, &bits("1 011 1 000")),
    ] {
        jobs.push(job(&p, subband_bytes(10, &data)));
    }
    for (across, down) in [(255, 1), (1, 255)] {
        let p = with_codeblocks(&plain(1, 1, 0, false), across, down);
        for last in ["000000 0 0", "000000 0 1", "000000 1 0"] {
            let data = joined(vec![0; 31], &bits(last));
            jobs.push(job(
                &p,
                subband_bytes(10, &joined(data, &bits("0100 1111"))),
            ));
        }
        let p = with_codeblocks(&plain(3, 2, 1, true), across, down);
        let body = sparse_body(random, &p, SubbandOptions::default());
        jobs.push(job(&p, body));
    }
    jobs
}

/// Every quantiser index, with the numbers 0, 1, -1, 2, -3 and 100, or 4 where 100 would not fit 32 bits: as the
/// whole of a picture that isn't intra, and as a subband of level 1, which isn't predicted, of one that is.
fn index_jobs() -> Vec<UnpackJob> {
    let alone = plain(6, 1, 0, false);
    let at_level_1 = plain(12, 2, 1, true);
    let mut jobs = Vec::new();
    for index in 0..=116 {
        let most = if index < 98 { 100 } else { 4 };
        let data = signed_numbers(&[0, 1, -1, 2, -3, most]);
        let band = subband_bytes(index, &data);
        jobs.push(job(&alone, band.clone()));
        jobs.push(job(&at_level_1, [&[0x80], &band[..], &[0x80; 2]].concat()));
    }
    jobs
}

/// Every depth at several sizes, intra and not, with indices, codeblocks and layouts at random, and
/// with bytes behind the component.
fn random_jobs(random: &mut Random) -> Vec<UnpackJob> {
    let sizes = [(1, 1), (2, 1), (1, 3), (3, 5), (7, 6), (16, 8), (17, 9)];
    let mut jobs = Vec::new();
    for depth in 0..=4 {
        for (width, height) in sizes {
            for intra in [false, true] {
                let p = with_random_codeblocks(random, &plain(width, height, depth, intra));
                let bound = 1 << random.range(0, 12);
                let behind = random.range(0, 3) as usize;
                let body = random_body(random, &p, bound);
                jobs.push(job(&p, joined(body, &vec![0x5A; behind])));
            }
        }
    }
    jobs
}

/// A component of depth 2 whose bytes end at every byte.
fn cut_jobs(random: &mut Random) -> Vec<UnpackJob> {
    let p = with_codeblocks(&plain(3, 4, 2, true), 2, 1);
    let body = random_body(random, &p, 5);
    (0..=body.len())
        .map(|end| job(&p, body[..end].to_vec()))
        .collect()
}

/// Components in order with one bit turned over, and bytes at random.
fn noise_jobs(random: &mut Random) -> Vec<UnpackJob> {
    let mut jobs = Vec::new();
    for k in 0..60 {
        let p = with_codeblocks(&plain(4, 3, k % 5, random.flag()), 1 + k % 3, 1 + k % 2);
        let mut body = random_body(random, &p, 1 << (k % 8));
        let bit = random.range(0, 8 * body.len() as i64 - 1) as usize;
        body[bit / 8] ^= 1 << (bit % 8);
        jobs.push(job(&p, body));
        let noise = (0..random.range(0, 40))
            .map(|_| random.range(0, 255) as u8)
            .collect();
        jobs.push(job(&p, noise));
    }
    jobs
}
