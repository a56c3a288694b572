//! Stored jobs of low delay slices for what one or two slices can hold: lengths, indices, values, their order,
//! and prediction.

use crate::low_delay_vectors::{job, LowDelayJob};
use crate::slices::{
    code_text, slice_bytes, slice_of_numbers, sliced, uniform_slices, with_matrix,
};
use reference::low_delay::{bits_for_values, luma_length_bits};
use reference::params::padded_area;
use reference::unpack::quantiser_factor;
use reference::{encode_low_delay, LowDelay, SliceOptions};

/// Every job of this module.
pub(crate) fn slice_jobs() -> Vec<LowDelayJob> {
    [
        example_jobs(),
        one_byte_jobs(),
        rectangle_jobs(),
        luma_length_jobs(),
        short_slice_jobs(),
        early_end_jobs(),
        index_jobs(),
        refused_index_jobs(),
        held_index_jobs(),
        order_of_slices_jobs(),
        later_slice_jobs(),
        order_of_values_jobs(),
        extreme_jobs(),
        border_jobs(),
        prediction_jobs(),
    ]
    .into_iter()
    .flatten()
    .collect()
}

/// A picture of two slices with a matrix, alone, with bytes behind it and without its last byte; and not intra.
fn example_jobs() -> Vec<LowDelayJob> {
    let bytes = [0x08, 0xF0, 0x8E, 0x5F, 0x04, 0x53, 0xCA, 0x47, 0x6F];
    let mut jobs = Vec::new();
    for intra in [true, false] {
        let p = sliced((4, 2), (2, 2), 1, intra, (2, 1), (9, 2));
        let p = with_matrix(&p, &[2, 0, 0, 1]);
        jobs.push(job(&p, bytes.to_vec()));
        jobs.push(job(&p, [&bytes[..], &[0]].concat()));
        jobs.push(job(&p, [&bytes[..], &[0xFF; 30]].concat()));
        jobs.push(job(&p, bytes[..8].to_vec()));
    }
    jobs
}

/// Slices of one byte, of each value of its bit, at several indices; and of one byte and two in turn.
fn one_byte_jobs() -> Vec<LowDelayJob> {
    let mut jobs = Vec::new();
    let p = sliced((2, 1), (2, 1), 0, false, (1, 1), (1, 1));
    for index in [0, 1, 2, 3, 4, 50, 112, 114, 115, 116, 127] {
        for bit in ["0", "1"] {
            jobs.push(job(&p, slice_bytes(1, index, 0, bit, false)));
        }
    }
    for intra in [false, true] {
        let p = sliced((4, 2), (4, 2), 0, intra, (4, 2), (1, 1));
        jobs.push(job(&p, vec![0, 2, 5, 8, 10, 13, 16, 18]));
        let p = sliced((4, 2), (4, 2), 1, intra, (2, 1), (1, 1));
        jobs.push(job(&p, vec![0, 10]));
        let p = sliced((4, 2), (4, 2), 0, intra, (4, 2), (3, 2));
        let pair = |index, text| {
            let one = slice_bytes(1, index, 0, "0", false);
            [one, slice_bytes(2, index, 4, text, false)].concat()
        };
        let bytes = [
            pair(0, "00100"),
            pair(3, "00111"),
            pair(4, "01101"),
            pair(9, "00000"),
        ];
        jobs.push(job(&p, bytes.concat()));
    }
    jobs
}

/// More slices than columns or rows, and slices that don't divide them: every slice has a number of its own at an
/// index of its own.
fn rectangle_jobs() -> Vec<LowDelayJob> {
    let mut jobs = Vec::new();
    for (luma, chroma, depth) in [
        ((3, 2), (1, 1), 0),
        ((1, 1), (3, 4), 0),
        ((5, 3), (4, 7), 1),
        ((9, 7), (2, 2), 2),
    ] {
        for slices in [(2, 2), (7, 5), (1, 11), (12, 1)] {
            for intra in [false, true] {
                let p = sliced(luma, chroma, depth, intra, slices, (61, 2));
                let mut bytes = Vec::new();
                for k in 0..p.slice_count() {
                    let number = k as i64 % 9 - 4;
                    let count = p.slice_range(k).len();
                    let index = (3 * k % 25) as u32;
                    let luma = [number, 2 - number, 1, -number];
                    let chroma = [number, -2, number - 1, 3, 1, number];
                    bytes.extend(slice_of_numbers(count, index, &luma, &chroma));
                }
                jobs.push(job(&p, bytes));
            }
        }
    }
    jobs
}

/// A text of numbers without long codes, to read from any bit on.
fn pattern(bits: usize) -> String {
    "00100111011".chars().cycle().take(bits).collect()
}

/// Luma lengths of 0 and 1, at the bits left, around them, and the largest, at indices that are in range and
/// above it.
fn luma_length_jobs() -> Vec<LowDelayJob> {
    let mut jobs = Vec::new();
    for bytes in [2, 3, 5, 9, 17, 33] {
        let p = sliced((3, 2), (2, 3), 0, false, (1, 1), (bytes as u32, 1));
        let left = bits_for_values(bytes);
        let largest = (1 << luma_length_bits(bytes)) - 1;
        for length in [0, 1, left - 1, left, left + 1, largest] {
            for index in [0, 127] {
                let text = pattern(left);
                jobs.push(job(&p, slice_bytes(bytes, index, length, &text, true)));
            }
        }
    }
    jobs
}

/// Every text of the 5 bits that a slice of 2 bytes has, with several luma lengths: parts that end inside a code of
/// luma, C1 or C2, or before one.
fn short_slice_jobs() -> Vec<LowDelayJob> {
    let p = sliced((2, 1), (2, 1), 0, false, (1, 1), (2, 1));
    let mut jobs = Vec::new();
    for text in 0..32 {
        for length in [0, 2, 5] {
            let text = format!("{text:05b}");
            jobs.push(job(&p, slice_bytes(2, 0, length, &text, true)));
        }
    }
    jobs
}

/// Luma of the codes of 3 and -2 stated with every length up to 5 more than it needs, the bits behind it 0s or 1s,
/// and chroma that ends at the end of the slice, inside a code, or before it.
fn early_end_jobs() -> Vec<LowDelayJob> {
    let p = sliced((3, 1), (2, 2), 0, false, (1, 1), (6, 1));
    let luma = code_text(&[3, -2]);
    let mut jobs = Vec::new();
    for length in 0..=luma.len() + 5 {
        for fill in ["0", "1"] {
            let mut part = luma.clone() + &fill.repeat(5);
            part.truncate(length);
            let text = part + &code_text(&[1, -1, 0, 2, -4, 1]);
            jobs.push(job(&p, slice_bytes(6, 2, length, &text, true)));
        }
    }
    jobs
}

/// Every index 0..115 from a slice's index and a matrix entry, in luma, C1 and C2: three to a picture, in the
/// subbands of level 1, which aren't predicted; level 0 is of zeros.
fn index_jobs() -> Vec<LowDelayJob> {
    let mut jobs = Vec::new();
    for intra in [false, true] {
        let p = sliced((8, 2), (4, 2), 1, intra, (1, 1), (36, 1));
        for index in (0..=115).step_by(3) {
            let most = if index < 96 { 100 } else { 4 };
            let luma = [1, -2, 3, -most].repeat(3);
            let chroma = [1, -1, most, -3].repeat(3);
            let bytes = |slice_index| {
                let luma = [&[0; 4], &luma[..]].concat();
                let chroma = [&[0; 4], &chroma[..]].concat();
                slice_of_numbers(36, slice_index, &luma, &chroma)
            };
            // The last picture has the index 115 twice.
            let last = if index == 114 { 1 } else { 2 };
            let entry = 2 + 7 * index % (126 - index);
            let matrix = [127, entry, entry - 1, entry - last];
            jobs.push(job(&with_matrix(&p, &matrix), bytes(index + entry)));
        }
    }
    jobs
}

/// The indices 115 and 116 from one subband alone, in a slice that has values of it and in one that has none, the
/// first or the last.
fn refused_index_jobs() -> Vec<LowDelayJob> {
    let mut jobs = Vec::new();
    for depth in [0, 1, 4] {
        for subband in 0..=3 * depth as usize {
            for (slices, bad) in [((2, 1), 0), ((3, 3), 8)] {
                // In the first of two slices across, a subband of one column has no value.
                let p = sliced((1, 1), (1, 1), depth, false, slices, (1, 1));
                for slice_index in [120, 121] {
                    let mut p = with_matrix(&p, &[127; 13]);
                    p.picture.matrix[subband] = 5;
                    let mut bytes = vec![0x01; p.slice_count()];
                    bytes[bad] = slice_bytes(1, slice_index, 0, "1", false)[0];
                    jobs.push(job(&p, bytes));
                }
            }
        }
    }
    // Without a matrix.
    let p = sliced((1, 1), (1, 1), 1, true, (1, 1), (3, 1));
    for index in [115, 116, 120, 127] {
        jobs.push(job(&p, slice_bytes(3, index, 0, "", true)));
    }
    jobs
}

/// A slice's index below, at and above the matrix entries: those below are held at 0.
fn held_index_jobs() -> Vec<LowDelayJob> {
    let mut jobs = Vec::new();
    for intra in [false, true] {
        let p = sliced((2, 2), (2, 2), 1, intra, (1, 1), (9, 1));
        let p = with_matrix(&p, &[3, 0, 7, 127]);
        for index in [0, 2, 3, 4, 6, 7, 8, 30, 115] {
            let bytes = slice_of_numbers(9, index, &[3, -3, 5, -2], &[1, -1, 2, -2, 3, -3, 4, 5]);
            jobs.push(job(&p, bytes));
        }
    }
    jobs
}

/// One slice of 20 bytes for a picture that has two luma values, one of C1 and one of C2 in a slice: in order, and
/// with each fault, or two.
fn faulty_slices() -> Vec<Vec<u8>> {
    let left = bits_for_values(20);
    vec![
        slice_of_numbers(20, 4, &[1, -2], &[3, -4]),
        slice_of_numbers(20, 4, &[1 << 32, 0], &[0, 0]),
        slice_of_numbers(20, 0, &[0, 1 << 31], &[0, 0]),
        slice_of_numbers(20, 4, &[0, 1], &[-(1 << 33), 0]),
        slice_of_numbers(20, 0, &[1, 0], &[0, -(1 << 31) - 1]),
        slice_bytes(20, 116, 70, "", false),
        slice_bytes(20, 5, left + 1, "", false),
        slice_bytes(20, 127, left + 1, "", false),
    ]
}

/// Each of those slices before each other; some of them with the second short of a byte; and each alone, short
/// of a byte or of most.
fn order_of_slices_jobs() -> Vec<LowDelayJob> {
    let mut jobs = Vec::new();
    for (k, first) in faulty_slices().iter().enumerate() {
        let p = sliced((4, 1), (2, 1), 0, k % 2 == 0, (2, 1), (20, 1));
        jobs.push(job(&p, first[..19].to_vec()));
        jobs.push(job(&p, first[..2].to_vec()));
        for second in faulty_slices() {
            let bytes = [&first[..], &second].concat();
            if [0, 1, 6].contains(&k) {
                jobs.push(job(&p, bytes[..39].to_vec()));
            }
            jobs.push(job(&p, bytes));
        }
    }
    jobs
}

/// Each of those slices with a fault as one of six, the others being in order.
fn later_slice_jobs() -> Vec<LowDelayJob> {
    let p = sliced((6, 2), (3, 2), 0, true, (3, 2), (20, 1));
    let slices = faulty_slices();
    let mut jobs = Vec::new();
    for faulty in &slices[1..] {
        for place in [1, 3, 5] {
            let mut six = vec![slices[0].clone(); 6];
            six[place] = faulty.clone();
            jobs.push(job(&p, six.concat()));
        }
    }
    jobs
}

/// A code that is too long at one place of a slice and a value out of range at another: two luma values, and two of
/// C1 and of C2 in turn.
fn order_of_values_jobs() -> Vec<LowDelayJob> {
    let p = sliced((2, 1), (2, 1), 0, false, (1, 1), (24, 1));
    let mut jobs = Vec::new();
    for long in 0..6 {
        for large in 0..6 {
            let mut numbers = [0; 6];
            numbers[large] = -(1 << 32) + 2;
            numbers[long] = 1 << 32;
            jobs.push(job(
                &p,
                slice_of_numbers(24, 0, &numbers[..2], &numbers[2..]),
            ));
        }
    }
    jobs
}

/// A job with these numbers in one component, and zeros in the others, two slices across.
fn numbers_job(
    size: (u32, u32),
    intra: bool,
    component: usize,
    index: u32,
    numbers: &[i64],
) -> LowDelayJob {
    let p = sliced(size, size, 0, intra, (2, 1), (101, 2));
    let mut planes = p
        .picture
        .components()
        .each_ref()
        .map(|c| vec![0; padded_area(c)]);
    planes[component].copy_from_slice(numbers);
    encoded_job(&p, &planes, index)
}

/// A job of these planes of quantised numbers, every slice at one index.
fn encoded_job(p: &LowDelay, planes: &[Vec<i64>; 3], index: u32) -> LowDelayJob {
    let options = SliceOptions {
        index,
        ..SliceOptions::default()
    };
    let [luma, first, second] = planes;
    job(
        p,
        encode_low_delay(p, luma, first, second, &uniform_slices(p, options)),
    )
}

/// The largest and the smallest value, one beyond, and the codes of most bits, in each component.
fn extreme_jobs() -> Vec<LowDelayJob> {
    let (max, min) = (i64::from(i32::MAX), i64::from(i32::MIN));
    let mut jobs = Vec::new();
    for component in 0..3 {
        for number in [max, max + 1, min, min - 1, (1 << 32) - 2, 1 - (1 << 32)] {
            for intra in [false, true] {
                let numbers = if intra { [number, 0] } else { [-1, number] };
                jobs.push(numbers_job((2, 1), intra, component, 0, &numbers));
            }
        }
    }
    jobs
}

/// The border of 32 bits through factors, in each component in turn, by both offsets; 13 at index 109 fits only
/// where the picture isn't intra.
fn border_jobs() -> Vec<LowDelayJob> {
    let mut jobs = Vec::new();
    for component in 0..3 {
        for intra in [false, true] {
            for number in [13, 14, -13] {
                jobs.push(numbers_job((1, 1), intra, component, 109, &[number]));
            }
        }
    }
    for (k, index) in [1, 3, 50, 91, 115].into_iter().enumerate() {
        let limit = ((4i128 << 31) / i128::from(quantiser_factor(index))) as i64;
        for m in limit - 1..=limit + 1 {
            for number in [m, -m] {
                jobs.push(numbers_job((1, 1), k % 2 == 0, k % 3, index, &[number]));
            }
        }
    }
    jobs
}

/// Predictions that round, that reach the extremes, and that leave 32 bits, in the top row, in the left column and
/// inside, in each component, across the border of two slices.
fn prediction_jobs() -> Vec<LowDelayJob> {
    let (max, min) = (i64::from(i32::MAX), i64::from(i32::MIN));
    let rows: [[i64; 4]; 6] = [
        [max, 0, 0, 0],
        [0, max, 1, 0],
        [min, 0, 0, -1],
        [1, max - 1, 0, 0],
        [-1, min + 1, 1, 0],
        [-1, min, 0, 0],
    ];
    let squares: [[i64; 4]; 7] = [
        [-1, 0, 0, 0],
        [-1, 0, 1, 0],
        [max, 0, 0, 0],
        [max, 0, 0, 1],
        [min, 0, 0, -1],
        [max, min, min, min],
        [min, max, max, max],
    ];
    let mut jobs = Vec::new();
    for component in 0..3 {
        for (k, numbers) in rows.iter().enumerate() {
            let size = [(4, 1), (1, 4)][(k + component) % 2];
            jobs.push(numbers_job(size, true, component, 0, numbers));
        }
        for numbers in squares {
            jobs.push(numbers_job((2, 2), true, component, 0, &numbers));
        }
    }
    jobs.push(numbers_job((2, 2), false, 0, 0, &[max, 0, 0, 1]));
    // The prediction of one component, then of another, leaves 32 bits; and so does a value of the last slice.
    let p = sliced((2, 1), (2, 1), 0, true, (2, 1), (60, 1));
    jobs.push(encoded_job(
        &p,
        &[vec![max, 1], vec![min, -1], vec![0, 0]],
        0,
    ));
    jobs.push(encoded_job(
        &p,
        &[vec![max, 1], vec![0, 0], vec![0, max + 1]],
        0,
    ));
    // Ones in every slice, at depths 0 and 2: only level 0 is predicted.
    for (depth, slices) in [(0, (4, 4)), (0, (3, 2)), (2, (2, 2)), (2, (3, 3))] {
        for intra in [false, true] {
            let p = sliced((4, 4), (8, 4), depth, intra, slices, (181, 3));
            let planes = p
                .picture
                .components()
                .each_ref()
                .map(|c| vec![1; padded_area(c)]);
            jobs.push(encoded_job(&p, &planes, 3));
        }
    }
    jobs
}
