//! Bodies for the borders of a reader that takes the values of short rows, those of up to 64, as one run,
//! looks for the run's end only where it is near, and takes the last few values one by one. So numbers
//! stand at the ends of rows, zeros end about the end of a run, go on past it or fill it, the last values
//! are of every kind, and data ends inside them.

use crate::borders::{body_of_bands, number_of_code, put_runs, with_other_data, with_other_end};
use crate::scale::{number_that_fits, Scale};
use reference::params::{padded_width, Parameters, Subband};
use reference::unpack::codeblock_start;
use vectors::random::Random;

/// The widest rows that are read as one run.
const SHORT_ROW: usize = 64;

/// From this quantiser index on, numbers are chosen so that they fit 32 bits.
const LARGE_INDEX: u32 = 104;

/// The rows that are read as one run, each the indices of its values in the coefficient plane.
type RowsOfRun = Vec<Vec<usize>>;

/// The runs of a subband's values, in the order in which they are read.
fn runs(p: &Parameters, band: &Subband) -> Vec<RowsOfRun> {
    let across = p.codeblocks_across[band.level as usize] as usize;
    let down = p.codeblocks_down[band.level as usize] as usize;
    let span =
        |size, k, count| codeblock_start(size, k, count)..codeblock_start(size, k + 1, count);
    let mut list = Vec::new();
    for block in 0..across * down {
        let columns = span(band.width, block % across, across);
        let rows: RowsOfRun = span(band.height, block / across, down)
            .map(|y| (band.top + y) * padded_width(p) + band.left)
            .map(|start| (start + columns.start..start + columns.end).collect())
            .collect();
        if columns.len() > SHORT_ROW {
            list.extend(rows.into_iter().map(|row| vec![row]));
        } else if !columns.is_empty() && !rows.is_empty() {
            list.push(rows);
        }
    }
    list
}

/// A short code's number, or a longer one now and then; with a large index one that fits.
fn random_number(random: &mut Random, scale: Scale) -> i64 {
    if scale.index >= LARGE_INDEX {
        return number_that_fits(random, scale);
    }
    let bits = random.pick(&[4, 4, 4, 6, 6, 8, 10, 12]);
    number_of_code(random, bits)
}

/// Puts numbers at the ends of rows alone.
fn put_row_ends(random: &mut Random, run: &RowsOfRun, scale: Scale, quantised: &mut [i64]) {
    for row in run {
        for entry in [row[0], row[row.len() - 1]] {
            if random.range(0, 3) > 0 {
                quantised[entry] = random_number(random, scale);
            }
        }
    }
}

/// Puts numbers with runs of zeros between them up to one near the end; none where there is no room.
fn put_numbers(random: &mut Random, run: &RowsOfRun, scale: Scale, quantised: &mut [i64]) {
    let indices = run.concat();
    let tail = random.range(0, 19) as usize;
    let Some(last) = indices.len().checked_sub(1 + tail) else {
        return;
    };
    put_runs(random, &indices[..last], quantised, |random| {
        random_number(random, scale)
    });
    quantised[indices[last]] = random_number(random, scale);
}

/// Puts a number with a long code, so that a reader takes up the data anew behind it, where 1 to 35 values
/// are left, or about 64. The last few may be anything; more are zeros, but now and then for the first of
/// many and for one of the last two.
fn put_tail(random: &mut Random, run: &RowsOfRun, scale: Scale, quantised: &mut [i64]) {
    let indices = run.concat();
    let any = random.range(1, 35);
    let (about_32, about_64) = (random.range(31, 33), random.range(39, 66));
    let left = random.pick(&[any, any, any, any, about_32, about_32, about_64]) as usize;
    let Some(before) = indices.len().checked_sub(1 + left) else {
        return;
    };
    let number = match scale.index {
        LARGE_INDEX.. => number_that_fits(random, scale),
        _ => number_of_code(random, 10),
    };
    quantised[indices[before]] = number;
    let tail = &indices[before + 1..];
    let from_end = random.range(-2, 2);
    if left < 7 {
        for &at in tail {
            if random.range(0, 1) == 0 {
                quantised[at] = random_number(random, scale);
            }
        }
    } else if (1..=2).contains(&from_end) {
        quantised[tail[left - from_end as usize]] = random_number(random, scale);
    } else if left > 35 {
        quantised[tail[0]] = random_number(random, scale);
    }
}

/// Puts a number at every entry.
fn put_everywhere(random: &mut Random, run: &RowsOfRun, scale: Scale, quantised: &mut [i64]) {
    for &entry in run.iter().flatten() {
        quantised[entry] = random_number(random, scale);
    }
}

/// Fills the runs of a subband, or leaves some of them zero.
fn fill(random: &mut Random, p: &Parameters, band: &Subband, scale: Scale, quantised: &mut [i64]) {
    for run in runs(p, band) {
        match random.range(0, 15) {
            0..=4 => put_row_ends(random, &run, scale, quantised),
            5..=9 => put_numbers(random, &run, scale, quantised),
            10..=13 => put_tail(random, &run, scale, quantised),
            14 => put_everywhere(random, &run, scale, quantised),
            _ => (),
        }
    }
}

/// The bytes of a body of such runs. The data of some subbands ends anywhere, or up to 10 bytes before or
/// behind its last code.
pub fn rectangles_bytes(random: &mut Random, p: &Parameters) -> Vec<u8> {
    let index = |random: &mut Random| {
        let any = random.range(0, 40) as u32;
        random.pick(&[any, any, any, any, any, any, any, LARGE_INDEX + any % 12])
    };
    let body = body_of_bands(random, p, index, |random, band, scale, quantised| {
        fill(random, p, band, scale, quantised);
    });
    let parts = body.subbands(p);
    let ended = parts.iter().flat_map(|part| match random.range(0, 3) {
        0 => with_other_end(random, part),
        1 => with_other_data(part, |data| {
            // A length of 0 would skip the subband.
            data.truncate(random.range(1, data.len() as i64) as usize);
        }),
        _ => part.clone(),
    });
    ended.collect()
}
