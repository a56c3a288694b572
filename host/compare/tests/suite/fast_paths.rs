//! A decoder with fast paths, in plain Rust: without a fault it is like the reference; with a fault at a
//! border of a fast path it is found out, and by many cases.

use crate::codes::cases;
use compare::{check, reference, safe_size, Buffers, Case, Decoder, Job, Kind};
use reference::codes::{BitReader, PastEnd};
use reference::params::{padded_width, subbands, Subband};
use reference::transform::{filter_line, shift_down, Filter, Grid, Step, FILTERS};
use reference::unpack::{codeblock_start, dequantise, prediction};
use reference::{Answer, Parameters};
use vectors::levels::{build_picture, halve};

/// No fault.
pub const NONE: u8 = 0;
/// A run of zeros goes on past the end of its row.
const ROW_END: u8 = 1;
/// Bits past the data's end are 0 in a window.
const DATA_END: u8 = 2;
/// A code of 31 data bits is too long.
const LONG_CODE: u8 = 3;
/// The values of short codes are not tested.
const RANGE: u8 = 4;
/// Lines of numbers half as large again as is safe are lifted in 32 bits.
const BOUND: u8 = 5;
/// The values of short codes have the offset of intra pictures.
const SHORT_INTRA: u8 = 6;
/// The values of codes that are not short have it.
const LONG_INTRA: u8 = 7;
/// The values of short codes are not tested where that of 13 fits.
const FITS_13: u8 = 8;

/// The bits of a subband's data.
pub struct Bits<'a> {
    pub data: &'a [u8],
    pub at: usize,
}

impl Bits<'_> {
    /// A bit, or this one past the end.
    pub fn bit(&self, at: usize, past_end: u8) -> u8 {
        let byte = self.data.get(at / 8);
        byte.map_or(past_end, |byte| byte >> (7 - at % 8) & 1)
    }

    /// The next eight bits.
    fn window(&self, fault: u8) -> u8 {
        let past_end = u8::from(fault != DATA_END);
        (0..8).fold(0, |w, k| w << 1 | self.bit(self.at + k, past_end))
    }

    /// Takes a bit.
    pub fn take(&mut self) -> i64 {
        self.at += 1;
        self.bit(self.at - 1, 1).into()
    }

    /// Takes a signed number, bit by bit.
    pub fn number(&mut self, fault: u8) -> Result<i64, u32> {
        let most = if fault == LONG_CODE { 30 } else { 31 };
        let (mut v, mut data_bits) = (1, 0);
        while self.take() == 0 {
            if data_bits == most {
                return Err(7);
            }
            v = 2 * v + self.take();
            data_bits += 1;
        }
        let minus = v > 1 && self.take() == 1;
        Ok(if minus { 1 - v } else { v - 1 })
    }

    /// Takes a code of 4, 6 or 8 bits from a window, if one starts it.
    fn short_number(&mut self, fault: u8) -> Option<i64> {
        let c = self.window(fault);
        let data_bits = (c & 0b1010_1010).leading_zeros() / 2;
        if data_bits == 0 || data_bits > 3 {
            return None;
        }
        let data = (0..data_bits).fold(1, |v, k| 2 * v + i64::from(c >> (6 - 2 * k) & 1));
        self.at += 2 * data_bits as usize + 2;
        let minus = c >> (6 - 2 * data_bits) & 1 == 1;
        Some(if minus { 1 - data } else { data - 1 })
    }
}

/// Reads a row of values: runs of zeros and short codes from windows, all else bit by bit. The value of a
/// number is told by a function of it and of whether its code is short.
fn read_row(
    bits: &mut Bits,
    row: &mut [i32],
    value: impl Fn(i64, bool) -> i128,
    fault: u8,
) -> Result<(), u32> {
    let untested = match fault {
        RANGE => true,
        FITS_13 => i32::try_from(value(13, true)).is_ok(),
        _ => false,
    };
    let mut x = 0;
    while x < row.len() {
        let run = bits.window(fault).leading_ones() as usize;
        let room = row.len() - x;
        let zeros = if fault == ROW_END { run } else { run.min(room) };
        bits.at += zeros;
        x += zeros;
        if x >= row.len() {
            break;
        }
        let short = bits.short_number(fault);
        let number = short.map_or_else(|| bits.number(fault), Ok)?;
        let value = value(number, short.is_some());
        row[x] = if untested && short.is_some() {
            value as i32
        } else {
            i32::try_from(value).map_err(|_| 9u32)?
        };
        x += 1;
    }
    Ok(())
}

/// A subband of a component, with its quantiser index and its data.
pub struct CodedBand<'a> {
    pub p: &'a Parameters,
    pub band: &'a Subband,
    pub index: u32,
    pub data: &'a [u8],
}

/// A reader of a subband's codeblocks into a plane, with a fault.
pub type ReadBand = fn(&CodedBand, &mut [i32], u8) -> Result<(), u32>;

/// Reads the codeblocks of a subband.
fn read_band(coded: &CodedBand, plane: &mut [i32], fault: u8) -> Result<(), u32> {
    read_values(coded, plane, fault, |number, is_short| {
        let is_wrong = match fault {
            SHORT_INTRA => is_short,
            LONG_INTRA => !is_short,
            _ => false,
        };
        dequantise(number, coded.index, coded.p.intra || is_wrong)
    })
}

/// Reads the codeblocks of a subband. The value of a number is told by a function of it and of whether its
/// code is short.
pub fn read_values(
    coded: &CodedBand,
    plane: &mut [i32],
    fault: u8,
    value: impl Fn(i64, bool) -> i128,
) -> Result<(), u32> {
    let &CodedBand { p, band, data, .. } = coded;
    let across = p.codeblocks_across[band.level as usize] as usize;
    let down = p.codeblocks_down[band.level as usize] as usize;
    let span =
        |size, k, count| codeblock_start(size, k, count)..codeblock_start(size, k + 1, count);
    let mut bits = Bits { data, at: 0 };
    for block in 0..across * down {
        if across * down > 1 && bits.take() == 1 {
            continue;
        }
        let columns = span(band.width, block % across, across);
        for y in span(band.height, block / across, down) {
            let start = (band.top + y) * padded_width(p) + band.left;
            let row = &mut plane[start + columns.start..start + columns.end];
            read_row(&mut bits, row, &value, fault)?;
        }
    }
    Ok(())
}

/// Reads a subband that starts at a byte, and predicts it; answers where it ends.
fn unpack_band(
    p: &Parameters,
    band: &Subband,
    bytes: &[u8],
    start: usize,
    plane: &mut [i32],
    read: impl FnOnce(&CodedBand, &mut [i32]) -> Result<(), u32>,
) -> Result<usize, u32> {
    let mut header = BitReader::new(&bytes[start..], PastEnd::Missing);
    let length = header.number()? as usize;
    let index = if length > 0 { header.number()? } else { 0 };
    let from = start + header.align();
    if index > 115 {
        return Err(8);
    }
    let data = bytes.get(from..from + length).ok_or(6u32)?;
    if length > 0 {
        let index = index as u32;
        let coded = CodedBand {
            p,
            band,
            index,
            data,
        };
        read(&coded, plane)?;
    }
    if p.intra && band.level == 0 {
        for y in 0..band.height {
            for x in 0..band.width {
                let entry = y * padded_width(p) + x;
                let add = prediction(x, y, |x, y| i64::from(plane[y * padded_width(p) + x]));
                let value = i64::from(plane[entry]) + add;
                plane[entry] = i32::try_from(value).map_err(|_| 9u32)?;
            }
        }
    }
    Ok(from + length)
}

/// Unpacks, for parameters and a plane that pass the checks.
fn unpack(
    p: &Parameters,
    bytes: &[u8],
    plane: &mut [i32],
    read_band: ReadBand,
    fault: u8,
) -> Answer {
    plane.fill(0);
    let mut start = 0;
    for (k, band) in subbands(p).iter().enumerate() {
        let read = |coded: &CodedBand, plane: &mut [i32]| read_band(coded, plane, fault);
        match unpack_band(p, band, bytes, start, plane, read) {
            Ok(end) => start = end,
            Err(status) => {
                plane.fill(0);
                return Answer::refused(status, k as u64);
            }
        }
    }
    Answer::accepted(start as u64)
}

/// A lifting step in 32 bits, which wraps.
fn lift_wrapping(step: &Step, line: &mut [i32]) {
    let length = line.len() as i64;
    let to_even = step.step_type.changes_even();
    for n in 0..length / 2 {
        let mut sum = (1i32 << step.scale) >> 1;
        for (k, &tap) in step.taps.iter().enumerate() {
            let at = 2 * (n + step.first_offset + k as i64);
            let position = if to_even {
                (at - 1).clamp(1, length - 1)
            } else {
                at.clamp(0, length - 2)
            };
            sum = sum.wrapping_add((tap as i32).wrapping_mul(line[position as usize]));
        }
        let change = sum >> step.scale;
        let target = &mut line[2 * n as usize + usize::from(!to_even)];
        *target = if step.step_type.adds() {
            target.wrapping_add(change)
        } else {
            target.wrapping_sub(change)
        };
    }
}

/// Filters a line: in 32 bits where its numbers are at most so large. Answers whether all fit.
fn filter_fast(filter: &Filter, line: &mut [i128], bound: i64) -> bool {
    if line.iter().any(|number| number.abs() > bound.into()) {
        return filter_line(filter.steps, line);
    }
    let mut small: Vec<i32> = line.iter().map(|&number| number as i32).collect();
    for step in filter.steps {
        lift_wrapping(step, &mut small);
    }
    for (number, new) in line.iter_mut().zip(small) {
        *number = new.into();
    }
    true
}

/// Filters every column and every row of a picture; answers whether all fit.
fn filter_picture(filter: &Filter, picture: &mut Grid, bound: i64) -> bool {
    let mut all_fit = true;
    for x in 0..picture.width {
        let mut column: Vec<i128> = (0..picture.height).map(|y| picture.get(x, y)).collect();
        all_fit &= filter_fast(filter, &mut column, bound);
        for (y, number) in column.into_iter().enumerate() {
            picture.set(x, y, number);
        }
    }
    for row in picture.numbers.chunks_mut(picture.width) {
        all_fit &= filter_fast(filter, row, bound);
    }
    all_fit
}

/// Synthesises, for parameters and planes that pass the checks.
fn synthesise(p: &Parameters, buffers: Buffers, fault: u8) -> Answer {
    let safe = safe_size(p.wavelet);
    let bound = if fault == BOUND {
        safe + safe / 2
    } else {
        safe
    };
    let filter = &FILTERS[p.wavelet as usize];
    let (mut level, mut refused_at) = (0, None);
    let picture = build_picture(p, buffers.coefficients, |mut picture| {
        level += 1;
        if refused_at.is_none() && !filter_picture(filter, &mut picture, bound) {
            refused_at = Some(level);
        }
        halve(filter, &mut picture, shift_down);
        picture
    });
    buffers.work.fill(0);
    if let Some(level) = refused_at {
        buffers.samples.fill(0);
        return Answer::refused(10, level);
    }
    let rows = buffers.samples.chunks_mut(p.width as usize);
    for (samples, row) in rows.zip(picture.numbers.chunks(picture.width)) {
        for (sample, &number) in samples.iter_mut().zip(row) {
            *sample = number as i32;
        }
    }
    Answer::accepted(0)
}

/// The decoder with a fault. Decode, and what the first checks refuse, are the reference's.
fn fast<const FAULT: u8>(p: &Parameters, job: Job, buffers: Buffers) -> Answer {
    match job {
        Job::Synthesise if !refused_at_once(p, job, &buffers) => synthesise(p, buffers, FAULT),
        _ => fast_unpack(p, job, buffers, read_band, FAULT),
    }
}

/// Whether the first checks refuse a job.
fn refused_at_once(p: &Parameters, job: Job, buffers: &Buffers) -> bool {
    let mut planes = (
        buffers.coefficients.to_vec(),
        buffers.work.to_vec(),
        buffers.samples.to_vec(),
    );
    let trial = Buffers {
        bytes: buffers.bytes,
        coefficients: &mut planes.0,
        work: &mut planes.1,
        samples: &mut planes.2,
    };
    (1..=5).contains(&reference(p, job, trial).status)
}

/// A decoder whose unpack reads subbands so. The other jobs, and what the first checks refuse, are the
/// reference's.
pub fn fast_unpack(
    p: &Parameters,
    job: Job,
    buffers: Buffers,
    read_band: ReadBand,
    fault: u8,
) -> Answer {
    if job == Job::Unpack && !refused_at_once(p, job, &buffers) {
        unpack(p, buffers.bytes, buffers.coefficients, read_band, fault)
    } else {
        reference(p, job, buffers)
    }
}

/// How many of the first cases tell a decoder from the reference.
pub fn found(decoder: Decoder, cases: u64) -> usize {
    (1..=cases)
        .filter(|&seed| check(&Case::from_seed(seed), decoder).is_err())
        .count()
}

#[test]
fn fast_paths_without_a_fault_are_like_the_reference() {
    assert_eq!(found(fast::<NONE>, 2000), 0);
}

#[test]
fn faults_at_the_borders_of_fast_paths_are_found_often() {
    let faults: [(&str, Decoder); 7] = [
        ("row end", fast::<ROW_END>),
        ("data end", fast::<DATA_END>),
        ("long code", fast::<LONG_CODE>),
        ("range", fast::<RANGE>),
        ("bound", fast::<BOUND>),
        ("short intra", fast::<SHORT_INTRA>),
        ("long intra", fast::<LONG_INTRA>),
    ];
    for (name, decoder) in faults {
        let count = found(decoder, 1000);
        assert!(count >= 5, "{name}: {count} of 1000 cases");
    }
}

/// With index 109 the value of 13 fits where the picture is not intra, and that of 14 does not.
#[test]
fn a_number_that_is_looked_up_and_does_not_fit_is_found() {
    let aimed = cases(Kind::LookedUp).take(1000);
    let is_found = |case: &&Case| check(case, fast::<FITS_13>).is_err();
    let count = aimed.filter(is_found).count();
    assert!(count >= 5, "{count} of 1000 cases");
}
