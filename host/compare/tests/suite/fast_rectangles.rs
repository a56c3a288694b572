//! A reader that takes many short rows as one run and looks codes up eight bits at a time, in plain
//! Rust: without a fault it is like the reference; with a fault at a border it is found out, and by many
//! cases.

use crate::codes::cases;
use crate::fast_paths::{fast_unpack, found, Bits, CodedBand, NONE};
use compare::{check, Buffers, Decoder, Job, Kind};
use reference::params::padded_width;
use reference::unpack::{codeblock_start, dequantise};
use reference::{Answer, Parameters};

/// The row of a value is found with a reciprocal that is not rounded up.
const RECIPROCAL: u8 = 1;
/// The reciprocal has 16 bits, too few for many rows.
const COARSE: u8 = 2;
/// Where fewer than 32 values are left, all are zeros if all but one are.
const ALL_LEFT: u8 = 3;
/// Thirty-two ones are as many zeros where 31 values are left.
const THIRTY_TWO: u8 = 4;
/// Zeros that pass a run's end are taken from the data all the same.
const CUT: u8 = 5;
/// A window is looked up eight times.
const LOOKUPS: u8 = 6;
/// The last bits of the data are looked up too.
const LAST_BITS: u8 = 7;
/// An empty codeblock has no flag.
const EMPTY: u8 = 8;
/// The codeblock behind one that is skipped starts where that one does.
const SKIPPED: u8 = 9;
/// No lookup asks for a run's end where 40 values are left.
const FAR: u8 = 10;
/// Of the last values, zeros take the bits of all that a lookup has.
const LAST_ZEROS: u8 = 11;

/// The bits of a window.
const WINDOW: usize = 56;

/// Where a run's values go.
struct Layout {
    start: usize,
    count: usize,
    /// 2^24 over the width, rounded up; 0 where the run is one row.
    reciprocal: usize,
    gap: usize,
}

impl Layout {
    /// The entry that value i goes to.
    fn entry(&self, i: usize) -> usize {
        self.start + i + i * self.reciprocal / (1 << 24) * self.gap
    }
}

/// What the first eight bits of a window are: some zeros, perhaps a number behind them, and their bits.
fn lookup(window: u64) -> (usize, Option<i64>, usize) {
    let byte = (window >> 56) as u8;
    let zeros = byte.leading_ones() as usize;
    let data = [byte];
    let mut bits = Bits {
        data: &data,
        at: zeros,
    };
    // Ones past the byte end any code.
    match bits.number(NONE) {
        Ok(number) if zeros < 8 && bits.at <= 8 => (zeros, Some(number), bits.at),
        _ => (zeros, None, zeros),
    }
}

/// The next bits at the top of a number, zeros behind them and past the data's end.
fn window(bits: &Bits) -> u64 {
    let bit = |k| u64::from(bits.bit(bits.at + k, 0));
    (0..WINDOW).fold(0, |w, k| w << 1 | bit(k)) << (64 - WINDOW)
}

/// Reads the last values, one by one: how many.
fn read_last(
    bits: &mut Bits,
    layout: &Layout,
    from: usize,
    fault: u8,
    mut store: impl FnMut(usize, i64) -> Result<(), u32>,
) -> Result<usize, u32> {
    let mut w = window(bits);
    for i in from..layout.count {
        let (zeros, number, mut taken) = lookup(w);
        if taken == 0 {
            return Ok(i - from);
        }
        if zeros > 0 {
            taken = if fault == LAST_ZEROS { taken } else { 1 };
        } else if let Some(number) = number {
            store(i, number)?;
        }
        bits.at += taken;
        w <<= taken;
    }
    Ok(layout.count - from)
}

/// Reads values by the next bits: how many.
fn read_window(
    bits: &mut Bits,
    layout: &Layout,
    from: usize,
    fault: u8,
    mut store: impl FnMut(usize, i64) -> Result<(), u32>,
) -> Result<usize, u32> {
    let mut w = window(bits);
    let left = layout.count - from;
    let is_far = left >= if fault == FAR { 40 } else { 64 };
    if left <= 4 {
        return read_last(bits, layout, from, fault, store);
    }
    let least = if fault == THIRTY_TWO { 31 } else { 32 };
    let many = if left < least { left } else { 32 };
    let asked = many - usize::from(fault == ALL_LEFT && left < 32);
    if w.leading_ones() as usize >= asked {
        bits.at += many;
        return Ok(many);
    }
    let mut i = from;
    for _ in 0..if fault == LOOKUPS { 8 } else { 7 } {
        let (zeros, number, taken) = lookup(w);
        if !is_far && i + zeros >= layout.count {
            let cut = layout.count - i;
            bits.at += if fault == CUT { zeros } else { cut };
            return Ok(layout.count - from);
        }
        if taken == 0 {
            break;
        }
        i += zeros;
        if let Some(number) = number {
            store(i, number)?;
            i += 1;
        }
        bits.at += taken;
        w <<= taken;
    }
    Ok(i - from)
}

/// Reads a run of numbers that a function gives their values.
fn read_run(
    bits: &mut Bits,
    layout: &Layout,
    value: impl Fn(i64) -> i128,
    plane: &mut [i32],
    fault: u8,
) -> Result<(), u32> {
    let mut store = |i, number| {
        let value = i32::try_from(value(number)).map_err(|_| 9u32)?;
        // A fault may lead out of the plane.
        if let Some(entry) = plane.get_mut(layout.entry(i)) {
            *entry = value;
        }
        Ok(())
    };
    let needed = if fault == LAST_BITS { 8 } else { WINDOW };
    let mut i = 0;
    while i < layout.count {
        let mut count = 0;
        if bits.at + needed <= 8 * bits.data.len() {
            count = read_window(bits, layout, i, fault, &mut store)?;
        }
        if count == 0 {
            store(i, bits.number(NONE)?)?;
            count = 1;
        }
        i += count;
    }
    Ok(())
}

/// The runs of a rectangle that starts at an entry of a plane with rows of a width.
fn layouts(start: usize, stride: usize, width: usize, height: usize, fault: u8) -> Vec<Layout> {
    let gap = stride - width;
    let run = |start, count, reciprocal| Layout {
        start,
        count,
        reciprocal,
        gap,
    };
    if width > 64 || height == 1 {
        let rows = (0..height).map(|row| run(start + row * stride, width, 0));
        return rows.collect();
    }
    let reciprocal = match fault {
        _ if width == 0 => 0,
        RECIPROCAL => (1 << 24) / width,
        COARSE => ((1 << 16) / width + 1) << 8,
        _ => (1 << 24) / width + 1,
    };
    vec![run(start, width * height, reciprocal)]
}

/// Reads the codeblocks of a subband.
fn read_band(coded: &CodedBand, plane: &mut [i32], fault: u8) -> Result<(), u32> {
    let &CodedBand {
        p,
        band,
        index,
        data,
    } = coded;
    let across = p.codeblocks_across[band.level as usize] as usize;
    let down = p.codeblocks_down[band.level as usize] as usize;
    let stride = padded_width(p);
    let mut bits = Bits { data, at: 0 };
    for block_y in 0..down {
        let top = codeblock_start(band.height, block_y, down);
        let height = codeblock_start(band.height, block_y + 1, down) - top;
        let mut start = (band.top + top) * stride + band.left;
        for block_x in 0..across {
            let left = codeblock_start(band.width, block_x, across);
            let width = codeblock_start(band.width, block_x + 1, across) - left;
            let has_flag = across * down > 1 && !(fault == EMPTY && width * height == 0);
            if has_flag && bits.take() == 1 {
                start += if fault == SKIPPED { 0 } else { width };
                continue;
            }
            for layout in layouts(start, stride, width, height, fault) {
                let value = |number| dequantise(number, index, p.intra);
                read_run(&mut bits, &layout, value, plane, fault)?;
            }
            start += width;
        }
    }
    Ok(())
}

/// The decoder with a fault.
fn fast<const FAULT: u8>(p: &Parameters, job: Job, buffers: Buffers) -> Answer {
    fast_unpack(p, job, buffers, read_band, FAULT)
}

#[test]
fn a_reader_of_many_rows_without_a_fault_is_like_the_reference() {
    assert_eq!(found(fast::<NONE>, 4000), 0);
}

#[test]
fn faults_at_the_borders_of_many_rows_are_found_often() {
    let faults: [(&str, Decoder); 11] = [
        ("reciprocal", fast::<RECIPROCAL>),
        ("coarse", fast::<COARSE>),
        ("all left", fast::<ALL_LEFT>),
        ("thirty-two", fast::<THIRTY_TWO>),
        ("cut", fast::<CUT>),
        ("lookups", fast::<LOOKUPS>),
        ("last bits", fast::<LAST_BITS>),
        ("empty", fast::<EMPTY>),
        ("skipped", fast::<SKIPPED>),
        ("far", fast::<FAR>),
        ("last zeros", fast::<LAST_ZEROS>),
    ];
    for (name, decoder) in faults {
        let aimed = cases(Kind::Rectangles).take(1000);
        let count = aimed.filter(|case| check(case, decoder).is_err()).count();
        assert!(count >= 10, "{name}: {count} of 1000 cases");
    }
}
