//! The cases meet the borders of a reader that takes rows of up to 64 values as one run, again and again.

use crate::codes::{bands_read, cases, unpack_status, Block, Code, Read};
use compare::Kind;
use std::collections::{BTreeMap, BTreeSet};
use std::sync::OnceLock;

/// The codes of more bits are not looked up.
const LOOKED_UP: usize = 8;
/// The bits of a window.
const WINDOW: usize = 56;

/// What is read of the subbands of all cases made for these borders.
fn all_read() -> &'static [Read] {
    static READ: OnceLock<Vec<Read>> = OnceLock::new();
    READ.get_or_init(|| {
        cases(Kind::Rectangles)
            .flat_map(|case| bands_read(&case.parameters, &case.bytes))
            .collect()
    })
}

/// The codes that a window begins with, with the subband that they are of and which of its codes they are:
/// the first of a run, or one behind a code too long to look up.
fn codes_at_windows() -> impl Iterator<Item = (&'static Read, usize, &'static Code)> {
    all_read().iter().flat_map(|read| {
        let starts = read
            .codes
            .iter()
            .enumerate()
            .filter(|(k, code)| code.run_before() == 0 || read.codes[k - 1].bits > LOOKED_UP);
        let there = starts.filter(|(_, code)| code.at + WINDOW <= code.end);
        there.map(move |(k, code)| (read, k, code))
    })
}

/// The zeros that a window begins with.
fn zeros_at_windows() -> impl Iterator<Item = &'static Code> {
    let codes = codes_at_windows().map(|(_, _, code)| code);
    codes.filter(|code| code.number == 0)
}

#[test]
fn most_are_accepted() {
    let mut refused = 0;
    for case in cases(Kind::Rectangles) {
        let status = unpack_status(case);
        assert!(matches!(status, 0 | 9));
        refused += usize::from(status == 9);
    }
    let count = cases(Kind::Rectangles).count();
    assert!((20..count / 10).contains(&refused), "{refused} of {count}");
}

#[test]
fn codeblocks_have_every_size_at_which_rows_are_read_otherwise() {
    let mut sizes = BTreeMap::new();
    for read in all_read() {
        let values = read.codes.iter().filter(|code| code.number != 0);
        let blocks = values.map(|code| code.block).filter(|block| block.gap > 0);
        let met: BTreeSet<_> = blocks.map(|block| (block.width, block.height)).collect();
        for size in met {
            *sizes.entry(size).or_insert(0) += 1;
        }
    }
    for width in [1, 2, 62, 63, 64, 65, 66] {
        for height in [1, 2, 3, 16, 33] {
            let count = sizes.get(&(width, height));
            assert!(count >= Some(&5), "{width} x {height}: {count:?}");
        }
    }
}

#[test]
fn numbers_stand_at_the_ends_of_every_row_of_a_run() {
    let mut met = BTreeSet::new();
    for code in all_read().iter().flat_map(|read| &read.codes) {
        let (row, column) = code.place();
        let width = code.block.width;
        if code.number != 0 && code.block.gap > 0 && width <= 64 {
            let ends = [column == 0, column == width - 1];
            met.extend((0..2).filter(|&k| ends[k]).map(|k| (width, row, k)));
        }
    }
    let all = (1..=64).flat_map(|width| (0..16).map(move |row| (width, row)));
    let missing: Vec<_> = all
        .flat_map(|(width, row)| [(width, row, 0), (width, row, 1)])
        .filter(|end| !met.contains(end))
        .collect();
    assert!(missing.is_empty(), "{missing:?}");
}

#[test]
fn zeros_end_before_and_at_and_behind_the_end_of_a_run() {
    let mut met = BTreeSet::new();
    for read in all_read() {
        let starts = read.codes.iter().enumerate().filter(|(k, code)| {
            code.number == 0 && (code.run_before() == 0 || read.codes[k - 1].number != 0)
        });
        for (_, code) in starts.filter(|(_, code)| code.at + WINDOW <= code.end) {
            let many_rows = code.block.width <= 64 && code.block.height > 1;
            let past = code.ones as i64 - code.run_left() as i64;
            met.insert((many_rows, code.run_left(), past.min(2)));
        }
    }
    for many_rows in [false, true] {
        for left in 2..=18 {
            for past in -1..=2 {
                let border = (many_rows, left, past);
                assert!(met.contains(&border), "{border:?}");
            }
        }
    }
}

#[test]
fn about_as_many_ones_start_a_window_as_values_are_left() {
    let mut met = BTreeMap::new();
    for code in zeros_at_windows() {
        let past = code.ones as i64 - code.run_left() as i64;
        *met.entry((code.run_left(), past.min(1))).or_insert(0) += 1;
    }
    // From 32 values on, 32 ones are enough; further ones may belong to what comes next.
    for left in 1..=34 {
        for past in (-2..=1).filter(|past| left as i64 + past > 0) {
            let count = met.get(&(left, past));
            assert!(count >= Some(&5), "{left} left, {past} past: {count:?}");
        }
    }
}

#[test]
fn the_last_values_are_zeros_and_short_and_long_codes_in_every_order() {
    let mut met = BTreeSet::new();
    for (read, k, code) in codes_at_windows().filter(|(_, _, code)| code.run_left() <= 4) {
        let kind = |code: &Code| match code.bits {
            1 => 0,
            2..=LOOKED_UP => 1,
            _ => 2,
        };
        let last = read.codes[k..].iter().take(code.run_left());
        met.insert(last.map(kind).collect::<Vec<_>>());
    }
    // Four are asked for without long codes, or there would be too many.
    for (left, kinds) in [(1, 3), (2, 3), (3, 3), (4, 2)] {
        for order in 0..u32::pow(kinds, left) {
            let digit = |k| order / u32::pow(kinds, k) % kinds;
            let codes: Vec<_> = (0..left).map(digit).collect();
            assert!(met.contains(&codes), "{codes:?}");
        }
    }
}

#[test]
fn about_64_values_are_left_where_a_window_begins_with_a_number() {
    let mut met = BTreeMap::new();
    for (_, _, code) in codes_at_windows().filter(|(_, _, code)| code.number != 0) {
        let looked_up = code.bits <= LOOKED_UP;
        *met.entry((looked_up, code.run_left())).or_insert(0) += 1;
    }
    for left in 40..=66 {
        let count = met.get(&(true, left));
        assert!(count >= Some(&5), "{left} left: {count:?}");
    }
}

#[test]
fn data_ends_inside_the_zeros_of_a_run() {
    let mut zeros_left = BTreeSet::new();
    let mut bits_left = BTreeSet::new();
    for read in all_read() {
        let Some(last) = read.codes.last() else {
            continue;
        };
        if last.number == 0 {
            zeros_left.insert(last.run_left() - 1);
        }
        // The bits that the data has left where a window is asked for.
        let starts = read.codes.iter().filter(|code| code.run_before() == 0);
        bits_left.extend(starts.map(|code| code.end - code.at));
    }
    assert!(
        (0..=18).all(|left| zeros_left.contains(&left)),
        "{zeros_left:?}"
    );
    assert!(
        (1..=70).all(|bits| bits_left.contains(&bits)),
        "{bits_left:?}"
    );
}

#[test]
fn codeblocks_are_as_many_as_rows_and_columns_or_more() {
    let mut grids = BTreeMap::new();
    for case in cases(Kind::Rectangles) {
        let p = &case.parameters;
        for read in bands_read(p, &case.bytes) {
            let level = read.band.level as usize;
            let fill = |count: u32, size: usize| match i64::from(count) {
                1 => "one",
                255 => "most",
                count => match (count - size as i64).clamp(-2, 2) {
                    -2 => "few",
                    -1 => "one less",
                    0 => "as many",
                    1 => "one more",
                    _ => "more",
                },
            };
            let across = fill(p.codeblocks_across[level], read.band.width);
            let down = fill(p.codeblocks_down[level], read.band.height);
            if read.codes.iter().any(|code| code.number != 0) {
                *grids.entry((across, down)).or_insert(0) += 1;
            }
        }
    }
    for count in ["one less", "as many", "one more", "more", "most"] {
        for grid in [
            ("one", count),
            (count, "one"),
            ("few", count),
            (count, "few"),
        ] {
            assert!(grids.get(&grid) >= Some(&10), "{grid:?} in {grids:?}");
        }
    }
    for across in ["one less", "as many", "more"] {
        for down in ["one less", "as many", "more"] {
            let grid = (across, down);
            assert!(grids.contains_key(&grid), "{grid:?} in {grids:?}");
        }
    }
}

#[test]
fn empty_codeblocks_have_either_flag_and_values_behind_them() {
    let mut flags = BTreeMap::new();
    for read in all_read() {
        let is_empty = |block: &&Block| block.width * block.height == 0;
        let has_values = |block: &Block| !is_empty(&block) && block.flag == Some(0);
        let last = read.blocks.iter().rposition(has_values).unwrap_or(0);
        for block in read.blocks[..last].iter().filter(is_empty) {
            let shape = (block.width.min(1), block.height.min(1), block.flag);
            *flags.entry(shape).or_insert(0) += 1;
        }
    }
    // Without columns, without rows, without either: with flag 0 and 1.
    assert_eq!(flags.len(), 6);
    assert!(flags.values().all(|&count| count > 100), "{flags:?}");
}
