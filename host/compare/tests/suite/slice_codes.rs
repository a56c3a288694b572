//! The codes of slices: pictures meet the borders of a fast reader, in luma and in chroma.

use crate::low_delay::accepted;
use compare::{slice_headers, LowDelayCase, LowDelayKind};
use reference::codes::BitReader;
use reference::encode_low_delay::code_bits;
use reference::low_delay::bits_for_values;
use reference::params::subbands;
use std::collections::{BTreeMap, BTreeSet};

/// A number's code in a part of a slice.
struct SliceCode {
    number: i64,
    /// Its first bit, counted from the start of the slice, its bits, and the part's end.
    at: usize,
    bits: usize,
    end: usize,
    /// How many values its row of the rectangle has left, this one included.
    row_left: usize,
}

/// The codes of one part of a slice, up to the first that begins past its end.
type PartCodes = Vec<SliceCode>;

/// The widths of the rows of values of a part, in reading order: of luma, or of chroma with both components.
fn rows(case: &LowDelayCase, slice: usize, is_luma: bool) -> Vec<usize> {
    let picture = &case.job.parameters.picture;
    let (component, values) = match is_luma {
        true => (picture.luma(), 1),
        false => (picture.chroma(), 2),
    };
    let mut rows = Vec::new();
    for band in subbands(&component) {
        let (columns, lines) = picture.rectangle(&band, slice);
        rows.extend(lines.map(|_| values * columns.len()));
    }
    rows
}

/// The codes of a part that starts at a bit of a slice and has an end.
fn part_codes(slice: &[u8], start: usize, end: usize, rows: &[usize]) -> PartCodes {
    let mut reader = BitReader::of_part(slice, start..end);
    let mut codes = Vec::new();
    let mut at = start;
    for &row in rows {
        for row_left in (1..=row).rev() {
            if at >= end {
                return codes;
            }
            let number = reader.signed_number().expect("an accepted picture");
            let bits = code_bits(number).0;
            codes.push(SliceCode {
                number,
                at,
                bits,
                end,
                row_left,
            });
            at += bits;
        }
    }
    codes
}

/// The codes of the luma parts and of the chroma parts of an accepted picture.
fn codes(case: &LowDelayCase) -> [Vec<PartCodes>; 2] {
    let job = &case.job;
    let mut parts = [Vec::new(), Vec::new()];
    for (k, header) in slice_headers(&job.parameters, &job.bytes)
        .iter()
        .enumerate()
    {
        let slice = &job.bytes[job.parameters.slice_range(k)];
        let start = 8 * header.bytes - bits_for_values(header.bytes);
        let middle = start + header.luma_length;
        let rows = [true, false].map(|is_luma| rows(case, k, is_luma));
        parts[0].push(part_codes(slice, start, middle, &rows[0]));
        parts[1].push(part_codes(slice, middle, 8 * header.bytes, &rows[1]));
    }
    parts
}

/// The codes of the luma parts and of the chroma parts of the accepted pictures of some kinds.
fn codes_of(kinds: &[LowDelayKind]) -> [Vec<PartCodes>; 2] {
    let mut parts = [Vec::new(), Vec::new()];
    for (case, _) in accepted(|kind| kinds.contains(&kind)) {
        for (all, of_case) in parts.iter_mut().zip(codes(case)) {
            all.extend(of_case);
        }
    }
    parts
}

#[test]
fn codes_of_every_length_stand_at_every_bit_of_a_byte() {
    for parts in codes_of(&[LowDelayKind::Codes]) {
        let mut inside = BTreeMap::new();
        for code in parts.iter().flatten() {
            if code.at + code.bits <= code.end {
                *inside.entry((code.bits, code.at % 8)).or_insert(0) += 1;
            }
        }
        for bits in (4..=64).step_by(2) {
            for at in 0..8 {
                assert!(inside.contains_key(&(bits, at)), "{bits} bits at {at}");
            }
        }
    }
}

#[test]
fn parts_end_behind_and_inside_their_last_code() {
    for parts in codes_of(&[LowDelayKind::Ends, LowDelayKind::Runs, LowDelayKind::Codes]) {
        let mut bits_behind = BTreeSet::new();
        let mut bits_inside = BTreeSet::new();
        for last in parts.iter().filter_map(|part| part.last()) {
            let next = last.at + last.bits;
            if next <= last.end {
                bits_behind.insert(last.end - next);
            } else {
                bits_inside.insert(last.end - last.at);
            }
        }
        assert!(
            (0..=10).all(|bits| bits_behind.contains(&bits)),
            "{bits_behind:?}"
        );
        assert!(
            (1..=9).all(|bits| bits_inside.contains(&bits)),
            "{bits_inside:?}"
        );
    }
}

#[test]
fn runs_of_zeros_cross_the_ends_of_rows() {
    for parts in codes_of(&[LowDelayKind::Runs]) {
        let mut crossed = BTreeSet::new();
        for part in parts {
            let (mut run, mut room) = (0, 0);
            for code in part {
                if code.number != 0 {
                    run = 0;
                    continue;
                }
                if run == 0 {
                    room = code.row_left;
                }
                run += 1;
                if run == room + 1 {
                    crossed.insert(room);
                }
            }
        }
        // So many values before the end of the row.
        assert!((1..=30).all(|room| crossed.contains(&room)), "{crossed:?}");
    }
}
