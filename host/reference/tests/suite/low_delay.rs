//! Low delay slices (document 02, "Low delay slices").

use crate::common::*;
use reference::jobs::{run_jobs, INITIAL_ENTRY};
use reference::low_delay::{bits_for_values, luma_length_bits};
use reference::params::{padded_area, padded_width, subbands};
use reference::unpack::{dequantise, prediction};
use reference::{
    encode_low_delay, unpack_low_delay, Answer, LowDelay, Parameters, SliceOptions, SlicedPicture,
};
use vectors::slices::{random_planes, with_matrix};

/// A picture of two slices, of 4 and 5 bytes.
fn example() -> LowDelay {
    with_matrix(
        &sliced((4, 2), (2, 2), 1, true, (2, 1), (9, 2)),
        &[2, 0, 0, 1],
    )
}

/// Its bytes.
const EXAMPLE: [u8; 9] = [0x08, 0xf0, 0x8e, 0x5f, 0x04, 0x53, 0xca, 0x47, 0x6f];

/// Zeros in three planes of a picture.
fn zeros(p: &LowDelay) -> [Vec<i32>; 3] {
    p.picture.components().map(|c| vec![0; padded_area(&c)])
}

/// Fails unless a picture is refused so, with zeros in every plane.
fn assert_refused(p: &LowDelay, bytes: &[u8], expected: Answer) {
    assert_eq!(
        run_low_delay(p, bytes),
        (expected, zeros(p)),
        "{p:?} {bytes:x?}"
    );
}

#[test]
fn the_whole_example() {
    let p = example();
    assert_eq!([0, 1, 2].map(|k| p.slice_start(k)), [0, 4, 9]);
    // Slice 0, index 4: luma length 15, luma 3, -1, 0, 1 at the indices 2, 4, 4, 3, then chroma.
    let luma = "000010 0011 1 0010";
    let first = slice_bytes(4, 4, 15, &[luma, "11111"].concat(), true);
    assert_eq!(first, EXAMPLE[..4]);
    // Slice 1, index 2: luma length 10, luma -2, 0, 1, 0 at the indices 0, 2, 2, 1; then C1 and C2 in turn, 1, -1,
    // 0, 2 and zeros, all of them, as slice 0 has no column of chroma.
    let luma = "0111 1 0010 1";
    let chroma = "0010 0011 1 0110 1 1 1 1";
    let second = slice_bytes(5, 2, 10, &[luma, chroma].concat(), true);
    assert_eq!(second, EXAMPLE[4..]);
    let expected = [
        vec![5, 3, -3, 0, 0, 2, 3, 0],
        vec![1, 0, 0, 0],
        vec![-1, 4, 0, 0],
    ];
    assert_eq!(run_low_delay(&p, &EXAMPLE), (answer(0, 9), expected));
}

#[test]
fn the_example_as_a_job() {
    let parameters = "low_delay 4 2 2 2 1 1 2 1 9 2  2 0 0 1 0 0 0 0 0 0 0 0 0";
    let text = format!(
        "{parameters}  8 4 4  08f08e5f0453ca476f\n\
         {parameters}  8 4 4  08f08e5f0453ca47\n\
         {parameters}  8 4 3  -\n"
    );
    let expected = "\
status 0 place 9
luma: 5 3 -3 0 0 2 3 0
C1: 1 0 0 0
C2: -1 4 0 0
status 6 place 1
luma: 0 0 0 0 0 0 0 0
C1: 0 0 0 0
C2: 0 0 0 0
status 5 place 0
luma: 7 7 7 7 7 7 7 7
C1: 7 7 7 7
C2: 7 7 7
";
    assert_eq!(run_jobs(&text).unwrap(), expected);
    for (line, error) in [
        ("low_delay 1 1 1 1 0 2", "INTRA is neither 0 nor 1: 2"),
        ("low_delay 1 1 1 1 0 0 1", "DOWN is missing"),
        (
            "low_delay 1 1 1 1 0 0 1 1 1 1 0 0",
            "a matrix entry is missing",
        ),
        (
            "low_delay 1 1 1 1 0 0 1 1 1 1 0 0 0 0 0 0 0 0 0 0 0 0 0 1 1",
            "C2_LENGTH is missing",
        ),
    ] {
        assert_eq!(run_jobs(line), Err(format!("line 1: {error}")));
    }
}

#[test]
fn bits_of_a_luma_length() {
    for bytes in 1..=300 {
        let n = luma_length_bits(bytes) as u32;
        let bits = 8 * bytes - 7;
        assert!(2usize.pow(n) >= bits, "{bytes}");
        assert!(n == 0 || 2usize.pow(n - 1) < bits, "{bytes}");
        assert_eq!(bits_for_values(bytes), bits - n as usize);
    }
    // 1, 9, 17, 25, 33, 57, 65, 129 and 137 bits.
    let list = [1, 2, 3, 4, 5, 8, 9, 17, 18].map(luma_length_bits);
    assert_eq!(list, [0, 4, 5, 5, 6, 6, 7, 8, 8]);
    assert_eq!(luma_length_bits(65_535), 19);
}

#[test]
fn bytes_of_slices() {
    let p = sliced((8, 8), (8, 8), 0, false, (4, 2), (10, 3));
    let starts: Vec<usize> = (0..=8).map(|k| p.slice_start(k)).collect();
    assert_eq!(starts, [0, 3, 6, 10, 13, 16, 20, 23, 26]);
    assert_eq!(p.slice_count(), 8);
    // The most bytes there can be.
    let p = sliced((1, 1), (1, 1), 0, false, (255, 255), (65_535, 1));
    assert_eq!(p.slice_start(p.slice_count()), 65_025 * 65_535);
}

#[test]
fn the_components_as_other_jobs_take_them() {
    let p = sliced((5, 3), (9, 2), 2, true, (7, 8), (5, 4));
    assert_eq!(p.luma(), plain(5, 3, 2, 0, true));
    assert_eq!(p.chroma(), plain(9, 2, 2, 0, true));
    assert_eq!(padded_area(&p.luma()), 32);
    assert_eq!(padded_area(&p.chroma()), 48);
}

#[test]
fn a_slice_of_one_byte() {
    // Seven bits of index, no luma length, one bit of chroma.
    let p = sliced((2, 2), (2, 1), 0, false, (1, 1), (1, 1));
    let chroma = |index, bit| {
        let slice = slice_bytes(1, index, 0, bit, false);
        let (given, [luma, first, second]) = run_low_delay(&p, &slice);
        assert_eq!(given, answer(0, 1));
        assert_eq!(luma, [0; 4]);
        assert_eq!(second, [0; 2]);
        first
    };
    assert_eq!(chroma(0, "1"), [0, 0]);
    // A 0, then ones: the data bit, the end and the sign.
    assert_eq!(chroma(0, "0"), [-2, 0]);
    // The same at index 3: floor((2·7 + 3 + 2) / 4).
    assert_eq!(dequantise(-2, 3, false), -4);
    assert_eq!(chroma(3, "0"), [-4, 0]);
    assert_eq!(chroma(115, "1"), [0, 0]);
    assert_refused(&p, &slice_bytes(1, 116, 0, "1", false), answer(8, 0));
    // Slices of one byte and of two bytes in turn.
    let p = sliced((2, 2), (2, 2), 0, false, (2, 2), (3, 2));
    let bytes = [
        slice_bytes(1, 0, 0, "0", false),
        slice_bytes(2, 0, 0, "00000", false),
        slice_bytes(1, 0, 0, "1", false),
        slice_bytes(2, 0, 4, "0011 0", false),
    ];
    let expected = [vec![0, 0, 0, -1], vec![-2, -8, 0, -2], vec![0; 4]];
    assert_eq!(run_low_delay(&p, &bytes.concat()), (answer(0, 6), expected));
}

/// The status of a picture with these plane lengths, each slice being refused 8; a refusal before that must be at
/// place 0 and leave every plane unchanged.
fn status(p: &LowDelay, lengths: [usize; 3]) -> u32 {
    let mut planes = lengths.map(|length| vec![INITIAL_ENTRY; length]);
    let [luma, first, second] = &mut planes;
    let answer = unpack_low_delay(p, &[0xFF; 4], luma, first, second);
    if [1, 2, 5, 13].contains(&answer.status) {
        assert_eq!(answer.place, 0);
        assert!(planes.concat().iter().all(|&entry| entry == INITIAL_ENTRY));
    } else {
        assert_eq!(answer, Answer::refused(8, 0));
        assert!(planes.concat().iter().all(|&entry| entry == 0));
    }
    answer.status
}

/// A picture of one slice of one byte, and its plane lengths.
fn good() -> (LowDelay, [usize; 3]) {
    (
        sliced((3, 2), (2, 5), 2, true, (1, 1), (1, 1)),
        [16, 32, 32],
    )
}

/// A change that puts one fault into parameters or lengths.
type Fault = fn(&mut LowDelay, &mut [usize; 3]);

#[test]
fn each_fault_alone_and_in_order() {
    let faults: [(Fault, u32); 4] = [
        (|p, _| p.picture.chroma_height = 0, 1),
        (|p, _| p.picture.depth = 5, 2),
        (|p, _| p.numerator = 0, 13),
        (|_, lengths| lengths[2] = 33, 5),
    ];
    for set in 0u32..16 {
        let (mut p, mut lengths) = good();
        let mut expected = 8;
        for (k, (fault, given)) in faults.iter().enumerate().rev() {
            if set >> k & 1 == 1 {
                fault(&mut p, &mut lengths);
                expected = *given;
            }
        }
        assert_eq!(status(&p, lengths), expected, "set {set}");
    }
}

#[test]
fn the_ends_of_the_ranges() {
    let given = |change: &dyn Fn(&mut LowDelay, &mut [usize; 3])| {
        let (mut p, mut lengths) = good();
        change(&mut p, &mut lengths);
        status(&p, lengths)
    };
    for bad in [0, 4097, 1 << 31, u32::MAX] {
        assert_eq!(given(&|p, _| p.picture.luma_width = bad), 1);
        assert_eq!(given(&|p, _| p.picture.luma_height = bad), 1);
        assert_eq!(given(&|p, _| p.picture.chroma_width = bad), 1);
        assert_eq!(given(&|p, _| p.picture.chroma_height = bad), 1);
    }
    for bad in [5, 64, u32::MAX] {
        assert_eq!(given(&|p, _| p.picture.depth = bad), 2);
    }
    for (count, expected) in [(0, 13), (1, 8), (255, 8), (256, 13), (u32::MAX, 13)] {
        assert_eq!(given(&|p, _| p.picture.slices_across = count), expected);
        assert_eq!(given(&|p, _| p.picture.slices_down = count), expected);
    }
    for (numerator, denominator, expected) in [
        (0, 0, 13),
        (0, 1, 13),
        (1, 0, 13),
        (1, 1, 8),
        (1, 2, 13),
        (4, 3, 8),
        (65_534, 65_535, 13),
        (65_535, 65_535, 8),
        (65_535, 65_536, 13),
        (65_536, 1, 13),
        (65_536, 65_536, 13),
        (u32::MAX, u32::MAX, 13),
    ] {
        let change = |p: &mut LowDelay, _: &mut [usize; 3]| {
            (p.numerator, p.denominator) = (numerator, denominator);
        };
        assert_eq!(given(&change), expected, "{numerator}/{denominator}");
    }
    // Slices of so many bytes are missing.
    let p = sliced((3, 2), (2, 5), 2, true, (1, 1), (65_535, 1));
    assert_refused(&p, &[0; 65_534], answer(6, 0));
    for (k, wrong) in [(0, 15), (0, 17), (1, 31), (1, 0), (2, 33), (2, 16)] {
        assert_eq!(given(&|_, lengths| lengths[k] = wrong), 5);
    }
}

#[test]
fn only_used_matrix_entries_are_looked_at() {
    for depth in 0..=4 {
        for entry in 0..13 {
            for (value, good) in [(127, true), (128, false), (u32::MAX, false)] {
                let mut p = sliced((1, 1), (1, 1), depth, false, (1, 1), (1, 1));
                p.picture.matrix[entry] = value;
                let expected = if good || entry > 3 * depth as usize {
                    answer(0, 1)
                } else {
                    answer(13, 0)
                };
                assert_eq!(run_low_delay(&p, &[0x01]).0, expected);
            }
        }
    }
}

#[test]
fn the_luma_length_against_the_bits_left() {
    // 2 bytes: 9 bits, 4 of them the length, 5 left. 8 bytes: 6 bits, 51 left.
    for (bytes, left) in [(2, 5), (3, 12), (8, 51)] {
        let p = sliced((1, 1), (1, 1), 0, false, (1, 1), (bytes as u32, 1));
        assert_eq!(bits_for_values(bytes), left);
        for length in 0..1 << luma_length_bits(bytes) {
            let slice = slice_bytes(bytes, 0, length, "", true);
            if length <= left {
                let expected = (answer(0, bytes as u64), zeros(&p));
                assert_eq!(run_low_delay(&p, &slice), expected);
            } else {
                assert_refused(&p, &slice, answer(14, 0));
            }
        }
    }
}

#[test]
fn refusals_of_a_slice_in_order() {
    let p = sliced((2, 1), (2, 1), 0, false, (2, 1), (2, 1));
    // 14 before 8; 8 before a code that is too long.
    assert_refused(&p, &slice_bytes(2, 127, 6, "", false), answer(14, 0));
    assert_refused(&p, &slice_bytes(2, 127, 5, "", false), answer(8, 0));
    // Less than a whole slice is 6, whatever is there.
    assert_refused(&p, &[0xFF], answer(6, 0));
    assert_refused(&p, &[], answer(6, 0));
    // The first slice's refusal comes before the second's.
    let good = slice_bytes(2, 0, 0, "", true);
    assert_refused(&p, &[&good[..], &[0xFF]].concat(), answer(6, 1));
    let bad = slice_bytes(2, 0, 6, "", true);
    assert_refused(&p, &bad, answer(14, 0));
    assert_refused(&p, &[&good[..], &bad].concat(), answer(14, 1));
    // A value's refusal in slice 0 comes before an index's in slice 1.
    let p = sliced((2, 1), (2, 1), 0, false, (2, 1), (10, 1));
    let long = slice_bytes(10, 0, 66, "", false);
    let index = slice_bytes(10, 116, 0, "", true);
    assert_refused(&p, &[&long[..], &index].concat(), answer(7, 0));
    assert_refused(&p, &[&index[..], &long].concat(), answer(8, 0));
    assert_refused(&p, &long, answer(7, 0));
}

#[test]
fn every_subband_has_its_index() {
    // Depth 1, where the slice has no value at all: 8 looks at every subband all the same.
    let p = sliced((1, 1), (1, 1), 1, false, (3, 3), (1, 1));
    for slice_index in 0..128u32 {
        for entry in [0, 1, 11, 12, 13, 100, 127] {
            for subband in 0..4 {
                let mut p = with_matrix(&p, &[127; 4]);
                p.picture.matrix[subband] = entry;
                let mut bytes = vec![0x01; 9];
                bytes[0] = (slice_index << 1 | 1) as u8;
                if slice_index.saturating_sub(entry) > 115 {
                    assert_refused(&p, &bytes, answer(8, 0));
                } else {
                    assert_eq!(run_low_delay(&p, &bytes), (answer(0, 9), zeros(&p)));
                }
            }
        }
    }
}

#[test]
fn chroma_starts_where_the_luma_length_ends() {
    // 8 bytes have 51 bits for values.
    let p = sliced((3, 1), (2, 1), 0, false, (1, 1), (8, 1));
    let planes = |length, text: &str| {
        let (given, planes) = run_low_delay(&p, &slice_bytes(8, 0, length, text, true));
        assert_eq!(given, answer(0, 8));
        planes
    };
    let chroma = "0010 0111 1 0110";
    let chroma_planes = |luma: [i32; 3]| [luma.to_vec(), vec![1, 0], vec![-2, 2]];
    // Luma takes all of its bits, fewer, and would take more.
    let text = |luma: &str| [luma, chroma].concat();
    assert_eq!(planes(9, &text("0010 0011 1")), chroma_planes([1, -1, 0]));
    assert_eq!(
        planes(12, &text("0010 0011 1 000")),
        chroma_planes([1, -1, 0])
    );
    assert_eq!(planes(0, &text("")), chroma_planes([0, 0, 0]));
    assert_eq!(planes(1, &text("0")), chroma_planes([-2, 0, 0]));
    assert_eq!(planes(2, &text("00")), chroma_planes([-1, 0, 0]));
    assert_eq!(planes(3, &text("001")), chroma_planes([-1, 0, 0]));
    assert_eq!(planes(3, &text("000")), chroma_planes([-4, 0, 0]));
    assert_eq!(planes(5, &text("1 0010")), chroma_planes([0, 1, 0]));
    // All bits are luma's: chroma has none.
    let ones = [vec![0; 3], vec![0; 2], vec![0; 2]];
    assert_eq!(planes(51, &"1".repeat(51)), ones);
}

#[test]
fn chroma_alternates_per_value() {
    // Depth 1: the subbands one after the other, a value of C1 then one of C2 at each position.
    let p = sliced((1, 1), (4, 2), 1, false, (1, 1), (20, 1));
    let mut writer = reference::codes::BitWriter::new();
    for number in 1..=16 {
        writer.signed_number(if number % 3 == 0 { -number } else { number });
    }
    let bytes = writer.to_bytes(true);
    let text: String = bytes.iter().map(|byte| format!("{byte:08b}")).collect();
    let (given, [_, first, second]) = run_low_delay(&p, &slice_bytes(20, 0, 0, &text, true));
    assert_eq!(given, answer(0, 20));
    assert_eq!(first, [1, -3, 5, 7, -9, 11, 13, -15]);
    assert_eq!(second, [2, 4, -6, 8, 10, -12, 14, 16]);
    // 2 bytes have 5 bits: C1 takes 4 of them, or the end is inside its code or inside C2's.
    let p = sliced((1, 1), (2, 1), 0, false, (1, 1), (2, 1));
    let pair = |text: &str| {
        let (given, [_, first, second]) = run_low_delay(&p, &slice_bytes(2, 0, 0, text, false));
        assert_eq!(given, answer(0, 2));
        [first, second].concat()
    };
    assert_eq!(pair("0010 1"), [1, 0, 0, 0]);
    assert_eq!(pair("0010 0"), [1, 0, -2, 0]);
    assert_eq!(pair("1 0010"), [0, 0, 1, 0]);
    assert_eq!(pair("1 1 001"), [0, -1, 0, 0]);
    assert_eq!(pair("1 1 1 00"), [0, 0, 0, -1]);
    assert_eq!(pair("00000"), [-8, 0, 0, 0]);
}

#[test]
fn the_offset_follows_the_intra_flag() {
    // A 1 at index 12 in each component, at the first position.
    for (intra, value) in [(true, 12), (false, 11)] {
        let p = sliced((1, 1), (1, 1), 0, intra, (1, 1), (4, 1));
        let bytes = slice_bytes(4, 12, 4, "0010 0010 0011", false);
        let expected = [vec![value], vec![value], vec![-value]];
        assert_eq!(run_low_delay(&p, &bytes), (answer(0, 4), expected));
    }
}

#[test]
fn prediction_comes_after_all_slices() {
    // Luma of 2 by 2 in four slices, each with the number 1; chroma of one value in the last slice.
    let p = sliced((2, 2), (1, 1), 0, true, (2, 2), (3, 1));
    let one = slice_bytes(3, 0, 4, "0010 0010 0011", false);
    let bytes = one.repeat(4);
    // 1, 2, 2 and 1 + floor((2 + 1 + 2 + 1) / 3).
    assert_eq!(
        run_low_delay(&p, &bytes),
        (answer(0, 12), [vec![1, 2, 2, 3], vec![1], vec![-1]])
    );
    // Levels above 0 aren't predicted.
    let p = sliced((4, 4), (1, 1), 1, true, (2, 2), (4, 1));
    let ones = slice_bytes(4, 0, 16, &"0010".repeat(4), true).repeat(4);
    let (given, [luma, _, _]) = run_low_delay(&p, &ones);
    assert_eq!(given, answer(0, 16));
    assert_eq!(luma, [1, 2, 1, 1, 2, 3, 1, 1, 1, 1, 1, 1, 1, 1, 1, 1]);
}

#[test]
fn refusals_of_values_and_of_prediction() {
    // Two values a component, in one slice each; 40 bytes have 304 bits for values.
    let picture = |intra| sliced((2, 1), (2, 1), 0, intra, (2, 1), (40, 1));
    let bytes = |planes: &[Vec<i64>; 3], index| {
        let p = picture(false);
        let options = SliceOptions {
            index,
            ..SliceOptions::default()
        };
        let [luma, first, second] = planes;
        encode_low_delay(&p, luma, first, second, &uniform_slices(&p, options))
    };
    let (max, min) = (i64::from(i32::MAX), i64::from(i32::MIN));
    for component in 0..3 {
        let with = |first, second| {
            let mut planes = [vec![0; 2], vec![0; 2], vec![0; 2]];
            planes[component] = vec![first, second];
            planes
        };
        for intra in [false, true] {
            let p = picture(intra);
            assert_refused(&p, &bytes(&with(max + 1, 0), 0), answer(9, 0));
            assert_refused(&p, &bytes(&with(0, min - 1), 0), answer(9, 1));
            assert_refused(&p, &bytes(&with(0, 1 << 32), 0), answer(7, 1));
            assert_refused(&p, &bytes(&with(-(1 << 32), 0), 0), answer(7, 0));
            // A refusal of a value comes before one of prediction.
            assert_refused(&p, &bytes(&with(max, max + 1), 0), answer(9, 1));
        }
        // 13 at index 109 fits 32 bits only where the picture isn't intra.
        let numbers = bytes(&with(0, 13), 109);
        assert_eq!(run_low_delay(&picture(false), &numbers).0, answer(0, 80));
        assert_refused(&picture(true), &numbers, answer(9, 1));
        // Prediction leaves 32 bits: the place is the number of slices.
        for planes in [with(max, 1), with(min, -1)] {
            let numbers = bytes(&planes, 0);
            assert_eq!(run_low_delay(&picture(false), &numbers).0, answer(0, 80));
            assert_refused(&picture(true), &numbers, answer(9, 2));
        }
    }
}

#[test]
fn bytes_behind_and_bytes_missing() {
    let p = example();
    let longer = [&EXAMPLE[..], &[0, 0xFF, 0]].concat();
    assert_eq!(run_low_delay(&p, &longer), run_low_delay(&p, &EXAMPLE));
    for end in 0..9 {
        let place = if end < 4 { 0 } else { 1 };
        assert_refused(&p, &EXAMPLE[..end], answer(6, place));
    }
}

/// The slice process of document 000, "Slices", by its own steps: bits left are counted down, and reading
/// answers 1 once none is left.
struct Pseudocode<'a> {
    bytes: &'a [u8],
    /// The next bit.
    next: usize,
    bits_left: usize,
}

impl Pseudocode<'_> {
    fn read_bit(&mut self) -> i64 {
        let bit = self.bytes[self.next / 8] >> (7 - self.next % 8) & 1;
        self.next += 1;
        i64::from(bit)
    }

    fn read_nbits(&mut self, n: usize) -> i64 {
        (0..n).fold(0, |value, _| value << 1 | self.read_bit())
    }

    fn read_bitb(&mut self) -> i64 {
        if self.bits_left == 0 {
            return 1;
        }
        self.bits_left -= 1;
        self.read_bit()
    }

    fn read_sintb(&mut self) -> i64 {
        let mut value = 1;
        while self.read_bitb() == 0 {
            value = 2 * value + self.read_bitb();
            assert!(value < 1 << 32);
        }
        value -= 1;
        if value != 0 && self.read_bitb() == 1 {
            value = -value;
        }
        value
    }

    fn flush_inputb(&mut self) {
        self.next += self.bits_left;
        self.bits_left = 0;
    }

    /// One slice into three planes.
    fn slice(&mut self, p: &LowDelay, sx: usize, sy: usize, planes: &mut [Vec<i128>; 3]) {
        let SlicedPicture {
            slices_across,
            slices_down,
            matrix,
            intra,
            ..
        } = p.picture;
        let (across, down) = (slices_across as usize, slices_down as usize);
        let number = sy * across + sx;
        let (num, den) = (p.numerator as usize, p.denominator as usize);
        let slice_bytes = (number + 1) * num / den - number * num / den;
        let mut slice_bits_left = 8 * slice_bytes;
        let qindex = self.read_nbits(7);
        slice_bits_left -= 7;
        let mut length_bits = 0;
        while 1 << length_bits < 8 * slice_bytes - 7 {
            length_bits += 1;
        }
        let slice_y_length = self.read_nbits(length_bits) as usize;
        slice_bits_left -= length_bits;
        let parts: [(Parameters, &[usize], usize); 2] = [
            (p.luma(), &[0], slice_y_length),
            (p.chroma(), &[1, 2], slice_bits_left - slice_y_length),
        ];
        for (component, numbers, bits) in parts {
            self.bits_left = bits;
            for (k, band) in subbands(&component).iter().enumerate() {
                let q = (qindex - i64::from(matrix[k])).max(0);
                for y in band.height * sy / down..band.height * (sy + 1) / down {
                    for x in band.width * sx / across..band.width * (sx + 1) / across {
                        for &c in numbers {
                            let val = self.read_sintb();
                            let at = (band.top + y) * padded_width(&component) + band.left + x;
                            planes[c][at] = dequantise(val, q as u32, intra);
                        }
                    }
                }
            }
            self.flush_inputb();
        }
    }
}

/// The planes of a picture by those steps.
fn pseudocode_planes(p: &LowDelay, bytes: &[u8]) -> [Vec<i128>; 3] {
    let mut planes = zeros(p).map(|plane| vec![0; plane.len()]);
    let mut reader = Pseudocode {
        bytes,
        next: 0,
        bits_left: 0,
    };
    for sy in 0..p.picture.slices_down as usize {
        for sx in 0..p.picture.slices_across as usize {
            reader.slice(p, sx, sy, &mut planes);
        }
    }
    assert_eq!(reader.next, 8 * p.slice_start(p.slice_count()));
    if p.picture.intra {
        for (component, plane) in p.picture.components().iter().zip(&mut planes) {
            let row_width = padded_width(component);
            let band = subbands(component)[0];
            for y in 0..band.height {
                for x in 0..band.width {
                    let add = prediction(x, y, |x, y| plane[y * row_width + x] as i64);
                    plane[y * row_width + x] += i128::from(add);
                }
            }
        }
    }
    planes
}

/// Some picture of slices.
fn random_picture(random: &mut Random) -> LowDelay {
    let mut size = || (random.range(1, 12) as u32, random.range(1, 9) as u32);
    let (luma, chroma) = (size(), size());
    let denominator = random.range(1, 5) as u32;
    let mut p = sliced(
        luma,
        chroma,
        random.range(0, 4) as u32,
        random.flag(),
        (random.range(1, 5) as u32, random.range(1, 5) as u32),
        (
            denominator + random.range(0, 40 * i64::from(denominator)) as u32,
            denominator,
        ),
    );
    p.picture.matrix = [0; 13].map(|_| random.range(0, 20) as u32);
    p
}

#[test]
fn the_steps_of_document_000() {
    let mut random = Random::new(31);
    let mut seen = [0; 15];
    for round in 0..1500 {
        let p = random_picture(&mut random);
        let bytes: Vec<u8> = if round % 3 == 0 {
            let most = random.range(1, 60) as u32;
            let bound = 1 << random.range(0, 9);
            let planes = random_planes(&mut random, &p, bound);
            let options: Vec<SliceOptions> = (0..p.slice_count())
                .map(|_| SliceOptions {
                    index: random.range(0, i64::from(most)) as u32,
                    luma_length: None,
                    fill: random.flag(),
                    drop_trailing_ones: random.flag(),
                })
                .collect();
            let [luma, first, second] = &planes;
            encode_low_delay(&p, luma, first, second, &options)
        } else {
            // Bytes at random; where a length is too long, it is often one that fits.
            let mut bytes: Vec<u8> = (0..p.slice_start(p.slice_count()))
                .map(|_| (random.bits() | random.bits() & random.bits()) as u8)
                .collect();
            for k in 0..p.slice_count() {
                bytes[p.slice_start(k)] = random.range(0, 200) as u8 & 0xFE;
                if let Some(byte) = bytes[..p.slice_start(k + 1)].get_mut(p.slice_start(k) + 1) {
                    *byte &= 0x3F;
                }
            }
            bytes
        };
        let (given, planes) = run_low_delay(&p, &bytes);
        seen[given.status as usize] += 1;
        if given.status == 0 {
            let expected = pseudocode_planes(&p, &bytes);
            for (plane, expected) in planes.iter().zip(&expected) {
                assert!(plane
                    .iter()
                    .map(|&v| i128::from(v))
                    .eq(expected.iter().copied()));
            }
        } else {
            assert_eq!(planes, zeros(&p));
            assert!(given.place <= p.slice_count() as u64);
        }
    }
    assert!(seen[0] > 700, "{seen:?}");
}

#[test]
fn more_slices_than_columns_and_rows() {
    // Every value stands in exactly one slice.
    let p = sliced((3, 2), (1, 1), 0, false, (7, 5), (3, 1));
    let slices: Vec<Vec<u8>> = (0..35)
        .map(|k| slice_bytes(3, 4 * k % 60, 4, "0010 0010 0011", true))
        .collect();
    let (given, [luma, first, second]) = run_low_delay(&p, &slices.concat());
    assert_eq!(given, answer(0, 105));
    // Column c is in the slice with floor(3x/7) = c and floor(3(x+1)/7) = c + 1: 2, 4 and 6; rows 2 and 4.
    let value = |x: u32, y: u32| dequantise(1, 4 * (7 * y + x) % 60, false) as i32;
    let expected = [2, 4].map(|y| [2, 4, 6].map(|x| value(x, y)));
    assert_eq!(luma, expected.concat());
    assert_eq!((first, second), (vec![value(6, 4)], vec![-value(6, 4)]));
}
