//! The encoder of low delay slices.

use crate::common::*;
use reference::codes::BitWriter;
use reference::encode_low_delay::{code_bits, longest_luma_length, Step};
use reference::low_delay::bits_for_values;
use reference::params::{padded_area, padded_width, subbands, Parameters};
use reference::unpack::{dequantise, prediction};
use reference::{
    encode_low_delay, quantise, quantise_low_delay, LowDelay, QuantisedPicture, Rounding,
    SliceOptions,
};
use vectors::slices::{random_planes, with_matrix};

/// The values that unpacking must find for planes of quantised numbers.
fn expected_planes(p: &LowDelay, planes: &[Vec<i64>; 3], indices: &[u32]) -> [Vec<i32>; 3] {
    let components = p.picture.components();
    [0, 1, 2].map(|c| expected_plane(p, &components[c], &planes[c], indices))
}

/// The same for one component.
fn expected_plane(
    p: &LowDelay,
    component: &Parameters,
    plane: &[i64],
    indices: &[u32],
) -> Vec<i32> {
    let row_width = padded_width(component);
    let mut values = vec![0; plane.len()];
    for (number, band) in subbands(component).iter().enumerate() {
        for (k, slice_index) in indices.iter().enumerate() {
            let (columns, rows) = p.picture.rectangle(band, k);
            let index = slice_index.saturating_sub(p.picture.matrix[number]);
            for y in rows {
                for x in columns.clone() {
                    let at = (band.top + y) * row_width + band.left + x;
                    values[at] = dequantise(plane[at], index, component.intra) as i32;
                }
            }
        }
    }
    if component.intra {
        let band = subbands(component)[0];
        for y in 0..band.height {
            for x in 0..band.width {
                let add = prediction(x, y, |x, y| i64::from(values[y * row_width + x]));
                values[y * row_width + x] += add as i32;
            }
        }
    }
    values
}

/// The bytes of quantised planes, with these options but each slice's own index.
fn encode(
    p: &LowDelay,
    planes: &[Vec<i64>; 3],
    indices: &[u32],
    options: &SliceOptions,
) -> Vec<u8> {
    let slices: Vec<SliceOptions> = indices
        .iter()
        .map(|&index| SliceOptions {
            index,
            ..options.clone()
        })
        .collect();
    let [luma, first, second] = planes;
    encode_low_delay(p, luma, first, second, &slices)
}

/// Every way to write the bits that no value takes, with and without ones at the end of luma.
fn all_options() -> [SliceOptions; 4] {
    [(false, false), (false, true), (true, false), (true, true)].map(|(fill, dropped)| {
        SliceOptions {
            fill,
            drop_trailing_ones: dropped,
            ..SliceOptions::default()
        }
    })
}

#[test]
fn quantised_planes_come_back_dequantised() {
    let mut random = Random::new(41);
    for depth in 0..=4 {
        for (luma, chroma) in [
            ((8, 8), (4, 4)),
            ((5, 7), (5, 7)),
            ((1, 1), (6, 3)),
            ((13, 3), (2, 9)),
        ] {
            for slices in [(1, 1), (2, 3), (4, 1), (9, 9)] {
                // The largest slice has 512 values of 14 bits.
                let fraction = (2701, random.pick(&[1, 2, 2]));
                let mut p = sliced(luma, chroma, depth, random.flag(), slices, fraction);
                p.picture.matrix = [0; 13].map(|_| random.range(0, 9) as u32);
                let planes = random_planes(&mut random, &p, 30);
                let indices: Vec<u32> = (0..p.slice_count())
                    .map(|_| random.range(0, 50) as u32)
                    .collect();
                let expected = expected_planes(&p, &planes, &indices);
                for options in all_options() {
                    let bytes = encode(&p, &planes, &indices, &options);
                    let (given, found) = run_low_delay(&p, &bytes);
                    assert_eq!(given, answer(0, bytes.len() as u64));
                    assert_eq!(found, expected, "{p:?}");
                }
            }
        }
    }
}

#[test]
fn what_does_not_fit_is_cut_off() {
    // 3 bytes have 12 bits for values behind 5 bits of length.
    let p = sliced((4, 1), (2, 1), 0, false, (1, 1), (3, 1));
    let planes = |luma: [i64; 4]| [luma.to_vec(), vec![1, 0], vec![0, 0]];
    let written = |luma, options: &SliceOptions| encode(&p, &planes(luma), &[9], options);
    let options = SliceOptions::default();
    // All luma bits, chroma cut; all bits luma's; luma cut at the longest length.
    assert_eq!(
        written([1, -1, 0, 0], &options),
        slice_bytes(3, 9, 10, "0010 0011 1 1 00", false)
    );
    assert_eq!(
        written([1, -1, 1, 0], &options),
        slice_bytes(3, 9, 12, "0010 0011 0010", false)
    );
    assert_eq!(
        written([1, -1, 3, 0], &options),
        slice_bytes(3, 9, 12, "0010 0011 0000", false)
    );
    assert_eq!(
        written([1 << 40, 0, 0, 0], &options),
        slice_bytes(3, 9, 12, &"0".repeat(12), false)
    );
    // Ones at the end dropped: those of zeros, and those of -1.
    let dropped = SliceOptions {
        drop_trailing_ones: true,
        ..options.clone()
    };
    assert_eq!(
        written([1, -1, 0, 0], &dropped),
        slice_bytes(3, 9, 6, "0010 00 0010 1 1", false)
    );
    assert_eq!(
        written([0; 4], &dropped),
        slice_bytes(3, 9, 0, "0010 1 1 1", false)
    );
    // A stated length cuts luma off, or fills it up; one that doesn't fit takes all bits.
    let stated = |length, fill| SliceOptions {
        luma_length: Some(length),
        fill,
        ..dropped.clone()
    };
    assert_eq!(
        written([1, -1, 0, 0], &stated(3, true)),
        slice_bytes(3, 9, 3, "001 0010 1 1 1", true)
    );
    assert_eq!(
        written([1, 0, 0, 0], &stated(9, false)),
        slice_bytes(3, 9, 9, "0010 1 1 1 00 001", false)
    );
    assert_eq!(
        written([1, 0, 0, 0], &stated(9, true)),
        slice_bytes(3, 9, 9, "0010 1 1 1 11 001", false)
    );
    for length in [13, 31] {
        let bytes = written([1, 0, 0, 0], &stated(length, true));
        let text = "0010 111 11111";
        assert_eq!(bytes, slice_bytes(3, 9, length as usize, text, true));
        assert_eq!(run_low_delay(&p, &bytes).0, answer(14, 0));
    }
    // Only the low 5 bits are written.
    assert_eq!(
        written([1, 0, 0, 0], &stated(32 + 9, false)),
        written([1, 0, 0, 0], &stated(9, false))
    );
    // One byte has no luma length, and one bit of chroma.
    let p = sliced((1, 1), (1, 1), 0, false, (1, 1), (1, 1));
    let bytes = |chroma: i64| {
        let planes = [vec![5], vec![chroma], vec![7]];
        encode(&p, &planes, &[3], &SliceOptions::default())
    };
    assert_eq!(bytes(0), slice_bytes(1, 3, 0, "1", false));
    assert_eq!(bytes(4), slice_bytes(1, 3, 0, "0", false));
}

#[test]
fn longest_luma_lengths() {
    assert_eq!(longest_luma_length(1), 0);
    for bytes in 2..300 {
        assert_eq!(longest_luma_length(bytes), bits_for_values(bytes));
    }
}

#[test]
fn bits_of_codes_are_counted() {
    let mut list: Vec<i64> = (-300..=300).collect();
    for power in 8..=40 {
        for number in (1 << power) - 3..=(1 << power) + 1 {
            list.extend([number, -number]);
        }
    }
    for number in list {
        let mut writer = BitWriter::new();
        writer.signed_number(number);
        let bits = writer.count();
        writer.drop_trailing_ones();
        assert_eq!(code_bits(number), (bits, writer.count()), "{number}");
    }
}

#[test]
fn the_quick_quantiser_is_the_plain_one() {
    let mut random = Random::new(42);
    for index in 0..=115 {
        for intra in [false, true] {
            for rounding in [Rounding::Floor, Rounding::Nearest] {
                let step = Step::new(index, intra, rounding);
                for _ in 0..60 {
                    let bound = 1 << random.range(0, 33);
                    let value = random.range(-bound, bound);
                    let number = quantise(value, index, intra, rounding);
                    let read = dequantise(number, index, intra) as i64;
                    assert_eq!(step.quantise(value), (number, read), "{value} at {index}");
                }
            }
        }
    }
}

/// Three coefficient planes of numbers up to a magnitude.
fn random_coefficients(random: &mut Random, p: &LowDelay, bound: i64) -> [Vec<i32>; 3] {
    random_planes(random, p, bound).map(|plane| plane.iter().map(|&c| c as i32).collect())
}

/// The planes of a quantised picture.
fn planes_of(picture: &QuantisedPicture) -> [Vec<i64>; 3] {
    [
        picture.luma.clone(),
        picture.first_chroma.clone(),
        picture.second_chroma.clone(),
    ]
}

/// Quantises with each slice's least index.
fn quantised(
    p: &LowDelay,
    planes: &[Vec<i32>; 3],
    least: impl Fn(usize) -> u32,
    rounding: Rounding,
) -> Option<QuantisedPicture> {
    let [luma, first, second] = planes;
    quantise_low_delay(p, luma, first, second, least, rounding)
}

#[test]
fn a_quantised_picture_is_read_as_it_was_made() {
    let mut random = Random::new(43);
    let (mut some, mut none) = (0, 0);
    for round in 0..300 {
        let mut p = sliced(
            (random.range(1, 20) as u32, random.range(1, 12) as u32),
            (random.range(1, 12) as u32, random.range(1, 12) as u32),
            random.range(0, 4) as u32,
            random.flag(),
            (random.range(1, 4) as u32, random.range(1, 4) as u32),
            (random.range(3, 120) as u32, random.range(1, 3) as u32),
        );
        p.picture.matrix = [0; 13].map(|_| random.range(0, 12) as u32);
        let bound = 1 << random.range(1, 20);
        let planes = random_coefficients(&mut random, &p, bound);
        let rounding = random.pick(&[Rounding::Floor, Rounding::Nearest]);
        let least = |k: usize| (round + k as u32) % 7;
        let Some(picture) = quantised(&p, &planes, least, rounding) else {
            none += 1;
            continue;
        };
        some += 1;
        let numbers = planes_of(&picture);
        let expected = expected_planes(&p, &numbers, &picture.indices);
        for options in all_options() {
            let bytes = encode(&p, &numbers, &picture.indices, &options);
            let (given, found) = run_low_delay(&p, &bytes);
            assert_eq!(given, answer(0, bytes.len() as u64));
            assert_eq!(found, expected);
        }
        // Each slice has its least index: one lower, it isn't read again as quantised.
        for k in 0..p.slice_count() {
            let index = picture.indices[k];
            assert!(index >= least(k));
            if index > least(k) {
                assert_lower_index_does_not_fit(&p, &planes, &picture, k, rounding);
            }
        }
    }
    assert!(some > 200 && none == 0, "{some} and {none}");
}

/// Fails if slice k, quantised alone at the index below its own, is read again as quantised. The slices before it
/// are kept, the ones behind it are of zeros.
fn assert_lower_index_does_not_fit(
    p: &LowDelay,
    planes: &[Vec<i32>; 3],
    picture: &QuantisedPicture,
    k: usize,
    rounding: Rounding,
) {
    let mut indices = picture.indices.clone();
    indices[k] -= 1;
    indices[k + 1..].fill(0);
    let mut numbers = planes_of(picture);
    for (c, component) in p.picture.components().iter().enumerate() {
        let row_width = padded_width(component);
        for (number, band) in subbands(component).iter().enumerate() {
            for slice in k..p.slice_count() {
                let (columns, rows) = p.picture.rectangle(band, slice);
                for (x, y) in rows.flat_map(|y| columns.clone().map(move |x| (x, y))) {
                    let at = (band.top + y) * row_width + band.left + x;
                    numbers[c][at] = 0;
                    if slice > k {
                        continue;
                    }
                    // The values before this one, as they will be read.
                    let index = indices[k].saturating_sub(p.picture.matrix[number]);
                    let mut value = i64::from(planes[c][at]);
                    if component.intra && number == 0 {
                        let read = expected_plane(p, component, &numbers[c], &indices);
                        value -= prediction(x, y, |x, y| i64::from(read[y * row_width + x]));
                    }
                    numbers[c][at] = quantise(value, index, component.intra, rounding);
                }
            }
        }
    }
    let expected = expected_planes(p, &numbers, &indices);
    let bytes = encode(p, &numbers, &indices, &SliceOptions::default());
    let (given, found) = run_low_delay(p, &bytes);
    assert!(given.status != 0 || found != expected, "{p:?} slice {k}");
}

#[test]
fn pictures_that_no_index_fits() {
    // One byte has one bit, for the first value of C1.
    let p = sliced((1, 1), (1, 1), 0, false, (1, 1), (1, 1));
    let fits = |p: &LowDelay, planes: [i32; 3], least: u32| {
        let planes = planes.map(|value| vec![value]);
        let picture = quantised(p, &planes, |_| least, Rounding::Floor)?;
        Some(picture.indices[0])
    };
    assert_eq!(fits(&p, [0, 0, 0], 0), Some(0));
    assert_eq!(fits(&p, [0, -2, 0], 0), Some(0));
    assert_eq!(fits(&p, [1, 0, 0], 0), Some(1));
    assert_eq!(fits(&p, [0, 2, 0], 0), Some(5));
    assert_eq!(fits(&p, [i32::MIN, 0, 0], 0), None);
    // The index above 115, and the matrix that lowers it.
    assert_eq!(fits(&p, [0, 0, 0], 115), Some(115));
    assert_eq!(fits(&p, [0, 0, 0], 116), None);
    let lowered = with_matrix(&p, &[4]);
    assert_eq!(fits(&lowered, [0, 0, 0], 119), Some(119));
    assert_eq!(fits(&lowered, [0, 0, 0], 120), None);
    let lowered = with_matrix(&p, &[100]);
    assert_eq!(fits(&lowered, [0, 0, 0], 127), Some(127));
    assert_eq!(fits(&lowered, [0, 0, 0], 128), None);
    // A slice that can't hold a value wherever the matrix keeps its index at 0.
    assert_eq!(fits(&with_matrix(&p, &[127]), [1, 0, 0], 0), None);
}

#[test]
fn extremes_are_not_quantised_out_of_32_bits() {
    let picture = |intra, rounding| {
        let p = sliced((2, 2), (2, 2), 0, intra, (2, 1), (300, 1));
        let plane = vec![i32::MAX, i32::MIN, i32::MIN, i32::MAX];
        quantised(&p, &[plane.clone(), plane.clone(), plane], |_| 0, rounding)
    };
    for rounding in [Rounding::Floor, Rounding::Nearest] {
        assert_eq!(picture(false, rounding).unwrap().indices, [0, 0]);
        // The difference of the extremes is outside 32 bits at every index.
        assert_eq!(picture(true, rounding), None);
    }
    // The largest value, from index 19 on: the first index at which it isn't read as more than 32 bits hold.
    let p = sliced((1, 1), (1, 1), 0, true, (1, 1), (30, 1));
    for least in [19, 33, 109] {
        let planes = [vec![i32::MAX], vec![0], vec![0]];
        let index = quantised(&p, &planes, |_| least, Rounding::Floor)
            .unwrap()
            .indices[0];
        let fits = |index| {
            let number = quantise(i64::from(i32::MAX), index, true, Rounding::Floor);
            i32::try_from(dequantise(number, index, true)).is_ok()
        };
        assert_eq!((least..).find(|&index| fits(index)), Some(index));
    }
}

#[test]
fn a_large_picture_is_quick() {
    // A twelfth of a picture of 1920 by 1080 in 4:4:4, at about a bit and a half a value.
    let p = sliced((640, 270), (640, 270), 3, true, (40, 17), (683, 5));
    let mut random = Random::new(44);
    let planes = p.picture.components().map(|component| -> Vec<i32> {
        (0..padded_area(&component))
            .map(|_| random.range(-9, 9) as i32 * random.range(0, 30) as i32)
            .collect()
    });
    let picture = quantised(&p, &planes, |_| 0, Rounding::Nearest).unwrap();
    let numbers = planes_of(&picture);
    let bytes = encode(&p, &numbers, &picture.indices, &SliceOptions::default());
    assert_eq!(
        run_low_delay(&p, &bytes),
        (
            answer(0, bytes.len() as u64),
            expected_planes(&p, &numbers, &picture.indices)
        )
    );
}
