//! Decoders of low delay slices with one fault each are found out, and by many pictures.

use crate::low_delay::pictures;
use compare::{check_low_delay, LowDelayCase, LowDelayDecoder};
use reference::codes::{BitReader, BitWriter, PastEnd};
use reference::encode_low_delay::code_bits;
use reference::low_delay::{bits_for_values, luma_length_bits, INDEX_BITS, MAX_MATRIX_ENTRY};
use reference::params::{
    check_depth, check_length, check_size, padded_area, padded_width, subbands, MAX_QUANTISER,
};
use reference::unpack::{dequantise, predict, prediction};
use reference::{Answer, LowDelay, Parameters};
use std::ops::Range;

/// No fault.
const NONE: u8 = 0;
/// Chroma starts where luma reading stopped.
const CHROMA_FOLLOWS: u8 = 1;
/// In each subband C1 comes first, then C2.
const ONE_AFTER_THE_OTHER: u8 = 2;
/// An index below its matrix entry is the difference, not 0.
const NOT_HELD: u8 = 3;
/// 8 is given when a value of the subband is reached.
const INDEX_LATE: u8 = 4;
/// 8 looks at the subbands that have values in the slice alone.
const INDEX_OF_VALUES: u8 = 5;
/// 14 is given after 8.
const LENGTH_LATE: u8 = 6;
/// The place is the subband.
const PLACE_SUBBAND: u8 = 7;
/// Each slice is predicted by itself.
const SLICE_PREDICTION: u8 = 8;
/// Luma alone is predicted.
const LUMA_PREDICTION: u8 = 9;
/// The place of a refusal in prediction is the last slice.
const PLACE_LAST_SLICE: u8 = 10;
/// Where a slice ends is rounded up.
const ROUNDED_UP: u8 = 11;
/// A bit past a part's end reads as 0.
const ZERO_PAST_END: u8 = 12;
/// Every picture has the offset of intra pictures.
const ALL_INTRA: u8 = 13;
/// The matrix is for luma alone.
const LUMA_MATRIX: u8 = 14;
/// 13 looks at every entry of the matrix.
const UNUSED_ENTRIES: u8 = 15;
/// 13 is given after 5.
const SLICES_LATE: u8 = 16;
/// The bytes of all slices are looked at before the first is read.
const BYTES_FIRST: u8 = 17;
/// A luma length of all bits left is refused.
const ALL_LUMA_REFUSED: u8 = 18;
/// After 14 the planes are as the slices before left them.
const PLANES_KEPT: u8 = 19;
/// The entry of the first subband of a level is that of the level's others.
const ENTRY_OF_LEVEL: u8 = 20;

/// A status and the subband at which it arose.
type Refusal = (u32, usize);

/// The first refusal 1, 2, 13 or 5.
fn check_parameters(p: &LowDelay, lengths: [usize; 3], fault: u8) -> Result<(), Answer> {
    let components = p.picture.components();
    for component in &components {
        check_size(component)?;
    }
    check_depth(&components[0])?;
    let lengths_right = || {
        let mut pairs = components.iter().zip(lengths);
        pairs.try_for_each(|(component, length)| check_length(length, padded_area(component)))
    };
    if fault == SLICES_LATE {
        lengths_right()?;
    }
    let matrix = match fault {
        UNUSED_ENTRIES => &p.picture.matrix[..],
        _ => p.picture.used_matrix(),
    };
    let counts = [p.picture.slices_across, p.picture.slices_down];
    let is_right = counts.iter().all(|count| (1..=255).contains(count))
        && (1..=65_535).contains(&p.numerator)
        && (1..=p.numerator).contains(&p.denominator)
        && matrix.iter().all(|&entry| entry <= MAX_MATRIX_ENTRY);
    if !is_right {
        return Err(Answer::refused(13, 0));
    }
    lengths_right()
}

/// The index of each subband of a component.
fn indices(p: &LowDelay, index: u32, is_luma: bool, fault: u8) -> Vec<u32> {
    let used = p.picture.used_matrix();
    (0..used.len())
        .map(|subband| match fault {
            NOT_HELD => index.abs_diff(used[subband]),
            LUMA_MATRIX if !is_luma => index,
            ENTRY_OF_LEVEL => index.saturating_sub(used[3 * (subband.div_ceil(3))]),
            _ => index.saturating_sub(used[subband]),
        })
        .collect()
}

/// The bytes of slice k.
fn slice_range(p: &LowDelay, k: usize, fault: u8) -> Range<usize> {
    let start = |k: usize| match fault {
        ROUNDED_UP => (k * p.numerator as usize).div_ceil(p.denominator as usize),
        _ => p.slice_start(k),
    };
    start(k)..start(k + 1)
}

/// The bits of a part of a slice and zeros behind them, more than a code can take.
fn with_zeros(slice: &[u8], part: &Range<usize>) -> Vec<u8> {
    let mut reader = BitReader::of_part(slice, part.clone());
    let mut writer = BitWriter::new();
    for _ in part.clone() {
        writer.bit(reader.bit() == Ok(1));
    }
    writer.bits(0, 64);
    writer.bits(0, 64);
    writer.to_bytes(false)
}

/// Reads the values of one part of slice k into the planes of the components that share it: the bit behind the last
/// that was read.
fn read_part(
    p: &LowDelay,
    (component, k): (&Parameters, usize),
    (slice, part): (&[u8], Range<usize>),
    indices: &[u32],
    planes: &mut [Vec<i32>],
    fault: u8,
) -> Result<usize, Refusal> {
    let zeros = with_zeros(slice, &part);
    let mut reader = match fault {
        ZERO_PAST_END => BitReader::new(&zeros, PastEnd::Missing),
        _ => BitReader::of_part(slice, part.clone()),
    };
    let mut at = part.start;
    for (subband, (band, &index)) in subbands(component).iter().zip(indices).enumerate() {
        let (columns, rows) = p.picture.rectangle(band, k);
        let entries = rows.flat_map(|y| {
            let start = (band.top + y) * padded_width(component) + band.left;
            columns.clone().map(move |x| start + x)
        });
        let both = 0..planes.len();
        let positions: Vec<(usize, usize)> = if fault == ONE_AFTER_THE_OTHER {
            let entries: Vec<usize> = entries.collect();
            both.flat_map(|c| entries.iter().map(move |&entry| (c, entry)))
                .collect()
        } else {
            entries
                .flat_map(|entry| both.clone().map(move |c| (c, entry)))
                .collect()
        };
        for (c, entry) in positions {
            if u64::from(index) > MAX_QUANTISER {
                return Err((8, subband));
            }
            let number = reader.signed_number().map_err(|_| (7, subband))?;
            at += code_bits(number).0;
            let intra = p.picture.intra || fault == ALL_INTRA;
            let value = dequantise(number, index, intra);
            planes[c][entry] = i32::try_from(value).map_err(|_| (9, subband))?;
        }
    }
    Ok(at.min(part.end))
}

/// Reads slice k into the planes.
fn read_slice(
    p: &LowDelay,
    bytes: &[u8],
    k: usize,
    planes: &mut [Vec<i32>; 3],
    fault: u8,
) -> Result<(), Refusal> {
    let slice = bytes.get(slice_range(p, k, fault)).ok_or((6, 0))?;
    let (end, left) = (8 * slice.len(), bits_for_values(slice.len()));
    let mut header = BitReader::of_part(slice, 0..end);
    let mut bits = |count| header.bits(count).expect("a slice has its header");
    let index = bits(INDEX_BITS) as u32;
    let length = bits(luma_length_bits(slice.len())) as usize;
    let is_long = length > left || fault == ALL_LUMA_REFUSED && left > 0 && length == left;
    if is_long && fault != LENGTH_LATE {
        return Err((14, 0));
    }
    let [luma, chroma, _] = p.picture.components();
    let luma_indices = indices(p, index, true, fault);
    let chroma_indices = indices(p, index, false, fault);
    for (subband, &index) in luma_indices.iter().enumerate() {
        let is_looked_at = match fault {
            INDEX_LATE => false,
            INDEX_OF_VALUES => [&luma, &chroma].iter().any(|component| {
                let (columns, rows) = p.picture.rectangle(&subbands(component)[subband], k);
                !columns.is_empty() && !rows.is_empty()
            }),
            _ => true,
        };
        if is_looked_at && u64::from(index) > MAX_QUANTISER {
            return Err((8, subband));
        }
    }
    if is_long {
        return Err((14, 0));
    }
    let start = end - left;
    let (luma_planes, chroma_planes) = planes.split_at_mut(1);
    let luma_part = (slice, start..start + length);
    let stopped = read_part(p, (&luma, k), luma_part, &luma_indices, luma_planes, fault)?;
    let chroma_start = match fault {
        CHROMA_FOLLOWS => stopped,
        _ => start + length,
    };
    let chroma_part = (slice, chroma_start..end);
    read_part(
        p,
        (&chroma, k),
        chroma_part,
        &chroma_indices,
        chroma_planes,
        fault,
    )?;
    Ok(())
}

/// Predicts what slice k has of level 0, from values of that slice alone.
fn predict_slice(p: &LowDelay, k: usize, planes: &mut [Vec<i32>; 3]) -> Result<(), Refusal> {
    for (component, plane) in p.picture.components().iter().zip(planes) {
        let (columns, rows) = p.picture.rectangle(&subbands(component)[0], k);
        for (y, row) in rows.clone().enumerate() {
            for (x, column) in columns.clone().enumerate() {
                let entry = |x, y| (rows.start + y) * padded_width(component) + columns.start + x;
                let predicted = prediction(x, y, |x, y| i64::from(plane[entry(x, y)]));
                let here = row * padded_width(component) + column;
                let value = i64::from(plane[here]) + predicted;
                plane[here] = i32::try_from(value).map_err(|_| (9, 0))?;
            }
        }
    }
    Ok(())
}

/// Reads all slices into planes of zeros; the planes are as they were left where one is refused.
fn read_slices(
    p: &LowDelay,
    bytes: &[u8],
    planes: &mut [Vec<i32>; 3],
    fault: u8,
) -> Result<(), Answer> {
    let count = p.slice_count();
    if fault == BYTES_FIRST {
        for k in 0..count {
            if p.slice_start(k + 1) > bytes.len() {
                return Err(Answer::refused(6, k as u64));
            }
        }
    }
    for k in 0..count {
        let mut result = read_slice(p, bytes, k, planes, fault);
        if fault == SLICE_PREDICTION && p.picture.intra {
            result = result.and_then(|()| predict_slice(p, k, planes));
        }
        result.map_err(|(status, subband)| {
            let place = if fault == PLACE_SUBBAND { subband } else { k };
            Answer::refused(status, place as u64)
        })?;
    }
    Ok(())
}

/// Predicts level 0 of the components, in an intra picture.
fn predict_planes(p: &LowDelay, planes: &mut [Vec<i32>; 3], fault: u8) -> Result<(), Answer> {
    if !p.picture.intra || fault == SLICE_PREDICTION {
        return Ok(());
    }
    let predicted = if fault == LUMA_PREDICTION { 1 } else { 3 };
    let place = p.slice_count() - usize::from(fault == PLACE_LAST_SLICE);
    let components = p.picture.components();
    for (component, plane) in components.iter().zip(planes).take(predicted) {
        predict(component, &subbands(component)[0], plane)
            .map_err(|status| Answer::refused(status, place as u64))?;
    }
    Ok(())
}

/// Planes of zeros.
fn zeros(p: &LowDelay) -> [Vec<i32>; 3] {
    let plane = |component| vec![0; padded_area(component)];
    p.picture.components().each_ref().map(plane)
}

/// The first component whose prediction leaves 32 bits, in a picture all of whose slices can be read.
pub fn refused_component(p: &LowDelay, bytes: &[u8]) -> Option<usize> {
    let mut planes = zeros(p);
    read_slices(p, bytes, &mut planes, NONE).ok()?;
    let components = p.picture.components();
    (0..3).find(|&c| {
        let band = &subbands(&components[c])[0];
        predict(&components[c], band, &mut planes[c]).is_err()
    })
}

/// A decoder with a fault.
fn faulty<const FAULT: u8>(p: &LowDelay, bytes: &[u8], lent: [&mut [i32]; 3]) -> Answer {
    if let Err(answer) = check_parameters(p, lent.each_ref().map(|plane| plane.len()), FAULT) {
        return answer;
    }
    let mut planes = zeros(p);
    let result = read_slices(p, bytes, &mut planes, FAULT)
        .and_then(|()| predict_planes(p, &mut planes, FAULT));
    let answer = match result {
        Ok(()) => Answer::accepted(slice_range(p, p.slice_count(), FAULT).start as u64),
        Err(answer) => answer,
    };
    let is_kept = answer.status == 0 || answer.status == 14 && FAULT == PLANES_KEPT;
    for (lent, plane) in lent.into_iter().zip(&planes) {
        if is_kept {
            lent.copy_from_slice(plane);
        } else {
            lent.fill(0);
        }
    }
    answer
}

/// Whether a picture can be unpacked in little time.
fn is_small(case: &LowDelayCase) -> bool {
    case.job.bytes.len() <= 800 && case.job.lengths.iter().sum::<usize>() <= 4000
}

/// How many small pictures of the first so many, up to a number, tell a decoder from the reference.
fn found(decoder: LowDelayDecoder, count: usize, most: usize) -> usize {
    pictures()[..count]
        .iter()
        .filter(|case| is_small(case) && check_low_delay(case, decoder).is_err())
        .take(most)
        .count()
}

#[test]
fn without_a_fault_it_is_like_the_reference() {
    assert_eq!(found(faulty::<NONE>, 1500, 1), 0);
}

#[test]
fn wrong_decoders_are_found_often() {
    const ENOUGH: usize = 5;
    const PICTURES: usize = 2500;
    let faults: [(&str, LowDelayDecoder); 20] = [
        ("chroma follows", faulty::<CHROMA_FOLLOWS>),
        ("one after the other", faulty::<ONE_AFTER_THE_OTHER>),
        ("not held", faulty::<NOT_HELD>),
        ("index late", faulty::<INDEX_LATE>),
        ("index of values", faulty::<INDEX_OF_VALUES>),
        ("length late", faulty::<LENGTH_LATE>),
        ("place subband", faulty::<PLACE_SUBBAND>),
        ("slice prediction", faulty::<SLICE_PREDICTION>),
        ("luma prediction", faulty::<LUMA_PREDICTION>),
        ("place last slice", faulty::<PLACE_LAST_SLICE>),
        ("rounded up", faulty::<ROUNDED_UP>),
        ("zero past the end", faulty::<ZERO_PAST_END>),
        ("all intra", faulty::<ALL_INTRA>),
        ("luma matrix", faulty::<LUMA_MATRIX>),
        ("unused entries", faulty::<UNUSED_ENTRIES>),
        ("slices late", faulty::<SLICES_LATE>),
        ("bytes first", faulty::<BYTES_FIRST>),
        ("all luma refused", faulty::<ALL_LUMA_REFUSED>),
        ("planes kept", faulty::<PLANES_KEPT>),
        ("entry of level", faulty::<ENTRY_OF_LEVEL>),
    ];
    for (name, decoder) in faults {
        let count = found(decoder, PICTURES, ENOUGH);
        assert_eq!(count, ENOUGH, "{name}, of {PICTURES} pictures");
    }
}
