//! Whose slices FFmpeg reads as document 02 has them.

use super::{slice_entries, LowDelayPicture};
use crate::eligibility::Aside;
use crate::stream::COMPONENTS;
use reference::codes::BitReader;
use reference::encode_low_delay::code_bits;
use reference::low_delay::{bits_for_values, luma_length_bits, INDEX_BITS};
use reference::Parameters;
use std::ops::Range;

/// Why FFmpeg's samples of each component of an accepted picture confirm nothing, if its slices are why.
pub fn check_slices(picture: &LowDelayPicture) -> [Result<(), Aside>; COMPONENTS] {
    let slices = 0..picture.parameters.slice_count();
    let checked: Vec<[Result<(), Aside>; 2]> =
        slices.map(|slice| check_slice(picture, slice)).collect();
    let first = |part: usize| checked.iter().try_for_each(|both| both[part]);
    let (luma, chroma) = (first(0), first(1));
    [luma, chroma, chroma]
}

/// The same for luma and chroma of one slice.
fn check_slice(picture: &LowDelayPicture, slice: usize) -> [Result<(), Aside>; 2] {
    let p = &picture.parameters;
    let bytes = &picture.bytes[p.slice_range(slice)];
    if bytes.len().is_power_of_two() {
        return [Err(Aside::SliceLength); 2];
    }
    let end = 8 * bytes.len();
    let start = end - bits_for_values(bytes.len());
    let mut header = BitReader::of_part(bytes, INDEX_BITS..start);
    let length = header
        .bits(luma_length_bits(bytes.len()))
        .expect("an accepted picture") as usize;
    let values = |component: Parameters| slice_entries(&p.picture, &component, slice).len();
    let luma = part_end(bytes, start..start + length, values(p.luma()));
    let chroma = part_end(bytes, start + length..end, 2 * values(p.chroma()));
    match (luma, chroma) {
        (PartEnd::InsideNumber, _) => [Err(Aside::CutNumber); 2],
        (PartEnd::LeftOver, _) => [Ok(()), Err(Aside::LumaLeftOver)],
        (_, PartEnd::InsideNumber) => [Ok(()), Err(Aside::CutNumber)],
        _ => [Ok(()); 2],
    }
}

/// How the bits of a part of a slice end.
enum PartEnd {
    /// With a number; the others, if there are any, are 0.
    WithNumber,
    InsideNumber,
    /// After the last number, with bits left over.
    LeftOver,
}

/// How a part of a slice that has so many numbers ends.
fn part_end(bytes: &[u8], part: Range<usize>, numbers: usize) -> PartEnd {
    let mut reader = BitReader::of_part(bytes, part.clone());
    let mut bits = 0;
    for _ in 0..numbers {
        if bits == part.len() {
            break;
        }
        bits += code_bits(reader.signed_number().expect("an accepted picture")).0;
        if bits > part.len() {
            return PartEnd::InsideNumber;
        }
    }
    if bits == part.len() {
        PartEnd::WithNumber
    } else {
        PartEnd::LeftOver
    }
}
