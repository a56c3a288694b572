//! What slices state at their start.

use reference::codes::BitReader;
use reference::low_delay::{luma_length_bits, INDEX_BITS};
use reference::LowDelay;

/// What a slice states.
#[derive(Clone, Copy, Debug, PartialEq, Eq)]
pub struct SliceHeader {
    /// How many bytes it has.
    pub bytes: usize,
    pub index: u32,
    pub luma_length: usize,
}

/// What each slice states that is there to its last byte; the parameters must be in range.
pub fn slice_headers(p: &LowDelay, bytes: &[u8]) -> Vec<SliceHeader> {
    (0..p.slice_count())
        .map_while(|k| bytes.get(p.slice_range(k)))
        .map(|slice| {
            let mut reader = BitReader::of_part(slice, 0..8 * slice.len());
            let mut bits = |count| reader.bits(count).expect("a slice has its header");
            SliceHeader {
                bytes: slice.len(),
                index: bits(INDEX_BITS) as u32,
                luma_length: bits(luma_length_bits(slice.len())) as usize,
            }
        })
        .collect()
}
