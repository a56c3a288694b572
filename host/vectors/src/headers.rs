//! What the headers of a body's subbands state.

use reference::codes::{BitReader, PastEnd};
use reference::params::{subbands, Parameters, Subband};
use std::ops::Range;

/// A subband, as its header states it.
pub struct Header {
    pub band: Subband,
    /// Its quantiser index, or none where it is skipped.
    pub index: Option<u64>,
    /// Where its data bytes stand in the body; where it is skipped there are none.
    pub data: Range<usize>,
}

/// The headers of a body's subbands in stream order, or none where one can't be read or the body ends before
/// the data. The parameters must be in range; an index need not be.
pub fn headers(p: &Parameters, body: &[u8]) -> Option<Vec<Header>> {
    let mut list = Vec::new();
    let mut end = 0;
    for band in subbands(p) {
        let mut reader = BitReader::new(body.get(end..)?, PastEnd::Missing);
        let length = reader.number().ok()? as usize;
        let index = match length {
            0 => None,
            _ => Some(reader.number().ok()?),
        };
        let start = end + reader.align();
        end = start + length;
        let data = start..end;
        list.push(Header { band, index, data });
    }
    (end <= body.len()).then_some(list)
}
