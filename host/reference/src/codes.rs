//! Bits and number codes, read and written.
//!
//! States document 01, "Number codes" (interleaved exp-Golomb codes).

use crate::params::{BYTES_END, CODE_TOO_LONG};
use std::ops::Range;

/// The most data bits a number code may have.
pub const MAX_DATA_BITS: u32 = 31;

/// What reading a bit past the end gives.
#[derive(Clone, Copy, Debug, PartialEq, Eq)]
pub enum PastEnd {
    /// Status 6: as in a subband's header.
    Missing,
    /// A 1: as in codeblock data of a stated length, and in a slice's parts.
    One,
}

/// Reads bits from the top of each byte.
pub struct BitReader<'a> {
    bytes: &'a [u8],
    position: usize,
    /// How many bits lie before the end.
    end: usize,
    past_end: PastEnd,
}

impl<'a> BitReader<'a> {
    /// A reader at the first bit of these bytes.
    pub fn new(bytes: &'a [u8], past_end: PastEnd) -> BitReader<'a> {
        BitReader {
            bytes,
            position: 0,
            end: 8 * bytes.len(),
            past_end,
        }
    }

    /// A reader of a part of these bytes' bits (document 02, "Low delay slices": "a bit past a part's end
    /// reads as 1").
    pub fn of_part(bytes: &'a [u8], part: Range<usize>) -> BitReader<'a> {
        assert!(part.start <= part.end && part.end <= 8 * bytes.len());
        BitReader {
            bytes,
            position: part.start,
            end: part.end,
            past_end: PastEnd::One,
        }
    }

    /// The next bit, or status 6 (document 01, "Number codes").
    pub fn bit(&mut self) -> Result<u64, u32> {
        if self.position >= self.end {
            return match self.past_end {
                PastEnd::Missing => Err(BYTES_END),
                PastEnd::One => Ok(1),
            };
        }
        let bit = self.bytes[self.position / 8] >> (7 - self.position % 8) & 1;
        self.position += 1;
        Ok(u64::from(bit))
    }

    /// The number that the next bits are, the highest first, or status 6.
    pub fn bits(&mut self, count: usize) -> Result<u64, u32> {
        let mut number = 0;
        for _ in 0..count {
            number = 2 * number + self.bit()?;
        }
        Ok(number)
    }

    /// The next number, or status 6 or 7 (document 01, "Number codes").
    pub fn number(&mut self) -> Result<u64, u32> {
        let mut v = 1;
        let mut data_bits = 0;
        loop {
            if self.bit()? == 1 {
                return Ok(v - 1);
            }
            if data_bits == MAX_DATA_BITS {
                return Err(CODE_TOO_LONG);
            }
            v = 2 * v + self.bit()?;
            data_bits += 1;
        }
    }

    /// The next signed number, or status 6 or 7 (document 01, "Number codes").
    pub fn signed_number(&mut self) -> Result<i64, u32> {
        let magnitude = i64::try_from(self.number()?).expect("at most 31 data bits");
        if magnitude != 0 && self.bit()? == 1 {
            Ok(-magnitude)
        } else {
            Ok(magnitude)
        }
    }

    /// Goes to the next byte boundary unless on one, and answers how many bytes lie before it.
    pub fn align(&mut self) -> usize {
        let bytes = self.position.div_ceil(8);
        self.position = bytes * 8;
        bytes
    }
}

/// Collects bits, to be written from the top of each byte.
#[derive(Clone, Debug, Default)]
pub struct BitWriter {
    bits: Vec<bool>,
}

impl BitWriter {
    /// A writer with no bits.
    pub fn new() -> BitWriter {
        BitWriter::default()
    }

    /// Adds one bit.
    pub fn bit(&mut self, bit: bool) {
        self.bits.push(bit);
    }

    /// Adds the low bits of a number, the highest first.
    pub fn bits(&mut self, number: u64, count: usize) {
        for bit in (0..count).rev() {
            self.bit(number >> bit & 1 == 1);
        }
    }

    /// Adds the bits of another writer.
    pub fn append(&mut self, other: &BitWriter) {
        self.bits.extend(&other.bits);
    }

    /// How many bits there are.
    pub fn count(&self) -> usize {
        self.bits.len()
    }

    /// Makes the number of bits this: cuts bits off at the end, or adds the given bit there.
    pub fn cut_or_fill(&mut self, count: usize, fill: bool) {
        self.bits.resize(count, fill);
    }

    /// Adds a number's code; from 2^32 - 1 up it has more than 31 data bits (document 01, "Number
    /// codes").
    pub fn number(&mut self, number: u64) {
        let v = u128::from(number) + 1;
        for bit in (0..v.ilog2()).rev() {
            self.bit(false);
            self.bit(v >> bit & 1 == 1);
        }
        self.bit(true);
    }

    /// Adds a signed number's code (document 01, "Number codes").
    pub fn signed_number(&mut self, number: i64) {
        self.number(number.unsigned_abs());
        if number != 0 {
            self.bit(number < 0);
        }
    }

    /// Drops every 1 at the end.
    pub fn drop_trailing_ones(&mut self) {
        while self.bits.last() == Some(&true) {
            self.bits.pop();
        }
    }

    /// The bits as bytes, the last byte filled up with the given bit.
    pub fn to_bytes(&self, fill: bool) -> Vec<u8> {
        let byte = |bits: &[bool]| {
            (0..8).fold(0, |byte, k| {
                byte << 1 | u8::from(*bits.get(k).unwrap_or(&fill))
            })
        };
        self.bits.chunks(8).map(byte).collect()
    }
}
