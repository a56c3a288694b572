//! The codes of the bodies that cases have.

use compare::{Case, Kind};
use reference::codes::{BitReader, PastEnd};
use reference::params::{padded_width, Subband, COEFFICIENT_RANGE};
use reference::transform::fits_32_bits;
use reference::unpack::{codeblock_start, dequantise};
use reference::{Answer, Parameters};
use std::sync::OnceLock;
use vectors::headers::{headers, Header};

/// A codeblock.
#[derive(Clone, Copy)]
pub struct Block {
    pub width: usize,
    pub height: usize,
    /// How many entries of the plane lie between one of its rows and the next.
    pub gap: usize,
    /// Its flag, if it has one.
    pub flag: Option<u64>,
}

impl Block {
    /// How many of its values a reader of short rows takes as one run: those of a row, or all.
    pub fn values_at_once(&self) -> usize {
        if self.width > 64 {
            self.width
        } else {
            self.height * self.width
        }
    }
}

/// A number's code in the data of a subband.
pub struct Code {
    pub number: i64,
    /// Its first bit, its bits, and how many bits the data has.
    pub at: usize,
    pub bits: usize,
    pub end: usize,
    /// How many ones the data has from its first bit on.
    pub ones: usize,
    /// Its codeblock, and which of its values it is.
    pub block: Block,
    pub i: usize,
}

impl Code {
    /// Its row and column in the codeblock.
    pub fn place(&self) -> (usize, usize) {
        (self.i / self.block.width, self.i % self.block.width)
    }

    /// How many values its row of the codeblock has left, this one included.
    pub fn row_left(&self) -> usize {
        self.block.width - self.i % self.block.width
    }

    /// How many values come before it in the run that is read at once.
    pub fn run_before(&self) -> usize {
        self.i % self.block.values_at_once()
    }

    /// How many values that run has left, this one included.
    pub fn run_left(&self) -> usize {
        self.block.values_at_once() - self.run_before()
    }
}

/// A subband that is not skipped.
pub struct Read {
    pub band: Subband,
    pub index: u64,
    /// The codeblocks whose flags begin in the data.
    pub blocks: Vec<Block>,
    /// The codes, up to the first that begins past the data's end.
    pub codes: Vec<Code>,
}

/// How many bits a signed number's code has.
fn code_bits(number: i64) -> usize {
    let data_bits = (number.unsigned_abs() + 1).ilog2() as usize;
    2 * data_bits + 1 + usize::from(number != 0)
}

/// How many ones data has from a bit on.
fn ones_from(data: &[u8], at: usize) -> usize {
    let bit = |at: &usize| data[at / 8] >> (7 - at % 8) & 1;
    (at..8 * data.len()).take_while(|at| bit(at) == 1).count()
}

/// The codeblocks and codes of a subband's data.
fn read_data(p: &Parameters, band: Subband, index: u64, data: &[u8]) -> Read {
    let across = p.codeblocks_across[band.level as usize] as usize;
    let down = p.codeblocks_down[band.level as usize] as usize;
    let span =
        |size, k, count| codeblock_start(size, k + 1, count) - codeblock_start(size, k, count);
    let mut reader = BitReader::new(data, PastEnd::One);
    let end = 8 * data.len();
    let mut at = 0;
    let (mut blocks, mut codes) = (Vec::new(), Vec::new());
    'blocks: for k in 0..across * down {
        let width = span(band.width, k % across, across);
        let mut block = Block {
            width,
            height: span(band.height, k / across, down),
            gap: padded_width(p) - width,
            flag: None,
        };
        if at >= end {
            break;
        }
        if across * down > 1 {
            block.flag = reader.bit().ok();
            at += 1;
        }
        blocks.push(block);
        if block.flag == Some(1) {
            continue;
        }
        for i in 0..block.width * block.height {
            if at >= end {
                break 'blocks;
            }
            let number = reader.signed_number().expect("codes in order");
            let bits = code_bits(number);
            codes.push(Code {
                number,
                at,
                bits,
                end,
                ones: ones_from(data, at),
                block,
                i,
            });
            at += bits;
        }
    }
    Read {
        band,
        index,
        blocks,
        codes,
    }
}

/// What is read of each subband of a body in order that is not skipped.
pub fn bands_read(p: &Parameters, bytes: &[u8]) -> Vec<Read> {
    let read = |header: Header| {
        let data = &bytes[header.data];
        Some(read_data(p, header.band, header.index?, data))
    };
    let headers = headers(p, bytes).expect("a body in order");
    headers.into_iter().filter_map(read).collect()
}

/// The codes of each subband of a body in order, with the quantiser index.
pub fn codes(p: &Parameters, bytes: &[u8]) -> Vec<(u64, Vec<Code>)> {
    let read = bands_read(p, bytes).into_iter();
    read.map(|read| (read.index, read.codes)).collect()
}

/// The first cases, made once for all tests.
pub fn first_cases() -> &'static [Case] {
    static CASES: OnceLock<Vec<Case>> = OnceLock::new();
    CASES.get_or_init(|| (1..=40_000).map(Case::from_seed).collect())
}

/// Those of a kind.
pub fn cases(kind: Kind) -> impl Iterator<Item = &'static Case> {
    first_cases().iter().filter(move |case| case.kind == kind)
}

/// What unpack answers.
pub fn unpack_answer(case: &Case) -> Answer {
    let mut plane = vec![0; case.coefficients.len()];
    reference::unpack(&case.parameters, &case.bytes, &mut plane)
}

/// The status that unpack answers.
pub fn unpack_status(case: &Case) -> u32 {
    unpack_answer(case).status
}

/// The numbers of a body in order that unpack dequantises, each with its quantiser index: all, or up to the
/// first whose value does not fit 32 bits, or those of level 0 where prediction refuses it.
pub fn dequantised(case: &Case) -> Vec<(u32, i64)> {
    let p = &case.parameters;
    let answer = unpack_answer(case);
    let mut list = Vec::new();
    for read in bands_read(p, &case.bytes) {
        let index = read.index as u32;
        for code in read.codes {
            list.push((index, code.number));
            if !fits_32_bits(dequantise(code.number, index, p.intra)) {
                return list;
            }
        }
        if read.band.level == 0 && answer == Answer::refused(COEFFICIENT_RANGE, 0) {
            break;
        }
    }
    list
}
