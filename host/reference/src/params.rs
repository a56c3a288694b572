//! Parameters, statuses, sizes, subbands, and the checks made before any work.
//!
//! States document 01, "What the decoder covers", "Refusal numbers" (1 to 5)
//! and "Sizes and the coefficient plane". Status 12 is document 02's, request One; 13 and 14 are its request
//! Four.

/// Status 0: accepted.
pub const ACCEPTED: u32 = 0;
/// Status 1: width or height outside 1..4096.
pub const BAD_SIZE: u32 = 1;
/// Status 2: depth outside 0..4.
pub const BAD_DEPTH: u32 = 2;
/// Status 3: wavelet index outside 0..6.
pub const BAD_WAVELET: u32 = 3;
/// Status 4: a codeblock count of a level 0..depth outside 1..255.
pub const BAD_CODEBLOCKS: u32 = 4;
/// Status 5: a plane hasn't exactly the length it needs.
pub const BAD_PLANE_LENGTH: u32 = 5;
/// Status 6: the bytes end early.
pub const BYTES_END: u32 = 6;
/// Status 7: a number code has more than 31 data bits.
pub const CODE_TOO_LONG: u32 = 7;
/// Status 8: a quantiser index above 115.
pub const BAD_QUANTISER: u32 = 8;
/// Status 9: an unpacked or predicted value outside signed 32 bits.
pub const COEFFICIENT_RANGE: u32 = 9;
/// Status 10: a number assigned in synthesis outside signed 32 bits.
pub const SYNTHESIS_RANGE: u32 = 10;
/// Status 11: a recording's table is wrong.
pub const BAD_RECORDING: u32 = 11;
/// Status 12: a recording's entry is accepted, but doesn't use its whole body (document 02, "Left-over
/// bytes are a fault").
pub const LEFT_OVER_BYTES: u32 = 12;
/// Status 13: a slice count, the fraction of bytes or a used matrix entry is bad (document 02, "Low delay
/// slices").
pub const BAD_SLICES: u32 = 13;
/// Status 14: a slice's luma length exceeds the bits left (document 02, "Low delay slices").
pub const BAD_LUMA_LENGTH: u32 = 14;

/// The largest quantiser index that is accepted.
pub const MAX_QUANTISER: u64 = 115;

/// What a picture is decoded with. The fields may have values out of range.
#[derive(Clone, Debug, PartialEq, Eq)]
pub struct Parameters {
    pub width: u32,
    pub height: u32,
    pub depth: u32,
    pub wavelet: u32,
    pub intra: bool,
    /// Codeblocks across, for each level; those above the depth don't matter.
    pub codeblocks_across: [u32; 5],
    /// Codeblocks down, for each level; those above the depth don't matter.
    pub codeblocks_down: [u32; 5],
}

/// What a job answers: a status and a place (document 01, "Refusal numbers").
#[derive(Clone, Copy, Debug, PartialEq, Eq)]
pub struct Answer {
    pub status: u32,
    pub place: u64,
}

impl Answer {
    /// The answer for an accepted call that used this many bytes.
    pub fn accepted(bytes_used: u64) -> Answer {
        Answer {
            status: ACCEPTED,
            place: bytes_used,
        }
    }

    /// The answer for a refused call.
    pub fn refused(status: u32, place: u64) -> Answer {
        Answer { status, place }
    }
}

/// Status 1 unless width and height are both 1..4096 (document 01, "What the decoder covers").
pub fn check_size(p: &Parameters) -> Result<(), Answer> {
    let range = 1..=4096;
    if range.contains(&p.width) && range.contains(&p.height) {
        Ok(())
    } else {
        Err(Answer::refused(BAD_SIZE, 0))
    }
}

/// Status 2 unless the depth is 0..4 (document 01, "What the decoder covers").
pub fn check_depth(p: &Parameters) -> Result<(), Answer> {
    if p.depth <= 4 {
        Ok(())
    } else {
        Err(Answer::refused(BAD_DEPTH, 0))
    }
}

/// Status 3 unless the wavelet index is 0..6 (document 01, "What the decoder covers").
pub fn check_wavelet(p: &Parameters) -> Result<(), Answer> {
    if p.wavelet <= 6 {
        Ok(())
    } else {
        Err(Answer::refused(BAD_WAVELET, 0))
    }
}

/// Status 4 unless both counts of every level 0..depth are 1..255 (document 01, "What the decoder
/// covers"). The depth must be in range.
pub fn check_codeblocks(p: &Parameters) -> Result<(), Answer> {
    let range = 1..=255;
    for level in 0..=p.depth as usize {
        if !range.contains(&p.codeblocks_across[level])
            || !range.contains(&p.codeblocks_down[level])
        {
            return Err(Answer::refused(BAD_CODEBLOCKS, 0));
        }
    }
    Ok(())
}

/// Status 5 unless a plane has exactly the length it needs (document 01, "Refusal numbers").
pub fn check_length(found: usize, needed: usize) -> Result<(), Answer> {
    if found == needed {
        Ok(())
    } else {
        Err(Answer::refused(BAD_PLANE_LENGTH, 0))
    }
}

// Everything below needs a size and a depth in range.

/// The multiple of 2^depth reached by padding (document 01, "Sizes and the coefficient plane").
fn padded(size: u32, depth: u32) -> usize {
    let s = 1usize << depth;
    (size as usize).div_ceil(s) * s
}

/// The padded width (document 01, "Sizes and the coefficient plane").
pub fn padded_width(p: &Parameters) -> usize {
    padded(p.width, p.depth)
}

/// The padded height (document 01, "Sizes and the coefficient plane").
pub fn padded_height(p: &Parameters) -> usize {
    padded(p.height, p.depth)
}

/// The entries of a coefficient or work plane (document 01, "Refusal numbers").
pub fn padded_area(p: &Parameters) -> usize {
    padded_width(p) * padded_height(p)
}

/// The entries of a sample plane (document 01, "Refusal numbers").
pub fn sample_area(p: &Parameters) -> usize {
    p.width as usize * p.height as usize
}

/// Which quarter of its level a subband is.
#[derive(Clone, Copy, Debug, PartialEq, Eq)]
pub enum Orientation {
    LL,
    HL,
    LH,
    HH,
}

/// A subband's level, size, and first column and row in the coefficient plane.
#[derive(Clone, Copy, Debug, PartialEq, Eq)]
pub struct Subband {
    pub level: u32,
    pub orientation: Orientation,
    pub left: usize,
    pub top: usize,
    pub width: usize,
    pub height: usize,
}

/// One subband (document 01, "Sizes and the coefficient plane").
pub fn subband_at(p: &Parameters, level: u32, orientation: Orientation) -> Subband {
    let halvings = if level == 0 {
        p.depth
    } else {
        p.depth - level + 1
    };
    let width = padded_width(p) >> halvings;
    let height = padded_height(p) >> halvings;
    let (left, top) = match orientation {
        Orientation::LL => (0, 0),
        Orientation::HL => (width, 0),
        Orientation::LH => (0, height),
        Orientation::HH => (width, height),
    };
    Subband {
        level,
        orientation,
        left,
        top,
        width,
        height,
    }
}

/// All subbands in stream order (document 01, "Sizes and the coefficient plane").
pub fn subbands(p: &Parameters) -> Vec<Subband> {
    let mut list = vec![subband_at(p, 0, Orientation::LL)];
    for level in 1..=p.depth {
        for orientation in [Orientation::HL, Orientation::LH, Orientation::HH] {
            list.push(subband_at(p, level, orientation));
        }
    }
    list
}
