//! Dirac streams of pictures in core syntax, coded with variable-length codes, or of low delay pictures.
//!
//! Section numbers are those of the Dirac specification 2.2. In core syntax all three components have the
//! size of the picture (4:4:4). A picture that is not intra names a reference picture, as it must, but is
//! predicted by the value 0 everywhere: like an intra picture it shows its own samples.

use reference::codes::BitWriter;
use reference::{LowDelay, Parameters};
use vectors::pieces::plain;

/// How many components a picture has.
pub const COMPONENTS: usize = 3;

/// Parse codes (9.6.1).
const SEQUENCE_HEADER: u8 = 0x00;
const END_OF_SEQUENCE: u8 = 0x10;
const INTRA_PICTURE: u8 = 0x48;
const INTRA_REFERENCE_PICTURE: u8 = 0x4C;
const ONE_REFERENCE_PICTURE: u8 = 0x49;
const LOW_DELAY_PICTURE: u8 = 0xC8;

/// The number of the reference picture.
const REFERENCE_NUMBER: u32 = 0;

/// The samples of a superblock across and down, with the block parameters that are used (11.2.2).
const SUPERBLOCK_SIZE: u32 = 16;

/// The bytes of a parse info header (9.6).
const PARSE_INFO_LENGTH: usize = 13;

/// The bits of a decoded sample.
#[derive(Clone, Copy, Debug, PartialEq, Eq)]
pub enum BitDepth {
    Eight,
    Ten,
    Twelve,
}

impl BitDepth {
    /// All of them.
    pub const ALL: [BitDepth; 3] = [BitDepth::Eight, BitDepth::Ten, BitDepth::Twelve];

    /// The number of bits.
    pub fn bits(self) -> u32 {
        match self {
            BitDepth::Eight => 8,
            BitDepth::Ten => 10,
            BitDepth::Twelve => 12,
        }
    }

    /// The bytes that a sample takes in a raw picture.
    pub fn sample_bytes(self) -> usize {
        self.bits().div_ceil(8) as usize
    }

    /// What a decoder adds to a component's sample before it clips it to the unsigned range.
    pub fn offset(self) -> i32 {
        1 << (self.bits() - 1)
    }

    /// The preset signal range (10.3.8).
    fn signal_range(self) -> u64 {
        match self {
            BitDepth::Eight => 1,
            BitDepth::Ten => 3,
            BitDepth::Twelve => 4,
        }
    }
}

/// How large the chroma components are beside luma.
#[derive(Clone, Copy, Debug, PartialEq, Eq)]
pub enum ChromaFormat {
    /// 4:4:4: as large as luma.
    Full,
    /// 4:2:2: half as wide.
    HalfWidth,
    /// 4:2:0: half as wide and half as high.
    HalfSize,
}

impl ChromaFormat {
    /// All of them, in the order of their numbers (10.3.3).
    pub const ALL: [ChromaFormat; 3] = [
        ChromaFormat::Full,
        ChromaFormat::HalfWidth,
        ChromaFormat::HalfSize,
    ];

    /// The usual name.
    pub fn name(self) -> &'static str {
        match self {
            ChromaFormat::Full => "4:4:4",
            ChromaFormat::HalfWidth => "4:2:2",
            ChromaFormat::HalfSize => "4:2:0",
        }
    }

    /// What width and height are divided by.
    pub fn divisors(self) -> (u32, u32) {
        match self {
            ChromaFormat::Full => (1, 1),
            ChromaFormat::HalfWidth => (2, 1),
            ChromaFormat::HalfSize => (2, 2),
        }
    }
}

/// The form of a stream's pictures.
#[derive(Clone, Copy, Debug, PartialEq, Eq)]
pub struct Format {
    pub width: u32,
    pub height: u32,
    pub chroma: ChromaFormat,
    pub bit_depth: BitDepth,
}

impl Format {
    /// A picture whose components are all of one size.
    pub fn full(width: u32, height: u32, bit_depth: BitDepth) -> Format {
        Format {
            width,
            height,
            chroma: ChromaFormat::Full,
            bit_depth,
        }
    }

    /// The width and the height of a chroma component, which FFmpeg wants to be whole halves.
    pub fn chroma_size(&self) -> (u32, u32) {
        let (across, down) = self.chroma.divisors();
        (self.width / across, self.height / down)
    }

    /// The width and the height of each component.
    pub fn sizes(&self) -> [(u32, u32); COMPONENTS] {
        let chroma = self.chroma_size();
        [(self.width, self.height), chroma, chroma]
    }
}

/// A stream that grows by data units (9.3).
#[derive(Default)]
pub struct Stream {
    units: Vec<Vec<u8>>,
}

impl Stream {
    /// A stream that begins with a sequence header (10).
    pub fn new(format: Format) -> Stream {
        let mut header = BitWriter::new();
        // Version 2.2, profile and level 0, a custom video format.
        for number in [2, 2, 0, 0, 0] {
            header.number(number);
        }
        header.bit(true);
        header.number(format.width.into());
        header.number(format.height.into());
        header.bit(true);
        header.number(format.chroma as u64);
        // Scan format, frame rate, pixel aspect ratio and clean area are those of the video format.
        for _ in 0..4 {
            header.bit(false);
        }
        header.bit(true);
        header.number(format.bit_depth.signal_range());
        // The colour specification is that of the video format; pictures are frames.
        header.bit(false);
        header.number(0);
        let mut stream = Stream::default();
        stream.add_unit(SEQUENCE_HEADER, &header.to_bytes(false));
        stream
    }

    /// Adds the reference picture, which is flat and comes before every picture that is not intra.
    pub fn add_reference(&mut self) {
        let mut data = REFERENCE_NUMBER.to_be_bytes().to_vec();
        // No picture is retired (11.1.1).
        data.extend(signed_number(0));
        // Depth 1; the size is the stream's.
        data.extend(transform_parameters(&plain(1, 1, 1, 3, true)));
        // Each of the four subbands is skipped.
        data.extend([0x80; 4 * COMPONENTS]);
        self.add_unit(INTRA_REFERENCE_PICTURE, &data);
    }

    /// Adds a picture (11, 12) whose components have these bodies; answers where its number stands in
    /// the stream, in four bytes from the highest on. The parameters must have the size of the stream.
    /// Number 0 is the reference picture's, where there is one.
    pub fn add_picture(
        &mut self,
        number: u32,
        p: &Parameters,
        bodies: [&[u8]; COMPONENTS],
    ) -> usize {
        let mut data = number.to_be_bytes().to_vec();
        if !p.intra {
            // The reference picture's number, less this one's (11.1.1).
            let difference = i64::from(REFERENCE_NUMBER) - i64::from(number);
            data.extend(signed_number(difference));
            data.extend(motion_data(p.width, p.height));
        }
        data.extend(transform_parameters(p));
        for body in bodies {
            data.extend(body);
        }
        let parse_code = if p.intra {
            INTRA_PICTURE
        } else {
            ONE_REFERENCE_PICTURE
        };
        self.add_unit(parse_code, &data)
    }

    /// Adds a low delay picture (11, 12) with a wavelet and these bytes of slices; answers where its number
    /// stands, as for other pictures. It is read as an intra picture, whatever its parameters say, which must
    /// have the sizes of the stream.
    pub fn add_low_delay(
        &mut self,
        number: u32,
        p: &LowDelay,
        wavelet: u32,
        bytes: &[u8],
    ) -> usize {
        let mut data = number.to_be_bytes().to_vec();
        data.extend(slice_parameters(p, wavelet));
        data.extend(bytes);
        self.add_unit(LOW_DELAY_PICTURE, &data)
    }

    /// The bytes so far.
    pub fn bytes(&self) -> Vec<u8> {
        self.units.concat()
    }

    /// The data units with the end of the sequence.
    pub fn end(mut self) -> Vec<Vec<u8>> {
        self.add_unit(END_OF_SEQUENCE, &[]);
        self.units
    }

    /// Adds a parse info header (9.6) and what follows it; answers where in the stream that begins.
    fn add_unit(&mut self, parse_code: u8, data: &[u8]) -> usize {
        let before: usize = self.units.iter().map(Vec::len).sum();
        let length = PARSE_INFO_LENGTH + data.len();
        // The last unit has no next one, and the first has none before it.
        let next = if parse_code == END_OF_SEQUENCE {
            0
        } else {
            length
        };
        let previous = self.units.last().map_or(0, Vec::len);
        let mut unit = b"BBCD".to_vec();
        unit.push(parse_code);
        for offset in [next, previous] {
            let offset = u32::try_from(offset).expect("a data unit below 4 GiB");
            unit.extend(offset.to_be_bytes());
        }
        unit.extend(data);
        self.units.push(unit);
        before + PARSE_INFO_LENGTH
    }
}

/// A signed number, up to the byte boundary.
fn signed_number(number: i64) -> Vec<u8> {
    let mut writer = BitWriter::new();
    writer.signed_number(number);
    writer.to_bytes(false)
}

/// Where the transform of a picture begins (11.3): whether its residual is zero, which an intra picture
/// doesn't say, and the transform parameters.
fn transform_parameters(p: &Parameters) -> Vec<u8> {
    let mut transform = BitWriter::new();
    if !p.intra {
        transform.bit(false);
    }
    transform.number(p.wavelet.into());
    transform.number(p.depth.into());
    transform.bit(true);
    for level in 0..=p.depth as usize {
        transform.number(p.codeblocks_across[level].into());
        transform.number(p.codeblocks_down[level].into());
    }
    // One quantiser for each subband.
    transform.number(0);
    transform.to_bytes(false)
}

/// Where the transform of a low delay picture begins (11.3): the transform parameters, with the matrix always
/// written out.
fn slice_parameters(p: &LowDelay, wavelet: u32) -> Vec<u8> {
    let picture = &p.picture;
    let mut transform = BitWriter::new();
    for number in [
        wavelet,
        picture.depth,
        picture.slices_across,
        picture.slices_down,
        p.numerator,
        p.denominator,
    ] {
        transform.number(number.into());
    }
    transform.bit(true);
    for &entry in picture.used_matrix() {
        transform.number(entry.into());
    }
    transform.to_bytes(false)
}

/// The prediction of a picture of a size that has one reference: 0, from its own value, everywhere.
fn motion_data(width: u32, height: u32) -> Vec<u8> {
    let mut prediction = BitWriter::new();
    // Picture prediction parameters (11.2): the smallest blocks; motion vectors of whole samples; no
    // global motion; prediction mode 0; the reference's weight is the default.
    prediction.number(1);
    prediction.number(0);
    prediction.bit(false);
    prediction.number(0);
    prediction.bit(false);
    let mut data = prediction.to_bytes(false);
    // A bit for each superblock: 0, it doesn't use the reference. FFmpeg's arithmetic decoder, which reads
    // all motion data, finds zeros here, too.
    let superblocks = width.div_ceil(SUPERBLOCK_SIZE) * height.div_ceil(SUPERBLOCK_SIZE);
    let no_reference = vec![0; superblocks.div_ceil(8) as usize];
    // Block motion data (12.3), each with its length: split modes, prediction modes, motion vectors across
    // and down, and the values of the three components. A bit past the length is 1, so that every number is
    // 0: no superblock is split, and all values are 0.
    let sections: [&[u8]; 7] = [&[], &no_reference, &[], &[], &[], &[], &[]];
    for section in sections {
        let mut length = BitWriter::new();
        length.number(section.len() as u64);
        data.extend(length.to_bytes(false));
        data.extend(section);
    }
    data
}
