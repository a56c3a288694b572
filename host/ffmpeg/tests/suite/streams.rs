//! Dirac streams.

use ffmpeg::peer::ivf_file;
use ffmpeg::stream::{BitDepth, ChromaFormat, Format, Stream};
use reference::Parameters;
use vectors::pieces::plain;
use vectors::slices::{sliced, with_matrix};

/// A parse info header.
fn parse_info(parse_code: u8, next: u8, previous: u8) -> Vec<u8> {
    let mut bytes = b"BBCD".to_vec();
    bytes.extend([parse_code, 0, 0, 0, next, 0, 0, 0, previous]);
    bytes
}

#[test]
fn a_stream_is_its_data_units() {
    let p = Parameters {
        codeblocks_across: [1, 2, 9, 9, 9],
        ..plain(2, 2, 1, 3, true)
    };
    let mut stream = Stream::new(Format::full(2, 2, BitDepth::Eight));
    let offset = stream.add_picture(0x0102_0304, &p, [&[0xAA, 0xBB], &[0xCC], &[0xDD]]);

    let mut expected = parse_info(0x00, 13 + 4, 0);
    // 2, 2, 0, 0, 0; yes, 2, 2; yes, 0; four times no; yes, 1; no; 0.
    expected.extend([0b0110_1111, 0b1101_1011, 0b1100_0010, 0b0101_0000]);
    expected.extend(parse_info(0x48, 13 + 11, 13 + 4));
    assert_eq!(offset, expected.len());
    expected.extend([1, 2, 3, 4]);
    // 3, 1; yes; 1, 1, 2, 1; 0.
    expected.extend([0b0000_1001, 0b1001_0010, 0b1100_1100]);
    expected.extend([0xAA, 0xBB, 0xCC, 0xDD]);
    assert_eq!(stream.bytes(), expected);

    expected.extend(parse_info(0x10, 0, 13 + 11));
    let units = stream.end();
    assert_eq!(units.len(), 3);
    assert_eq!(units.concat(), expected);
}

#[test]
fn a_picture_that_is_not_intra_names_a_flat_reference() {
    let p = plain(130, 2, 1, 3, false);
    let mut stream = Stream::new(Format::full(130, 2, BitDepth::Eight));
    stream.add_reference();
    stream.add_picture(2, &p, [&[0xAA], &[0xBB], &[0xCC]]);
    let units = stream.end();

    let mut reference = parse_info(0x4C, 13 + 20, units[0].len() as u8);
    reference.extend([0, 0, 0, 0]);
    // 0; 3, 1; yes; 1, 1, 1, 1; 0.
    reference.extend([0b1000_0000, 0b0000_1001, 0b1001_0010, 0b0100_1100]);
    reference.extend([0b1000_0000; 12]);
    assert_eq!(units[1], reference);

    let mut picture = parse_info(0x49, 13 + 21, 13 + 20);
    picture.extend([0, 0, 0, 2]);
    // -2; 1, 0, no, 0, no.
    picture.extend([0b0111_0000, 0b0011_0100]);
    // Nothing; 2 bytes for 9 superblocks; five times nothing.
    picture.extend([0b1000_0000, 0b0110_0000, 0, 0]);
    picture.extend([0b1000_0000; 5]);
    // No; 3, 1; yes; 1, 1, 1, 1; 0.
    picture.extend([0b0000_0100, 0b1100_1001, 0b0010_0110]);
    picture.extend([0xAA, 0xBB, 0xCC]);
    assert_eq!(units[2], picture);
}

#[test]
fn a_low_delay_picture_has_its_slices_and_its_matrix() {
    let p = sliced((2, 4), (1, 2), 1, true, (2, 1), (3, 2));
    let p = with_matrix(&p, &[2, 1, 0, 3, 127]);
    let format = Format {
        width: 2,
        height: 4,
        chroma: ChromaFormat::HalfSize,
        bit_depth: BitDepth::Eight,
    };
    assert_eq!(format.sizes(), [(2, 4), (1, 2), (1, 2)]);
    let mut stream = Stream::new(format);
    let offset = stream.add_low_delay(5, &p, 3, &[0xAA, 0xBB, 0xCC]);
    let units = stream.end();
    assert_eq!(offset, units[0].len() + 13);
    // 2, 2, 0, 0, 0; yes, 2, 4; yes, 2; four times no; yes, 1; no; 0.
    assert_eq!(
        units[0][13..],
        [0b0110_1111, 0b1101_1000, 0b1110_1100, 0b0010_0101]
    );

    let mut picture = parse_info(0xC8, 13 + 12, units[0].len() as u8);
    picture.extend([0, 0, 0, 5]);
    // 3, 1; 2, 1; 3, 2; yes; 2, 1, 0, 3.
    picture.extend([
        0b0000_1001,
        0b0110_0100,
        0b0010_1110,
        0b1100_1100,
        0b0010_0000,
    ]);
    picture.extend([0xAA, 0xBB, 0xCC]);
    assert_eq!(units[1], picture);
}

#[test]
fn an_ivf_file_has_a_packet_for_each_data_unit() {
    let mut expected = b"DKIF\0\0\x20\0drac\0\0\0\0".to_vec();
    expected.extend([25, 0, 0, 0, 1, 0, 0, 0, 2, 0, 0, 0, 0, 0, 0, 0]);
    assert_eq!(expected.len(), 32);
    expected.extend([2, 0, 0, 0, 0, 0, 0, 0, 0, 0, 0, 0, 0xAA, 0xBB]);
    expected.extend([1, 0, 0, 0, 1, 0, 0, 0, 0, 0, 0, 0, 0xCC]);
    assert_eq!(ivf_file(&[vec![0xAA, 0xBB], vec![0xCC]]), expected);
}

#[test]
fn bit_depths_have_their_sizes() {
    let sizes = BitDepth::ALL.map(|depth| (depth.bits(), depth.sample_bytes(), depth.offset()));
    assert_eq!(sizes, [(8, 1, 128), (10, 2, 512), (12, 2, 2048)]);
}
