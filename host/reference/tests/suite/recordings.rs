//! Recordings: what they print, and every breach of their form (document 01, "A recording"). Bodies that
//! aren't used to their end have a module of their own.

use crate::common::*;
use reference::recording::parse;
use reference::{read_recording, write_recording, Entry};

const REFUSED: &str = "refused 11\n";

/// An entry of one sample: its body is one subband of length 0.
fn small_entry() -> Entry {
    Entry {
        parameters: plain(1, 1, 0, 0, true),
        body: vec![0x80],
    }
}

/// A file of two entries, of bodies of 1 and 2 bytes.
fn two_entries() -> Vec<u8> {
    let mut second = small_entry();
    second.body = vec![0x30, 0b0011_0000];
    write_recording(&[small_entry(), second])
}

/// Where a field of an entry lies in the file.
fn field(entry: usize, at: usize) -> usize {
    1 + 26 * entry + at
}

/// The two entries' file with one byte changed.
fn changed(index: usize, byte: u8) -> String {
    let mut file = two_entries();
    assert_ne!(file[index], byte);
    file[index] = byte;
    read_recording(&file)
}

#[test]
fn two_entries_print() {
    assert_eq!(two_entries().len(), 1 + 52 + 3);
    assert_eq!(
        read_recording(&two_entries()),
        "entry 0: 1 x 1\n0\nentry 1: 1 x 1\n-1\n"
    );
}

#[test]
fn width_comes_before_height() {
    let entry = Entry {
        parameters: plain(3, 2, 0, 0, false),
        body: subband_bytes(0, &bits("1 0010 0110 000011 0010 1")),
    };
    assert_eq!(
        read_recording(&write_recording(&[entry])),
        "entry 0: 3 x 2\n0 1 2\n-3 1 0\n"
    );
}

#[test]
fn counts_out_of_range() {
    assert_eq!(read_recording(&[]), REFUSED);
    assert_eq!(read_recording(&[0]), REFUSED);
    assert_eq!(changed(0, 0), REFUSED);
    assert_eq!(changed(0, 1), REFUSED);
    assert_eq!(changed(0, 3), REFUSED);
    assert_eq!(changed(0, 255), REFUSED);
    let sixteen = vec![small_entry(); 16];
    assert_eq!(
        read_recording(&write_recording(&sixteen)).lines().count(),
        32
    );
    let seventeen = vec![small_entry(); 17];
    assert_eq!(read_recording(&write_recording(&seventeen)), REFUSED);
}

#[test]
fn a_short_table() {
    let file = two_entries();
    for length in 0..file.len() {
        assert_eq!(read_recording(&file[..length]), REFUSED, "{length} bytes");
    }
}

#[test]
fn intra_and_the_zero_byte() {
    for entry in 0..2 {
        for byte in [2, 3, 128, 255] {
            assert_eq!(changed(field(entry, 6), byte), REFUSED);
        }
        for byte in [1, 2, 128, 255] {
            assert_eq!(changed(field(entry, 7), byte), REFUSED);
        }
        assert_ne!(changed(field(entry, 6), 0), REFUSED);
    }
}

#[test]
fn offsets_and_lengths() {
    for entry in 0..2 {
        for byte in 18..26 {
            let index = field(entry, byte);
            let old = two_entries()[index];
            for new in [old.wrapping_add(1), old.wrapping_sub(1), old ^ 0x80] {
                assert_eq!(changed(index, new), REFUSED, "byte {index} is {new}");
            }
        }
    }
    // A longer first body, with the second entry left where it was: an overlap.
    let mut file = two_entries();
    file[field(0, 25)] = 2;
    assert_eq!(read_recording(&file), REFUSED);
    // The boundary between the bodies moved in both entries: no breach, but a body with a byte left over
    // and one without data.
    file[field(1, 21)] += 1;
    file[field(1, 25)] = 1;
    assert_eq!(
        read_recording(&file),
        "entry 0: refused 12 place 1\nentry 1: refused 6 place 0\n"
    );
    // Bodies in the other order.
    let mut file = two_entries();
    file[field(0, 21)] += 2;
    file[field(1, 21)] -= 1;
    assert_eq!(read_recording(&file), REFUSED);
    // An end that only fits if the sum wraps at 32 bits.
    let mut file = two_entries();
    file[field(1, 22)..field(1, 26)].copy_from_slice(&[0xFF; 4]);
    assert_eq!(read_recording(&file), REFUSED);
}

#[test]
fn the_last_body_ends_the_file() {
    let mut file = two_entries();
    file.push(0);
    assert_eq!(read_recording(&file), REFUSED);
    file.pop();
    file.pop();
    assert_eq!(read_recording(&file), REFUSED);
}

#[test]
fn an_empty_body_is_no_breach() {
    let mut entry = small_entry();
    entry.body.clear();
    assert_eq!(
        read_recording(&write_recording(&[entry.clone(), small_entry(), entry])),
        "entry 0: refused 6 place 0\nentry 1: 1 x 1\n0\nentry 2: refused 6 place 0\n"
    );
}

#[test]
fn the_largest_file() {
    // The stated length, which goes to the end of the file, counts as used.
    let mut entry = small_entry();
    let header = subband_bytes(0, &[0; 65_000]).len() - 65_000;
    entry.body = subband_bytes(0, &vec![0xAB; 65_536 - 27 - header]);
    let file = write_recording(&[entry.clone()]);
    assert_eq!(file.len(), 65_536);
    assert_eq!(read_recording(&file), "entry 0: 1 x 1\n0\n");
    entry.body.push(0);
    assert_eq!(read_recording(&write_recording(&[entry])), REFUSED);
}

/// The line or lines one entry prints.
fn printed(entry: &Entry) -> String {
    read_recording(&write_recording(&[entry.clone(), small_entry()]))
        .strip_suffix("entry 1: 1 x 1\n0\n")
        .expect("the next entry follows")
        .to_string()
}

#[test]
fn refused_entries() {
    let mut entry = small_entry();
    entry.parameters.width = 0;
    entry.parameters.depth = 5;
    entry.parameters.wavelet = 7;
    assert_eq!(printed(&entry), "entry 0: refused 1 place 0\n");
    entry.parameters.width = 4097;
    assert_eq!(printed(&entry), "entry 0: refused 1 place 0\n");
    entry.parameters.width = 1000;
    entry.parameters.height = 65_535;
    assert_eq!(printed(&entry), "entry 0: refused 1 place 0\n");
    entry.parameters.height = 1000;
    assert_eq!(printed(&entry), "entry 0: refused 2 place 0\n");
    entry.parameters.depth = 255;
    assert_eq!(printed(&entry), "entry 0: refused 2 place 0\n");
    entry.parameters.depth = 4;
    assert_eq!(printed(&entry), "entry 0: refused 3 place 0\n");
    // The padded area comes after those, and before the body.
    entry.parameters.wavelet = 6;
    entry.body.clear();
    assert_eq!(printed(&entry), "entry 0: refused 5 place 0\n");
    entry.parameters.width = 16;
    entry.parameters.height = 16;
    assert_eq!(printed(&entry), "entry 0: refused 6 place 0\n");
    entry.body = vec![0x80, 0, 0, 0, 0, 0, 0, 0, 0];
    assert_eq!(printed(&entry), "entry 0: refused 7 place 1\n");
    entry.body = vec![0x80, 0x80];
    entry.body.extend(subband_bytes(116, &[0]));
    assert_eq!(printed(&entry), "entry 0: refused 8 place 2\n");
    entry.body = vec![0x80; 12];
    entry.body.extend(subband_bytes(115, &bits("01001 0")));
    assert_eq!(printed(&entry), "entry 0: refused 9 place 12\n");
    entry.parameters = plain(2, 2, 1, 3, false);
    // -2^31, then 0, then 1: the even row gets one less.
    entry.body = subband_bytes(0, &bits(&("00".repeat(30) + "01" + "1" + "1")));
    entry.body.push(0x80);
    entry.body.extend(subband_bytes(0, &bits("0010")));
    entry.body.push(0x80);
    assert_eq!(printed(&entry), "entry 0: refused 10 place 1\n");
}

#[test]
fn the_largest_padded_area() {
    // 128 x 128 is 16,384; 113 x 113 pads to it at depth 4; one more column of padding is too much.
    for (width, height, depth, allowed) in [
        (128, 128, 0, true),
        (113, 113, 4, true),
        (129, 113, 4, false),
        (129, 128, 0, false),
        (129, 127, 0, true),
        (129, 127, 1, false),
        (4096, 4, 2, true),
        (4096, 4, 3, false),
    ] {
        let entry = Entry {
            parameters: plain(width, height, depth, 0, true),
            body: vec![0x80; 1 + 3 * depth as usize],
        };
        let first = printed(&entry).lines().next().unwrap().to_string();
        if allowed {
            assert_eq!(first, format!("entry 0: {width} x {height}"));
        } else {
            assert_eq!(first, "entry 0: refused 5 place 0");
        }
    }
}

#[test]
fn a_codeblock_count_of_zero_means_one() {
    let mut entry = small_entry();
    entry.parameters.codeblocks_across = [0, 3, 0, 255, 0];
    entry.parameters.codeblocks_down = [2, 0, 0, 0, 255];
    let parsed = parse(&write_recording(&[entry])).unwrap();
    assert_eq!(parsed[0].parameters.codeblocks_across, [1, 3, 1, 255, 1]);
    assert_eq!(parsed[0].parameters.codeblocks_down, [2, 1, 1, 1, 255]);
}

#[test]
fn written_recordings_parse_back() {
    let mut random = Random::new(7);
    for _ in 0..50 {
        let mut entries = Vec::new();
        for _ in 0..random.range(1, 16) {
            let mut count = || random.range(1, 255) as u32;
            let codeblocks_across = [count(), count(), count(), count(), count()];
            let codeblocks_down = [count(), count(), count(), count(), count()];
            let mut p = plain(
                random.range(0, 65_535) as u32,
                random.range(0, 65_535) as u32,
                random.range(0, 255) as u32,
                random.range(0, 255) as u32,
                random.flag(),
            );
            p.codeblocks_across = codeblocks_across;
            p.codeblocks_down = codeblocks_down;
            let length = random.range(0, 100);
            entries.push(Entry {
                parameters: p,
                body: (0..length).map(|_| random.bits() as u8).collect(),
            });
        }
        assert_eq!(parse(&write_recording(&entries)), Some(entries));
    }
}
