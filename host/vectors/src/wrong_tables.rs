//! Stored recordings whose table is wrong, and some whose table is only nearly so.
//!
//! Most are a recording of three accepted entries with a few bytes changed.

use crate::pieces::{joined, plain, signed_numbers, subband_bytes, with_codeblocks};
use crate::recording_vectors::{entry_of, Recording};
use crate::samples::whole_case;
use reference::encode::{encode_body, EncodeOptions, SubbandOptions};
use reference::params::padded_area;
use reference::recording::{write_recording, Entry, ENTRY_BYTES, MAX_ENTRIES, MAX_FILE};

/// The byte of intra in an entry.
pub const INTRA: usize = 6;
/// The byte of an entry that is 0.
pub const ZERO: usize = 7;
/// The first byte of an entry's offset.
pub const OFFSET: usize = 18;
/// The first byte of an entry's length.
pub const LENGTH: usize = 22;

/// Every recording of this module.
pub fn table_recordings() -> Vec<Recording> {
    [
        counts(),
        cuts(),
        flags(),
        offsets(),
        lengths(),
        files_of_the_largest_size(),
    ]
    .into_iter()
    .flatten()
    .collect()
}

/// A file under a name.
fn named(name: &str, file: Vec<u8>) -> Recording {
    Recording {
        name: name.to_string(),
        file,
    }
}

/// Three entries of bodies of 8, 3 and 2 bytes.
fn entries() -> [Entry; 3] {
    [
        whole_case(),
        entry_of(
            &plain(3, 1, 0, 2, true),
            subband_bytes(0, &signed_numbers(&[4, -1, 2])),
        ),
        entry_of(
            &plain(1, 1, 0, 6, false),
            subband_bytes(5, &signed_numbers(&[-3])),
        ),
    ]
}

/// The recording of the three.
fn three() -> Vec<u8> {
    write_recording(&entries())
}

/// Where a field of an entry lies in the file.
pub fn field(entry: usize, at: usize) -> usize {
    1 + ENTRY_BYTES * entry + at
}

/// The recording of the three with one byte put in place of another.
fn with_byte(index: usize, byte: u8) -> Vec<u8> {
    let mut file = three();
    assert_ne!(file[index], byte);
    file[index] = byte;
    file
}

/// A number of four bytes.
pub fn four(file: &[u8], start: usize) -> u32 {
    u32::from_be_bytes(file[start..start + 4].try_into().expect("four bytes"))
}

/// The file with numbers added to numbers of four bytes, which may wrap.
fn with_added(mut file: Vec<u8>, changes: &[(usize, i64)]) -> Vec<u8> {
    for &(start, add) in changes {
        let number = i64::from(four(&file, start)) + add;
        file[start..start + 4].copy_from_slice(&(number as u32).to_be_bytes());
    }
    file
}

/// The number of entries.
fn counts() -> Vec<Recording> {
    let seventeen = vec![entries()[2].clone(); MAX_ENTRIES + 1];
    let empty = entry_of(&plain(2, 2, 1, 3, true), vec![]);
    vec![
        named("table-empty-file", vec![]),
        named("table-count-0", with_byte(0, 0)),
        named("table-count-0-alone", vec![0]),
        named("table-count-17", write_recording(&seventeen)),
        named("table-count-17-over-three", with_byte(0, 17)),
        named("table-count-255", with_byte(0, 255)),
        named("table-count-above-the-rows", with_byte(0, 4)),
        named("table-count-16-over-three", with_byte(0, 16)),
        named("table-count-below-the-rows", with_byte(0, 2)),
        // Right: the smallest files, and 16 bodies without bytes.
        Recording::new("table-right-of-27-bytes", std::slice::from_ref(&empty)),
        Recording::new(
            "table-right-of-28-bytes",
            &[entry_of(&plain(1, 1, 0, 0, true), vec![0x80])],
        ),
        Recording::new("table-right-16-empty-bodies", &vec![empty.clone(); 16]),
        Recording::new(
            "table-right-empty-bodies-between",
            &[
                empty.clone(),
                entries()[0].clone(),
                empty.clone(),
                entries()[1].clone(),
                empty,
            ],
        ),
    ]
}

/// Files that end inside the table, and inside the bodies.
fn cuts() -> Vec<Recording> {
    let table = field(3, 0);
    let mut recordings = Vec::new();
    for end in [
        1,
        field(0, 1),
        field(0, OFFSET),
        field(1, 0) - 1,
        field(1, 0),
        field(1, LENGTH + 2),
        field(2, 0),
        table - 1,
        table,
        table + 8,
    ] {
        recordings.push(named(
            &format!("table-cut-after-{end}"),
            three()[..end].to_vec(),
        ));
    }
    recordings
}

/// The byte of intra and the one that is 0.
fn flags() -> Vec<Recording> {
    // An entry that would be refused for its size, in a table that is wrong there.
    let mut refused = entries();
    refused[1].parameters.width = 0;
    let mut intra_2 = write_recording(&refused);
    intra_2[field(1, INTRA)] = 2;
    // An entry that would be refused for left-over bytes, before one that is wrong.
    let mut longer = entries();
    longer[0].body.push(0x80);
    let mut behind_left_over = write_recording(&longer);
    behind_left_over[field(1, INTRA)] = 2;
    vec![
        named("table-intra-2", with_byte(field(0, INTRA), 2)),
        named("table-intra-255", with_byte(field(1, INTRA), 255)),
        named("table-intra-3-at-the-last", with_byte(field(2, INTRA), 3)),
        named("table-intra-2-of-a-refused-entry", intra_2),
        named("table-intra-2-behind-left-over-bytes", behind_left_over),
        named("table-zero-byte-1", with_byte(field(0, ZERO), 1)),
        named("table-zero-byte-255", with_byte(field(1, ZERO), 255)),
        named(
            "table-zero-byte-128-at-the-last",
            with_byte(field(2, ZERO), 128),
        ),
    ]
}

/// Offsets: the first, and those of bodies that leave a gap, overlap or change places.
fn offsets() -> Vec<Recording> {
    let first = field(0, OFFSET);
    let table = i64::from(four(&three(), first));
    // A byte more between two bodies, for the entry behind it to start after.
    let mut gap = three();
    gap.insert(table as usize + 8, 0x80);
    let exchanged = with_added(three(), &[(field(1, OFFSET), 2), (field(2, OFFSET), -3)]);
    let first_twice = with_added(three(), &[(field(1, OFFSET), -8), (field(1, LENGTH), 5)]);
    vec![
        named(
            "table-first-offset-one-less",
            with_added(three(), &[(first, -1)]),
        ),
        named(
            "table-first-offset-one-more",
            with_added(three(), &[(first, 1)]),
        ),
        named(
            "table-first-offset-0",
            with_added(three(), &[(first, -table)]),
        ),
        named(
            "table-first-offset-ffffffff",
            with_added(three(), &[(first, -1 - table)]),
        ),
        named(
            "table-first-offset-high-byte",
            with_added(three(), &[(first, 1 << 24)]),
        ),
        named(
            "table-first-offset-byte-order",
            with_added(
                three(),
                &[(first, i64::from((table as u32).swap_bytes()) - table)],
            ),
        ),
        // Offsets that count from the end of the table.
        named(
            "table-offsets-from-the-table-end",
            with_added(
                three(),
                &[0, 1, 2].map(|entry| (field(entry, OFFSET), -table)),
            ),
        ),
        named(
            "table-gap",
            with_added(gap.clone(), &[(field(1, OFFSET), 1), (field(2, OFFSET), 1)]),
        ),
        named(
            "table-gap-taken-by-the-body-before",
            with_added(gap, &[(field(0, LENGTH), 1)]),
        ),
        named(
            "table-overlap",
            with_added(three(), &[(field(1, OFFSET), -1), (field(1, LENGTH), 1)]),
        ),
        named(
            "table-overlap-of-a-longer-body",
            with_added(three(), &[(field(0, LENGTH), 1)]),
        ),
        named("table-bodies-exchanged", exchanged),
        named("table-one-body-twice", first_twice),
        // Right: the boundary between two bodies moved in both entries. Bodies that are cut there are
        // refused; bodies made for it are not.
        named("entries-cut-one-byte-late", boundary_moved()),
        named("table-right-boundary-moved", bodies_at_the_moved_boundary()),
    ]
}

/// The three with the first body a byte longer and the second a byte shorter, in the table alone.
fn boundary_moved() -> Vec<u8> {
    let changes = [
        (field(0, LENGTH), 1),
        (field(1, OFFSET), 1),
        (field(1, LENGTH), -1),
    ];
    with_added(three(), &changes)
}

/// The same table over bodies of those lengths: a byte of the last length of the first isn't used, and the
/// second has smaller values.
fn bodies_at_the_moved_boundary() -> Vec<u8> {
    let mut bodies = entries();
    let last = subband_bytes(0, &joined(signed_numbers(&[1]), &[0]));
    bodies[0].body.splice(6.., last);
    bodies[1].body = subband_bytes(0, &signed_numbers(&[0, 1, 0]));
    let file = write_recording(&bodies);
    let table = field(3, 0);
    assert_eq!(file[..table], boundary_moved()[..table]);
    file
}

/// Lengths: the last body against the file's end, and ends that pass 2^32.
fn lengths() -> Vec<Recording> {
    let last = field(2, LENGTH);
    let set = |number: i64| i64::from(number as u32) - i64::from(four(&three(), last));
    // A body of 2^32 less so many bytes: where its end wraps, the next body starts so many bytes earlier.
    let wrapped = |back: i64| {
        let length = i64::from(four(&three(), field(1, LENGTH)));
        with_added(
            three(),
            &[
                (field(1, LENGTH), -back - length),
                (field(2, OFFSET), -back - length),
                (field(2, LENGTH), back + length),
            ],
        )
    };
    let to_0 = i64::from(four(&three(), field(1, OFFSET)));
    let mut only = write_recording(&entries()[..1]);
    only[field(0, LENGTH)..field(1, 0)].fill(0xFF);
    vec![
        named("table-file-one-longer", joined(three(), &[0x80])),
        named("table-file-many-longer", joined(three(), &[0x80; 100])),
        named(
            "table-last-length-one-less",
            with_added(three(), &[(last, -1)]),
        ),
        named(
            "table-last-length-one-more",
            with_added(three(), &[(last, 1)]),
        ),
        named(
            "table-last-length-0",
            with_added(three(), &[(last, set(0))]),
        ),
        named(
            "table-last-length-ffffffff",
            with_added(three(), &[(last, set(-1))]),
        ),
        named(
            "table-last-length-80000000",
            with_added(three(), &[(last, set(1 << 31))]),
        ),
        named(
            "table-last-length-65536-more",
            with_added(three(), &[(last, 65536)]),
        ),
        named("table-only-length-ffffffff", only),
        named("table-sum-wraps-by-1", wrapped(1)),
        named("table-sum-wraps-to-the-table", wrapped(8)),
        named("table-sum-wraps-to-0", wrapped(to_0)),
    ]
}

/// A file of the largest size, and one of a byte more.
fn files_of_the_largest_size() -> Vec<Recording> {
    vec![
        named("file-of-65536-bytes", file_of(MAX_FILE)),
        named("file-of-65537-bytes", file_of(MAX_FILE + 1)),
    ]
}

/// A recording of so many bytes, its table right: the last subband's stated length ends the file, and
/// its values use a few of those bytes.
fn file_of(bytes: usize) -> Vec<u8> {
    let p = with_codeblocks(&plain(6, 5, 1, 1, true), 2, 1);
    let plane: Vec<i64> = (0..padded_area(&p) as i64).map(|k| k % 7 - 3).collect();
    let mut options = EncodeOptions::uniform(&p, SubbandOptions::default());
    let mut slack = 0;
    loop {
        options.subbands[3].slack = (0..slack).map(|k| (k % 251) as u8).collect();
        let file = write_recording(&[entry_of(&p, encode_body(&p, &plane, &options))]);
        if file.len() == bytes {
            return file;
        }
        slack = slack + bytes - file.len();
    }
}
