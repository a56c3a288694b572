//! Recordings at random, for the program.
//!
//! A [`Recording`] is a file; its seed names it. Its entries are those of cases, most of them small, often
//! with bytes left over behind what a body needs. [`check_recording`] has a program read it and compares
//! what is written, byte by byte, with the text of the reference.

use crate::bodies::random_bytes;
use crate::case::{hex, Case};
use crate::parameters::put_out_of_range;
use crate::program::first_difference;
use reference::params::{padded_area, subbands};
use reference::recording::{
    read_recording, write_recording, Entry, ENTRY_BYTES, MAX_ENTRIES, MAX_FILE, MAX_PADDED_AREA,
};
use reference::{Answer, Parameters};
use vectors::pieces;
use vectors::random::Random;
use vectors::wrong_tables::{field, four, INTRA, LENGTH, OFFSET, ZERO};

/// What a recording is made for.
#[derive(Clone, Copy, Debug, PartialEq, Eq, PartialOrd, Ord)]
pub enum RecordingKind {
    /// A right table, and bodies as they were made.
    Right,
    /// A right table, but two bodies next to each other are cut apart at the wrong byte.
    Boundary,
    /// A right table, and as many bytes as a file may have.
    Largest,
    /// A table with one fault.
    WrongTable,
}

/// A recording.
#[derive(Clone, Debug, PartialEq, Eq)]
pub struct Recording {
    pub seed: u64,
    pub kind: RecordingKind,
    pub file: Vec<u8>,
}

impl Recording {
    /// The recording that a seed names.
    pub fn from_seed(seed: u64) -> Recording {
        let mut random = Random::new(seed);
        let kind = match random.range(0, 31) {
            0 => RecordingKind::Largest,
            1..=5 => RecordingKind::WrongTable,
            6..=11 => RecordingKind::Boundary,
            _ => RecordingKind::Right,
        };
        let mut entries = random_entries(&mut random, kind);
        if kind == RecordingKind::Boundary {
            move_boundary(&mut random, &mut entries);
        }
        let mut file = write_recording(&entries);
        match kind {
            RecordingKind::Largest => lengthen(&mut random, &mut file, MAX_FILE),
            RecordingKind::WrongTable => break_table(&mut random, &mut file),
            _ => (),
        }
        Recording { seed, kind, file }
    }

    /// The file in hexadecimal.
    pub fn hex(&self) -> String {
        hex(&self.file)
    }
}

/// Has a program read a file: the text that it writes, if the reference gives the same; or what is wrong.
pub fn check_recording(
    file: &[u8],
    program: impl Fn(&[u8]) -> Result<Vec<u8>, String>,
) -> Result<String, String> {
    let theirs = read_recording(file);
    match first_difference(&program(file)?, theirs.as_bytes()) {
        Some(difference) => Err(difference),
        None => Ok(theirs),
    }
}

/// What the reference's unpack answers to an entry whose size and depth are in range, and the coefficients.
pub fn unpack_entry(entry: &Entry) -> (Answer, Vec<i32>) {
    let mut coefficients = vec![0; padded_area(&entry.parameters)];
    let answer = reference::unpack(&entry.parameters, &entry.body, &mut coefficients);
    (answer, coefficients)
}

/// The entries of a recording of a kind, most often few; their file is not too large.
fn random_entries(random: &mut Random, kind: RecordingKind) -> Vec<Entry> {
    let most = random.pick(&[4, 4, 4, 4, 4, 4, 4, MAX_ENTRIES as i64]);
    let least = match kind {
        RecordingKind::Boundary => 2,
        _ => 1,
    };
    let count = random.range(least, most);
    let mut entries: Vec<Entry> = (0..count).map(|_| random_entry(random)).collect();
    let mut room = MAX_FILE - 1 - ENTRY_BYTES * entries.len();
    for entry in &mut entries {
        entry.body.truncate(room);
        room -= entry.body.len();
    }
    entries
}

/// An entry: of a case, or now and then with about the largest padded area. Its parameters may be out of
/// range; its body may be empty, or have bytes left over behind it.
fn random_entry(random: &mut Random) -> Entry {
    let mut entry = match random.range(0, 23) {
        0 => large_entry(random),
        _ => case_entry(random),
    };
    if random.range(0, 15) == 0 {
        put_out_of_range(random, &mut entry.parameters);
    }
    cut_to_fields(&mut entry.parameters);
    if random.range(0, 3) == 0 {
        leave_out_counts(random, &mut entry.parameters);
    }
    if random.range(0, 39) == 0 {
        entry.body.clear();
    }
    if random.range(0, 7) < 3 {
        entry.body.extend(left_over(random));
    }
    entry
}

/// The parameters and the bytes of a case.
fn case_entry(random: &mut Random) -> Entry {
    let case = Case::from_seed(random.bits());
    Entry {
        parameters: case.parameters,
        body: case.bytes,
    }
}

/// An entry with about the largest padded area that is decoded, or far more, and a body in order.
fn large_entry(random: &mut Random) -> Entry {
    const SIZES: [(u32, u32, u32); 14] = [
        (128, 128, 0),
        (127, 129, 0),
        (4096, 4, 2),
        (3, 4096, 2),
        (127, 127, 1),
        (113, 126, 4),
        (128, 129, 0),
        (129, 127, 1),
        (4096, 5, 0),
        (4, 4097, 0),
        (4096, 4, 3),
        (1, 4096, 3),
        (250, 97, 4),
        (4096, 4096, 2),
    ];
    let (width, height, depth) = random.pick(&SIZES);
    let wavelet = random.range(0, 6) as u32;
    let p = pieces::plain(width, height, depth, wavelet, random.flag());
    let body = if padded_area(&p) > MAX_PADDED_AREA {
        // Every subband of length 0.
        vec![0x80; subbands(&p).len()]
    } else {
        let options = pieces::random_options(random);
        pieces::sparse_body(random, &p, options)
    };
    Entry {
        parameters: p,
        body,
    }
}

/// Keeps the low bytes of numbers that have more bytes than their fields.
fn cut_to_fields(p: &mut Parameters) {
    p.width &= 0xFFFF;
    p.height &= 0xFFFF;
    let counts = p.codeblocks_across.iter_mut().chain(&mut p.codeblocks_down);
    for number in counts.chain([&mut p.depth, &mut p.wavelet]) {
        *number &= 0xFF;
    }
}

/// Leaves counts out, most often those that are the default, and puts any number in place of those above the
/// depth.
fn leave_out_counts(random: &mut Random, p: &mut Parameters) {
    for counts in [&mut p.codeblocks_across, &mut p.codeblocks_down] {
        for (level, count) in counts.iter_mut().enumerate() {
            if level as u32 > p.depth {
                *count = random.range(0, 255) as u32;
            } else if random.flag() && (*count == 1 || random.range(0, 7) == 0) {
                *count = 0;
            }
        }
    }
}

/// Bytes to stand behind a body: one, a few or many of a kind or at random, or another body.
fn left_over(random: &mut Random) -> Vec<u8> {
    let (few, many) = (random.range(2, 8), random.range(9, 400));
    let count = random.pick(&[1, 1, few, many]) as usize;
    match random.range(0, 4) {
        0 => vec![0; count],
        1 => vec![0xFF; count],
        2 => vec![0x80; count],
        3 => (0..count).map(|_| random.bits() as u8).collect(),
        _ => Case::from_seed(random.bits()).bytes,
    }
}

/// Has one body end too early or too late, and the next start there.
fn move_boundary(random: &mut Random, entries: &mut [Entry]) {
    let k = random.range(0, entries.len() as i64 - 2) as usize;
    let bodies = pieces::joined(entries[k].body.clone(), &entries[k + 1].body);
    let (end, all) = (entries[k].body.len() as i64, bodies.len() as i64);
    let (few, any) = (random.range(2, 8), random.range(0, all));
    let moved = random.pick(&[end - 1, end + 1, end - few, end + few, any]);
    let (first, second) = bodies.split_at(moved.clamp(0, all) as usize);
    entries[k].body = first.to_vec();
    entries[k + 1].body = second.to_vec();
}

/// Adds to a number of four bytes, which may wrap.
fn add_to_four(file: &mut [u8], start: usize, number: u32) {
    let sum = four(file, start).wrapping_add(number);
    file[start..start + 4].copy_from_slice(&sum.to_be_bytes());
}

/// Lengthens the last body so that the file has so many bytes.
fn lengthen(random: &mut Random, file: &mut Vec<u8>, bytes: usize) {
    let last = usize::from(file[0]) - 1;
    let more = bytes - file.len();
    add_to_four(file, field(last, LENGTH), more as u32);
    file.resize(bytes, random.pick(&[0, 0xFF, 0x80]));
}

/// Puts one fault into the table, or into the file's length.
fn break_table(random: &mut Random, file: &mut Vec<u8>) {
    const WRONG_BY: [u32; 7] = [1, u32::MAX, 1, u32::MAX, 26, 1 << 16, 1 << 31];
    let count = file[0];
    let entry = random.range(0, i64::from(count) - 1) as usize;
    match random.range(0, 7) {
        0 => file[0] = random.pick(&[0, 17, 255, count - 1, count + 1]),
        1 => file[field(entry, INTRA)] = random.range(2, 255) as u8,
        2 => file[field(entry, ZERO)] = random.range(1, 255) as u8,
        3 => add_to_four(file, field(entry, OFFSET), random.pick(&WRONG_BY)),
        4 => add_to_four(file, field(entry, LENGTH), random.pick(&WRONG_BY)),
        5 => {
            let one_less = file.len() as i64 - 1;
            let any = random.range(0, one_less);
            file.truncate(random.pick(&[one_less, any]) as usize);
        }
        6 => {
            file.push(random.bits() as u8);
            file.extend(random_bytes(random, 100));
        }
        _ => {
            let bytes = random.pick(&[MAX_FILE + 1, MAX_FILE + 1, 70_000, 2 * MAX_FILE + 27]);
            lengthen(random, file, bytes);
        }
    }
}
