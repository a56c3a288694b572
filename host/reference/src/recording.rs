//! Recordings, read and written.
//!
//! States document 01, "A recording", but for its sentence on ignored bytes, which document 02, "Left-over
//! bytes are a fault" (request One), amends.

use crate::decode;
use crate::params::{
    check_codeblocks, check_depth, check_size, check_wavelet, padded_area, sample_area, Answer,
    Parameters, ACCEPTED, BAD_PLANE_LENGTH, BAD_RECORDING, LEFT_OVER_BYTES,
};

/// The most bytes a recording may have.
pub const MAX_FILE: usize = 65_536;
/// The largest padded area the program decodes.
pub const MAX_PADDED_AREA: usize = 16_384;
/// The most entries a recording may have.
pub const MAX_ENTRIES: usize = 16;
/// The bytes of one entry of the table.
pub const ENTRY_BYTES: usize = 26;

/// One entry of a recording and its body.
#[derive(Clone, Debug, PartialEq, Eq)]
pub struct Entry {
    pub parameters: Parameters,
    pub body: Vec<u8>,
}

/// What the program prints for a recording (document 01, "A recording").
pub fn read_recording(file: &[u8]) -> String {
    let Some(entries) = parse(file) else {
        return format!("refused {BAD_RECORDING}\n");
    };
    let mut text = String::new();
    for (k, entry) in entries.iter().enumerate() {
        text.push_str(&entry_text(k, entry));
    }
    text
}

/// The entries of a recording, or none where the table is wrong (document 01, "A recording").
pub fn parse(file: &[u8]) -> Option<Vec<Entry>> {
    if file.len() > MAX_FILE {
        return None;
    }
    let count = usize::from(*file.first()?);
    if !(1..=MAX_ENTRIES).contains(&count) {
        return None;
    }
    let table_end = 1 + ENTRY_BYTES * count;
    let table = file.get(1..table_end)?;
    let mut entries = Vec::new();
    let mut body_start = table_end;
    for row in table.chunks(ENTRY_BYTES) {
        let two = |at: usize| u32::from(row[at]) << 8 | u32::from(row[at + 1]);
        let four = |at: usize| u64::from(two(at)) << 16 | u64::from(two(at + 2));
        let count = |at: usize| if row[at] == 0 { 1 } else { u32::from(row[at]) };
        let (intra, zero) = (row[6], row[7]);
        let (offset, length) = (four(18), four(22));
        if intra > 1 || zero != 0 || offset != body_start as u64 {
            return None;
        }
        // A length past the file's end finds no body.
        let body_end = usize::try_from(body_start as u64 + length).ok()?;
        let body = file.get(body_start..body_end)?;
        body_start = body_end;
        entries.push(Entry {
            parameters: Parameters {
                width: two(0),
                height: two(2),
                depth: u32::from(row[4]),
                wavelet: u32::from(row[5]),
                intra: intra == 1,
                codeblocks_across: [count(8), count(10), count(12), count(14), count(16)],
                codeblocks_down: [count(9), count(11), count(13), count(15), count(17)],
            },
            body: body.to_vec(),
        });
    }
    if body_start == file.len() {
        Some(entries)
    } else {
        None
    }
}

/// The lines of entry k (document 01, "A recording").
fn entry_text(k: usize, entry: &Entry) -> String {
    let p = &entry.parameters;
    let samples = match decode_entry(entry) {
        Ok(samples) => samples,
        Err(answer) => {
            return format!(
                "entry {k}: refused {} place {}\n",
                answer.status, answer.place
            )
        }
    };
    let mut text = format!("entry {k}: {} x {}\n", p.width, p.height);
    for row in samples.chunks(p.width as usize) {
        let words: Vec<String> = row.iter().map(|sample| sample.to_string()).collect();
        text.push_str(&words.join(" "));
        text.push('\n');
    }
    text
}

/// The samples of an entry, or its refusal 1 to 10 (document 01, "A recording"), or 12 where none of
/// those applies (document 02, "Left-over bytes are a fault").
fn decode_entry(entry: &Entry) -> Result<Vec<i32>, Answer> {
    let p = &entry.parameters;
    check_size(p)?;
    check_depth(p)?;
    check_wavelet(p)?;
    check_codeblocks(p)?;
    if padded_area(p) > MAX_PADDED_AREA {
        return Err(Answer::refused(BAD_PLANE_LENGTH, 0));
    }
    let mut coefficients = vec![0; padded_area(p)];
    let mut work = vec![0; padded_area(p)];
    let mut samples = vec![0; sample_area(p)];
    let answer = decode(p, &entry.body, &mut coefficients, &mut work, &mut samples);
    if answer.status != ACCEPTED {
        return Err(answer);
    }
    check_whole_body(answer.place, &entry.body)?;
    Ok(samples)
}

/// Status 12 unless an accepted component used the whole body; its place is the bytes used (document
/// 02, "Left-over bytes are a fault").
fn check_whole_body(bytes_used: u64, body: &[u8]) -> Result<(), Answer> {
    if bytes_used == body.len() as u64 {
        Ok(())
    } else {
        Err(Answer::refused(LEFT_OVER_BYTES, bytes_used))
    }
}

/// A recording of these entries; their numbers must fit their fields (document 01, "A recording").
///
/// A codeblock count is written as it is. Nothing keeps the file from being one that is refused.
pub fn write_recording(entries: &[Entry]) -> Vec<u8> {
    let one = |number: u32| u8::try_from(number).expect("a number for one byte");
    let two = |number: u32| {
        u16::try_from(number)
            .expect("a number for two bytes")
            .to_be_bytes()
    };
    let four = |number: usize| {
        u32::try_from(number)
            .expect("a number for four bytes")
            .to_be_bytes()
    };
    let count = u8::try_from(entries.len()).expect("a number for one byte");
    let mut file = vec![count];
    let mut offset = 1 + ENTRY_BYTES * entries.len();
    for entry in entries {
        let p = &entry.parameters;
        file.extend(two(p.width));
        file.extend(two(p.height));
        file.extend([one(p.depth), one(p.wavelet), u8::from(p.intra), 0]);
        for level in 0..5 {
            file.extend([
                one(p.codeblocks_across[level]),
                one(p.codeblocks_down[level]),
            ]);
        }
        file.extend(four(offset));
        file.extend(four(entry.body.len()));
        offset += entry.body.len();
    }
    for entry in entries {
        file.extend(&entry.body);
    }
    file
}
