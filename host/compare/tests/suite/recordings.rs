//! Recordings: what they reach, and which programs they find out.

use compare::work::Tally;
use compare::{check_recording, unpack_entry, Recording, RecordingKind, RecordingStatistics};
use reference::recording::{parse, read_recording, Entry, ENTRY_BYTES, MAX_ENTRIES, MAX_FILE};
use reference::{write_recording, Answer};
use std::collections::{BTreeMap, BTreeSet};
use vectors::wrong_tables::{four, INTRA, LENGTH, OFFSET, ZERO};

/// The first recordings.
fn recordings(count: u64) -> impl Iterator<Item = Recording> {
    (1..=count).map(Recording::from_seed)
}

/// The entries of a recording, and what the text says of each behind the word `entry`.
fn parts(file: &[u8]) -> Vec<(Entry, String)> {
    let text = read_recording(file);
    let entries = parse(file).unwrap_or_default();
    let parts = text.split("entry ").skip(1).map(str::to_string);
    entries.into_iter().zip(parts).collect()
}

/// The text of a recording in which some entries are given other answers.
fn with_answers(file: &[u8], answer: impl Fn(&Entry, &str) -> Option<Answer>) -> String {
    if parse(file).is_none() {
        return read_recording(file);
    }
    let texts = parts(file).into_iter().enumerate();
    texts
        .map(|(k, (entry, part))| match answer(&entry, &part) {
            Some(Answer { status, place }) => {
                format!("entry {k}: refused {status} place {place}\n")
            }
            None => format!("entry {part}"),
        })
        .collect()
}

/// How many bytes an entry used, where the text gives it a refusal and bytes are left over.
fn used_of_more(entry: &Entry, part: &str, refusal: u32) -> Option<u64> {
    if !part.contains(&format!(": refused {refusal} ")) {
        return None;
    }
    let used = unpack_entry(entry).0.place;
    (used < entry.body.len() as u64).then_some(used)
}

#[test]
fn every_answer_occurs() {
    let mut statistics = RecordingStatistics::default();
    for Recording { file, .. } in recordings(1500) {
        statistics.add(&file, &read_recording(&file));
    }
    assert!(statistics.entries() > 3000);
    assert_eq!(statistics.too_rare(), [""; 0]);
}

#[test]
fn only_a_wrong_table_refuses_the_recording() {
    let mut kinds = BTreeSet::new();
    let mut counts = BTreeSet::new();
    let mut too_large = 0;
    for recording in recordings(1500) {
        let Recording { kind, file, .. } = &recording;
        kinds.insert(*kind);
        let entries = parse(file);
        assert_eq!(entries.is_none(), *kind == RecordingKind::WrongTable);
        counts.extend(entries.map(|entries| entries.len()));
        match kind {
            RecordingKind::Largest => assert_eq!(file.len(), MAX_FILE),
            RecordingKind::WrongTable => too_large += u32::from(file.len() > MAX_FILE),
            _ => assert!(file.len() <= MAX_FILE),
        }
    }
    assert_eq!(kinds.len(), 4);
    assert_eq!(Vec::from_iter(counts), Vec::from_iter(1..=MAX_ENTRIES));
    assert!(too_large > 15, "{too_large}");
}

#[test]
fn a_seed_names_one_recording() {
    for seed in [0, 1, 77, u64::MAX] {
        let recording = Recording::from_seed(seed);
        assert_eq!(recording, Recording::from_seed(seed));
        assert_eq!(recording.hex().len(), 2 * recording.file.len());
    }
    assert_ne!(Recording::from_seed(1).file, Recording::from_seed(2).file);
}

#[test]
fn bytes_of_each_kind_are_left_over() {
    let mut counts = BTreeMap::new();
    let mut count = |name, holds: bool| *counts.entry(name).or_insert(0) += u32::from(holds);
    for Recording { file, .. } in recordings(1500) {
        for (k, (entry, part)) in parts(&file).into_iter().enumerate() {
            let is_refused = part.ends_with(": refused 6 place 0\n");
            count("no body", entry.body.is_empty() && is_refused);
            let Some(used) = used_of_more(&entry, &part, 12) else {
                continue;
            };
            let rest = &entry.body[used as usize..];
            count("zeros", rest.iter().all(|byte| *byte == 0x00));
            count("ones", rest.iter().all(|byte| *byte == 0xFF));
            let level_0 = &file[1 + ENTRY_BYTES * k..][8..10];
            count("a default count", level_0.contains(&0));
            let behind = Entry {
                body: rest.to_vec(),
                ..entry
            };
            let text = read_recording(&write_recording(&[behind]));
            count("another body", text.contains(" x "));
        }
    }
    assert_eq!(counts.len(), 5);
    assert!(counts.values().all(|count| *count > 20), "{counts:?}");
}

/// Whether some recording tells a program from the reference.
fn is_found_out(program: fn(&[u8]) -> String) -> bool {
    recordings(400).any(|recording| {
        check_recording(&recording.file, |file| Ok(program(file).into_bytes())).is_err()
    })
}

/// What the reference gives for a file once each row of its table is changed, in order.
fn with_rows(file: &[u8], change: impl FnMut(&mut [u8])) -> String {
    let mut file = file.to_vec();
    if let Some((count, rest)) = file.split_first_mut() {
        let rows = rest.chunks_exact_mut(ENTRY_BYTES);
        rows.take((*count).into()).for_each(change);
    }
    read_recording(&file)
}

#[test]
fn programs_that_pass_over_a_byte_of_the_table_are_found() {
    assert!(!is_found_out(read_recording));
    // The byte that is 0, and all bits of intra but the last.
    assert!(is_found_out(|file| with_rows(file, |row| row[ZERO] = 0)));
    assert!(is_found_out(|file| with_rows(file, |row| row[INTRA] &= 1)));
    // A count of 0 is 2.
    assert!(is_found_out(|file| with_rows(file, |row| {
        for count in row[ZERO + 1..OFFSET]
            .iter_mut()
            .filter(|count| **count == 0)
        {
            *count = 2;
        }
    })));
}

#[test]
fn programs_that_pass_over_an_offset_or_the_end_are_found() {
    fn takes_bodies_in_order(file: &[u8]) -> String {
        let mut next = 1 + ENTRY_BYTES as u32 * u32::from(*file.first().unwrap_or(&0));
        with_rows(file, |row| {
            row[OFFSET..LENGTH].copy_from_slice(&next.to_be_bytes());
            next = next.wrapping_add(four(row, LENGTH));
        })
    }
    fn passes_over_bytes_behind(file: &[u8]) -> String {
        let rows = 1 + ENTRY_BYTES * usize::from(*file.first().unwrap_or(&0));
        let end = match file.get(..rows) {
            Some(table) if rows > 1 => {
                let row = &table[rows - ENTRY_BYTES..];
                four(row, OFFSET).wrapping_add(four(row, LENGTH)) as usize
            }
            _ => file.len(),
        };
        read_recording(file.get(..end).unwrap_or(file))
    }
    assert!(is_found_out(takes_bodies_in_order));
    assert!(is_found_out(passes_over_bytes_behind));
}

#[test]
fn programs_that_write_another_text_are_found() {
    assert!(is_found_out(|file| {
        let text = read_recording(file);
        text[..text.len() - 1].to_string()
    }));
    assert!(is_found_out(
        |file| read_recording(file).replace(" x ", " X ")
    ));
    assert!(is_found_out(|file| {
        let text = read_recording(file);
        let lines = text.split_inclusive('\n');
        // A refused entry ends it.
        let mut last = false;
        lines
            .take_while(|line| !std::mem::replace(&mut last, line.contains("refused")))
            .collect()
    }));
}

#[test]
fn programs_that_tell_left_over_bytes_wrongly_are_found() {
    // They are ignored.
    assert!(is_found_out(|file| {
        let mut entries: Vec<Entry> = Vec::new();
        for (mut entry, part) in parts(file) {
            if let Some(used) = used_of_more(&entry, &part, 12) {
                entry.body.truncate(used as usize);
            }
            entries.push(entry);
        }
        match entries[..] {
            [] => read_recording(file),
            _ => read_recording(&write_recording(&entries)),
        }
    }));
    // The place is how many are left, or the body's length.
    assert!(is_found_out(|file| with_answers(file, |entry, part| {
        let used = used_of_more(entry, part, 12)?;
        Some(Answer::refused(12, entry.body.len() as u64 - used))
    })));
    assert!(is_found_out(|file| with_answers(file, |entry, part| {
        used_of_more(entry, part, 12)?;
        Some(Answer::refused(12, entry.body.len() as u64))
    })));
    // They come before synthesis.
    assert!(is_found_out(|file| with_answers(file, |entry, part| {
        let used = used_of_more(entry, part, 10)?;
        Some(Answer::refused(12, used))
    })));
    // The last byte of a stated length is left over where it is not read.
    assert!(is_found_out(|file| with_answers(file, |entry, part| {
        let (last, rest) = entry.body.split_last()?;
        let changed = Entry {
            body: [rest, &[!last]].concat(),
            ..entry.clone()
        };
        let is_unread = part.contains(" x ") && unpack_entry(&changed) == unpack_entry(entry);
        is_unread.then_some(Answer::refused(12, rest.len() as u64))
    })));
}
