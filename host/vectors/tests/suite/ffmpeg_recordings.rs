//! Stored recordings whose pictures another decoder gave too.

use crate::common::{answer, stored_recordings};
use reference::read_recording;
use reference::recording::parse;
use vectors::runs::run_unpack;

/// Fails unless there are so many recordings whose names begin so, each decodes to its text, and their entries
/// are all intra, or all aren't, and use their whole bodies.
fn assert_recordings(start: &str, count: usize, intra: bool) {
    let mut recordings = stored_recordings("vectors/ffmpeg");
    recordings.retain(|recording| recording.name.starts_with(start));
    for recording in &recordings {
        let text = read_recording(&recording.file);
        assert!(text == recording.text, "{} differs", recording.name);
        for entry in parse(&recording.file).unwrap() {
            assert_eq!(entry.parameters.intra, intra, "{}", recording.name);
            let used = answer(0, entry.body.len() as u64);
            assert_eq!(run_unpack(&entry.parameters, &entry.body).0, used);
        }
    }
    assert_eq!(recordings.len(), count, "{start}");
}

#[test]
fn every_base_recording_decodes_to_its_text() {
    assert_recordings("base-", 6, true);
}

#[test]
fn every_recording_of_difference_pictures_decodes_to_its_text() {
    assert_recordings("diff-", 3, false);
}
