//! What the recordings reached: how many entries were given each status.

use crate::lines::{part, rare_lines, whole, Line};
use crate::recordings::unpack_entry;
use crate::work::Tally;
use reference::params::{ACCEPTED, LEFT_OVER_BYTES, SYNTHESIS_RANGE};
use reference::recording::{parse, Entry};
use reference::Answer;
use std::fmt;

/// What is known of an entry.
struct Reached {
    /// How many bytes of the body lie behind those that were used, where the status is 10 or 12.
    left_over: u64,
    /// Whether the body is accepted and used to its end, and yet nothing depends on its last byte: the last
    /// subband's stated length is used in part.
    is_end_unread: bool,
}

/// Every line of the table that counts entries.
const LINES: [Line<Reached>; 16] = [
    whole("0 accepted", 0),
    part("  last byte not read", 0, |entry| entry.is_end_unread),
    whole("1 width or height", 1),
    whole("2 depth", 2),
    whole("3 wavelet", 3),
    whole("5 padded area", 5),
    whole("6 bytes end early", 6),
    whole("7 code too long", 7),
    whole("8 quantiser index", 8),
    whole("9 coefficient range", 9),
    whole("10 synthesis range", 10),
    part("  with bytes left over", 10, |entry| entry.left_over > 0),
    whole("12 bytes left over", 12),
    part("  one", 12, |entry| entry.left_over == 1),
    part("  2 to 8", 12, |entry| (2..=8).contains(&entry.left_over)),
    part("  9 or more", 12, |entry| entry.left_over > 8),
];

/// The line that counts recordings.
const WRONG_TABLE: &str = "11 wrong table";

/// How many entries were given each status, and how many recordings were refused as a whole.
#[derive(Clone, Debug, Default, PartialEq, Eq)]
pub struct RecordingStatistics {
    recordings: u64,
    wrong_tables: u64,
    entries: u64,
    counts: [u64; LINES.len()],
}

impl RecordingStatistics {
    /// Adds a recording and the text that it gives.
    pub fn add(&mut self, file: &[u8], text: &str) {
        self.recordings += 1;
        self.wrong_tables += u64::from(text == "refused 11\n");
        let entries = parse(file).unwrap_or_default();
        let answers = text.lines().filter_map(answer_of);
        for (entry, answer) in entries.iter().zip(answers) {
            self.entries += 1;
            let reached = reached(entry, answer);
            for (line, count) in LINES.iter().zip(&mut self.counts) {
                *count += u64::from(line.has(answer.status, &reached));
            }
        }
    }

    /// How many entries there were.
    pub fn entries(&self) -> u64 {
        self.entries
    }
}

/// The answer that a line of the text gives an entry, none where it is a row of samples.
fn answer_of(line: &str) -> Option<Answer> {
    let (_, words) = line.strip_prefix("entry ")?.split_once(": ")?;
    let Some(refusal) = words.strip_prefix("refused ") else {
        return Some(Answer::accepted(0));
    };
    let (status, place) = refusal.split_once(" place ")?;
    Some(Answer::refused(status.parse().ok()?, place.parse().ok()?))
}

/// What is known of an entry that was given an answer.
fn reached(entry: &Entry, answer: Answer) -> Reached {
    let bytes = entry.body.len() as u64;
    let left_over = match answer.status {
        LEFT_OVER_BYTES => bytes.saturating_sub(answer.place),
        SYNTHESIS_RANGE => bytes.saturating_sub(unpack_entry(entry).0.place),
        _ => 0,
    };
    Reached {
        left_over,
        is_end_unread: answer.status == ACCEPTED && is_end_unread(entry),
    }
}

/// Whether an accepted entry uses its body to the end, and unpacks to the same with another last byte.
fn is_end_unread(entry: &Entry) -> bool {
    let before = unpack_entry(entry);
    let mut changed = entry.clone();
    if let Some(last) = changed.body.last_mut() {
        *last = !*last;
    }
    before.0.place == entry.body.len() as u64 && unpack_entry(&changed) == before
}

impl Tally for RecordingStatistics {
    /// One of so many entries must give each line of the table, and one of so many recordings the last.
    const ONE_IN: u64 = 500;

    fn merge(&mut self, other: &RecordingStatistics) {
        self.recordings += other.recordings;
        self.wrong_tables += other.wrong_tables;
        self.entries += other.entries;
        for (count, other) in self.counts.iter_mut().zip(other.counts) {
            *count += other;
        }
    }

    /// What occurred less often than demanded, a line each.
    fn too_rare(&self) -> Vec<String> {
        let demanded = self.entries / RecordingStatistics::ONE_IN;
        let mut list: Vec<String> = rare_lines(&LINES, &self.counts, demanded)
            .iter()
            .map(|line| format!("entries: {line}"))
            .collect();
        if self.wrong_tables < self.recordings / RecordingStatistics::ONE_IN {
            let count = self.wrong_tables;
            list.push(format!("recordings: {WRONG_TABLE}: {count} times"));
        }
        list
    }
}

impl fmt::Display for RecordingStatistics {
    fn fmt(&self, f: &mut fmt::Formatter) -> fmt::Result {
        writeln!(f, "{:24}{:>12}{:>12}", "status", "entries", "recordings")?;
        for (line, count) in LINES.iter().zip(&self.counts) {
            writeln!(f, "{:24}{count:>12}{:>12}", line.name, "-")?;
        }
        writeln!(f, "{WRONG_TABLE:24}{:>12}{:>12}", "-", self.wrong_tables)?;
        writeln!(f, "{:24}{:>12}{:>12}", "all", self.entries, self.recordings)
    }
}

#[cfg(test)]
mod tests {
    use super::*;
    use vectors::samples::whole_case;

    /// Adds a recording of one entry so many times: the whole case with bytes behind it, given an answer.
    fn add(statistics: &mut RecordingStatistics, times: u32, bytes_behind: usize, words: &str) {
        let mut entry = whole_case();
        entry.body.resize(8 + bytes_behind, 0);
        let file = reference::write_recording(&[entry]);
        for _ in 0..times {
            statistics.add(&file, &format!("entry 0: {words}\n9 12\n"));
        }
    }

    #[test]
    fn a_rare_status_is_named() {
        let mut statistics = RecordingStatistics::default();
        for status in (1..=3).chain(5..=10) {
            add(&mut statistics, 50, 1, &format!("refused {status} place 0"));
        }
        for bytes_behind in [1, 2, 8, 9] {
            add(&mut statistics, 50, bytes_behind, "refused 12 place 8");
        }
        add(&mut statistics, 350, 0, "2 x 2");
        assert_eq!(statistics.entries(), 1000);
        let rare = [
            "entries: 0 accepted last byte not read: 0 times",
            "recordings: 11 wrong table: 0 times",
        ];
        assert_eq!(statistics.too_rare(), rare);
        let mut more = RecordingStatistics::default();
        more.add(&[], "refused 11\n");
        more.add(&[], "refused 11\n");
        statistics.merge(&more);
        assert_eq!(statistics.too_rare(), rare[..1]);
        let table = statistics.to_string();
        for line in [
            "0 accepted                       350           -",
            "  one                             50           -",
            "  2 to 8                         100           -",
            "11 wrong table                     -           2",
            "all                             1000        1002",
        ] {
            assert!(table.lines().any(|found| found == line), "{table}");
        }
    }
}
