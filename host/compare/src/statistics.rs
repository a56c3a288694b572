//! What the cases reached: how often each job gave each status, and where.

use crate::check::{Answers, Job};
use crate::work::Tally;
use reference::Answer;
use std::fmt;

/// A line of the table: the answers of one status, or of one status in one class of places.
struct Line {
    name: &'static str,
    status: u32,
    /// The first and last place that count.
    places: (u64, u64),
}

/// A line for a status, at whatever place.
const fn whole(name: &'static str, status: u32) -> Line {
    part(name, status, 0, u64::MAX)
}

/// A line for a status at some places.
const fn part(name: &'static str, status: u32, first: u64, last: u64) -> Line {
    Line {
        name,
        status,
        places: (first, last),
    }
}

/// Every line of the table.
const LINES: [Line; 27] = [
    whole("0 accepted", 0),
    whole("1 width or height", 1),
    whole("2 depth", 2),
    whole("3 wavelet", 3),
    whole("4 codeblock count", 4),
    whole("5 plane length", 5),
    whole("6 bytes end early", 6),
    part("  in subband 0", 6, 0, 0),
    part("  in subbands 1 to 3", 6, 1, 3),
    part("  in subbands 4 to 12", 6, 4, 12),
    whole("7 code too long", 7),
    part("  in subband 0", 7, 0, 0),
    part("  in subbands 1 to 3", 7, 1, 3),
    part("  in subbands 4 to 12", 7, 4, 12),
    whole("8 quantiser index", 8),
    part("  in subband 0", 8, 0, 0),
    part("  in subbands 1 to 3", 8, 1, 3),
    part("  in subbands 4 to 12", 8, 4, 12),
    whole("9 coefficient range", 9),
    part("  in subband 0", 9, 0, 0),
    part("  in subbands 1 to 3", 9, 1, 3),
    part("  in subbands 4 to 12", 9, 4, 12),
    whole("10 synthesis range", 10),
    part("  at level 1", 10, 1, 1),
    part("  at level 2", 10, 2, 2),
    part("  at level 3", 10, 3, 3),
    part("  at level 4", 10, 4, 4),
];

impl Line {
    /// Whether an answer counts here.
    fn has(&self, answer: &Answer) -> bool {
        let (first, last) = self.places;
        answer.status == self.status && (first..=last).contains(&answer.place)
    }
}

/// How often each job gave each status.
#[derive(Clone, Debug, Default, PartialEq, Eq)]
pub struct Statistics {
    cases: u64,
    counts: [[u64; Job::ALL.len()]; LINES.len()],
}

impl Statistics {
    /// Adds a case's answers.
    pub fn add(&mut self, answers: &Answers) {
        self.cases += 1;
        for (line, counts) in LINES.iter().zip(&mut self.counts) {
            for (answer, count) in answers.iter().zip(counts) {
                *count += u64::from(line.has(answer));
            }
        }
    }

    /// How many cases there were.
    pub fn cases(&self) -> u64 {
        self.cases
    }

    /// How often each line must occur.
    pub fn demanded(&self) -> u64 {
        self.cases / Statistics::ONE_IN
    }
}

impl Tally for Statistics {
    /// One of so many cases must give each line of the table.
    const ONE_IN: u64 = 1000;

    fn merge(&mut self, other: &Statistics) {
        self.cases += other.cases;
        let counts = self.counts.iter_mut().flatten();
        for (count, other) in counts.zip(other.counts.iter().flatten()) {
            *count += other;
        }
    }

    /// What occurred less often than demanded, a line each.
    fn too_rare(&self) -> Vec<String> {
        let mut list = Vec::new();
        let mut status_name = "";
        for (line, counts) in LINES.iter().zip(&self.counts) {
            if !line.name.starts_with(' ') {
                status_name = line.name;
            }
            for (job, &count) in Job::ALL.iter().zip(counts) {
                if job.gives(line.status) && count < self.demanded() {
                    let place = line.name.strip_prefix(' ').unwrap_or("");
                    let job = job.name();
                    list.push(format!("{job}: {status_name}{place}: {count} times"));
                }
            }
        }
        list
    }
}

impl fmt::Display for Statistics {
    fn fmt(&self, f: &mut fmt::Formatter) -> fmt::Result {
        write!(f, "{:24}", "status")?;
        for job in Job::ALL {
            write!(f, "{:>12}", job.name())?;
        }
        writeln!(f)?;
        for (line, counts) in LINES.iter().zip(&self.counts) {
            write!(f, "{:24}", line.name)?;
            for (job, count) in Job::ALL.iter().zip(counts) {
                if job.gives(line.status) || *count > 0 {
                    write!(f, "{count:>12}")?;
                } else {
                    write!(f, "{:>12}", "-")?;
                }
            }
            writeln!(f)?;
        }
        Ok(())
    }
}

#[cfg(test)]
mod tests {
    use super::*;

    /// Answers of one status and place for all jobs.
    fn all(status: u32, place: u64) -> Answers {
        [Answer { status, place }; 3]
    }

    #[test]
    fn a_rare_status_is_named() {
        let mut statistics = Statistics::default();
        for _ in 0..2000 {
            for status in 0..=5 {
                statistics.add(&all(status, 0));
            }
            for status in 6..=9 {
                for place in [0, 1, 3, 4, 12] {
                    statistics.add(&all(status, place));
                }
            }
            for level in 1..=3 {
                statistics.add(&all(10, level));
            }
        }
        let rare = [
            "synthesise: 10 synthesis range at level 4: 0 times",
            "decode: 10 synthesis range at level 4: 0 times",
        ];
        assert_eq!(statistics.too_rare(), rare);
        let mut more = Statistics::default();
        for _ in 0..1000 {
            more.add(&all(10, 4));
        }
        statistics.merge(&more);
        assert_eq!(statistics.too_rare(), [""; 0]);
        assert_eq!(statistics.cases(), 2000 * 29 + 1000);
    }
}
