//! What the pictures reached: how often each status was given, where, and to what pictures.

use super::headers::{slice_headers, SliceHeader};
use super::parameters::subbands_of;
use super::LowDelayCase;
use crate::lines::{part, rare_lines, whole, Line};
use crate::work::Tally;
use reference::low_delay::bits_for_values;
use reference::params::ACCEPTED;
use reference::{Answer, LowDelay, SlicedPicture};
use std::fmt;

/// What is known of a picture.
struct Reached {
    parameters: LowDelay,
    /// How many bytes there are.
    bytes: usize,
    place: u64,
    /// What its slices state, where it is accepted or refused 14.
    slices: Vec<SliceHeader>,
}

impl Reached {
    /// The picture.
    fn picture(&self) -> &SlicedPicture {
        &self.parameters.picture
    }

    /// Whether some slice states what a function asks for.
    fn has_slice(&self, asked: impl Fn(&SliceHeader) -> bool) -> bool {
        self.slices.iter().any(asked)
    }

    /// The area of luma over the area of chroma, as an order.
    fn luma_to_chroma(&self) -> std::cmp::Ordering {
        let p = self.picture();
        (p.luma_width * p.luma_height).cmp(&(p.chroma_width * p.chroma_height))
    }

    /// The most values that a slice has of a subband.
    fn largest_rectangle(&self) -> usize {
        let p = self.picture();
        [0, 1]
            .into_iter()
            .flat_map(|component| subbands_of(p, component))
            .map(|band| {
                // The last slice has as many columns and rows as any.
                let (columns, rows) = p.rectangle(&band, p.slice_count() - 1);
                columns.len() * rows.len()
            })
            .max()
            .expect("never empty")
    }
}

/// Whether the luma length takes all bits left.
fn is_all_luma(slice: &SliceHeader) -> bool {
    slice.bytes > 1 && slice.luma_length == bits_for_values(slice.bytes)
}

/// Every line of the table.
const LINES: [Line<Reached>; 45] = [
    whole("0 accepted", 0),
    part("  intra", 0, |reached| reached.picture().intra),
    part("  not intra", 0, |reached| !reached.picture().intra),
    part("  depth 0", 0, |reached| reached.picture().depth == 0),
    part("  depth 1", 0, |reached| reached.picture().depth == 1),
    part("  depth 2", 0, |reached| reached.picture().depth == 2),
    part("  depth 3", 0, |reached| reached.picture().depth == 3),
    part("  depth 4", 0, |reached| reached.picture().depth == 4),
    part("  chroma smaller", 0, |reached| {
        reached.luma_to_chroma().is_gt()
    }),
    part("  chroma equal", 0, |reached| {
        reached.luma_to_chroma().is_eq()
    }),
    part("  chroma larger", 0, |reached| {
        reached.luma_to_chroma().is_lt()
    }),
    part("  odd sizes", 0, |reached| {
        let p = reached.picture();
        p.luma_width % 2 == 1 && p.chroma_height % 2 == 1
    }),
    part("  slices over columns", 0, |reached| {
        reached.picture().slices_across > reached.picture().luma_width
    }),
    part("  slices over rows", 0, |reached| {
        reached.picture().slices_down > reached.picture().luma_height
    }),
    part("  fraction not whole", 0, |reached| {
        reached.parameters.numerator % reached.parameters.denominator > 0
    }),
    part("  one-byte slices", 0, |reached| {
        reached.has_slice(|slice| slice.bytes == 1)
    }),
    part("  1000 bytes in a slice", 0, |reached| {
        reached.has_slice(|slice| slice.bytes >= 1000)
    }),
    part("  no luma bit", 0, |reached| {
        reached.has_slice(|slice| slice.bytes > 1 && slice.luma_length == 0)
    }),
    part("  luma bits alone", 0, |reached| {
        reached.has_slice(is_all_luma)
    }),
    part("  index held at 0", 0, |reached| {
        let used = reached.picture().used_matrix();
        reached.has_slice(|slice| used.iter().any(|&entry| entry > slice.index))
    }),
    part("  over 8192 in rectangle", 0, |reached| {
        reached.largest_rectangle() > 8192
    }),
    part("  4096 columns or rows", 0, |reached| {
        let p = reached.picture();
        [p.luma_width, p.luma_height, p.chroma_width, p.chroma_height].contains(&4096)
    }),
    part("  bytes left over", 0, |reached| {
        reached.bytes as u64 > reached.place
    }),
    whole("1 width or height", 1),
    whole("2 depth", 2),
    whole("13 slices", 13),
    whole("5 plane length", 5),
    whole("6 bytes end early", 6),
    part("  in slice 0", 6, is_in_first),
    part("  in later slices", 6, is_in_later),
    whole("14 luma length", 14),
    part("  in slice 0", 14, is_in_first),
    part("  in later slices", 14, is_in_later),
    part("  one more than left", 14, |reached| {
        let slice = &reached.slices[reached.place as usize];
        slice.luma_length == bits_for_values(slice.bytes) + 1
    }),
    whole("8 quantiser index", 8),
    part("  in slice 0", 8, is_in_first),
    part("  in later slices", 8, is_in_later),
    whole("7 code too long", 7),
    part("  in slice 0", 7, is_in_first),
    part("  in later slices", 7, is_in_later),
    whole("9 coefficient range", 9),
    part("  in slice 0", 9, is_in_first),
    part("  in later slices", 9, is_in_later),
    part("  in prediction", 9, |reached| !is_in_slice(reached)),
    part("  in it, of one slice", 9, |reached| {
        !is_in_slice(reached) && reached.place == 1
    }),
];

/// Whether the place is a slice.
fn is_in_slice(reached: &Reached) -> bool {
    reached.place < reached.picture().slice_count() as u64
}

/// Whether the place is the first slice.
fn is_in_first(reached: &Reached) -> bool {
    reached.place == 0
}

/// Whether the place is a slice after the first.
fn is_in_later(reached: &Reached) -> bool {
    reached.place > 0 && is_in_slice(reached)
}

/// How often each status was given.
#[derive(Clone, Debug, PartialEq, Eq)]
pub struct LowDelayStatistics {
    pictures: u64,
    counts: [u64; LINES.len()],
}

impl Default for LowDelayStatistics {
    fn default() -> LowDelayStatistics {
        LowDelayStatistics {
            pictures: 0,
            counts: [0; LINES.len()],
        }
    }
}

impl LowDelayStatistics {
    /// Adds a picture and its answer.
    pub fn add(&mut self, case: &LowDelayCase, answer: &Answer) {
        self.pictures += 1;
        let is_read = answer.status == ACCEPTED || answer.status == 14;
        let reached = Reached {
            parameters: case.job.parameters.clone(),
            bytes: case.job.bytes.len(),
            place: answer.place,
            slices: if is_read {
                slice_headers(&case.job.parameters, &case.job.bytes)
            } else {
                Vec::new()
            },
        };
        for (line, count) in LINES.iter().zip(&mut self.counts) {
            *count += u64::from(line.has(answer.status, &reached));
        }
    }

    /// How many pictures there were.
    pub fn pictures(&self) -> u64 {
        self.pictures
    }

    /// How many were given a status.
    pub fn count(&self, status: u32) -> u64 {
        let all = LINES
            .iter()
            .zip(&self.counts)
            .find(|(line, _)| line.status == status);
        all.map_or(0, |(_, &count)| count)
    }
}

impl Tally for LowDelayStatistics {
    /// One of so many pictures must give each line of the table.
    const ONE_IN: u64 = 1000;

    fn merge(&mut self, other: &LowDelayStatistics) {
        self.pictures += other.pictures;
        for (count, other) in self.counts.iter_mut().zip(other.counts) {
            *count += other;
        }
    }

    /// What occurred less often than demanded, a line each.
    fn too_rare(&self) -> Vec<String> {
        rare_lines(
            &LINES,
            &self.counts,
            self.pictures / LowDelayStatistics::ONE_IN,
        )
    }
}

impl fmt::Display for LowDelayStatistics {
    fn fmt(&self, f: &mut fmt::Formatter) -> fmt::Result {
        writeln!(f, "{:24}{:>12}", "status", "pictures")?;
        for (line, count) in LINES.iter().zip(&self.counts) {
            writeln!(f, "{:24}{count:>12}", line.name)?;
        }
        Ok(())
    }
}

#[cfg(test)]
mod tests {
    use super::*;

    #[test]
    fn a_rare_status_is_named() {
        let mut statistics = LowDelayStatistics::default();
        let case = LowDelayCase::from_seed(1);
        for answer in [
            Answer::refused(13, 0),
            Answer::refused(6, 0),
            Answer::refused(9, case.job.parameters.slice_count() as u64),
        ] {
            for _ in 0..1000 {
                statistics.add(&case, &answer);
            }
        }
        let mut more = LowDelayStatistics::default();
        more.merge(&statistics);
        assert_eq!(more, statistics);
        assert_eq!(more.pictures(), 3000);
        assert_eq!(
            (more.count(13), more.count(9), more.count(0)),
            (1000, 1000, 0)
        );
        let rare = more.too_rare();
        for line in [
            "0 accepted depth 4: 0 times",
            "6 bytes end early in later slices: 0 times",
        ] {
            assert!(rare.iter().any(|found| found == line), "{rare:?}");
        }
        for line in [
            "13 slices: ",
            "6 bytes end early: ",
            "9 coefficient range in prediction: ",
        ] {
            assert!(
                !rare.iter().any(|found| found.starts_with(line)),
                "{rare:?}"
            );
        }
        let table = more.to_string();
        assert!(
            table.contains("\n  in prediction                 1000\n"),
            "{table}"
        );
    }
}
