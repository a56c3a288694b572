//! Instructions that each job executes, counted by valgrind: for machines whose clocks cannot be trusted.
//!
//! The program `bench_job` runs the jobs on a component, each so many times, and `bench_slices_job` unpack on a
//! low delay picture. A run more, counted beside a run less, is what one call executes, whatever the program
//! does besides.

use crate::components::{Codeblocks, Component};
use crate::report::{head_cells, slice_head_cells, write_table, HEAD, SLICE_HEAD};
use crate::slices::Sliced;
use std::fmt::{self, Display, Formatter};
use std::path::{Path, PathBuf};
use std::process::Command;
use std::{env, fs, process};

/// The program that is counted.
pub const PROGRAM: &str = "bench_job";

/// The program that is counted on low delay pictures.
pub const SLICES_PROGRAM: &str = "bench_slices_job";

/// How valgrind counts; it keeps no file.
const VALGRIND: [&str; 2] = ["--tool=callgrind", "--callgrind-out-file=/dev/null"];

/// The columns after those that name a component.
const COLUMNS: [&str; 4] = ["codeblocks", "unpack", "synthesise", "decode"];

/// Instructions a sample of unpack, synthesise and decode on a component.
pub struct Counts {
    head: Vec<String>,
    pub a_sample: [f64; 3],
}

/// The table.
pub struct CountReport(pub Vec<Counts>);

/// valgrind's version, if it is installed.
pub fn valgrind_version() -> Option<String> {
    let output = Command::new("valgrind").arg("--version").output().ok()?;
    let text = String::from_utf8(output.stdout).ok()?;
    output.status.success().then(|| text.trim().to_string())
}

/// A file that goes when this goes.
struct TemporaryFile(PathBuf);

impl TemporaryFile {
    /// A file for a program, with these bytes.
    fn new(program: &str, bytes: &[u8]) -> Result<TemporaryFile, String> {
        let path = env::temp_dir().join(format!("{program}-{}.bytes", process::id()));
        fs::write(&path, bytes).map_err(|error| format!("{}: {error}", path.display()))?;
        Ok(TemporaryFile(path))
    }
}

impl Drop for TemporaryFile {
    fn drop(&mut self) {
        // A file that stays behind harms nobody.
        let _ = fs::remove_file(&self.0);
    }
}

/// The number of instructions that callgrind says it has collected.
pub fn collected(text: &str) -> Option<u64> {
    let count = |line: &str| line.split_once("Collected : ")?.1.trim().parse().ok();
    text.lines().find_map(count)
}

/// The instructions of the program that runs each job on a component so many times.
fn count_runs(
    program: &Path,
    component: &Component,
    body: &Path,
    runs: [u32; 3],
) -> Result<u64, String> {
    let p = &component.parameters;
    let Codeblocks { across, down, .. } = component.codeblocks;
    let intra = u32::from(p.intra);
    let numbers = [p.width, p.height, p.depth, p.wavelet, intra, across, down];
    count(program, body, &[&numbers[..], &runs].concat())
}

/// The instructions of a program that gets a file and numbers.
fn count(program: &Path, file: &Path, numbers: &[u32]) -> Result<u64, String> {
    let output = Command::new("valgrind")
        .args(VALGRIND)
        .arg(program)
        .arg(file)
        .args(numbers.iter().map(u32::to_string))
        .output()
        .map_err(|error| format!("valgrind: {error}"))?;
    let text = String::from_utf8_lossy(&output.stderr);
    let count = collected(&text).filter(|_| output.status.success());
    count.ok_or_else(|| format!("valgrind failed:\n{text}"))
}

impl Counts {
    /// Counts the jobs on a component in that program, which stands at a path.
    pub fn of(component: &Component, program: &Path) -> Result<Counts, String> {
        let body = TemporaryFile::new(PROGRAM, &component.body)?;
        let count = |runs| count_runs(program, component, &body.0, runs);
        // Synthesise needs coefficients, so one unpack is always there.
        let base = count([1, 0, 0])?;
        let mut a_sample = [0.0; 3];
        for (job, more) in [[2, 0, 0], [1, 1, 0], [1, 0, 1]].into_iter().enumerate() {
            a_sample[job] = (count(more)? - base) as f64 / component.samples() as f64;
        }
        let mut head = head_cells(component);
        head.push(component.codeblocks.to_string());
        Ok(Counts { head, a_sample })
    }
}

/// Instructions a sample of unpack on a low delay picture.
pub struct SliceCounts {
    head: Vec<String>,
    pub a_sample: f64,
}

/// The table of low delay pictures.
pub struct SliceCountReport(pub Vec<SliceCounts>);

impl SliceCounts {
    /// Counts unpack on a picture in that program, which stands at a path.
    pub fn of(sliced: &Sliced, program: &Path) -> Result<SliceCounts, String> {
        let p = &sliced.picture.parameters;
        let picture = &p.picture;
        let mut numbers = vec![
            picture.luma_width,
            picture.luma_height,
            picture.chroma_width,
            picture.chroma_height,
            picture.depth,
            picture.slices_across,
            picture.slices_down,
            p.numerator,
            p.denominator,
        ];
        numbers.extend(picture.matrix);
        let file = TemporaryFile::new(SLICES_PROGRAM, &sliced.picture.bytes)?;
        let count = |runs: u32| count(program, &file.0, &[&numbers[..], &[runs]].concat());
        let instructions = count(1)? - count(0)?;
        Ok(SliceCounts {
            head: slice_head_cells(sliced),
            a_sample: instructions as f64 / sliced.samples() as f64,
        })
    }
}

impl Display for SliceCountReport {
    fn fmt(&self, f: &mut Formatter) -> fmt::Result {
        let columns = [&SLICE_HEAD[..], &["unpack"]].concat();
        let title = "Instructions a sample of low delay pictures.";
        write_table(f, title, &columns, &self.0, |row| {
            [&row.head[..], &[format!("{:.1}", row.a_sample)]].concat()
        })
    }
}

impl Display for CountReport {
    fn fmt(&self, f: &mut Formatter) -> fmt::Result {
        let columns = [&HEAD[..], &COLUMNS].concat();
        write_table(f, "Instructions a sample.", &columns, &self.0, |row| {
            let figures = row.a_sample.map(|count| format!("{count:.1}"));
            [&row.head[..], &figures].concat()
        })
    }
}
