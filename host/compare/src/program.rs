//! The program, run as a process, and where what it writes differs from the reference's text.

use std::io::{self, Write};
use std::path::PathBuf;
use std::process::{Command, Output, Stdio};
use std::thread;

/// A program that reads a recording from its standard input.
#[derive(Clone, Debug)]
pub struct Program {
    path: PathBuf,
}

impl Program {
    /// The program in a file.
    pub fn new(path: impl Into<PathBuf>) -> Program {
        Program { path: path.into() }
    }

    /// What it writes for a recording; or that it cannot be run, ends badly or complains.
    pub fn text(&self, recording: &[u8]) -> Result<Vec<u8>, String> {
        let output = self
            .run(recording)
            .map_err(|error| format!("the program cannot be run: {error}"))?;
        if !output.status.success() {
            return Err(format!("the program ends with {}", output.status));
        }
        if !output.stderr.is_empty() {
            let complaint = excerpt(&output.stderr, 0);
            return Err(format!("the program's standard error is {complaint}"));
        }
        Ok(output.stdout)
    }

    /// Runs it with a recording on its standard input.
    fn run(&self, recording: &[u8]) -> io::Result<Output> {
        let mut child = Command::new(&self.path)
            .stdin(Stdio::piped())
            .stdout(Stdio::piped())
            .stderr(Stdio::piped())
            .spawn()?;
        let mut input = child.stdin.take().expect("a pipe");
        thread::scope(|scope| {
            // While its output is read, as a pipe holds only so much. A program that has enough may close it.
            scope.spawn(move || input.write_all(recording));
            child.wait_with_output()
        })
    }
}

/// Where a program's text first differs from the reference's: the entry, the line and the column, and both
/// texts from the word there on.
pub fn first_difference(ours: &[u8], theirs: &[u8]) -> Option<String> {
    let differs = |(our, their): (&u8, &u8)| our != their;
    let shorter = ours.len().min(theirs.len());
    let at = ours.iter().zip(theirs).position(differs).unwrap_or(shorter);
    if at == ours.len() && at == theirs.len() {
        return None;
    }
    let same = &theirs[..at];
    let lines_before = same.iter().filter(|byte| **byte == b'\n').count();
    let line_start = start_behind(same, b"\n");
    let word = start_behind(same, b"\n ");
    let entry = match entries_of(theirs, lines_before + 1) {
        0 => String::new(),
        count => format!("entry {}, ", count - 1),
    };
    Some(format!(
        "{entry}line {} from column {} on is {}, in the reference {}",
        lines_before + 1,
        word - line_start + 1,
        excerpt(ours, word),
        excerpt(theirs, word)
    ))
}

/// Where the part behind the last of these bytes starts.
fn start_behind(text: &[u8], ends: &[u8]) -> usize {
    text.iter()
        .rposition(|byte| ends.contains(byte))
        .map_or(0, |index| index + 1)
}

/// How many entries begin in the first lines of a text.
fn entries_of(text: &[u8], lines: usize) -> usize {
    text.split(|byte| *byte == b'\n')
        .take(lines)
        .filter(|line| line.starts_with(b"entry "))
        .count()
}

/// A text from some byte on, to the end of the line or not much of a long one, in quotes.
fn excerpt(text: &[u8], start: usize) -> String {
    const MOST: usize = 60;
    let rest = &text[start.min(text.len())..];
    let line = rest.split_inclusive(|byte| *byte == b'\n').next();
    let line = line.unwrap_or_default();
    let (shown, more) = match line.get(..MOST) {
        Some(start) => (start, ".."),
        None => (line, ""),
    };
    format!("\"{}{more}\"", shown.escape_ascii())
}
