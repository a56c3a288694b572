//! The command: decodes a recording, or answers the jobs of a text file.

use std::io::Write;
use std::process::ExitCode;

const USAGE: &str = "usage: reference COMMAND FILE

  reference decode FILE    print what a recording decodes to
  reference jobs FILE      answer the unpack, synthesise, decode and low_delay jobs of a
                           text file
  reference analyse FILE   answer the analyse jobs of a text file

A job file has one job a line; # starts a comment:

  unpack W H DEPTH WAVELET INTRA A0 D0 A1 D1 A2 D2 A3 D3 A4 D4
         COEFFICIENTS_LENGTH BYTES
  synthesise W H DEPTH WAVELET WORK_LENGTH SAMPLES_LENGTH C0 C1 ...
  decode W H DEPTH WAVELET INTRA A0 D0 A1 D1 A2 D2 A3 D3 A4 D4
         COEFFICIENTS_LENGTH WORK_LENGTH SAMPLES_LENGTH BYTES
  low_delay LUMA_W LUMA_H CHROMA_W CHROMA_H DEPTH INTRA ACROSS DOWN
         NUMERATOR DENOMINATOR M0 M1 M2 M3 M4 M5 M6 M7 M8 M9 M10 M11 M12
         LUMA_LENGTH C1_LENGTH C2_LENGTH BYTES
  analyse W H DEPTH WAVELET V0 V1 ...

Numbers are decimal; BYTES is hexadecimal, or - for none. A and D are codeblocks
across and down at levels 0 to 4. ACROSS and DOWN are slices, M0 to M12 the
matrix. Planes start filled with 7.

Exit status: 0 done, 1 a file cannot be read, 2 a wrong command line.
";

/// Runs the command; the exit status is 0, 1 (cannot read) or 2 (usage).
fn main() -> ExitCode {
    // A word that isn't text stands for no command and names no file.
    let arguments: Vec<String> = std::env::args_os()
        .skip(1)
        .map(|word| word.into_string().unwrap_or_default())
        .collect();
    let words: Vec<&str> = arguments.iter().map(String::as_str).collect();
    let result = match words[..] {
        ["--help" | "-h" | "help"] => Ok(USAGE.to_string()),
        ["decode", file] => read(file).map(|bytes| reference::read_recording(&bytes)),
        ["jobs", file] => run(file, reference::jobs::run_jobs),
        ["analyse", file] => run(file, reference::jobs::run_analyses),
        _ => {
            eprint!("{USAGE}");
            return ExitCode::from(2);
        }
    };
    let written = result.and_then(|text| {
        std::io::stdout()
            .write_all(text.as_bytes())
            .map_err(|error| format!("standard output: {error}"))
    });
    match written {
        Ok(()) => ExitCode::SUCCESS,
        Err(error) => {
            eprintln!("reference: {error}");
            ExitCode::from(1)
        }
    }
}

/// A file's bytes, or why it cannot be read.
fn read(file: &str) -> Result<Vec<u8>, String> {
    std::fs::read(file).map_err(|error| format!("{file}: {error}"))
}

/// What running a job file's text gives, or what is wrong with the file.
fn run(file: &str, jobs: fn(&str) -> Result<String, String>) -> Result<String, String> {
    let bytes = read(file)?;
    let text = String::from_utf8(bytes).map_err(|_| format!("{file}: not text"))?;
    jobs(&text).map_err(|error| format!("{file}: {error}"))
}
