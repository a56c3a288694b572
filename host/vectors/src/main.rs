//! The command: writes the stored vectors and recordings, and the table of factors.

use std::path::Path;
use std::process::ExitCode;
use vectors::factors::factors;
use vectors::low_delay_vectors::low_delay_vectors;
use vectors::recording_vectors::{recordings, Recording};
use vectors::samples::samples;
use vectors::synthesis_vectors::synthesis_vectors;
use vectors::unpack_vectors::unpack_vectors;
use vectors::{command_line, Vectors};

const USAGE: &str = "usage: vectors COMMAND PATH..

  vectors synthesis-vectors STDIN_FILE STDOUT_FILE
                           write the input of crates/synthesis_vectors and the output
                           that is expected of it
  vectors unpack-vectors STDIN_FILE STDOUT_FILE
                           the same for crates/unpack_vectors
  vectors low-delay-vectors STDIN_FILE STDOUT_FILE
                           the same for crates/low_delay_vectors
  vectors recordings DIR   write vectors/recordings: recordings and what they decode to
  vectors samples DIR      the same for samples
  vectors factors FILE     write crates/coefficients/src/factors.rt: the quantiser's factors

Exit status: 0 done, 1 a file cannot be written, 2 a wrong command line.
";

/// What the command line asks for.
enum Request {
    Vectors {
        vectors: Vectors,
        stdin: String,
        stdout: String,
    },
    Recordings {
        recordings: Vec<Recording>,
        folder: String,
    },
    Factors {
        file: String,
    },
}

/// Reads the command line, or says what is wrong with it.
fn read_request(words: &[&str]) -> Result<Request, String> {
    let vectors = |vectors, stdin: &str, stdout: &str| Request::Vectors {
        vectors,
        stdin: stdin.to_string(),
        stdout: stdout.to_string(),
    };
    let recordings_in = |recordings, folder: &str| Request::Recordings {
        recordings,
        folder: folder.to_string(),
    };
    match words {
        ["synthesis-vectors", stdin, stdout] => Ok(vectors(synthesis_vectors(), stdin, stdout)),
        ["unpack-vectors", stdin, stdout] => Ok(vectors(unpack_vectors(), stdin, stdout)),
        ["low-delay-vectors", stdin, stdout] => Ok(vectors(low_delay_vectors(), stdin, stdout)),
        ["recordings", folder] => Ok(recordings_in(recordings(), folder)),
        ["samples", folder] => Ok(recordings_in(samples(), folder)),
        ["factors", file] => Ok(Request::Factors {
            file: file.to_string(),
        }),
        _ => Err("no such command, or a word too many or too few".to_string()),
    }
}

/// Runs the command.
fn main() -> ExitCode {
    let written = match command_line::read("vectors", USAGE, read_request) {
        Ok(Request::Vectors {
            vectors,
            stdin,
            stdout,
        }) => write_vectors(&vectors, &stdin, &stdout),
        Ok(Request::Recordings { recordings, folder }) => write_recordings(&recordings, &folder),
        Ok(Request::Factors { file }) => write(file.as_ref(), factors().as_bytes()),
        Err(status) => return status,
    };
    match written {
        Ok(()) => ExitCode::SUCCESS,
        Err(error) => {
            eprintln!("vectors: {error}");
            ExitCode::from(1)
        }
    }
}

/// Writes the stored vectors' input and output, or why a file cannot be written.
fn write_vectors(vectors: &Vectors, stdin: &str, stdout: &str) -> Result<(), String> {
    write(stdin.as_ref(), &vectors.input)?;
    write(stdout.as_ref(), vectors.output.as_bytes())
}

/// Writes each recording and its text into a folder, which is made where it is missing, or why a file
/// cannot be written.
fn write_recordings(recordings: &[Recording], folder: &str) -> Result<(), String> {
    std::fs::create_dir_all(folder).map_err(|error| format!("{folder}: {error}"))?;
    for recording in recordings {
        let file = |ending| Path::new(folder).join(format!("{}.{ending}", recording.name));
        write(&file("rec"), &recording.file)?;
        write(&file("txt"), recording.text().as_bytes())?;
    }
    Ok(())
}

/// Writes a file, or why it cannot be written.
fn write(file: &Path, bytes: &[u8]) -> Result<(), String> {
    std::fs::write(file, bytes).map_err(|error| format!("{}: {error}", file.display()))
}
