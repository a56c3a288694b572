//! The `ffmpeg` command.

use crate::stream::{Format, COMPONENTS};
use std::io::Write;
use std::process::{Command, Stdio};
use std::thread;

/// The first line of `ffmpeg -version`, or why the command cannot be run.
pub fn version() -> Result<String, String> {
    let output = Command::new("ffmpeg")
        .arg("-version")
        .output()
        .map_err(|error| format!("the command ffmpeg cannot be run: {error}"))?;
    let text = String::from_utf8_lossy(&output.stdout);
    Ok(text.lines().next().unwrap_or_default().to_string())
}

/// The pictures that FFmpeg makes of a Dirac stream's data units, each with the samples of its components as it
/// gives them: offset and clipped. With or without its SIMD code. An error is what it says of it.
pub fn decode(
    stream: &[Vec<u8>],
    format: Format,
    simd: bool,
) -> Result<Vec<[Vec<i32>; COMPONENTS]>, String> {
    let raw = run(&ivf_file(stream), simd)?;
    let sample_bytes = format.bit_depth.sample_bytes();
    let lengths = format
        .sizes()
        .map(|(width, height)| (width * height) as usize * sample_bytes);
    let picture: usize = lengths.iter().sum();
    if raw.len() % picture != 0 {
        return Err(format!("{} bytes are no whole pictures", raw.len()));
    }
    // The lowest byte comes first.
    let sample = |bytes: &[u8]| {
        bytes
            .iter()
            .rev()
            .fold(0, |n, &byte| n << 8 | i32::from(byte))
    };
    let components = |mut picture: &[u8]| {
        lengths.map(|length| {
            let (own, others) = picture.split_at(length);
            picture = others;
            own.chunks(sample_bytes).map(sample).collect()
        })
    };
    Ok(raw.chunks(picture).map(components).collect())
}

/// An IVF file with a packet for each data unit. FFmpeg's parser of bare Dirac streams passes over pictures
/// that have a reference and no arithmetic coding; a file of packets needs no parser.
pub fn ivf_file(stream: &[Vec<u8>]) -> Vec<u8> {
    let mut file = b"DKIF".to_vec();
    // The version, and the length of this header.
    for half in [0u16, 32] {
        file.extend(half.to_le_bytes());
    }
    file.extend(b"drac");
    // The size, which the stream has; 25 pictures in 1 second; the number of packets; nothing.
    for word in [0, 25, 1, stream.len() as u32, 0] {
        file.extend(word.to_le_bytes());
    }
    // Each has a length and a time.
    for (number, unit) in (0u64..).zip(stream) {
        file.extend((unit.len() as u32).to_le_bytes());
        file.extend(number.to_le_bytes());
        file.extend(unit);
    }
    file
}

/// What FFmpeg writes for an IVF file: raw pictures in its own format.
fn run(file: &[u8], simd: bool) -> Result<Vec<u8>, String> {
    let mut command = Command::new("ffmpeg");
    command.args(["-nostdin", "-v", "error"]);
    if !simd {
        command.args(["-cpuflags", "0"]);
    }
    command.args(["-threads", "1", "-f", "ivf", "-i", "pipe:0"]);
    command.args(["-fps_mode", "passthrough", "-f", "rawvideo", "pipe:1"]);
    let mut child = command
        .stdin(Stdio::piped())
        .stdout(Stdio::piped())
        .stderr(Stdio::piped())
        .spawn()
        .map_err(|error| format!("the command ffmpeg cannot be run: {error}"))?;
    let mut input = child.stdin.take().expect("it is piped");
    let output = thread::scope(|scope| {
        // If FFmpeg stops reading, what it says tells why.
        scope.spawn(move || input.write_all(file));
        child.wait_with_output()
    })
    .map_err(|error| format!("the command ffmpeg failed: {error}"))?;
    let said = String::from_utf8_lossy(&output.stderr);
    if output.status.success() && said.trim().is_empty() {
        Ok(output.stdout)
    } else {
        Err(format!("FFmpeg ended with {}: {said}", output.status))
    }
}
