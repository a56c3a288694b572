//! The command's plain text jobs.
//!
//! A job file has one job a line. Words are separated by spaces or tabs; `#` starts a comment that
//! runs to the end of its line; empty lines are passed over. Numbers are decimal. A, D stand for
//! codeblocks across and down, for levels 0 to 4; all ten are always given. Bytes are one word of
//! hexadecimal digits, two a byte, or `-` for no bytes.
//!
//! Jobs for `reference jobs FILE`:
//!
//! ```text
//! unpack W H DEPTH WAVELET INTRA A0 D0 A1 D1 A2 D2 A3 D3 A4 D4 COEFFICIENTS_LENGTH BYTES
//! synthesise W H DEPTH WAVELET WORK_LENGTH SAMPLES_LENGTH C0 C1 ...
//! decode W H DEPTH WAVELET INTRA A0 D0 A1 D1 A2 D2 A3 D3 A4 D4 COEFFICIENTS_LENGTH WORK_LENGTH SAMPLES_LENGTH BYTES
//! low_delay LUMA_W LUMA_H CHROMA_W CHROMA_H DEPTH INTRA ACROSS DOWN NUMERATOR DENOMINATOR M0 M1 ... M12 LUMA_LENGTH C1_LENGTH C2_LENGTH BYTES
//! ```
//!
//! W, H, DEPTH, WAVELET and the counts are any numbers below 2^32, and so are the slices ACROSS and DOWN, the
//! fraction of bytes and the matrix M0 to M12, which is always given whole; INTRA is 0 or 1; a length is at
//! most 2^25. C0 C1 ... are the whole coefficient plane, so their number is its length. Every plane
//! a job may write starts filled with 7, so that a plane left unchanged can be seen.
//!
//! The answer to a job is a line `status N place P`, then one line for each plane the job may write,
//! with all its entries:
//!
//! ```text
//! unpack:      coefficients: ...
//! synthesise:  work: ...          samples: ...
//! decode:      coefficients: ...  work: ...     samples: ...
//! low_delay:   luma: ...          C1: ...       C2: ...
//! ```
//!
//! Jobs for `reference analyse FILE`, where V0 V1 ... are the whole padded plane, each number at most
//! 2^80 in magnitude:
//!
//! ```text
//! analyse W H DEPTH WAVELET V0 V1 ...
//! ```
//!
//! The answer is a line `fits 0` or `fits 1`, then `coefficients: ...`; or, where synthesise would
//! answer 1, 2, 3 or 5, only `status N place 0`.

use crate::params::{Answer, Parameters};
use crate::{analyse, decode, synthesise, unpack, unpack_low_delay, ANALYSIS_LIMIT};
use crate::{LowDelay, SlicedPicture};
use std::fmt::Display;
use std::str::FromStr;

/// What every entry of a plane is before a job.
pub const INITIAL_ENTRY: i32 = 7;

/// The longest plane a job may ask for.
const MAX_LENGTH: usize = 1 << 25;

/// The answers to a file of unpack, synthesise, decode and low_delay jobs, or what is wrong with the file.
pub fn run_jobs(text: &str) -> Result<String, String> {
    run_lines(text, |name, words| match name {
        "unpack" => unpack_job(words),
        "synthesise" => synthesise_job(words),
        "decode" => decode_job(words),
        "low_delay" => low_delay_job(words),
        _ => Err(format!("no such job: {name}")),
    })
}

/// The answers to a file of analyse jobs, or what is wrong with the file.
pub fn run_analyses(text: &str) -> Result<String, String> {
    run_lines(text, |name, words| match name {
        "analyse" => analyse_job(words),
        _ => Err(format!("no such job: {name}")),
    })
}

/// The answers to every line's job, or what is wrong and on which line.
fn run_lines(
    text: &str,
    run: impl Fn(&str, &mut Words) -> Result<String, String>,
) -> Result<String, String> {
    let mut answers = String::new();
    for (number, line) in text.lines().enumerate() {
        let line = line.split('#').next().unwrap_or("");
        let mut words = Words {
            words: line.split_whitespace(),
        };
        let Some(name) = words.words.next() else {
            continue;
        };
        let answer =
            run(name, &mut words).map_err(|error| format!("line {}: {error}", number + 1))?;
        answers.push_str(&answer);
    }
    Ok(answers)
}

/// The answer to an unpack job.
fn unpack_job(words: &mut Words) -> Result<String, String> {
    let p = words.unpack_parameters()?;
    let mut coefficients = words.plane("COEFFICIENTS_LENGTH")?;
    let bytes = words.bytes()?;
    words.end()?;
    let answer = unpack(&p, &bytes, &mut coefficients);
    Ok(status_line(&answer) + &plane_line("coefficients", &coefficients))
}

/// The answer to a synthesise job.
fn synthesise_job(words: &mut Words) -> Result<String, String> {
    let p = words.transform_parameters()?;
    let mut work = words.plane("WORK_LENGTH")?;
    let mut samples = words.plane("SAMPLES_LENGTH")?;
    let coefficients: Vec<i32> = words.rest("coefficient")?;
    let answer = synthesise(&p, &coefficients, &mut work, &mut samples);
    Ok(status_line(&answer) + &plane_line("work", &work) + &plane_line("samples", &samples))
}

/// The answer to a decode job.
fn decode_job(words: &mut Words) -> Result<String, String> {
    let p = words.unpack_parameters()?;
    let mut coefficients = words.plane("COEFFICIENTS_LENGTH")?;
    let mut work = words.plane("WORK_LENGTH")?;
    let mut samples = words.plane("SAMPLES_LENGTH")?;
    let bytes = words.bytes()?;
    words.end()?;
    let answer = decode(&p, &bytes, &mut coefficients, &mut work, &mut samples);
    Ok(status_line(&answer)
        + &plane_line("coefficients", &coefficients)
        + &plane_line("work", &work)
        + &plane_line("samples", &samples))
}

/// The answer to a low_delay job.
fn low_delay_job(words: &mut Words) -> Result<String, String> {
    let p = words.low_delay_parameters()?;
    let mut luma = words.plane("LUMA_LENGTH")?;
    let mut first_chroma = words.plane("C1_LENGTH")?;
    let mut second_chroma = words.plane("C2_LENGTH")?;
    let bytes = words.bytes()?;
    words.end()?;
    let answer = unpack_low_delay(&p, &bytes, &mut luma, &mut first_chroma, &mut second_chroma);
    Ok(status_line(&answer)
        + &plane_line("luma", &luma)
        + &plane_line("C1", &first_chroma)
        + &plane_line("C2", &second_chroma))
}

/// The answer to an analyse job.
fn analyse_job(words: &mut Words) -> Result<String, String> {
    let p = words.transform_parameters()?;
    let plane: Vec<i128> = words.rest("number of the plane")?;
    if plane
        .iter()
        .any(|v| v.unsigned_abs() > ANALYSIS_LIMIT as u128)
    {
        return Err("a number of the plane is beyond 2^80".to_string());
    }
    Ok(match analyse(&p, &plane) {
        Ok(analysis) => {
            format!("fits {}\n", u32::from(analysis.fits))
                + &plane_line("coefficients", &analysis.coefficients)
        }
        Err(answer) => status_line(&answer),
    })
}

/// The line of a status and a place.
fn status_line(answer: &Answer) -> String {
    format!("status {} place {}\n", answer.status, answer.place)
}

/// The line of a plane's name and entries.
fn plane_line<T: Display>(name: &str, plane: &[T]) -> String {
    let mut line = format!("{name}:");
    for entry in plane {
        line.push_str(&format!(" {entry}"));
    }
    line.push('\n');
    line
}

/// The words of a line not yet read.
struct Words<'a> {
    words: std::str::SplitWhitespace<'a>,
}

impl Words<'_> {
    /// The next word as a number.
    fn number<T: FromStr>(&mut self, name: &str) -> Result<T, String> {
        let word = self.words.next().ok_or(format!("{name} is missing"))?;
        word.parse()
            .map_err(|_| format!("{name} is not a number in range: {word}"))
    }

    /// W H DEPTH WAVELET, for jobs that look at nothing else.
    fn transform_parameters(&mut self) -> Result<Parameters, String> {
        Ok(Parameters {
            width: self.number("W")?,
            height: self.number("H")?,
            depth: self.number("DEPTH")?,
            wavelet: self.number("WAVELET")?,
            intra: false,
            codeblocks_across: [1; 5],
            codeblocks_down: [1; 5],
        })
    }

    /// W H DEPTH WAVELET INTRA and the ten codeblock counts.
    fn unpack_parameters(&mut self) -> Result<Parameters, String> {
        let mut p = self.transform_parameters()?;
        p.intra = self.intra()?;
        for level in 0..5 {
            p.codeblocks_across[level] = self.number("a codeblock count")?;
            p.codeblocks_down[level] = self.number("a codeblock count")?;
        }
        Ok(p)
    }

    /// INTRA.
    fn intra(&mut self) -> Result<bool, String> {
        match self.number::<u32>("INTRA")? {
            0 => Ok(false),
            1 => Ok(true),
            other => Err(format!("INTRA is neither 0 nor 1: {other}")),
        }
    }

    /// LUMA_W to DENOMINATOR and the matrix.
    fn low_delay_parameters(&mut self) -> Result<LowDelay, String> {
        let mut p = LowDelay {
            picture: SlicedPicture {
                luma_width: self.number("LUMA_W")?,
                luma_height: self.number("LUMA_H")?,
                chroma_width: self.number("CHROMA_W")?,
                chroma_height: self.number("CHROMA_H")?,
                depth: self.number("DEPTH")?,
                intra: self.intra()?,
                slices_across: self.number("ACROSS")?,
                slices_down: self.number("DOWN")?,
                matrix: [0; 13],
            },
            numerator: self.number("NUMERATOR")?,
            denominator: self.number("DENOMINATOR")?,
        };
        for entry in &mut p.picture.matrix {
            *entry = self.number("a matrix entry")?;
        }
        Ok(p)
    }

    /// A plane of the length the next word gives.
    fn plane(&mut self, name: &str) -> Result<Vec<i32>, String> {
        let length: usize = self.number(name)?;
        if length > MAX_LENGTH {
            return Err(format!("{name} is above 2^25: {length}"));
        }
        Ok(vec![INITIAL_ENTRY; length])
    }

    /// The next word as bytes.
    fn bytes(&mut self) -> Result<Vec<u8>, String> {
        let word = self.words.next().ok_or("BYTES is missing")?;
        if word == "-" {
            return Ok(Vec::new());
        }
        parse_hex(word).ok_or(format!("BYTES is not whole hexadecimal bytes: {word}"))
    }

    /// All remaining words as numbers.
    fn rest<T: FromStr>(&mut self, name: &str) -> Result<Vec<T>, String> {
        let parse = |word: &str| {
            word.parse()
                .map_err(|_| format!("a {name} is not a number in range: {word}"))
        };
        self.words.by_ref().map(parse).collect()
    }

    /// An error unless every word has been read.
    fn end(&mut self) -> Result<(), String> {
        match self.words.next() {
            None => Ok(()),
            Some(word) => Err(format!("a word too many: {word}")),
        }
    }
}

/// The bytes of a word of hexadecimal digits, or none.
fn parse_hex(word: &str) -> Option<Vec<u8>> {
    let digits: Vec<u32> = word
        .chars()
        .map(|digit| digit.to_digit(16))
        .collect::<Option<_>>()?;
    if !digits.len().is_multiple_of(2) {
        return None;
    }
    Some(
        digits
            .chunks(2)
            .map(|pair| (pair[0] << 4 | pair[1]) as u8)
            .collect(),
    )
}
