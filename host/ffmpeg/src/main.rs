//! The command: has FFmpeg and the proved library decode the same bodies, and compares.

use ffmpeg::case::{Case, COMPONENTS_OF_CASE};
use ffmpeg::compare::{compare, Counts, Difference};
use ffmpeg::low_delay::case::LowDelayCase;
use ffmpeg::low_delay::compare::{self as low_delay, LowDelayCounts};
use ffmpeg::low_delay::stored::{confirmed_pictures, file_name};
use ffmpeg::peer;
use ffmpeg::stream::ChromaFormat;
use std::fs;
use std::path::Path;
use std::process::ExitCode;
use std::time::Instant;
use vectors::command_line::{self, number};

const USAGE: &str = "usage: compare-ffmpeg [--low-delay] COUNT [SEED]
       compare-ffmpeg --store FOLDER SEED

Wraps COUNT components into Dirac streams of 24 (8 pictures of 3 components), has
the ffmpeg command decode them and compares its samples with those of the proved
library, where these can confirm them: docs/FFMPEG.md says where. The streams
are made from the seeds SEED (1 where none is given), SEED + 1 and on; with a COUNT
of 24 one is repeated. With --low-delay the pictures are of low delay slices.

With --store low delay pictures that FFmpeg confirms are written to files in FOLDER,
the first of each seed from SEED on: vectors/README.md says what they are.

Needs FFmpeg from 5.1 on, as the command ffmpeg.

Exit status: 0 no difference; 1 a difference, FFmpeg gave no picture, or a file cannot
be written; 2 a wrong command line, or no FFmpeg.
";

/// What the command line asks for.
enum Request {
    Compare(Comparison),
    Store { folder: String, first_seed: u64 },
}

/// Which components are compared.
struct Comparison {
    low_delay: bool,
    count: u64,
    first_seed: u64,
}

impl Comparison {
    /// How many streams have them.
    fn streams(&self) -> u64 {
        self.count.div_ceil(COMPONENTS_OF_CASE as u64)
    }
}

/// Reads the command line, or says what is wrong with it.
fn read_request(words: &[&str]) -> Result<Request, String> {
    let (low_delay, words) = match words {
        ["--store", folder, seed] => {
            return Ok(Request::Store {
                folder: folder.to_string(),
                first_seed: number(seed)?,
            })
        }
        ["--low-delay", words @ ..] => (true, words),
        _ => (false, words),
    };
    let (count, first_seed) = match words {
        [count] => (number(count)?, 1),
        [count, seed] => (number(count)?, number(seed)?),
        _ => return Err("COUNT is missing, or there is a word too many".to_string()),
    };
    Ok(Request::Compare(Comparison {
        low_delay,
        count,
        first_seed,
    }))
}

/// Compares cases, each by its seed, and prints differences; answers how many had no pictures.
fn compare_cases(
    comparison: &Comparison,
    mut compare: impl FnMut(u64) -> Result<Vec<Difference>, String>,
) -> u64 {
    let mut failures = 0;
    for seed in (0..comparison.streams()).map(|k| comparison.first_seed.wrapping_add(k)) {
        match compare(seed) {
            Ok(differences) => {
                for difference in differences {
                    println!("{difference}");
                }
            }
            Err(error) => {
                println!("seed {seed}: {error}");
                failures += 1;
            }
        }
    }
    failures
}

/// Compares all components; answers whether all is well.
fn run(comparison: &Comparison) -> bool {
    let start = Instant::now();
    let (failures, different) = if comparison.low_delay {
        let mut counts = LowDelayCounts::default();
        let failures = compare_cases(comparison, |seed| {
            low_delay::compare(&LowDelayCase::from_seed(seed), &mut counts)
        });
        print!("{counts}");
        (failures, counts.components.different)
    } else {
        let mut counts = Counts::default();
        let failures = compare_cases(comparison, |seed| {
            compare(&Case::from_seed(seed), &mut counts)
        });
        print!("{counts}");
        (failures, counts.different)
    };
    println!(
        "streams: {}, seeds from {} on; without pictures: {failures}; {:.0} s",
        comparison.streams(),
        comparison.first_seed,
        start.elapsed().as_secs_f64()
    );
    failures == 0 && different == 0
}

/// Writes the files of low delay pictures, or says what failed.
fn store(folder: &str, first_seed: u64) -> Result<(), String> {
    for chroma in ChromaFormat::ALL {
        let (pictures, text) = confirmed_pictures(chroma, first_seed)?;
        let name = Path::new(folder).join(file_name(chroma));
        for (ending, bytes) in [("bin", pictures), ("txt", text.into_bytes())] {
            let path = name.with_extension(ending);
            fs::write(&path, bytes).map_err(|error| format!("{}: {error}", path.display()))?;
        }
    }
    Ok(())
}

/// Runs the command.
fn main() -> ExitCode {
    let request = command_line::read("compare-ffmpeg", USAGE, |words| {
        let request = read_request(words)?;
        println!("{}", peer::version()?);
        Ok(request)
    });
    match request {
        Ok(Request::Compare(comparison)) if run(&comparison) => ExitCode::SUCCESS,
        Ok(Request::Compare(_)) => ExitCode::from(1),
        Ok(Request::Store { folder, first_seed }) => match store(&folder, first_seed) {
            Ok(()) => ExitCode::SUCCESS,
            Err(error) => {
                eprintln!("compare-ffmpeg: {error}");
                ExitCode::from(1)
            }
        },
        Err(status) => status,
    }
}
