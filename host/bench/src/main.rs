//! The command: measures, and prints the tables.

use bench::decoders::Effort;
use bench::instructions::{
    valgrind_version, CountReport, Counts, SliceCountReport, SliceCounts, PROGRAM, SLICES_PROGRAM,
};
use bench::libavcodec::Libavcodec;
use bench::tables::{components, counted_components, counted_slices, low_delay_pictures, Tables};
use std::process::ExitCode;
use std::time::Instant;
use vectors::command_line;

const USAGE: &str = "usage: bench [--quick]
       bench --instructions

Measures unpack, synthesise and decode of the proved library on components of 1920 x
1080 samples and of other sizes, beside the independent decoder and, where FFmpeg's
libraries were found when this was built, libavcodec; then unpack and decode of one to
many codeblocks, low delay pictures, synthesise on large numbers, and calls that are
refused. All are checked to give the same samples first. They run in turn on one thread; the processor
time of the best run counts. With --quick there are few runs, and the figures are rough.

With --instructions valgrind counts the instructions of each job instead, on components
of 480 x 270 samples, one of them not intra and three with one to many codeblocks, on
a small one, and on low delay pictures.

docs/BENCHMARK.md says how to read the tables.

Exit status: 0; 1 two decoders differ; 2 a wrong command line, or no valgrind.
";

/// How often everything is measured, and how.
#[derive(Clone, Copy)]
struct Passes {
    count: usize,
    /// Each pass; the reference takes part in the tables of wavelets alone.
    effort: Effort,
}

/// A full run.
const FULL: Passes = Passes {
    count: 5,
    effort: Effort {
        rounds: 6,
        reference_rounds: 1,
    },
};

/// A quick run.
const QUICK: Passes = Passes {
    count: 1,
    effort: Effort {
        rounds: 3,
        reference_rounds: 1,
    },
};

/// The processor's name, if the system tells it.
fn processor() -> String {
    let text = std::fs::read_to_string("/proc/cpuinfo").unwrap_or_default();
    let name = text.lines().find_map(|line| {
        let (field, value) = line.split_once(':')?;
        (field.trim() == "model name").then(|| value.trim().to_string())
    });
    name.unwrap_or("unknown".to_string())
}

/// Measures everything in each pass, so that a busy minute of the machine spoils no row, and prints the
/// tables.
fn run(passes: Passes) -> Result<(), String> {
    let start = Instant::now();
    let components = components()?;
    let pictures = low_delay_pictures()?;
    let mut tables = Tables::new(&components, &pictures)?;
    for pass in 1..=passes.count {
        eprintln!("measuring: pass {pass} of {}", passes.count);
        tables.pass(passes.effort);
    }
    let libavcodec = Libavcodec::version().unwrap_or("not installed".to_string());
    println!("Processor: {}; libavcodec: {libavcodec}.", processor());
    println!(
        "Best of {} turns ({} for the reference), one thread, processor time.",
        passes.count * passes.effort.rounds,
        passes.count * passes.effort.reference_rounds
    );
    println!("Planes are not cleared between turns: what a decoder clears is in its time.\n");
    print!("{}", tables.to_report());
    println!("\n{:.0} s in all", start.elapsed().as_secs_f64());
    Ok(())
}

/// Counts the instructions of each wavelet at each rate, of codeblocks and of slices, and prints the tables.
fn count_instructions(valgrind: &str) -> Result<(), String> {
    let this = std::env::current_exe().map_err(|error| error.to_string())?;
    let program = this.with_file_name(PROGRAM);
    let mut rows = Vec::new();
    for component in counted_components()? {
        let wavelet = component.parameters.wavelet;
        let (index, codeblocks) = (component.index, component.codeblocks);
        eprintln!("counting: wavelet {wavelet}, index {index}, codeblocks {codeblocks}");
        rows.push(Counts::of(&component, &program)?);
    }
    let program = this.with_file_name(SLICES_PROGRAM);
    let mut slice_rows = Vec::new();
    for sliced in counted_slices()? {
        eprintln!("counting: {sliced}");
        slice_rows.push(SliceCounts::of(&sliced, &program)?);
    }
    println!("Counted by {valgrind}, callgrind.\n");
    print!("{}", CountReport(rows));
    print!("\n{}", SliceCountReport(slice_rows));
    Ok(())
}

/// What the command line asks for.
enum Request {
    Measure(Passes),
    CountInstructions { valgrind: String },
}

/// Reads the command line, or says what is wrong with it.
fn read_request(words: &[&str]) -> Result<Request, String> {
    match words {
        [] => Ok(Request::Measure(FULL)),
        ["--quick"] => Ok(Request::Measure(QUICK)),
        ["--instructions"] => match valgrind_version() {
            Some(valgrind) => Ok(Request::CountInstructions { valgrind }),
            None => Err("valgrind is not installed".to_string()),
        },
        _ => Err("no such option, or one too many".to_string()),
    }
}

/// Runs the command.
fn main() -> ExitCode {
    let result = match command_line::read("bench", USAGE, read_request) {
        Ok(Request::Measure(passes)) => run(passes),
        Ok(Request::CountInstructions { valgrind }) => count_instructions(&valgrind),
        Err(status) => return status,
    };
    match result {
        Ok(()) => ExitCode::SUCCESS,
        Err(error) => {
            eprintln!("bench: {error}");
            ExitCode::from(1)
        }
    }
}
