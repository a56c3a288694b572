//! The command: compares a great many components, pictures or recordings, or makes round trips.

use compare::round_trip::{RoundTrip, RoundTrips};
use compare::work::{Failure, Tally, Work, ENOUGH_FAILURES};
use compare::{
    check, check_low_delay, check_recording, low_delay_result, proved, proved_low_delay, reference,
    reference_low_delay, results, Case, Job, LowDelayCase, LowDelayStatistics, Outcome, Program,
    Recording, RecordingStatistics, Statistics,
};
use reference::read_recording;
use std::fmt::Display;
use std::path::Path;
use std::process::ExitCode;
use std::time::Instant;
use vectors::command_line;

const USAGE: &str = "usage: compare COUNT [SEED] [--threads N]
       compare --seed SEED --count COUNT [--threads N]
       compare --low-delay COUNT [SEED] [--threads N]
       compare --round-trips COUNT [SEED] [--threads N]
       compare --recordings COUNT [SEED] [--threads N] --program PATH

Compares the proved library with the independent decoder on COUNT components made
from the seeds SEED, SEED + 1 and on: unpack, synthesise and decode, status, place,
every entry of every plane, and the memory around them. SEED is 1 where none is
given. A COUNT of 1 prints the component in full, as jobs that `reference jobs`
answers.

With --low-delay it compares them on COUNT pictures of low delay slices: status, place,
every entry of the planes of luma, C1 and C2, and the memory around them. A COUNT of 1
prints the picture in full, as a job that `reference jobs` answers.

With --round-trips the independent decoder analyses COUNT planes, and the proved
library must give each back whose analysis fits 32 bits.

With --recordings the program at PATH is run on COUNT recordings, each on its
standard input, and must write what the independent decoder gives, byte by byte, and
nothing on its standard error. A COUNT of 1 prints the recording in hexadecimal,
which `xxd -r -p` turns into a file, and what is written for it.

Exit status: 0 no difference; 1 a difference, or an answer or a place of it that
fewer than one in 1000 components or pictures gave (one in 500 round trips or entries
of recordings), too rare to mean anything; 2 a wrong command line.
";

/// What is compared.
enum Subject {
    Components,
    LowDelay,
    RoundTrips,
    Recordings(Program),
}

/// What the command line asks for.
struct Request {
    subject: Subject,
    work: Work,
}

/// Reads the command line, or says what is wrong with it.
fn read_request(words: &[&str]) -> Result<Request, String> {
    let (mut subject, mut program) = (None, None);
    let (mut count, mut seed, mut threads) = (None, None, None);
    let mut words = words.iter();
    while let Some(&word) = words.next() {
        let (slot, value) = match word {
            "--low-delay" | "--round-trips" | "--recordings" => {
                put(&mut subject, word)?;
                continue;
            }
            "--program" => {
                put(&mut program, *words.next().ok_or("--program needs a path")?)?;
                continue;
            }
            "--count" => (&mut count, words.next()),
            "--seed" => (&mut seed, words.next()),
            "--threads" => (&mut threads, words.next()),
            _ if word.starts_with('-') => return Err(format!("no such option: {word}")),
            _ if count.is_none() => (&mut count, Some(&word)),
            _ => (&mut seed, Some(&word)),
        };
        let value = value.ok_or(format!("{word} needs a number"))?;
        put(slot, command_line::number(value)?)?;
    }
    Ok(Request {
        subject: read_subject(subject, program)?,
        work: read_work(count, seed, threads)?,
    })
}

/// Puts a value where none was given yet.
fn put<T: Copy + Display>(slot: &mut Option<T>, value: T) -> Result<(), String> {
    match slot.replace(value) {
        Some(_) => Err(format!("one too many: {value}")),
        None => Ok(()),
    }
}

/// What is compared, by the option that says so and the path of the program.
fn read_subject(option: Option<&str>, program: Option<&str>) -> Result<Subject, String> {
    match (option, program) {
        (None, None) => Ok(Subject::Components),
        (Some("--low-delay"), None) => Ok(Subject::LowDelay),
        (Some("--round-trips"), None) => Ok(Subject::RoundTrips),
        (Some("--recordings"), Some(path)) if Path::new(path).is_file() => {
            Ok(Subject::Recordings(Program::new(path)))
        }
        (Some("--recordings"), Some(path)) => Err(format!("no such program: {path}")),
        _ => Err("--recordings and --program go together".to_string()),
    }
}

/// Which seeds, and on how many threads.
fn read_work(count: Option<u64>, seed: Option<u64>, threads: Option<u64>) -> Result<Work, String> {
    let count = count.ok_or("COUNT is missing")?;
    let threads = threads.unwrap_or(1);
    if count == 0 || threads == 0 || threads > 64 {
        return Err("COUNT is from 1 on, N from 1 to 64".to_string());
    }
    Ok(Work {
        first: seed.unwrap_or(1),
        count,
        threads: threads as usize,
    })
}

/// Runs the command.
fn main() -> ExitCode {
    let request = match command_line::read("compare", USAGE, read_request) {
        Ok(request) => request,
        Err(status) => return status,
    };
    let Request { subject, work } = request;
    let passed = match subject {
        Subject::Components => compare_components(&work),
        Subject::LowDelay => compare_pictures(&work),
        Subject::RoundTrips => make_round_trips(&work),
        Subject::Recordings(program) => compare_recordings(&work, &program),
    };
    if passed {
        ExitCode::SUCCESS
    } else {
        ExitCode::from(1)
    }
}

/// Compares components and prints what they reached; answers whether all is well.
fn compare_components(work: &Work) -> bool {
    if work.count == 1 {
        print_case(&Case::from_seed(work.first));
    }
    run_all(work, "components", |seed, statistics: &mut Statistics| {
        let answers = check(&Case::from_seed(seed), proved).map_err(|error| error.to_string())?;
        statistics.add(&answers);
        Ok(())
    })
}

/// Compares pictures of low delay slices and prints what they reached; answers whether all is well.
fn compare_pictures(work: &Work) -> bool {
    if work.count == 1 {
        print_picture(&LowDelayCase::from_seed(work.first));
    }
    run_all(
        work,
        "pictures",
        |seed, reached: &mut LowDelayStatistics| {
            let case = LowDelayCase::from_seed(seed);
            let answer = check_low_delay(&case, proved_low_delay)?;
            reached.add(&case, &answer);
            Ok(())
        },
    )
}

/// Makes round trips and prints what they reached; answers whether all is well.
fn make_round_trips(work: &Work) -> bool {
    if work.count == 1 {
        print_round_trip(work.first);
    }
    run_all(work, "round trips", |seed, trips: &mut RoundTrips| {
        let trip = RoundTrip::from_seed(seed);
        let came_back = trip.run()?;
        trips.add(&trip, came_back);
        Ok(())
    })
}

/// Compares what the program writes for recordings and prints what they reached; answers whether all is
/// well.
fn compare_recordings(work: &Work, program: &Program) -> bool {
    if work.count == 1 {
        print_recording(&Recording::from_seed(work.first), program);
    }
    run_all(
        work,
        "recordings",
        |seed, reached: &mut RecordingStatistics| {
            let file = Recording::from_seed(seed).file;
            let text = check_recording(&file, |file| program.text(file))?;
            reached.add(&file, &text);
            Ok(())
        },
    )
}

/// Runs a function on every seed and prints the table of what it counted, the failures, what was too rare
/// and a line that sums up; answers whether all is well.
fn run_all<T: Tally>(
    work: &Work,
    what: &str,
    one: impl Fn(u64, &mut T) -> Result<(), String> + Sync,
) -> bool {
    let start = Instant::now();
    let (tally, failures) = work.run(true, one);
    let too_rare = tally.too_rare();
    if work.count > 1 {
        print!("{tally}");
    }
    for failure in &failures {
        println!("DIFFERENCE at seed {}: {}", failure.seed, failure.what);
    }
    for line in &too_rare {
        println!("TOO RARE (below one in {}): {line}", T::ONE_IN);
    }
    let verdict = verdict(&failures, &too_rare);
    let seconds = start.elapsed().as_secs_f64();
    let Work { first, count, .. } = work;
    if *count == 1 {
        println!("seed {first}: {verdict}");
    } else {
        let last = first.wrapping_add(count - 1);
        println!("{count} {what}, seeds {first} to {last}: {verdict} ({seconds:.1} s)");
    }
    failures.is_empty() && too_rare.is_empty()
}

/// What came of it, in words.
fn verdict(failures: &[Failure], too_rare: &[String]) -> String {
    if failures.len() >= ENOUGH_FAILURES {
        format!("stopped after {} differences", failures.len())
    } else if !failures.is_empty() {
        format!("{} differences", failures.len())
    } else if !too_rare.is_empty() {
        "no difference, but some answers are too rare to mean anything".to_string()
    } else {
        "no difference".to_string()
    }
}

/// Prints a component in full: as jobs of the reference's command, and what each decoder makes of them.
fn print_case(case: &Case) {
    println!("seed {}, kind {:?}", case.seed, case.kind);
    print!("{}", case.jobs());
    let (ours, theirs) = (results(case, proved), results(case, reference));
    for ((job, ours), theirs) in Job::ALL.iter().zip(&ours).zip(&theirs) {
        print_outcomes(job.name(), ours, theirs);
    }
}

/// Prints a picture in full: as a job of the reference's command, and what each decoder makes of it.
fn print_picture(case: &LowDelayCase) {
    println!("seed {}, kind {:?}", case.seed, case.kind);
    print!("{}", case.job_text());
    let ours = low_delay_result(case, proved_low_delay);
    print_outcomes(
        "low_delay",
        &ours,
        &low_delay_result(case, reference_low_delay),
    );
}

/// Prints what the proved library and the reference give for a job.
fn print_outcomes(job: &str, ours: &Outcome, theirs: &Outcome) {
    print!("{job} in the proved library: {ours}");
    if ours == theirs {
        println!("{job} in the reference: the same");
    } else {
        print!("{job} in the reference: {theirs}");
    }
}

/// Prints a round trip in full: as a job of the reference's command.
fn print_round_trip(seed: u64) {
    let RoundTrip {
        parameters: p,
        plane,
    } = RoundTrip::from_seed(seed);
    let numbers: String = plane.iter().map(|number| format!(" {number}")).collect();
    println!("seed {seed}");
    println!(
        "analyse {} {} {} {}{numbers}",
        p.width, p.height, p.depth, p.wavelet
    );
}

/// Prints a recording in full, and what the program and the reference make of it.
fn print_recording(recording: &Recording, program: &Program) {
    println!("seed {}, kind {:?}", recording.seed, recording.kind);
    println!("{}", recording.hex());
    let ours = program.text(&recording.file);
    let theirs = read_recording(&recording.file);
    match &ours {
        Ok(text) => print!("the program writes:\n{}", String::from_utf8_lossy(text)),
        Err(error) => println!("{error}"),
    }
    if ours.is_ok_and(|ours| ours == theirs.as_bytes()) {
        println!("the reference gives the same");
    } else {
        print!("the reference gives:\n{theirs}");
    }
}
