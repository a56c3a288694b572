//! The command line.

use compare::{LowDelayCase, Recording};
use reference::read_recording;
use std::process::{Command, Output};

/// Runs the command.
fn run(words: &[&str]) -> Output {
    Command::new(env!("CARGO_BIN_EXE_compare"))
        .args(words)
        .output()
        .unwrap()
}

/// The exit status and what is printed.
fn outcome(words: &[&str]) -> (Option<i32>, String) {
    let output = run(words);
    (
        output.status.code(),
        String::from_utf8(output.stdout).unwrap(),
    )
}

#[test]
fn a_count_prints_a_table_and_a_verdict() {
    let (code, text) = outcome(&["300", "77"]);
    assert_eq!(code, Some(0));
    assert!(text.starts_with("status "));
    let last = text.lines().last().unwrap();
    assert!(last.starts_with("300 components, seeds 77 to 376: no difference ("));
    // The same in other words, on threads.
    let (_, other) = outcome(&["--seed", "77", "--threads", "3", "--count", "300"]);
    let table = |text: &str| text.rsplit_once("\n300 ").unwrap().0.to_string();
    assert_eq!(table(&text), table(&other));
}

#[test]
fn one_case_is_printed_in_full() {
    let (code, text) = outcome(&["--seed", "18446744073709551615", "--count", "1"]);
    assert_eq!(code, Some(0));
    assert!(text.starts_with("seed 18446744073709551615, kind "));
    for job in ["unpack", "synthesise", "decode"] {
        assert!(text.contains(&format!("\n{job} ")));
        assert!(text.contains(&format!("\n{job} in the proved library: status ")));
        assert!(text.contains(&format!("\n{job} in the reference: the same\n")));
    }
}

#[test]
fn pictures_print_a_table_and_a_verdict() {
    let (code, text) = outcome(&["--low-delay", "300", "5", "--threads", "2"]);
    assert_eq!(code, Some(0));
    assert!(text.starts_with("status                      pictures\n0 accepted "));
    assert!(text.contains("\n14 luma length "));
    let last = text.lines().last().unwrap();
    assert!(last.starts_with("300 pictures, seeds 5 to 304: no difference ("));
}

#[test]
fn one_picture_is_printed_in_full() {
    let (code, text) = outcome(&["--low-delay", "1", "9"]);
    assert_eq!(code, Some(0));
    let case = LowDelayCase::from_seed(9);
    let start = format!("seed 9, kind {:?}\n{}", case.kind, case.job_text());
    let start = start + "low_delay in the proved library: status ";
    assert!(text.starts_with(&start), "{text}");
    for plane in ["luma", "C1", "C2"] {
        assert!(text.contains(&format!("\n{plane}: ")));
    }
    let end = "\nlow_delay in the reference: the same\nseed 9: no difference\n";
    assert!(text.ends_with(end), "{text}");
}

#[test]
fn round_trips_print_a_table_and_a_verdict() {
    let (code, text) = outcome(&["--round-trips", "300"]);
    assert_eq!(code, Some(0));
    assert!(text.contains("\nwavelet 6 "));
    let last = text.lines().last().unwrap();
    assert!(last.starts_with("300 round trips, seeds 1 to 300: no difference ("));
    let (code, text) = outcome(&["--round-trips", "1", "9"]);
    assert_eq!(code, Some(0));
    assert!(text.starts_with("seed 9\nanalyse "));
}

/// The path of a stand-in for the program.
fn stand_in(name: &str) -> String {
    format!("{}/tests/programs/{name}", env!("CARGO_MANIFEST_DIR"))
}

#[test]
fn recordings_print_a_table_and_the_differences() {
    let words = ["--recordings", "100", "--threads", "2", "--program"];
    let (code, text) = outcome(&[&words[..], &[&stand_in("refuses-all")]].concat());
    assert_eq!(code, Some(1));
    assert!(text.starts_with("status                       entries  recordings\n0 accepted "));
    assert!(text.contains("\nDIFFERENCE at seed 1: entry 0, line 1 from column 1 on is "));
    let last = text.lines().last().unwrap();
    assert!(last.starts_with("100 recordings, seeds 1 to 100: "));
}

#[test]
fn one_recording_is_printed_in_full() {
    let recording = Recording::from_seed(9);
    let expected = read_recording(&recording.file);
    let file = format!("{}/recording-9.txt", env!("CARGO_TARGET_TMPDIR"));
    std::fs::write(&file, &expected).unwrap();
    let given = |name: &str| {
        let output = Command::new(env!("CARGO_BIN_EXE_compare"))
            .args(["--recordings", "1", "9", "--program", &stand_in(name)])
            .env("TEXT", &file)
            .output()
            .unwrap();
        (
            output.status.code(),
            String::from_utf8(output.stdout).unwrap(),
        )
    };
    let start = format!("seed 9, kind {:?}\n{}\n", recording.kind, recording.hex());
    let same = "the reference gives the same\nseed 9: no difference\n";
    let text = format!("{start}the program writes:\n{expected}{same}");
    assert_eq!(given("gives-text"), (Some(0), text));
    let (code, text) = given("refuses-all");
    assert_eq!(code, Some(1));
    let both = format!("the program writes:\nrefused 11\nthe reference gives:\n{expected}");
    assert!(text.starts_with(&[start, both].concat()), "{text}");
    assert!(text.contains("\nDIFFERENCE at seed 9: entry 0, line 1 "));
}

#[test]
fn wrong_command_lines_print_the_usage() {
    for words in [
        &[][..],
        &["0"],
        &["-1"],
        &["many"],
        &["1", "2", "3"],
        &["1", "--count", "1"],
        &["--count"],
        &["10", "--threads", "0"],
        &["10", "--fast"],
        &["--recordings", "10"],
        &["--recordings", "10", "--program"],
        &["--recordings", "10", "--program", "no-such-program"],
        &["--recordings", "--program", "/bin/cat"],
        &[
            "--recordings",
            "--round-trips",
            "10",
            "--program",
            "/bin/cat",
        ],
        &["--round-trips", "10", "--program", "/bin/cat"],
        &["--low-delay"],
        &["--low-delay", "--round-trips", "10"],
        &["--low-delay", "10", "--program", "/bin/cat"],
        &["10", "--program", "/bin/cat"],
        &["18446744073709551616"],
    ] {
        let output = run(words);
        assert_eq!(output.status.code(), Some(2), "{words:?}");
        assert!(output.stdout.is_empty());
        let text = String::from_utf8(output.stderr).unwrap();
        assert!(text.starts_with("compare: ") && text.contains("\nusage: "));
    }
    let (code, text) = outcome(&["--help"]);
    assert_eq!(code, Some(0));
    assert!(text.starts_with("usage: "));
}
