//! The command and its job files.

use reference::jobs::{run_analyses, run_jobs};
use std::path::PathBuf;
use std::process::{Command, Output};

/// A file for a test with these bytes.
fn file(name: &str, bytes: &[u8]) -> PathBuf {
    let path = PathBuf::from(env!("CARGO_TARGET_TMPDIR")).join(name);
    std::fs::write(&path, bytes).unwrap();
    path
}

/// What the command does with these words.
fn run(words: &[&str]) -> Output {
    Command::new(env!("CARGO_BIN_EXE_reference"))
        .args(words)
        .output()
        .unwrap()
}

#[test]
fn job_answers() {
    let text = "\
# the worked case
unpack 2 2 1 3 1  1 1 1 1 1 1 1 1 1 1  4  3016301830703020
synthesise 2 2 1 3 4 4  10 4 -2 1   # its samples
decode 2 2 1 3 1  1 1 1 1 1 1 1 1 1 1  4 4 4  3016301830703020

decode 2 2 1 3 1  1 1 1 1 1 1 1 1 1 1  4 4 4  -
decode 2 2 1 3 1  1 1 1 1 1 1 1 1 1 1  4 3 4  -
unpack 2 2 1 99 0  1 1 1 0 1 1 1 1 1 1  2  -
synthesise 4294967295 2 1 3 1 0
";
    let expected = "\
status 0 place 8
coefficients: 10 4 -2 1
status 0 place 0
work: 0 0 0 0
samples: 9 12 7 11
status 0 place 8
coefficients: 10 4 -2 1
work: 0 0 0 0
samples: 9 12 7 11
status 6 place 0
coefficients: 0 0 0 0
work: 0 0 0 0
samples: 0 0 0 0
status 5 place 0
coefficients: 7 7 7 7
work: 7 7 7
samples: 7 7 7 7
status 4 place 0
coefficients: 7 7
status 1 place 0
work: 7
samples:
";
    assert_eq!(run_jobs(text).unwrap(), expected);
    let output = run(&["jobs", file("jobs.txt", text.as_bytes()).to_str().unwrap()]);
    assert_eq!(output.status.code(), Some(0));
    assert_eq!(String::from_utf8(output.stdout).unwrap(), expected);
    assert!(output.stderr.is_empty());
}

#[test]
fn analyse_answers() {
    let text = "\
analyse 2 2 1 3  9 12 7 11
analyse 1 1 1 4  1099511627776 0 0 0
analyse 1 1 5 4  0
";
    let expected = "\
fits 1
coefficients: 10 4 -2 1
fits 0
coefficients: 549755813888 -1099511627776 -1099511627776 2199023255552
status 2 place 0
";
    assert_eq!(run_analyses(text).unwrap(), expected);
    let path = file("analyses.txt", text.as_bytes());
    let output = run(&["analyse", path.to_str().unwrap()]);
    assert_eq!(output.status.code(), Some(0));
    assert_eq!(String::from_utf8(output.stdout).unwrap(), expected);
}

#[test]
fn bad_lines_are_named() {
    for (text, error) in [
        ("\nencode 1", "line 2: no such job: encode"),
        ("unpack 1 1", "line 1: DEPTH is missing"),
        ("unpack 1 1 0 0 2", "line 1: INTRA is neither 0 nor 1: 2"),
        (
            "unpack 1 4294967296",
            "line 1: H is not a number in range: 4294967296",
        ),
        (
            "unpack 1 1 0 0 0 1 1 1 1 1 1 1 1 1 1 1 808",
            "line 1: BYTES is not whole hexadecimal bytes: 808",
        ),
        (
            "unpack 1 1 0 0 0 1 1 1 1 1 1 1 1 1 1 1 80 80",
            "line 1: a word too many: 80",
        ),
        (
            "unpack 1 1 0 0 0 1 1 1 1 1 1 1 1 1 1 33554433 80",
            "line 1: COEFFICIENTS_LENGTH is above 2^25: 33554433",
        ),
        (
            "synthesise 1 1 0 0 1 1 2147483648",
            "line 1: a coefficient is not a number in range: 2147483648",
        ),
    ] {
        assert_eq!(run_jobs(text), Err(error.to_string()));
    }
    assert_eq!(
        run_analyses("analyse 1 1 0 0 2000000000000000000000000"),
        Err("line 1: a number of the plane is beyond 2^80".to_string())
    );
}

#[test]
fn exit_statuses() {
    for words in [
        &[][..],
        &["decode"],
        &["jobs", "a", "b"],
        &["unknown", "file"],
    ] {
        let output = run(words);
        assert_eq!(output.status.code(), Some(2));
        assert!(output.stdout.is_empty());
        assert!(String::from_utf8(output.stderr)
            .unwrap()
            .starts_with("usage:"));
    }
    let missing = PathBuf::from(env!("CARGO_TARGET_TMPDIR")).join("no such file");
    let bad = file("bad.txt", b"unpack\n");
    let not_text = file("not_text.txt", &[0xFF, 0xFE]);
    for (command, path) in [
        ("decode", &missing),
        ("jobs", &missing),
        ("jobs", &bad),
        ("analyse", &bad),
        ("jobs", &not_text),
    ] {
        let output = run(&[command, path.to_str().unwrap()]);
        assert_eq!(output.status.code(), Some(1));
        assert!(output.stdout.is_empty());
        assert!(!output.stderr.is_empty());
    }
}

#[test]
fn decode_prints_a_recording() {
    let path = file("empty.rec", &[]);
    let output = run(&["decode", path.to_str().unwrap()]);
    assert_eq!(output.status.code(), Some(0));
    assert_eq!(output.stdout, b"refused 11\n");
}
