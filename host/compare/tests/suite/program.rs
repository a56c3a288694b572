//! The program as a process, and how a difference is reported.

use compare::{check_recording, first_difference, Program, Recording};

/// A stand-in for the program.
fn stand_in(name: &str) -> Program {
    Program::new(format!(
        "{}/tests/programs/{name}",
        env!("CARGO_MANIFEST_DIR")
    ))
}

#[test]
fn a_difference_names_the_entry_and_the_line() {
    let reference = "entry 0: 2 x 2\n9 12\n7 11\nentry 1: refused 6 place 0\nentry 2: 1 x 1\n-5\n";
    let difference = |ours: &str| first_difference(ours.as_bytes(), reference.as_bytes());
    assert_eq!(difference(reference), None);
    for (wrong, right, place, ours, theirs) in [
        (
            "9 13",
            "9 12",
            "entry 0, line 2 from column 3",
            r"13\n",
            r"12\n",
        ),
        (
            "2 x 3",
            "2 x 2",
            "entry 0, line 1 from column 14",
            r"3\n",
            r"2\n",
        ),
        (
            "place 1",
            "place 0",
            "entry 1, line 4 from column 26",
            r"1\n",
            r"0\n",
        ),
        (
            "refused 12 place 1\n",
            "1 x 1\n-5\n",
            "entry 2, line 5 from column 10",
            r"refused 12 place 1\n",
            r"1 x 1\n",
        ),
        // A text that ends early, one without its last newline, and one that goes on.
        (
            "",
            "entry 2: 1 x 1\n-5\n",
            "entry 2, line 5 from column 1",
            "",
            r"entry 2: 1 x 1\n",
        ),
        ("-5", "-5\n", "entry 2, line 6 from column 1", "-5", r"-5\n"),
        ("-5\n\n", "-5\n", "entry 2, line 7 from column 1", r"\n", ""),
    ] {
        let text = reference.replace(right, wrong);
        let report = format!("{place} on is \"{ours}\", in the reference \"{theirs}\"");
        assert_eq!(difference(&text), Some(report));
    }
    let whole = first_difference(reference.as_bytes(), b"refused 11\n").unwrap();
    assert!(whole.starts_with("line 1 from column 1 on is \"entry 0: 2 x 2\\n\", "));
}

#[test]
fn a_long_line_is_shown_from_the_difference_on() {
    let row = "12345 ".repeat(2000);
    let ours = [row.as_bytes(), b"\xFF7", row.as_bytes()].concat();
    let theirs = [row.as_bytes(), b"7", row.as_bytes()].concat();
    let report = first_difference(&ours, &theirs).unwrap();
    assert!(report.starts_with("line 1 from column 12001 on is \"\\xff712345 "));
    assert!(
        report.ends_with(" 12345..\"") && report.len() < 200,
        "{report}"
    );
}

#[test]
fn a_program_may_write_while_it_reads() {
    // Far more than a pipe holds.
    let bytes: Vec<u8> = (0..400_000u32).map(|k| (k % 251) as u8).collect();
    assert!(Program::new("/bin/cat").text(&bytes).unwrap() == bytes);
}

#[test]
fn a_program_need_not_read() {
    let text = stand_in("refuses-all").text(&[0; 400_000]);
    assert_eq!(text.unwrap(), b"refused 11\n");
}

#[test]
fn a_program_that_fails_or_complains_is_reported() {
    for (program, report) in [
        (
            stand_in("complains"),
            "the program's standard error is \"the table is wrong\\n\"",
        ),
        (
            Program::new("/bin/false"),
            "the program ends with exit status: 1",
        ),
        (stand_in("missing"), "the program cannot be run: "),
    ] {
        // A recording that is refused 11.
        let error = check_recording(&[], |file| program.text(file)).unwrap_err();
        assert!(error.starts_with(report), "{error}");
    }
    let recording = Recording::from_seed(1);
    let program = stand_in("refuses-all");
    let error = check_recording(&recording.file, |file| program.text(file)).unwrap_err();
    assert!(error.starts_with(
        "entry 0, line 1 from column 1 on is \"refused 11\\n\", in the reference \"entry 0: "
    ));
}
