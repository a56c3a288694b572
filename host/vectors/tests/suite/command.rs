//! The command's usage; what it writes is tested with each kind of file.

use std::process::{Command, Output};

/// What the command does with these words.
fn run(words: &[&str]) -> Output {
    Command::new(env!("CARGO_BIN_EXE_vectors"))
        .args(words)
        .output()
        .unwrap()
}

#[test]
fn exit_statuses() {
    for words in [
        &[][..],
        &["recordings"],
        &["samples", "a", "b"],
        &["unpack-vectors", "a"],
        &["low-delay-vectors", "a"],
        &["factors"],
        &["unknown", "file"],
    ] {
        let output = run(words);
        assert_eq!(output.status.code(), Some(2));
        assert!(output.stdout.is_empty());
        assert!(String::from_utf8(output.stderr).unwrap().contains("usage:"));
    }
    for word in ["-h", "--help"] {
        let output = run(&[word]);
        assert_eq!(output.status.code(), Some(0));
        assert!(output.stdout.starts_with(b"usage:"));
    }
}
