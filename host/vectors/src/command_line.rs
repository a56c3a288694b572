//! The command line of a program: its words, its usage, and what is wrong with it.

use std::process::ExitCode;

/// The exit status of a wrong command line.
const WRONG: u8 = 2;

/// What the command line asks for, as `request` reads its words; or the exit status, once the usage is
/// printed that was asked for, or what is wrong and the usage.
pub fn read<T>(
    name: &str,
    usage: &str,
    request: impl FnOnce(&[&str]) -> Result<T, String>,
) -> Result<T, ExitCode> {
    // A word that isn't text is no number, no option and no file.
    let words: Vec<String> = std::env::args_os()
        .skip(1)
        .map(|word| word.to_string_lossy().into_owned())
        .collect();
    let words: Vec<&str> = words.iter().map(String::as_str).collect();
    if words.iter().any(|&word| word == "--help" || word == "-h") {
        print!("{usage}");
        return Err(ExitCode::SUCCESS);
    }
    request(&words).map_err(|error| {
        eprint!("{name}: {error}\n\n{usage}");
        ExitCode::from(WRONG)
    })
}

/// A number of the command line, or that it is none.
pub fn number(word: &str) -> Result<u64, String> {
    word.parse()
        .map_err(|_| format!("not a number below 2^64: {word}"))
}
