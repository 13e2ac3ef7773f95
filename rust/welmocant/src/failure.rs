//! How a call ends that did not do what was asked: a status, and a sentence for standard error.

use std::fmt::Display;
use std::io::{self, Write};
use std::path::Path;
use std::process::ExitCode;

/// The statuses, as the help and the man page have them.
pub const REFUSED: u8 = 1;
pub const NO_FILE: u8 = 2;
pub const BROKEN: u8 = 3;
pub const USAGE: u8 = 4;
pub const NO_PICTURE: u8 = 5;
/// As a program has it that SIGPIPE ended.
pub const PIPE: u8 = 141;

#[derive(Debug)]
pub struct Failure {
    status: u8,
    /// Empty where nothing is said.
    sentence: String,
}

impl Failure {
    pub fn new(status: u8, sentence: impl Display) -> Self {
        Failure { status, sentence: format!("welmocant: {sentence}\n") }
    }

    /// What is wrong with a file, by its name.
    pub fn of_file(status: u8, file: &Path, sentence: impl Display) -> Self {
        Failure::new(status, format_args!("{}: {sentence}", name(file)))
    }

    /// A use that clap does not understand, in its own words.
    pub fn usage(text: String) -> Self {
        Failure { status: USAGE, sentence: text }
    }

    /// A write that failed. Where nobody reads any more there is nobody to tell.
    pub fn of_write(to: impl Display, error: &io::Error) -> Self {
        match error.kind() {
            io::ErrorKind::BrokenPipe => Failure { status: PIPE, sentence: String::new() },
            _ => Failure::new(BROKEN, format_args!("{to} could not be written to the end: {error}")),
        }
    }

    /// Says the sentence. Where standard error cannot be written the status is all there is.
    pub fn ended(self) -> ExitCode {
        let _ = io::stderr().write_all(self.sentence.as_bytes());
        ExitCode::from(self.status)
    }
}

/// The name of a file in a sentence: an empty one can be seen, and none can end the line or move on the terminal.
pub fn name(file: &Path) -> String {
    if file.as_os_str().is_empty() {
        return "''".into();
    }
    file.to_string_lossy().chars().map(|c| if c.is_control() { '?' } else { c }).collect()
}
