//! Standard output, or a file that is written whole or not at all.

use crate::failure::Failure;
use crate::whole::Whole;
use std::io::{self, Write};
use std::path::Path;

pub enum Output {
    Standard,
    File(Whole),
}

impl Output {
    pub fn to(file: Option<&Path>) -> Result<Output, Failure> {
        file.map_or(Ok(Output::Standard), |path| Whole::new(path).map(Output::File))
    }

    pub fn write(&mut self, bytes: &[u8]) -> Result<(), Failure> {
        match self {
            Output::Standard => print(bytes),
            Output::File(file) => file.write(bytes),
        }
    }

    pub fn finish(self) -> Result<(), Failure> {
        match self {
            Output::Standard => Ok(()),
            Output::File(file) => file.finish(),
        }
    }
}

pub fn print(bytes: &[u8]) -> Result<(), Failure> {
    let mut out = io::stdout().lock();
    out.write_all(bytes).and_then(|_| out.flush()).map_err(|error| Failure::of_write("standard output", &error))
}
