//! A list file told to the library: opened once, read in blocks from its start in each pass, and what each read answered is told.

use crate::failure::{Failure, BROKEN, NO_FILE};
use crate::progress::Progress;
use crate::refusals::refused;
use std::fs::{File, OpenOptions};
use std::io::{self, ErrorKind, Read, Seek};
use std::os::unix::fs::OpenOptionsExt;
use std::path::Path;
use welmocant::{head, text_room, Heard, Next, Telling};

/// Bytes of a block: with the most fragments, some 180,000 links or more. Every block costs a look through the tables (docs/PROGRAM.md).
pub const BLOCK: usize = 1 << 20;

/// So that opening a pipe that nobody writes to does not wait: a regular file knows no difference.
const NONBLOCK: i32 = 0o4000;

/// The report on a file: the library's lines.
pub fn told(path: &Path, room: u32) -> Result<Vec<u8>, Failure> {
    let mut list = List::new(path)?;
    let mut buffer = vec![0; BLOCK];
    let mut heard = list.hear(&mut buffer);
    let n = head(&buffer[..bytes(heard)]).map_or(0, |(n, _)| n);
    let mut telling = Telling::begin(n, room);
    let mut text = vec![0; text_room(n)];
    let mut progress = Progress::new(n, list.size());
    loop {
        let next = telling.tell(&mut buffer, &mut text, heard);
        progress.told(&telling, bytes(heard));
        heard = match next {
            Next::More => list.hear(&mut buffer[telling.have()..]),
            Next::Again => {
                progress.again();
                list.hear_again(&mut buffer)
            }
            Next::Report(size) => {
                text.truncate(size);
                return Ok(text);
            }
            Next::Refused(refusal, _) => return Err(refused(path, refusal)),
            Next::NoFile(_) => return Err(absent(path)),
            Next::Failed => return Err(list.unread()),
        };
    }
}

fn bytes(heard: Heard) -> usize {
    match heard {
        Heard::Bytes(count) => count,
        _ => 0,
    }
}

/// A list file that is read several times; `None`: there is no such file.
struct List<'a> {
    path: &'a Path,
    file: Option<File>,
    /// Why a read failed.
    error: Option<io::Error>,
}

impl<'a> List<'a> {
    fn new(path: &'a Path) -> Result<Self, Failure> {
        let file = match opened(path) {
            Ok(file) => file,
            Err(error) if no_file(&error) => return Ok(List { path, file: None, error: None }),
            Err(error) => return Err(not_opened(path, &error)),
        };
        refuse_folder(&file, path)?;
        if (&file).rewind().is_err() {
            return Err(Failure::of_file(BROKEN, path, "this cannot be read more than once, as a pipe cannot. Save the list in a file first"));
        }
        Ok(List { path, file: Some(file), error: None })
    }

    fn size(&self) -> u64 {
        self.file.as_ref().and_then(|file| file.metadata().ok()).map_or(0, |about| about.len())
    }

    fn hear(&mut self, buffer: &mut [u8]) -> Heard {
        match self.file.as_mut().map(|file| filled(file, buffer)) {
            None => Heard::NoFile,
            Some(Ok(0)) => Heard::End,
            Some(Ok(count)) => Heard::Bytes(count),
            Some(Err(error)) => {
                self.error = Some(error);
                Heard::Failed
            }
        }
    }

    /// From the start of the file.
    fn hear_again(&mut self, buffer: &mut [u8]) -> Heard {
        match self.file.as_mut().map(|file| file.rewind()) {
            Some(Err(error)) => {
                self.error = Some(error);
                Heard::Failed
            }
            _ => self.hear(buffer),
        }
    }

    fn unread(&self) -> Failure {
        match &self.error {
            Some(error) => unread(self.path, error),
            None => unread(self.path, &io::Error::from(ErrorKind::Other)),
        }
    }
}

/// Reads until the buffer is full or the file ends. After a read that fails nothing counts that was read before it.
pub fn filled(file: &mut impl Read, buffer: &mut [u8]) -> io::Result<usize> {
    let mut count = 0;
    while count < buffer.len() {
        match file.read(&mut buffer[count..]) {
            Ok(0) => break,
            Ok(more) => count += more,
            Err(error) if error.kind() == ErrorKind::Interrupted => {}
            Err(error) => return Err(error),
        }
    }
    Ok(count)
}

pub fn opened(path: &Path) -> io::Result<File> {
    OpenOptions::new().read(true).custom_flags(NONBLOCK).open(path)
}

pub fn refuse_folder(file: &File, path: &Path) -> Result<(), Failure> {
    match file.metadata() {
        Ok(about) if about.is_dir() => Err(Failure::of_file(BROKEN, path, "this is a folder, not a file")),
        _ => Ok(()),
    }
}

pub fn unread(path: &Path, error: &io::Error) -> Failure {
    Failure::of_file(BROKEN, path, format_args!("it could not be read to the end ({error}), so nothing is said about it"))
}

pub fn not_opened(path: &Path, error: &io::Error) -> Failure {
    if no_file(error) {
        return absent(path);
    }
    Failure::of_file(BROKEN, path, format_args!("the file could not be opened: {error}"))
}

fn absent(path: &Path) -> Failure {
    Failure::of_file(NO_FILE, path, "there is no such file")
}

/// No such name, or a file where a folder of the path should be.
fn no_file(error: &io::Error) -> bool {
    const NOT_A_FOLDER: i32 = 20;
    error.kind() == ErrorKind::NotFound || error.raw_os_error() == Some(NOT_A_FOLDER)
}
