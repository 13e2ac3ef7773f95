//! A file that is written whole or not at all: a new file beside it takes its place at the end, and is removed where that is not reached.

use crate::failure::{name, Failure, BROKEN};
use std::ffi::CString;
use std::fs::{self, File, OpenOptions};
use std::io::{self, Write};
use std::os::raw::{c_char, c_int};
use std::os::unix::ffi::OsStrExt;
use std::path::{Path, PathBuf};
use std::ptr::null_mut;
use std::sync::atomic::{AtomicPtr, Ordering};
use std::time::{SystemTime, UNIX_EPOCH};

/// The new file that a signal removes; null where there is none. What it points to is never freed.
static UNFINISHED: AtomicPtr<c_char> = AtomicPtr::new(null_mut());

const HUP: c_int = 1;
const INT: c_int = 2;
const TERM: c_int = 15;
const FILE_SIZE: c_int = 25;
const DEFAULT: usize = 0;
const IGNORED: usize = 1;

extern "C" {
    fn signal(number: c_int, handler: usize) -> usize;
    fn raise(number: c_int) -> c_int;
    fn unlink(path: *const c_char) -> c_int;
}

/// Only calls that a handler may make: unlink, signal, raise.
extern "C" fn ended_by(number: c_int) {
    let path = UNFINISHED.load(Ordering::SeqCst);
    unsafe {
        if !path.is_null() {
            unlink(path);
        }
        signal(number, DEFAULT);
        raise(number);
    }
}

/// Ctrl-C and its like remove an unfinished file first; where they were ignored before they still are. A write past the limit of a file's size
/// is a write that fails.
pub fn heed_signals() {
    for number in [HUP, INT, TERM] {
        unsafe {
            if signal(number, ended_by as extern "C" fn(c_int) as usize) == IGNORED {
                signal(number, IGNORED);
            }
        }
    }
    unsafe { signal(FILE_SIZE, IGNORED) };
}

pub struct Whole {
    /// What was asked for, and what is replaced: the same but for a symbolic link.
    asked: PathBuf,
    target: PathBuf,
    unfinished: PathBuf,
    file: File,
    done: bool,
}

impl Whole {
    /// A new file beside the one that is to be written: an early no where there can be none.
    pub fn new(asked: &Path) -> Result<Whole, Failure> {
        let target = target_of(asked)?;
        let unfinished = beside(&target);
        let file = begun(&unfinished).map_err(|error| Failure::of_file(BROKEN, asked, format_args!("no file can be made there: {error}")))?;
        let whole = Whole { asked: asked.to_path_buf(), target, unfinished, file, done: false };
        if let Ok(before) = fs::metadata(&whole.target) {
            whole.file.set_permissions(before.permissions()).map_err(|error| whole.failed(&error))?;
        }
        Ok(whole)
    }

    fn failed(&self, error: &io::Error) -> Failure {
        Failure::of_write(name(&self.asked), error)
    }

    pub fn write(&mut self, bytes: &[u8]) -> Result<(), Failure> {
        self.file.write_all(bytes).map_err(|error| self.failed(&error))
    }

    /// What was written takes its place.
    pub fn finish(mut self) -> Result<(), Failure> {
        self.file.sync_all().and_then(|_| fs::rename(&self.unfinished, &self.target)).map_err(|error| self.failed(&error))?;
        self.done = true;
        // The file is there; that its name is kept through a loss of power is asked of the folder, where it can be.
        let _ = File::open(self.target.parent().unwrap_or(Path::new("/"))).and_then(|folder| folder.sync_all());
        Ok(())
    }
}

impl Drop for Whole {
    fn drop(&mut self) {
        if !self.done {
            let _ = fs::remove_file(&self.unfinished);
        }
        UNFINISHED.store(null_mut(), Ordering::SeqCst);
    }
}

/// The path that is replaced: through symbolic links, with its folder. What is there and is no regular file is left alone.
fn target_of(asked: &Path) -> Result<PathBuf, Failure> {
    let no = |why: &str| Failure::of_file(BROKEN, asked, why);
    let failed = |error: io::Error| Failure::of_file(BROKEN, asked, format_args!("no file can be made there: {error}"));
    match fs::symlink_metadata(asked) {
        Ok(there) if there.file_type().is_symlink() => {
            let target = fs::canonicalize(asked).map_err(failed)?;
            target_of(&target).map_err(|_| no("this leads to what is no file"))
        }
        Ok(there) if there.is_dir() => Err(no("this is a folder; give the name of a file")),
        Ok(there) if !there.is_file() => Err(no("this is no file that could be replaced; leave it out to write to standard output")),
        Ok(_) if OpenOptions::new().write(true).open(asked).is_err() => Err(no("this file may not be written")),
        _ => {
            let file = asked.file_name().ok_or_else(|| no("this is no name of a file"))?;
            let folder = asked.parent().filter(|folder| !folder.as_os_str().is_empty()).unwrap_or(Path::new("."));
            Ok(fs::canonicalize(folder).map_err(failed)?.join(file))
        }
    }
}

/// A name beside the target that no other run takes.
fn beside(target: &Path) -> PathBuf {
    let now = SystemTime::now().duration_since(UNIX_EPOCH).map_or(0, |since| since.as_nanos());
    target.with_file_name(format!(".welmocant-{}-{now}", std::process::id()))
}

/// The signals know the file before it is there.
fn begun(unfinished: &Path) -> io::Result<File> {
    UNFINISHED.store(CString::new(unfinished.as_os_str().as_bytes())?.into_raw(), Ordering::SeqCst);
    let begun = OpenOptions::new().write(true).create_new(true).open(unfinished);
    if begun.is_err() {
        UNFINISHED.store(null_mut(), Ordering::SeqCst);
    }
    begun
}
