//! Lists made from lines of text, and lines from lists. The library writes and reads every number of a list, and refuses what is none.

use crate::failure::{Failure, BROKEN, REFUSED};
use crate::output::Output;
use crate::refusals::{meaning, refused, sentence};
use crate::telling::{filled, not_opened, opened, refuse_folder, unread, BLOCK};
use std::fmt::Write;
use std::io::{self, BufRead, BufReader, Read};
use std::os::unix::fs::FileTypeExt;
use std::path::Path;
use welmocant::{head, link_at, whole, write_list, Refusal};

/// The most fragments that a list can have: what the links of lines are held to until their number is known.
const FRAGMENTS_MOST: u32 = 32_768;
/// Bytes of the longest line, so that a file which is no text does not fill the memory.
const LINE_MOST: u64 = 4096;

/// A file that is read once; `-` is standard input.
fn readable(path: &Path) -> Result<Box<dyn Read>, Failure> {
    if path == Path::new("-") {
        return Ok(Box::new(io::stdin()));
    }
    let file = opened(path).map_err(|error| not_opened(path, &error))?;
    refuse_folder(&file, path)?;
    match file.metadata().map(|about| about.file_type()) {
        Ok(kind) if kind.is_fifo() || kind.is_socket() => Err(Failure::of_file(BROKEN, path, "this is a pipe. Give it as standard input, with - for the file, or save it in a file first")),
        _ => Ok(Box::new(file)),
    }
}

/// The name of such a file in a sentence.
fn named(path: &Path) -> &Path {
    if path == Path::new("-") {
        return Path::new("standard input");
    }
    path
}

/// Lines, by their number.
struct Lines<'a> {
    name: &'a Path,
    reader: BufReader<Box<dyn Read>>,
    number: usize,
}

impl<'a> Lines<'a> {
    fn new(path: &'a Path) -> Result<Self, Failure> {
        Ok(Lines { name: named(path), reader: BufReader::with_capacity(BLOCK, readable(path)?), number: 0 })
    }

    fn wrong(&self, why: &str) -> Failure {
        Failure::of_file(REFUSED, self.name, format_args!("line {}: {why}", self.number))
    }

    /// The next line without its end, in `line`; false where there is none.
    fn next(&mut self, line: &mut Vec<u8>) -> Result<bool, Failure> {
        line.clear();
        let count = self.reader.by_ref().take(LINE_MOST + 1).read_until(b'\n', line).map_err(|error| unread(self.name, &error))?;
        self.number += 1;
        if count as u64 > LINE_MOST {
            return Err(self.wrong("the line is longer than 4,096 bytes"));
        }
        while matches!(line.last(), Some(b'\n' | b'\r')) {
            line.pop();
        }
        Ok(count > 0)
    }
}

/// The bytes of links, as they come line by line.
struct Packed {
    /// What the option or the first line says.
    fragments: Option<u32>,
    largest: Option<u32>,
    links: Vec<u8>,
    entries: u32,
}

pub fn pack(lines: Option<&Path>, list: Option<&Path>, fragments: Option<u32>) -> Result<(), Failure> {
    if let Some(n) = fragments {
        header(n).map_err(|refusal| Failure::new(REFUSED, format_args!("--fragments {n}: {}", sentence(refusal))))?;
    }
    let mut source = Lines::new(lines.unwrap_or(Path::new("-")))?;
    let mut output = Output::to(list)?;
    let mut packed = Packed { fragments, largest: None, links: Vec::new(), entries: 0 };
    let mut line = Vec::new();
    while source.next(&mut line)? {
        packed.add(&source, &line)?;
    }
    let n = match (packed.fragments, packed.largest) {
        (Some(n), _) => n,
        (None, Some(largest)) => largest + 1,
        (None, None) => return Err(Failure::of_file(REFUSED, source.name, "there are no links. Say with --fragments how many fragments the list has")),
    };
    output.write(&header(n).map_err(|refusal| refused(source.name, refusal))?)?;
    output.write(&packed.links)?;
    output.finish()
}

impl Packed {
    fn add(&mut self, source: &Lines, line: &[u8]) -> Result<(), Failure> {
        let words: Vec<&[u8]> = line.split(|byte| matches!(byte, b' ' | b'\t')).filter(|word| !word.is_empty()).collect();
        match words[..] {
            [] => Ok(()),
            [b"#", b"fragments", count] if source.number == 1 && self.fragments.is_none() && number(count).is_some() => {
                let n = number(count).unwrap_or(u32::MAX);
                header(n).map_err(|refusal| self.refused(source, refusal))?;
                self.fragments = Some(n);
                Ok(())
            }
            [word, ..] if word[0] == b'#' => Ok(()),
            [a, b] => match (number(a), number(b)) {
                (Some(a), Some(b)) => self.link(a, b).map_err(|refusal| self.refused(source, refusal)),
                _ => Err(source.wrong("a line has two fragment numbers, in the digits 0 to 9")),
            },
            _ => Err(source.wrong(&format!("a line has two fragment numbers; this one has {} words", words.len()))),
        }
    }

    /// The library writes the link, and says whether a list can have it behind the ones before.
    fn link(&mut self, a: u32, b: u32) -> Result<(), Refusal> {
        let n = self.fragments.unwrap_or(FRAGMENTS_MOST);
        let mut buffer = [0; 9];
        let size = write_list(n, &[a, b], &mut buffer)?;
        let (_, begins) = head(&buffer[..size])?;
        let link = &buffer[begins as usize..size];
        link_at(n, self.entries, link, 0)?;
        self.links.extend_from_slice(link);
        self.entries += 1;
        self.largest = self.largest.max(Some(a.max(b)));
        Ok(())
    }

    fn refused(&self, source: &Lines, refusal: Refusal) -> Failure {
        let (wrong, help) = meaning(refusal.number);
        source.wrong(&format!("refused {}: {wrong}. {help}.", refusal.number))
    }
}

/// The head of a list of n fragments.
fn header(n: u32) -> Result<Vec<u8>, Refusal> {
    let mut buffer = [0; 3];
    write_list(n, &[], &mut buffer).map(|size| buffer[..size].to_vec())
}

/// A number of a line, in digits only; one that is too great for a word is greater than any fragment's.
fn number(word: &[u8]) -> Option<u32> {
    let digits = std::str::from_utf8(word).ok().filter(|text| text.bytes().all(|byte| byte.is_ascii_digit()))?;
    Some(digits.parse().unwrap_or(u32::MAX))
}

/// Every link is read before the first line is written: of a list that is refused there are no lines.
pub fn unpack(list: &Path, lines: Option<&Path>) -> Result<(), Failure> {
    let mut file = readable(list)?;
    let mut output = Output::to(lines)?;
    let (n, links) = links_of(&mut file, named(list))?;
    let mut text = format!("# fragments {n}\n");
    for (a, b) in links {
        let _ = writeln!(text, "{a} {b}");
        if text.len() > BLOCK {
            output.write(text.as_bytes())?;
            text.clear();
        }
    }
    output.write(text.as_bytes())?;
    output.finish()
}

/// The number of fragments and the links, block by block. A fragment's number is at most 32,767.
fn links_of(file: &mut impl Read, path: &Path) -> Result<(u32, Vec<(u16, u16)>), Failure> {
    let mut buffer = vec![0; BLOCK];
    let mut fill = |part: &mut [u8]| filled(file, part).map_err(|error| unread(path, &error));
    let mut have = fill(&mut buffer)?;
    let (n, begins) = head(&buffer[..have]).map_err(|refusal| refused(path, refusal))?;
    let (mut at, mut offset, mut links) = (begins as usize, 0, Vec::new());
    loop {
        let full = have == buffer.len();
        let end = if full { at + whole(&buffer[at..have]) } else { have };
        while at < end {
            let read = link_at(n, links.len() as u32, &buffer[..end], at);
            let (a, b, next) = read.map_err(|bad| refused(path, Refusal { place: offset + bad.place, ..bad }))?;
            links.push((a as u16, b as u16));
            at = next;
        }
        if !full {
            return Ok((n, links));
        }
        buffer.copy_within(end..have, 0);
        offset += end as u64;
        (at, have) = (0, have - end);
        have += fill(&mut buffer[have..])?;
    }
}
